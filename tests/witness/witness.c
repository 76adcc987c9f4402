/* witness: a second writing of document 01, in plain C.
 *
 * It reads a sheet from standard input and prints the listing to standard output.
 * It was written from document 01, in place and by ordinary means: a struct of tables, one function per step, a switch over the sixteen codes.
 * docs/WITNESS.md says what it is for, and how it reads the places where document 01 is silent.
 * Comments in "double quotes" are sentences of document 01. Where request a or c of document 02 changes one, its words stand there too, after its name.
 *
 *   witness < SHEET            prints the listing
 *   witness --pairs < SHEET    the same, and on standard error how often each pair of step and refusal number occurred
 *
 * With WITNESS_NO_MAIN defined there is no main, so that another file can include this one and use the machine.
 * With WITNESS_SHEET defined too, that file has the reader of a sheet as well.
 */
#include <stdbool.h>
#include <stdint.h>
#include <stdio.h>
#include <string.h>

/* ---------------------------------------------------------------- numbers */

enum {
    SITES = 8,
    OBJECTS = 32,
    SLOTS = 16,
    MESSAGES = 32,
    OBJECTS_PER_SITE = 4,
    NOBODY = -1 /* "holder (a slot) or none" */
};

#define CLOCK_MAX 2000000000u
#define TICK_MAX 1000000u
#define VALUE_MAX 1000000u
#define TIME_MAX 1000000000u /* "Q and R are 0..1,000,000,000." */
#define HANDLE_MAX 4095u
#define CALLS_MAX 1000u
#define ROUND_MAX 1000u

/* "At most 65,536 bytes: heading (any bytes, not read), records of 16 bytes, trailer of 8 bytes." */
enum { SHEET_MAX = 65536, TRAILER = 8, RECORD = 16 };

enum code {
    TICK = 1, BEGIN, INVOKE, REFRESH, TERMINATE, PREPARE, ASK, CLOSE,
    TELL, ABORT, DELIVER, DROP, SWEEP, CRASH, RECOVER, RETIRE
};

/* ----------------------------------------------------------------- tables */

/* "8 sites, 0..7: clock 0..2,000,000,000; up or down." */
struct site {
    uint32_t clock;
    bool down;
};

/* "Value 0..1,000,000 (mm), holder (a slot) or none, and the value before the holder took it, 0 once freed." */
struct object {
    uint32_t value;
    int holder;
    uint32_t before;
};

/* What an answer tells of a site: "calls sent to each site, calls received, Q". */
struct figures {
    uint16_t sent[SITES];
    uint16_t received;
    uint32_t q;
};

enum kind { KIND_NONE, KIND_REFRESH, KIND_TERMINATE, KIND_PREPARE };

/* "one round: number 0..1,000, kind, phase (none, 1, 2). Kind is none at number 0, then refresh with its new Q and R, terminate or prepare." */
struct round {
    uint16_t number;
    enum kind kind;
    uint32_t new_q;
    uint32_t new_r;
    int phase; /* 0 is none */
    uint8_t answered; /* bit s: site s has answered, home included */
    struct figures kept[SITES]; /* "Home's figures after its own phase 1 part, and each answer under its source over any there" */
};

enum status { FREE, ACTIVE, COMMITTING, ABORTED, COMMITTED };

/* "16 passage slots: free, or in use with home, status (active, committing, aborted, committed) and one round" */
struct passage {
    enum status status;
    int home;
    struct round round;
    uint8_t generation; /* "255 is followed by 0" */
};

/* "128 visits, one place per site and passage: quiesce Q, release R, round, marks prepared and dead, calls sent to each site (0..1,000 each), calls received (0..1,000)." */
struct visit {
    bool there;
    bool prepared;
    bool dead;
    uint32_t q;
    uint32_t r;
    uint16_t round;
    uint16_t sent[SITES];
    uint16_t received;
};

enum message_kind { EMPTY, CALL, REPLY, PHASE_1, PHASE_2, ANSWER };

/* "32 message slots: kind, source, destination, handle (only its slot is looked at), stamp, fields."
 * The fields that a kind doesn't have are 0. */
struct message {
    enum message_kind kind;
    int source;
    int destination;
    uint16_t handle;
    uint32_t stamp;
    /* a call */
    bool write;
    int object;
    uint32_t value;
    uint32_t q;
    uint32_t r;
    /* a reply: the object's value before the operation */
    uint32_t found;
    /* a call has the visit's round; "Phase 1 carries number, kind and a refresh's new R; phase 2 number, kind and new Q or M." */
    uint16_t number;
    enum kind round_kind;
    uint32_t new_r;
    uint32_t new_q_or_m;
    /* an answer */
    struct figures figures;
};

struct tables {
    struct site site[SITES];
    struct object object[OBJECTS];
    struct passage passage[SLOTS];
    struct visit visit[SITES][SLOTS];
    struct message message[MESSAGES];
};

/* A record's fields. */
struct record {
    uint8_t code, a, b, c;
    uint16_t h, zero;
    uint32_t u, v;
};

/* "Accepted is number 0." A refusal has the words of its line in the table of refusals. */
struct answer {
    int number;
    uint32_t value;
    const char *why;
};

static struct answer accept(uint32_t value)
{
    struct answer answer = { 0, value, "accepted" };
    return answer;
}

/* "A refusal answers its number and value 0, and all tables stay, clock and message included." */
static struct answer refuse(int number, const char *why)
{
    struct answer answer = { number, 0, why };
    return answer;
}

/* "Start: clocks 0, sites up, slots free, generations 0, objects 0 and unheld, no visits, no messages." */
static void start(struct tables *t)
{
    memset(t, 0, sizeof *t);
    for (int k = 0; k < OBJECTS; k++)
        t->object[k].holder = NOBODY;
}

/* ---------------------------------------------------------- small helpers */

static uint32_t min_of(uint32_t x, uint32_t y) { return x < y ? x : y; }
static uint32_t max_of(uint32_t x, uint32_t y) { return x > y ? x : y; }

/* "object k stands at site k/4, rounded down" */
static int site_of_object(int object) { return object / OBJECTS_PER_SITE; }

/* "Handle = slot + 16 × generation." */
static int slot_of(uint16_t handle) { return handle % SLOTS; }

static uint16_t handle_of(const struct tables *t, int slot)
{
    return (uint16_t)(slot + SLOTS * t->passage[slot].generation);
}

/* Refusal 3: "h: slot free or other generation". */
static bool handle_is_good(const struct tables *t, uint16_t handle)
{
    int slot = slot_of(handle);
    return t->passage[slot].status != FREE && handle_of(t, slot) == handle;
}

/* "A new message takes the lowest empty one". MESSAGES if there is none. */
static int lowest_empty_message(const struct tables *t)
{
    int m = 0;
    while (m < MESSAGES && t->message[m].kind != EMPTY)
        m++;
    return m;
}

static void empty_message(struct tables *t, int m)
{
    memset(&t->message[m], 0, sizeof t->message[m]);
}

/* Frees the objects that a passage holds at one site. Restored, they get the value before; else they keep theirs. */
static void free_objects(struct tables *t, int site, int slot, bool restore)
{
    for (int k = site * OBJECTS_PER_SITE; k < (site + 1) * OBJECTS_PER_SITE; k++) {
        struct object *object = &t->object[k];
        if (object->holder != slot)
            continue;
        if (restore)
            object->value = object->before;
        object->holder = NOBODY;
        object->before = 0; /* "0 once freed" */
    }
}

/* "A visit place [...] that is emptied becomes all 0". */
static void remove_visit(struct tables *t, int site, int slot)
{
    memset(&t->visit[site][slot], 0, sizeof t->visit[site][slot]);
}

static struct figures figures_of(const struct visit *visit)
{
    struct figures figures;
    memset(&figures, 0, sizeof figures);
    memcpy(figures.sent, visit->sent, sizeof figures.sent);
    figures.received = visit->received;
    figures.q = visit->q;
    return figures;
}

static bool has_answered(const struct round *round, int site)
{
    return (round->answered >> site & 1) != 0;
}

static uint32_t count_of_answers(const struct round *round)
{
    uint32_t count = 0;
    for (int s = 0; s < SITES; s++)
        count += has_answered(round, s);
    return count;
}

/* "M the largest Q among the answers and home's as its phase 1 part left it" */
static uint32_t largest_q(const struct round *round)
{
    uint32_t m = 0;
    for (int s = 0; s < SITES; s++)
        if (has_answered(round, s))
            m = max_of(m, round->kept[s].q);
    return m;
}

/* "Closed means: for every site d, the calls sent to d summed over the answering sites [...] equal d's received calls, 0 if d hasn't answered." */
static bool is_closed(const struct round *round)
{
    for (int d = 0; d < SITES; d++) {
        uint32_t sent = 0;
        for (int s = 0; s < SITES; s++)
            if (has_answered(round, s))
                sent += round->kept[s].sent[d];
        uint32_t received = has_answered(round, d) ? round->kept[d].received : 0;
        if (sent != received)
            return false;
    }
    return true;
}

/* The part of phase 1 that is the same at home and away.
 * "Refresh: R := max(R, new R). Terminate: Q := min(Q, clock), prepared off. Prepare: Q := min(Q, clock), prepared on [...]. The visit takes the round number." */
static void phase_1_part(struct visit *visit, enum kind kind, uint16_t number, uint32_t new_r, uint32_t clock)
{
    switch (kind) {
    case KIND_REFRESH:
        visit->r = max_of(visit->r, new_r);
        break;
    case KIND_TERMINATE:
        visit->q = min_of(visit->q, clock);
        visit->prepared = false;
        break;
    case KIND_PREPARE:
        visit->q = min_of(visit->q, clock);
        visit->prepared = true;
        break;
    case KIND_NONE:
        break;
    }
    visit->round = number;
}

/* The part of phase 2 that is the same at home and away; nothing where there is no visit.
 * "Refresh: Q := max(Q, new Q). Terminate: R := min(R, M) [...]. Prepare: the visit goes, its objects are freed and keep their values" */
static void phase_2_part(struct tables *t, int site, int slot, enum kind kind, uint32_t new_q_or_m)
{
    struct visit *visit = &t->visit[site][slot];
    if (!visit->there)
        return;
    switch (kind) {
    case KIND_REFRESH:
        visit->q = max_of(visit->q, new_q_or_m);
        break;
    case KIND_TERMINATE:
        visit->r = min_of(visit->r, new_q_or_m);
        break;
    case KIND_PREPARE:
        free_objects(t, site, slot, false);
        remove_visit(t, site, slot);
        break;
    case KIND_NONE:
        break;
    }
}

/* What phase 2 of a round carries: "new Q or M". */
static uint32_t phase_2_number(const struct round *round)
{
    switch (round->kind) {
    case KIND_REFRESH:
        return round->new_q;
    case KIND_TERMINATE:
        return largest_q(round);
    default:
        return 0;
    }
}

/* ------------------------------------------------------------- the record */

enum { A = 1, B = 2, C = 4, H = 8, U = 16, V = 32 };

/* "Which fields each step names is one table." */
static const uint8_t named[RETIRE + 1] = {
    [TICK] = A | U,
    [BEGIN] = A | B | U | V,
    [INVOKE] = H | A | B | C | U,
    [REFRESH] = H | U | V,
    [TERMINATE] = H,
    [PREPARE] = H,
    [ASK] = H | A,
    [CLOSE] = H,
    [TELL] = H | A,
    [ABORT] = H,
    [DELIVER] = C,
    [DROP] = C,
    [SWEEP] = A,
    [CRASH] = A,
    [RECOVER] = A,
    [RETIRE] = H,
};

static uint32_t little_endian(const uint8_t *bytes, int count)
{
    uint32_t number = 0;
    for (int i = count - 1; i >= 0; i--)
        number = number << 8 | bytes[i];
    return number;
}

/* "The record has bytes code, a, b, c; handle h in two bytes; two zero bytes; u and v in four bytes each; all little-endian." */
static struct record read_record(const uint8_t *bytes)
{
    struct record r;
    r.code = bytes[0];
    r.a = bytes[1];
    r.b = bytes[2];
    r.c = bytes[3];
    r.h = (uint16_t)little_endian(bytes + 4, 2);
    r.zero = (uint16_t)little_endian(bytes + 6, 2);
    r.u = little_endian(bytes + 8, 4);
    r.v = little_endian(bytes + 12, 4);
    return r;
}

/* Refusal 1: "code unknown, or an unnamed field isn't 0". */
static bool stands_for_a_step(const struct record *r)
{
    if (r->code < TICK || r->code > RETIRE)
        return false;
    uint8_t names = named[r->code];
    return r->zero == 0
        && (names & A || r->a == 0)
        && (names & B || r->b == 0)
        && (names & C || r->c == 0)
        && (names & H || r->h == 0)
        && (names & U || r->u == 0)
        && (names & V || r->v == 0);
}

/* Refusal 2: "a field or handle (0..4,095) out of range, read with u not 0, Q > R". Unnamed fields are 0 here, and 0 is in every range but tick's. */
static bool is_in_range(const struct record *r)
{
    if (r->a >= SITES || r->h > HANDLE_MAX)
        return false;
    switch (r->code) {
    case TICK:
        return 1 <= r->u && r->u <= TICK_MAX;
    case BEGIN:
        return r->b < SLOTS && r->u <= TIME_MAX && r->v <= TIME_MAX && r->u <= r->v;
    case INVOKE:
        return r->b <= 1 && r->c < OBJECTS && r->u <= VALUE_MAX && (r->b == 1 || r->u == 0);
    case REFRESH:
        return r->u <= TIME_MAX && r->v <= TIME_MAX && r->u <= r->v;
    case DELIVER:
    case DROP:
        return r->c < MESSAGES;
    default:
        return true;
    }
}

/* -------------------------------------------------------- the sixteen steps
 *
 * Each function tries its refusals in the order of the table, then does its work.
 * "A step that is accepted at a site first moves its clock: tick by n; a delivery to 1 + max(clock, message stamp); any other by 1. Conditions read the moved clock; a message is stamped with it."
 */

#define WHY_3_HANDLE "h: slot free or other generation"
#define WHY_3_MESSAGE "deliver, drop: slot empty"
#define WHY_4 "acting site down"
#define WHY_7 "the clock would pass 2,000,000,000"
#define WHY_8_Q "clock >= Q"
#define WHY_8_DEAD "visit dead"

/* "no empty message slot (invoke, ask, tell); call count (sent for invoke, received for a delivered call) or round number (steps that open a round) at 1,000" was all 11.
 * Request a: "Keep 11 for a full message table. The call counts, sent or received, and the round number get their own. Refusals: 13 call count at 1,000, 14 round number at 1,000; both stand after 11, so a full table is named first." */
#define WHY_11 "no empty message slot"
#define WHY_13_SENT "call count (sent) at 1,000"
#define WHY_13_RECEIVED "call count (received) at 1,000"
#define WHY_14 "round number at 1,000"

/* "tick a=site, u=n, 1..1,000,000. Value: the clock." */
static struct answer tick(struct tables *t, const struct record *r)
{
    struct site *site = &t->site[r->a];
    uint32_t clock = site->clock + r->u;
    if (site->down)
        return refuse(4, WHY_4);
    if (clock > CLOCK_MAX)
        return refuse(7, WHY_7);
    site->clock = clock;
    return accept(clock);
}

/* "begin a=home, b=slot, u=Q, v=R, Q ≤ R. Makes an active passage and its home visit, round 0, no calls. Value: handle." */
static struct answer begin(struct tables *t, const struct record *r)
{
    struct site *site = &t->site[r->a];
    struct passage *passage = &t->passage[r->b];
    struct visit *visit = &t->visit[r->a][r->b];
    uint32_t clock = site->clock + 1;
    if (site->down)
        return refuse(4, WHY_4);
    if (passage->status != FREE)
        return refuse(5, "begin: slot in use");
    if (clock > CLOCK_MAX)
        return refuse(7, WHY_7);
    if (clock >= r->u)
        return refuse(8, WHY_8_Q);
    site->clock = clock;
    passage->status = ACTIVE;
    passage->home = r->a;
    memset(&passage->round, 0, sizeof passage->round);
    memset(visit, 0, sizeof *visit);
    visit->there = true;
    visit->q = r->u;
    visit->r = r->v;
    return accept(handle_of(t, r->b));
}

/* "invoke h, a=site, b=0 read or 1 write, c=object, u=value (0 for read). The visit counts one call sent to the object's site; a call goes out with the visit's Q, R and round. Value: message slot."
 * Request a: "a full table is named first", so 11 is tried before 13. The count that 13 looks at is the one that would grow. */
static struct answer invoke(struct tables *t, const struct record *r)
{
    struct site *site = &t->site[r->a];
    struct visit *visit = &t->visit[r->a][slot_of(r->h)];
    int there = site_of_object(r->c);
    uint32_t clock = site->clock + 1;
    int m = lowest_empty_message(t);
    if (!handle_is_good(t, r->h))
        return refuse(3, WHY_3_HANDLE);
    if (site->down)
        return refuse(4, WHY_4);
    if (!visit->there)
        return refuse(6, "no visit at the acting site");
    if (clock > CLOCK_MAX)
        return refuse(7, WHY_7);
    if (clock >= visit->q)
        return refuse(8, WHY_8_Q);
    if (visit->dead)
        return refuse(8, WHY_8_DEAD);
    if (m == MESSAGES)
        return refuse(11, WHY_11);
    if (visit->sent[there] >= CALLS_MAX)
        return refuse(13, WHY_13_SENT);
    site->clock = clock;
    visit->sent[there]++;
    struct message *message = &t->message[m];
    memset(message, 0, sizeof *message);
    message->kind = CALL;
    message->source = r->a;
    message->destination = there;
    message->handle = r->h;
    message->stamp = clock;
    message->write = r->b == 1;
    message->object = r->c;
    message->value = r->u;
    message->q = visit->q;
    message->r = visit->r;
    message->number = visit->round;
    return accept((uint32_t)m);
}

/* "refresh [...] terminate [...] prepare [...]. Each opens a round, number one higher, phase 1, and does its phase 1 part at home. Value: round."
 * Request a: "14 round number at 1,000". A round makes no message, so 11 is not tried.
 * The kept figures and the answers of the round before are cleared, then home's own go in. */
static struct answer open_round(struct tables *t, const struct record *r, enum kind kind)
{
    if (!handle_is_good(t, r->h))
        return refuse(3, WHY_3_HANDLE);
    struct passage *passage = &t->passage[slot_of(r->h)];
    struct site *site = &t->site[passage->home];
    struct visit *visit = &t->visit[passage->home][slot_of(r->h)];
    uint32_t clock = site->clock + 1;
    if (site->down)
        return refuse(4, WHY_4);
    if (kind == KIND_REFRESH && passage->status != ACTIVE)
        return refuse(5, "refresh: not active");
    if (kind == KIND_PREPARE && passage->status != ACTIVE && passage->status != COMMITTING)
        return refuse(5, "prepare: neither active nor committing");
    if (kind == KIND_TERMINATE && passage->status != ABORTED)
        return refuse(5, "terminate: not aborted");
    if (!visit->there)
        return refuse(6, "no visit at the acting site");
    if (clock > CLOCK_MAX)
        return refuse(7, WHY_7);
    if (passage->round.number >= ROUND_MAX)
        return refuse(14, WHY_14);
    site->clock = clock;
    uint16_t number = (uint16_t)(passage->round.number + 1);
    struct round *round = &passage->round;
    memset(round, 0, sizeof *round);
    round->number = number;
    round->kind = kind;
    round->phase = 1;
    if (kind == KIND_REFRESH) {
        round->new_q = r->u;
        round->new_r = r->v;
    }
    phase_1_part(visit, kind, number, round->new_r, clock);
    if (kind == KIND_PREPARE)
        passage->status = COMMITTING; /* "at home, status committing" */
    round->kept[passage->home] = figures_of(visit);
    round->answered = (uint8_t)(1u << passage->home);
    return accept(number);
}

/* "refresh h, u=Q, v=R." */
static struct answer refresh(struct tables *t, const struct record *r)
{
    return open_round(t, r, KIND_REFRESH);
}

/* "terminate h." */
static struct answer terminate(struct tables *t, const struct record *r)
{
    return open_round(t, r, KIND_TERMINATE);
}

/* "prepare h." */
static struct answer prepare(struct tables *t, const struct record *r)
{
    return open_round(t, r, KIND_PREPARE);
}

/* A message of the open round from home to the site that the record names, stamped with home's clock. */
static struct message *round_message(struct tables *t, int m, enum message_kind kind, const struct record *r, const struct passage *passage)
{
    struct message *message = &t->message[m];
    memset(message, 0, sizeof *message);
    message->kind = kind;
    message->source = passage->home;
    message->destination = r->a;
    message->handle = r->h;
    message->stamp = t->site[passage->home].clock;
    message->number = passage->round.number;
    message->round_kind = passage->round.kind;
    return message;
}

/* "ask h, a=site not home: a phase 1 message. Value: message slot." */
static struct answer ask(struct tables *t, const struct record *r)
{
    if (!handle_is_good(t, r->h))
        return refuse(3, WHY_3_HANDLE);
    const struct passage *passage = &t->passage[slot_of(r->h)];
    struct site *site = &t->site[passage->home];
    uint32_t clock = site->clock + 1;
    int m = lowest_empty_message(t);
    if (site->down)
        return refuse(4, WHY_4);
    if (passage->round.phase != 1)
        return refuse(5, "ask: phase not 1");
    if (r->a == passage->home)
        return refuse(5, "ask: the site is home");
    if (clock > CLOCK_MAX)
        return refuse(7, WHY_7);
    if (m == MESSAGES)
        return refuse(11, WHY_11);
    site->clock = clock;
    round_message(t, m, PHASE_1, r, passage)->new_r = passage->round.new_r;
    return accept((uint32_t)m);
}

/* "close h: if closed, phase 2 begins and its home part is done. Value: sites that have answered, home included." */
static struct answer close_round(struct tables *t, const struct record *r)
{
    if (!handle_is_good(t, r->h))
        return refuse(3, WHY_3_HANDLE);
    struct passage *passage = &t->passage[slot_of(r->h)];
    struct round *round = &passage->round;
    struct site *site = &t->site[passage->home];
    uint32_t clock = site->clock + 1;
    if (site->down)
        return refuse(4, WHY_4);
    if (round->phase != 1)
        return refuse(5, "close: phase not 1");
    if (clock > CLOCK_MAX)
        return refuse(7, WHY_7);
    if (!is_closed(round))
        return refuse(12, "close: not closed");
    site->clock = clock;
    round->phase = 2;
    phase_2_part(t, passage->home, slot_of(r->h), round->kind, phase_2_number(round));
    if (round->kind == KIND_PREPARE)
        passage->status = COMMITTED; /* "at home, status committed" */
    return accept(count_of_answers(round));
}

/* "tell h, a=site not home that answered this round: a phase 2 message. Value: message slot." */
static struct answer tell(struct tables *t, const struct record *r)
{
    if (!handle_is_good(t, r->h))
        return refuse(3, WHY_3_HANDLE);
    const struct passage *passage = &t->passage[slot_of(r->h)];
    struct site *site = &t->site[passage->home];
    uint32_t clock = site->clock + 1;
    int m = lowest_empty_message(t);
    if (site->down)
        return refuse(4, WHY_4);
    if (passage->round.phase != 2)
        return refuse(5, "tell: phase not 2");
    if (!has_answered(&passage->round, r->a))
        return refuse(5, "tell: site hasn't answered");
    if (r->a == passage->home)
        return refuse(5, "tell: the site is home");
    if (clock > CLOCK_MAX)
        return refuse(7, WHY_7);
    if (m == MESSAGES)
        return refuse(11, WHY_11);
    site->clock = clock;
    round_message(t, m, PHASE_2, r, passage)->new_q_or_m = phase_2_number(&passage->round);
    return accept((uint32_t)m);
}

/* "abort h: status aborted, round phase none; the home visit gets Q := min(Q, clock) and loses prepared." */
static struct answer abort_passage(struct tables *t, const struct record *r)
{
    if (!handle_is_good(t, r->h))
        return refuse(3, WHY_3_HANDLE);
    struct passage *passage = &t->passage[slot_of(r->h)];
    struct site *site = &t->site[passage->home];
    struct visit *visit = &t->visit[passage->home][slot_of(r->h)];
    uint32_t clock = site->clock + 1;
    if (site->down)
        return refuse(4, WHY_4);
    if (passage->status != ACTIVE && passage->status != COMMITTING)
        return refuse(5, "abort: neither active nor committing");
    if (clock > CLOCK_MAX)
        return refuse(7, WHY_7);
    site->clock = clock;
    passage->status = ABORTED;
    passage->round.phase = 0;
    if (visit->there) {
        visit->q = min_of(visit->q, clock);
        visit->prepared = false;
    }
    return accept(0);
}

/* "Delivered call. With a visit: its own Q, R and round stay. Without: one is made from the message's Q, R and round, no calls sent, no marks. Received grows by 1. The object is taken if unheld, then read or written. Value: the object's value before the operation."
 * Request a: "13 call count at 1,000". A call that is delivered needs no new slot, so 11 is not tried. 13 stands where 11 stood, after 10.
 * Request c: "A delivered call leaves a reply in its slot, addressed to the calling site; delivering that gives the value and moves the clock. The operation delivery's value becomes 0." */
static struct answer deliver_call(struct tables *t, int m, uint32_t clock)
{
    struct message *message = &t->message[m];
    int slot = slot_of(message->handle);
    struct visit *visit = &t->visit[message->destination][slot];
    struct object *object = &t->object[message->object];
    if (clock > CLOCK_MAX)
        return refuse(7, WHY_7);
    if (visit->there && clock >= visit->q)
        return refuse(8, "clock >= Q, the visit's");
    if (!visit->there && clock >= message->q)
        return refuse(8, "clock >= Q, the message's");
    if (visit->there && visit->dead)
        return refuse(8, WHY_8_DEAD);
    if (object->holder != NOBODY && object->holder != slot)
        return refuse(10, "delivered call: object held by another passage");
    if (visit->there && visit->received >= CALLS_MAX)
        return refuse(13, WHY_13_RECEIVED);
    t->site[message->destination].clock = clock;
    if (!visit->there) {
        memset(visit, 0, sizeof *visit);
        visit->there = true;
        visit->q = message->q;
        visit->r = message->r;
        visit->round = message->number;
    }
    visit->received++;
    struct message reply;
    memset(&reply, 0, sizeof reply);
    reply.kind = REPLY;
    reply.source = message->destination;
    reply.destination = message->source;
    reply.handle = message->handle;
    reply.stamp = clock;
    reply.found = object->value;
    if (object->holder == NOBODY) {
        object->holder = slot;
        object->before = object->value;
    }
    if (message->write)
        object->value = message->value;
    *message = reply;
    return accept(0);
}

/* Request c: "delivering that gives the value and moves the clock". "Refusals: none new; a reply to a down site is 4."
 * So 3, 4 and 7 are all that it tries, and no visit, object, passage or count is looked at or changed. */
static struct answer deliver_reply(struct tables *t, int m, uint32_t clock)
{
    const struct message *message = &t->message[m];
    uint32_t value = message->found;
    if (clock > CLOCK_MAX)
        return refuse(7, WHY_7);
    t->site[message->destination].clock = clock;
    empty_message(t, m);
    return accept(value);
}

/* "Away from home the message's slot then holds the answer, sent back to home: number, calls sent to each site, calls received, Q." */
static struct answer deliver_phase_1(struct tables *t, int m, uint32_t clock)
{
    struct message *message = &t->message[m];
    int slot = slot_of(message->handle);
    struct visit *visit = &t->visit[message->destination][slot];
    if (!visit->there)
        return refuse(6, "deliver of a phase 1 message: no visit there");
    if (clock > CLOCK_MAX)
        return refuse(7, WHY_7);
    if (visit->dead && message->round_kind != KIND_TERMINATE)
        return refuse(8, WHY_8_DEAD);
    if (message->number <= visit->round)
        return refuse(9, "delivered phase 1: number <= the visit's");
    t->site[message->destination].clock = clock;
    phase_1_part(visit, message->round_kind, message->number, message->new_r, clock);
    struct message back;
    memset(&back, 0, sizeof back);
    back.kind = ANSWER;
    back.source = message->destination;
    back.destination = t->passage[slot].home;
    back.handle = message->handle;
    back.stamp = clock;
    back.number = message->number;
    back.figures = figures_of(visit);
    *message = back;
    return accept(0);
}

static struct answer deliver_phase_2(struct tables *t, int m, uint32_t clock)
{
    const struct message *message = &t->message[m];
    int slot = slot_of(message->handle);
    const struct visit *visit = &t->visit[message->destination][slot];
    if (!visit->there)
        return refuse(6, "deliver of a phase 2 message: no visit there");
    if (clock > CLOCK_MAX)
        return refuse(7, WHY_7);
    if (visit->dead && message->round_kind != KIND_TERMINATE)
        return refuse(8, WHY_8_DEAD);
    if (message->number != visit->round)
        return refuse(9, "delivered phase 2: number not equal");
    t->site[message->destination].clock = clock;
    phase_2_part(t, message->destination, slot, message->round_kind, message->new_q_or_m);
    empty_message(t, m);
    return accept(0);
}

/* "each answer under its source over any there" */
static struct answer deliver_answer(struct tables *t, int m, uint32_t clock)
{
    const struct message *message = &t->message[m];
    struct round *round = &t->passage[slot_of(message->handle)].round;
    if (clock > CLOCK_MAX)
        return refuse(7, WHY_7);
    if (round->phase != 1 || message->number != round->number)
        return refuse(9, "answer: not the open round in phase 1");
    t->site[message->destination].clock = clock;
    round->kept[message->source] = message->figures;
    round->answered |= (uint8_t)(1u << message->source);
    empty_message(t, m);
    return accept(0);
}

/* "deliver c=message." "After 20, 1 and 2, deliver tries 3, 4, 6, 7, 8, 9, 10, 11."
 * Request a: "13 call count at 1,000" takes the place of that 11, so deliver tries 3, 4, 6, 7, 8, 9, 10, 13. */
static struct answer deliver(struct tables *t, const struct record *r)
{
    const struct message *message = &t->message[r->c];
    if (message->kind == EMPTY)
        return refuse(3, WHY_3_MESSAGE);
    const struct site *site = &t->site[message->destination];
    uint32_t clock = 1 + max_of(site->clock, message->stamp);
    if (site->down)
        return refuse(4, WHY_4);
    switch (message->kind) {
    case CALL:
        return deliver_call(t, r->c, clock);
    case REPLY:
        return deliver_reply(t, r->c, clock);
    case PHASE_1:
        return deliver_phase_1(t, r->c, clock);
    case PHASE_2:
        return deliver_phase_2(t, r->c, clock);
    default:
        return deliver_answer(t, r->c, clock);
    }
}

/* "drop c=message." "Drop and retire act at no site." */
static struct answer drop(struct tables *t, const struct record *r)
{
    if (t->message[r->c].kind == EMPTY)
        return refuse(3, WHY_3_MESSAGE);
    empty_message(t, r->c);
    return accept(0);
}

/* "sweep a=site: for every unprepared visit there with R ≤ clock, restores and frees its objects at that site, and removes it. If the passage is active and this is its home: aborted, phase none. Value: visits removed." */
static struct answer sweep(struct tables *t, const struct record *r)
{
    struct site *site = &t->site[r->a];
    uint32_t clock = site->clock + 1;
    if (site->down)
        return refuse(4, WHY_4);
    if (clock > CLOCK_MAX)
        return refuse(7, WHY_7);
    site->clock = clock;
    uint32_t removed = 0;
    for (int slot = 0; slot < SLOTS; slot++) {
        const struct visit *visit = &t->visit[r->a][slot];
        struct passage *passage = &t->passage[slot];
        if (!visit->there || visit->prepared || visit->r > clock)
            continue;
        free_objects(t, r->a, slot, true);
        remove_visit(t, r->a, slot);
        if (passage->status == ACTIVE && passage->home == r->a) {
            passage->status = ABORTED;
            passage->round.phase = 0;
        }
        removed++;
    }
    return accept(removed);
}

/* "crash a: every unprepared visit there gets Q := min(Q, clock) and dead. A passage whose home this is, if active or committing, becomes aborted, phase none, and its home visit loses prepared and gets the same Q and mark. The site is down. Clock and tables survive." */
static struct answer crash(struct tables *t, const struct record *r)
{
    struct site *site = &t->site[r->a];
    uint32_t clock = site->clock + 1;
    if (site->down)
        return refuse(4, WHY_4);
    if (clock > CLOCK_MAX)
        return refuse(7, WHY_7);
    site->clock = clock;
    for (int slot = 0; slot < SLOTS; slot++) {
        struct visit *visit = &t->visit[r->a][slot];
        struct passage *passage = &t->passage[slot];
        if ((passage->status == ACTIVE || passage->status == COMMITTING) && passage->home == r->a) {
            passage->status = ABORTED;
            passage->round.phase = 0;
            visit->prepared = false;
        }
        if (visit->there && !visit->prepared) {
            visit->q = min_of(visit->q, clock);
            visit->dead = true;
        }
    }
    site->down = true;
    return accept(0);
}

/* "recover a: up." Number 4 is "not for recover". */
static struct answer recover(struct tables *t, const struct record *r)
{
    struct site *site = &t->site[r->a];
    uint32_t clock = site->clock + 1;
    if (!site->down)
        return refuse(5, "recover: site up");
    if (clock > CLOCK_MAX)
        return refuse(7, WHY_7);
    site->clock = clock;
    site->down = false;
    return accept(0);
}

/* "retire h: slot free, generation moves on."
 * Request c: "Retire counts them as messages." */
static struct answer retire(struct tables *t, const struct record *r)
{
    if (!handle_is_good(t, r->h))
        return refuse(3, WHY_3_HANDLE);
    int slot = slot_of(r->h);
    struct passage *passage = &t->passage[slot];
    if (passage->status != ABORTED && passage->status != COMMITTED)
        return refuse(5, "retire: not aborted or committed");
    for (int s = 0; s < SITES; s++)
        if (t->visit[s][slot].there)
            return refuse(5, "retire: a visit of it remains");
    for (int m = 0; m < MESSAGES; m++)
        if (t->message[m].kind != EMPTY && slot_of(t->message[m].handle) == slot)
            return refuse(5, "retire: a message of it remains");
    uint8_t generation = (uint8_t)(passage->generation + 1);
    memset(passage, 0, sizeof *passage);
    passage->generation = generation;
    return accept(0);
}

/* One record. "A record refused by 1 stands for no step." */
static struct answer run_record(struct tables *t, const struct record *r)
{
    if (!stands_for_a_step(r))
        return refuse(1, "code unknown, or an unnamed field isn't 0");
    if (!is_in_range(r))
        return refuse(2, "a field or handle out of range, read with u not 0, Q > R");
    switch (r->code) {
    case TICK: return tick(t, r);
    case BEGIN: return begin(t, r);
    case INVOKE: return invoke(t, r);
    case REFRESH: return refresh(t, r);
    case TERMINATE: return terminate(t, r);
    case PREPARE: return prepare(t, r);
    case ASK: return ask(t, r);
    case CLOSE: return close_round(t, r);
    case TELL: return tell(t, r);
    case ABORT: return abort_passage(t, r);
    case DELIVER: return deliver(t, r);
    case DROP: return drop(t, r);
    case SWEEP: return sweep(t, r);
    case CRASH: return crash(t, r);
    case RECOVER: return recover(t, r);
    default: return retire(t, r);
    }
}

/* --------------------------------------------------- what a delivery meets */

/* The names of what a delivery can meet; NOT_A_DELIVERY for other steps and for a deliver that 1 or 2 refuses. */
enum met {
    MET_CALL, MET_REPLY, MET_REFRESH_1, MET_TERMINATE_1, MET_PREPARE_1, MET_REFRESH_2, MET_TERMINATE_2, MET_PREPARE_2,
    MET_ANSWER, MET_EMPTY, NOT_A_DELIVERY
};

static enum met what_is_met(const struct tables *t, const struct record *r)
{
    if (r->code != DELIVER || !stands_for_a_step(r) || !is_in_range(r))
        return NOT_A_DELIVERY;
    const struct message *message = &t->message[r->c];
    switch (message->kind) {
    case EMPTY:
        return MET_EMPTY;
    case CALL:
        return MET_CALL;
    case REPLY:
        return MET_REPLY;
    case ANSWER:
        return MET_ANSWER;
    default: {
        bool first = message->kind == PHASE_1;
        switch (message->round_kind) {
        case KIND_REFRESH:
            return first ? MET_REFRESH_1 : MET_REFRESH_2;
        case KIND_TERMINATE:
            return first ? MET_TERMINATE_1 : MET_TERMINATE_2;
        default:
            return first ? MET_PREPARE_1 : MET_PREPARE_2;
        }
    }
    }
}

#if !defined WITNESS_NO_MAIN || defined WITNESS_SHEET

/* ------------------------------------------------------------- the sheet */

/* "Sheet refusals, in order: 1 over 65,536 bytes, 2 under 8, 3 mark wrong, 4 distance not a multiple of 16 or more than precedes the trailer."
 * 0 if the sheet is taken; then *first and *count say where the records stand. */
static int read_sheet(const uint8_t *bytes, size_t length, size_t *first, size_t *count)
{
    if (length > SHEET_MAX)
        return 1;
    if (length < TRAILER)
        return 2;
    size_t trailer = length - TRAILER;
    if (memcmp(bytes + trailer + 4, "PASS", 4) != 0)
        return 3;
    uint32_t distance = little_endian(bytes + trailer, 4);
    if (distance % RECORD != 0 || distance > trailer)
        return 4;
    *first = trailer - distance;
    *count = distance / RECORD;
    return 0;
}

#endif

#ifndef WITNESS_NO_MAIN

/* ------------------------------------------------------- counting the pairs */

static const char *const step_name[RETIRE + 1] = {
    "unknown", "tick", "begin", "invoke", "refresh", "terminate", "prepare", "ask", "close",
    "tell", "abort", "deliver", "drop", "sweep", "crash", "recover", "retire"
};

static const char *const met_name[NOT_A_DELIVERY] = {
    "call", "reply", "refresh-1", "terminate-1", "prepare-1", "refresh-2", "terminate-2", "prepare-2", "answer", "empty"
};

enum { NUMBERS = 21, LINES = 512, EDGES = 32 };

/* How often each pair occurred in this sheet; and each reason for a refusal, and each edge, under its name and the number that was given. */
static struct {
    unsigned long step[RETIRE + 1][NUMBERS];
    unsigned long met[NOT_A_DELIVERY][NUMBERS];
    struct line {
        const char *sort, *name, *words;
        int number;
        unsigned long count;
    } line[LINES];
    int lines;
} tally;

static void count_line(const char *sort, const char *name, int number, const char *words)
{
    int i = 0;
    while (i < tally.lines
           && (strcmp(tally.line[i].sort, sort) != 0 || tally.line[i].number != number
               || strcmp(tally.line[i].name, name) != 0 || strcmp(tally.line[i].words, words) != 0))
        i++;
    if (i == LINES)
        return;
    if (i == tally.lines) {
        struct line fresh = { sort, name, words, number, 0 };
        tally.line[tally.lines++] = fresh;
    }
    tally.line[i].count++;
}

static int messages_in_flight(const struct tables *t)
{
    int count = 0;
    for (int m = 0; m < MESSAGES; m++)
        count += t->message[m].kind != EMPTY;
    return count;
}

static int replies_in_flight(const struct tables *t)
{
    int count = 0;
    for (int m = 0; m < MESSAGES; m++)
        count += t->message[m].kind == REPLY;
    return count;
}

/* Whether replies are all that stops the passage from being retired. */
static bool only_replies_remain(const struct tables *t, int slot)
{
    int replies = 0;
    if (t->passage[slot].status != ABORTED && t->passage[slot].status != COMMITTED)
        return false;
    for (int s = 0; s < SITES; s++)
        if (t->visit[s][slot].there)
            return false;
    for (int m = 0; m < MESSAGES; m++) {
        const struct message *message = &t->message[m];
        if (message->kind == EMPTY || slot_of(message->handle) != slot)
            continue;
        if (message->kind != REPLY)
            return false;
        replies++;
    }
    return replies > 0;
}

/* What the tables don't tell of a message: the operation that its reply is of, and whether its delivery was refused by 4. */
static struct operation {
    bool write, done, refused_by_4;
    int slot, object;
    uint32_t left; /* the object's value after it */
} operation[MESSAGES];

/* What became of a retire that replies alone stopped: nothing yet, or what was done with the last of them. */
static enum stopped { NOT_STOPPED, STOPPED, COLLECTED, DROPPED } stopped[SLOTS];

/* Keeps of a record that was run what later edges need. */
static void remember(const struct tables *t, const struct record *r, enum met met, struct answer answer)
{
    static const struct operation none;
    struct operation *of = &operation[r->c % MESSAGES];
    int slot = slot_of(r->h);
    if (met != NOT_A_DELIVERY && answer.number == 4)
        of->refused_by_4 = true;
    if (r->code == RETIRE && answer.number == 5 && only_replies_remain(t, slot))
        stopped[slot] = STOPPED;
    if (answer.number != 0)
        return;
    switch (r->code) {
    case INVOKE:
    case ASK:
    case TELL:
        operation[answer.value] = none;
        if (r->code == INVOKE) {
            operation[answer.value].write = r->b == 1;
            operation[answer.value].slot = slot;
            operation[answer.value].object = r->c;
        }
        break;
    case DELIVER:
    case DROP:
        if (of->done && stopped[of->slot] != NOT_STOPPED)
            stopped[of->slot] = r->code == DELIVER ? COLLECTED : DROPPED;
        of->refused_by_4 = false;
        of->done = met == MET_CALL;
        if (of->done)
            of->left = t->object[of->object].value;
        break;
    case RETIRE:
        stopped[slot] = NOT_STOPPED;
        break;
    }
}

/* The edges of the count that invoke tries. n are there already; gives how many there are then. */
static int edges_of_sent(const struct tables *t, const struct record *r, uint32_t clock, const char *edge[EDGES], int n)
{
    int slot = slot_of(r->h), to = site_of_object(r->c), flying = messages_in_flight(t);
    const struct visit *visit = &t->visit[r->a][slot];
    bool away = r->a != t->passage[slot].home;
    if (visit->sent[to] == CALLS_MAX - 1) {
        edge[n++] = "call 1,000 sent";
        if (away)
            edge[n++] = "call 1,000 sent, away from home";
        if (flying == MESSAGES - 1)
            edge[n++] = "call 1,000 sent, as message 32";
        if (flying == MESSAGES)
            edge[n++] = "call 1,000 sent, as message 33";
        return n;
    }
    if (visit->sent[to] == CALLS_MAX) {
        edge[n++] = "call 1,001 sent";
        if (away)
            edge[n++] = "call 1,001 sent, away from home";
        if (flying == MESSAGES - 1)
            edge[n++] = "call 1,001 sent, as message 32";
        if (flying == MESSAGES)
            edge[n++] = "call 1,001 sent, as message 33";
        if (clock + 1 == visit->q)
            edge[n++] = "call 1,001 sent, at Q - 1";
        if (clock == visit->q)
            edge[n++] = "call 1,001 sent, at Q";
        return n;
    }
    /* counts at 1,000 that are not the one tried */
    bool to_another = false, from_another = false, of_another = false;
    for (int s = 0; s < SITES; s++) {
        to_another |= visit->sent[s] == CALLS_MAX;
        from_another |= t->visit[s][slot].sent[to] == CALLS_MAX;
    }
    for (int s = 0; s < SLOTS; s++)
        of_another |= t->visit[r->a][s].sent[to] == CALLS_MAX;
    if (visit->received == CALLS_MAX)
        edge[n++] = "1,000 calls received at the acting site";
    if (to_another)
        edge[n++] = "1,000 calls sent to another site";
    if (from_another)
        edge[n++] = "1,000 calls sent there from another site";
    if (of_another)
        edge[n++] = "1,000 calls sent there by another passage";
    return n;
}

/* The edges of the count that a delivered call tries. */
static int edges_of_received(const struct tables *t, const struct message *message, uint32_t clock, const char *edge[EDGES], int n)
{
    int slot = slot_of(message->handle), holder = t->object[message->object].holder;
    const struct visit *visit = &t->visit[message->destination][slot];
    bool held = holder != NOBODY && holder != slot;
    if (visit->received == CALLS_MAX - 1) {
        edge[n++] = "call 1,000 received";
        if (held)
            edge[n++] = "call 1,000 received, object held by another passage";
        return n;
    }
    if (visit->received == CALLS_MAX) {
        edge[n++] = "call 1,001 received";
        if (holder == NOBODY)
            edge[n++] = "call 1,001 received, object unheld";
        if (held)
            edge[n++] = "call 1,001 received, object held by another passage";
        if (messages_in_flight(t) == MESSAGES)
            edge[n++] = "call 1,001 received, 32 messages in flight";
        if (clock + 1 == visit->q)
            edge[n++] = "call 1,001 received, at the visit's Q - 1";
        if (clock == visit->q)
            edge[n++] = "call 1,001 received, at the visit's Q";
        return n;
    }
    /* counts at 1,000 that are not the one tried */
    bool sent = false, at_another = false, of_another = false;
    for (int s = 0; s < SITES; s++) {
        sent |= visit->sent[s] == CALLS_MAX;
        at_another |= t->visit[s][slot].received == CALLS_MAX;
    }
    for (int s = 0; s < SLOTS; s++)
        of_another |= t->visit[message->destination][s].received == CALLS_MAX;
    if (sent)
        edge[n++] = "1,000 calls sent from there";
    if (at_another)
        edge[n++] = "1,000 calls received at another site";
    if (of_another)
        edge[n++] = "1,000 calls received there by another passage";
    return n;
}

/* The edges of the round number that refresh, terminate and prepare try. */
static int edges_of_round(const struct tables *t, const struct record *r, uint32_t clock, const char *edge[EDGES], int n)
{
    uint16_t number = t->passage[slot_of(r->h)].round.number;
    bool full = messages_in_flight(t) == MESSAGES;
    if (number == ROUND_MAX - 1) {
        edge[n++] = "round 1,000";
        if (full)
            edge[n++] = "round 1,000, 32 messages in flight";
    }
    if (number == ROUND_MAX) {
        edge[n++] = "round 1,001";
        if (full)
            edge[n++] = "round 1,001, 32 messages in flight";
        if (clock == CLOCK_MAX)
            edge[n++] = "round 1,001, clock 2,000,000,000";
        if (clock == CLOCK_MAX + 1)
            edge[n++] = "round 1,001, clock 2,000,000,001";
    }
    return n;
}

/* The edges of a delivered reply. Most of them say what it does not look at. */
static int edges_of_reply(const struct tables *t, int m, uint32_t clock, const char *edge[EDGES], int n)
{
    static const char *const passage_is[] = {
        "passage slot free", "passage active", "passage committing", "passage aborted", "passage committed"
    };
    const struct message *message = &t->message[m];
    const struct operation *of = &operation[m];
    int slot = slot_of(message->handle);
    const struct passage *passage = &t->passage[slot];
    const struct visit *visit = &t->visit[message->destination][slot];
    uint32_t own = t->site[message->destination].clock;
    edge[n++] = passage_is[passage->status];
    if (passage->round.phase != 0)
        edge[n++] = passage->round.phase == 1 ? "round in phase 1" : "round in phase 2";
    if (!visit->there) {
        edge[n++] = "no visit there";
        if (passage->status == ABORTED)
            edge[n++] = "passage aborted, no visit there";
    } else {
        if (clock + 1 == visit->q)
            edge[n++] = "at the visit's Q - 1";
        if (clock == visit->q)
            edge[n++] = "at the visit's Q";
        if (clock > visit->q)
            edge[n++] = "past the visit's Q";
        if (clock >= visit->r)
            edge[n++] = "at the visit's R or past it";
        if (visit->dead)
            edge[n++] = "visit dead";
        if (visit->prepared)
            edge[n++] = "visit prepared";
        if (visit->received == CALLS_MAX)
            edge[n++] = "1,000 calls received there";
    }
    edge[n++] = message->destination == passage->home ? "to home" : "to a station that isn't home";
    edge[n++] = message->source == message->destination ? "of a call within one station" : "from another station";
    if (t->site[message->source].down && message->source != message->destination)
        edge[n++] = "the station that it comes from down";
    edge[n++] = message->found == 0 ? "value 0" : "value above 0";
    if (message->found == VALUE_MAX)
        edge[n++] = "value 1,000,000";
    edge[n++] = of->write ? "of a write" : "of a read";
    if (of->write && message->found != of->left)
        edge[n++] = "of a write, with another value than the one written";
    if (t->object[of->object].value != of->left)
        edge[n++] = "its object changed since";
    edge[n++] = message->stamp > own ? "stamp ahead of the clock" : message->stamp < own ? "stamp behind the clock" : "stamp equal to the clock";
    if (message->stamp == TIME_MAX - 1)
        edge[n++] = "stamp 999,999,999";
    if (of->refused_by_4)
        edge[n++] = "refused by 4 before";
    return n;
}

/* The edges that replies in flight make for a step that is no delivery. */
static int edges_with_replies(const struct tables *t, const struct record *r, const char *edge[EDGES], int n)
{
    int slot = slot_of(r->h), replies = replies_in_flight(t);
    bool of_slot = false, to_site = false;
    for (int m = 0; m < MESSAGES; m++) {
        const struct message *message = &t->message[m];
        of_slot |= message->kind == REPLY && slot_of(message->handle) == slot;
        to_site |= message->kind == REPLY && message->destination == r->a;
    }
    switch (r->code) {
    case INVOKE:
    case ASK:
    case TELL:
        if (replies == MESSAGES - 1 && messages_in_flight(t) == replies)
            edge[n++] = "31 replies in flight and nothing else";
        if (replies == MESSAGES)
            edge[n++] = "32 replies in flight";
        break;
    case CLOSE:
        if (of_slot)
            edge[n++] = "a reply of it in flight";
        break;
    case DROP:
        if (t->message[r->c].kind == REPLY)
            edge[n++] = t->site[t->message[r->c].destination].down ? "a reply to a station that is down" : "a reply";
        break;
    case CRASH:
        if (to_site)
            edge[n++] = "a reply on its way there";
        break;
    case RETIRE:
        if (only_replies_remain(t, slot))
            edge[n++] = "only replies of it remain";
        if (stopped[slot] == COLLECTED)
            edge[n++] = "the last reply that stopped it collected";
        if (stopped[slot] == DROPPED)
            edge[n++] = "the last reply that stopped it dropped";
        break;
    }
    return n;
}

/* The edges at which a record stands, read from the tables before it is run. Gives how many there are. */
static int edges_of(const struct tables *t, const struct record *r, const char *edge[EDGES])
{
    int n = 0;
    if (!stands_for_a_step(r))
        return n;
    if (r->code == INVOKE && r->b == 1 && r->u == VALUE_MAX)
        edge[n++] = "write 1,000,000";
    if (r->code == INVOKE && r->b == 1 && r->u == VALUE_MAX + 1)
        edge[n++] = "write 1,000,001";
    if (named[r->code] & A && r->a == SITES)
        edge[n++] = "site 8";
    if (named[r->code] & H && r->h == HANDLE_MAX + 1)
        edge[n++] = "handle 4,096";
    if (r->code == BEGIN && r->b == SLOTS)
        edge[n++] = "slot 16";
    if (r->code == INVOKE && r->c == OBJECTS)
        edge[n++] = "object 32";
    if ((r->code == DELIVER || r->code == DROP) && r->c == MESSAGES)
        edge[n++] = "message slot 32";
    if (named[r->code] & V && r->v == TIME_MAX)
        edge[n++] = "R 1,000,000,000";
    if (named[r->code] & V && r->v == TIME_MAX + 1)
        edge[n++] = "R 1,000,000,001";
    if (r->code == TICK && r->u == TICK_MAX)
        edge[n++] = "tick 1,000,000";
    if (r->code == TICK && r->u == TICK_MAX + 1)
        edge[n++] = "tick 1,000,001";
    if (r->code == TICK && r->u == 0)
        edge[n++] = "tick 0";
    if (!is_in_range(r))
        return n;
    int slot = slot_of(r->h);
    const struct message *message = &t->message[r->c % MESSAGES];
    bool delivery = r->code == DELIVER && message->kind != EMPTY;
    bool opens = r->code == REFRESH || r->code == TERMINATE || r->code == PREPARE;
    int site = delivery ? message->destination : named[r->code] & A && r->code != ASK && r->code != TELL ? r->a : t->passage[slot].home;
    uint32_t clock = t->site[site].clock + 1;
    if (r->code == TICK)
        clock += r->u - 1;
    if (delivery)
        clock = 1 + max_of(t->site[site].clock, message->stamp);
    if (r->code != DROP && r->code != RETIRE && clock == CLOCK_MAX)
        edge[n++] = "clock 2,000,000,000";
    if (r->code != DROP && r->code != RETIRE && clock == CLOCK_MAX + 1)
        edge[n++] = "clock 2,000,000,001";
    const struct visit *visit = &t->visit[site][delivery ? slot_of(message->handle) : slot];
    if (r->code == BEGIN && clock + 1 == r->u)
        edge[n++] = "at Q - 1";
    if (r->code == BEGIN && clock == r->u)
        edge[n++] = "at Q";
    if (r->code == INVOKE && visit->there) {
        if (clock + 1 == visit->q)
            edge[n++] = "at Q - 1";
        if (clock == visit->q)
            edge[n++] = "at Q";
        n = edges_of_sent(t, r, clock, edge, n);
    }
    if (delivery && message->kind == CALL) {
        uint32_t q = visit->there ? visit->q : message->q;
        if (clock + 1 == q)
            edge[n++] = visit->there ? "at the visit's Q - 1" : "at the message's Q - 1";
        if (clock == q)
            edge[n++] = visit->there ? "at the visit's Q" : "at the message's Q";
        n = edges_of_received(t, message, clock, edge, n);
        if (lowest_empty_message(t) < r->c)
            edge[n++] = "a lower message slot empty";
        if (replies_in_flight(t) == MESSAGES - 1)
            edge[n++] = "31 replies in flight";
    }
    if (delivery && message->kind == REPLY)
        n = edges_of_reply(t, r->c, clock, edge, n);
    if (!delivery)
        n = edges_with_replies(t, r, edge, n);
    if (opens)
        n = edges_of_round(t, r, clock, edge, n);
    if (delivery && messages_in_flight(t) == MESSAGES)
        edge[n++] = "32 messages in flight";
    if (r->code == INVOKE || r->code == ASK || r->code == TELL) {
        if (lowest_empty_message(t) == MESSAGES - 1)
            edge[n++] = "message 32";
        if (lowest_empty_message(t) == MESSAGES)
            edge[n++] = "message 33";
    }
    if (r->code == SWEEP)
        for (int s = 0; s < SLOTS && n < EDGES - 1; s++) {
            const struct visit *swept = &t->visit[site][s];
            if (swept->there && clock == swept->r)
                edge[n++] = swept->prepared ? "at R, visit prepared" : "at R";
            if (swept->there && clock + 1 == swept->r)
                edge[n++] = "at R - 1";
        }
    if (r->code == RETIRE && t->passage[slot].generation == 255)
        edge[n++] = "generation 255";
    if (r->code == BEGIN && t->passage[r->b].generation == 255)
        edge[n++] = "generation 255";
    return n;
}

/* The step's name, or that of what a delivery met. */
static const char *name_of(const struct record *r, enum met met)
{
    return met != NOT_A_DELIVERY ? met_name[met] : r->code <= RETIRE ? step_name[r->code] : step_name[0];
}

static void count_pair(const struct record *r, enum met met, struct answer answer)
{
    int code = r->code <= RETIRE ? r->code : 0;
    tally.step[code][answer.number]++;
    if (met != NOT_A_DELIVERY)
        tally.met[met][answer.number]++;
    if (answer.number >= 3)
        count_line("reason", name_of(r, met), answer.number, answer.why);
}

/* One line each: sort, name, number, how often, and for reasons and edges their words. */
static void print_pairs(void)
{
    for (int code = 0; code <= RETIRE; code++)
        for (int number = 0; number < NUMBERS; number++)
            if (tally.step[code][number] != 0)
                fprintf(stderr, "step %s %d %lu\n", step_name[code], number, tally.step[code][number]);
    for (int met = 0; met < NOT_A_DELIVERY; met++)
        for (int number = 0; number < NUMBERS; number++)
            if (tally.met[met][number] != 0)
                fprintf(stderr, "deliver %s %d %lu\n", met_name[met], number, tally.met[met][number]);
    for (int i = 0; i < tally.lines; i++)
        fprintf(stderr, "%s %s %d %lu %s\n", tally.line[i].sort, tally.line[i].name, tally.line[i].number,
                tally.line[i].count, tally.line[i].words);
}

/* ------------------------------------------------------------ the listing
 *
 * It is put together in one buffer and written at the end. With printf, bench/run would measure printing: it took eight tenths of all instructions.
 */

/* A sheet has room for 4,095 records. A line has three numbers of up to ten digits, each with the space or the newline after it. */
enum { RECORDS_MAX = (SHEET_MAX - TRAILER) / RECORD, LINE_LENGTH = 3 * (10 + 1) };

/* Puts a number in decimal digits and the byte after it. Gives the place after them. */
static char *put_number(char *at, uint32_t number, char after)
{
    char digit[10];
    int count = 0;
    do {
        digit[count++] = (char)('0' + number % 10);
        number /= 10;
    } while (number != 0);
    while (count > 0)
        *at++ = digit[--count];
    *at++ = after;
    return at;
}

/* Prints a whole listing. Gives the exit status: 1 where it could not be written. */
static int print_listing(const char *listing, const char *end)
{
    size_t length = (size_t)(end - listing);
    if (fwrite(listing, 1, length, stdout) != length || fclose(stdout) != 0) {
        perror("witness: the listing could not be written");
        return 1;
    }
    return 0;
}

/* "passrun reads standard input and prints for each record: its place from 1, refusal number, value, one space between, each line ended by a newline. A refused sheet prints one line, "sheet", a space and its number, and nothing else." */
int main(int argc, char **argv)
{
    static uint8_t bytes[SHEET_MAX + 1];
    static struct tables t;
    static char listing[RECORDS_MAX * LINE_LENGTH];
    char *end = listing;
    bool pairs = argc == 2 && strcmp(argv[1], "--pairs") == 0;
    if (argc > 1 && !pairs) {
        fprintf(stderr, "usage: witness [--pairs] < SHEET\n");
        return 2;
    }
    size_t length = fread(bytes, 1, sizeof bytes, stdin);
    size_t first = 0, count = 0;
    int refused = read_sheet(bytes, length, &first, &count);
    if (refused != 0) {
        memcpy(end, "sheet ", 6);
        end = put_number(end + 6, (uint32_t)refused, '\n');
        if (pairs)
            fprintf(stderr, "sheet refused %d 1\n", refused);
        return print_listing(listing, end);
    }
    if (pairs)
        fprintf(stderr, "sheet taken 0 1\nrecords all 0 %zu\n", count);
    start(&t);
    for (size_t i = 0; i < count; i++) {
        struct record r = read_record(bytes + first + RECORD * i);
        const char *edge[EDGES];
        int edges = pairs ? edges_of(&t, &r, edge) : 0;
        enum met met = what_is_met(&t, &r);
        struct answer answer = run_record(&t, &r);
        end = put_number(end, (uint32_t)(i + 1), ' ');
        end = put_number(end, (uint32_t)answer.number, ' ');
        end = put_number(end, answer.value, '\n');
        if (pairs) {
            count_pair(&r, met, answer);
            remember(&t, &r, met, answer);
        }
        while (edges > 0)
            count_line("edge", name_of(&r, met), answer.number, edge[--edges]);
    }
    if (pairs)
        print_pairs();
    return print_listing(listing, end);
}

#endif

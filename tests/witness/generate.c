/* generate: writes sheets for the comparison of passrun with the witness.
 *
 *   generate SEED N DIR    writes DIR/00000.sheet .. in all N sheets; the same seed and N give the same bytes
 *
 * It runs the witness's machine along with every sheet, so that it knows the tables and can choose a step that they allow.
 * Most steps are such steps. Between them stand refused ones, chosen so that the reasons for refusal that were met least come first.
 * A refused step changes nothing, so any number of them can stand anywhere.
 */
#define WITNESS_NO_MAIN
#include "witness.c"

#include <inttypes.h>
#include <stdlib.h>

/* ------------------------------------------------------------------ chance */

static uint64_t chance_state;

/* splitmix64. No expression below asks for chance twice in an order that C leaves open, so that every compiler gives the same sheets. */
static uint64_t chance64(void)
{
    uint64_t z = chance_state += 0x9e3779b97f4a7c15u;
    z = (z ^ z >> 30) * 0xbf58476d1ce4e5b9u;
    z = (z ^ z >> 27) * 0x94d049bb133111ebu;
    return z ^ z >> 31;
}

/* 0..n-1; 0 for n = 0 */
static uint32_t chance(uint32_t n) { return n == 0 ? 0 : (uint32_t)(chance64() % n); }

/* low..high */
static uint32_t between(uint32_t low, uint32_t high) { return low + chance(high - low + 1); }

static bool percent(uint32_t p) { return chance(100) < p; }

/* ------------------------------------------------------- the sheet at hand */

enum { RECORDS_MAX = (SHEET_MAX - TRAILER) / RECORD };

static struct tables t;
static uint8_t bytes[2 * SHEET_MAX];
static size_t records;
static size_t limit;

static struct record make(int code, int a, int b, int c, uint32_t h, uint32_t u, uint32_t v)
{
    struct record r;
    r.code = (uint8_t)code;
    r.a = (uint8_t)a;
    r.b = (uint8_t)b;
    r.c = (uint8_t)c;
    r.h = (uint16_t)h;
    r.zero = 0;
    r.u = u;
    r.v = v;
    return r;
}

static void put_number(uint8_t *at, uint32_t number, int count)
{
    for (int i = 0; i < count; i++)
        at[i] = (uint8_t)(number >> 8 * i);
}

/* How often each reason for a refusal was met by each step, and by each kind of delivery, in the whole run. */
static struct reason {
    int code;
    enum met met;
    const char *why;
    unsigned long count;
} reasons[512];
static int reasons_known;

static unsigned long *count_of_reason(const struct record *r, enum met met, struct answer answer)
{
    static unsigned long spare;
    int code = r->code <= RETIRE ? r->code : 0;
    for (int i = 0; i < reasons_known; i++)
        if (reasons[i].code == code && reasons[i].met == met && strcmp(reasons[i].why, answer.why) == 0)
            return &reasons[i].count;
    if (reasons_known == (int)(sizeof reasons / sizeof reasons[0]))
        return &spare;
    struct reason *fresh = &reasons[reasons_known++];
    fresh->code = code;
    fresh->met = met;
    fresh->why = answer.why;
    fresh->count = 0;
    return &fresh->count;
}

static bool sheet_is_full(void) { return records >= limit; }

/* Writes the record at the end of the sheet and runs it. A full sheet takes no more. */
static struct answer put(struct record r)
{
    if (sheet_is_full())
        return refuse(99, "the sheet is full");
    uint8_t *at = bytes + RECORD * records++;
    at[0] = r.code;
    at[1] = r.a;
    at[2] = r.b;
    at[3] = r.c;
    put_number(at + 4, r.h, 2);
    put_number(at + 6, r.zero, 2);
    put_number(at + 8, r.u, 4);
    put_number(at + 12, r.v, 4);
    enum met met = what_is_met(&t, &r);
    struct answer answer = run_record(&t, &r);
    ++*count_of_reason(&r, met, answer);
    return answer;
}

static bool done(struct record r) { return put(r).number == 0; }

/* What the machine would say. */
static struct answer foresee(struct record r)
{
    static struct tables copy;
    copy = t;
    return run_record(&copy, &r);
}

/* ---------------------------------------------------------------- profiles */

struct profile {
    const char *name;
    int sites, slots, objects_per_site; /* fewer of them meet more often */
    uint32_t span; /* how far ahead of the clock Q stands at most */
    uint32_t keep; /* how far after Q stands R at most */
    int aimed; /* percent of records that are refused on purpose */
    int wild; /* percent of records with any fields */
    int edge; /* percent of moves that go to a Q or R and try both sides */
    int steady; /* percent of the other moves that bring one passage on, as its programmer would */
    int weight[RETIRE + 1];
};

/*                                                                        tick begin invoke refresh term. prep. ask close tell abort deliver drop sweep crash recover retire */
static const struct profile profiles[] = {
    { "passages at once", 8, 16, 4, 4000, 4000, 12, 2, 0, 70,      { 0, 4, 10, 30, 6, 8, 4, 30, 20, 30, 3, 70, 1, 5, 0, 5, 10 } },
    { "few and close", 3, 4, 1, 400, 300, 12, 2, 2, 50,            { 0, 3, 10, 20, 6, 8, 4, 30, 20, 30, 3, 70, 2, 6, 1, 8, 10 } },
    { "losing messages", 4, 5, 2, 900, 500, 10, 2, 1, 50,          { 0, 3, 10, 25, 8, 8, 5, 30, 20, 30, 3, 40, 20, 5, 0, 5, 10 } },
    { "crashes in rounds", 4, 6, 2, 1500, 900, 15, 2, 1, 60,       { 0, 3, 10, 25, 8, 8, 6, 40, 15, 30, 1, 60, 2, 4, 5, 14, 10 } },
    { "many crashes", 3, 4, 1, 300, 200, 15, 2, 3, 40,             { 0, 4, 12, 25, 8, 10, 6, 40, 15, 30, 2, 60, 2, 6, 12, 30, 12 } },
    { "both sides of Q and R", 4, 6, 2, 60, 40, 5, 2, 35, 35,      { 0, 5, 20, 30, 10, 8, 4, 25, 15, 25, 3, 60, 1, 8, 1, 8, 12 } },
    { "short lives", 3, 3, 2, 20, 10, 10, 2, 15, 50,               { 0, 6, 25, 25, 10, 10, 5, 25, 15, 25, 4, 60, 2, 15, 1, 8, 20 } },
    { "messages pile up", 5, 6, 2, 3000, 2000, 15, 2, 0, 30,       { 0, 2, 10, 60, 6, 8, 4, 50, 20, 40, 2, 30, 1, 3, 1, 5, 8 } },
    { "far times", 6, 8, 3, 900000000, 90000000, 10, 2, 3, 60,     { 0, 15, 10, 30, 8, 8, 4, 30, 20, 30, 3, 60, 2, 5, 1, 5, 10 } },
    { "a crowd at two stations", 2, 16, 4, 1200, 500, 10, 2, 2, 60, { 0, 3, 15, 30, 6, 8, 4, 30, 20, 30, 3, 70, 1, 5, 1, 8, 12 } },
    { "anything", 8, 16, 4, 500, 500, 30, 40, 3, 20,               { 0, 5, 10, 20, 8, 8, 8, 20, 20, 20, 5, 40, 5, 8, 3, 5, 10 } },
};
enum { PROFILES = sizeof profiles / sizeof profiles[0], FAR_TIMES = 8 };

static const struct profile *p;

/* ------------------------------------------------------- moves from the state
 *
 * Each gives a record that the tables are likely to accept, and false if it finds none.
 */

static int any_site(void) { return (int)chance((uint32_t)p->sites); }
static int any_slot(void) { return (int)chance((uint32_t)p->slots); }
static int any_object(int site) { return site * OBJECTS_PER_SITE + (int)chance((uint32_t)p->objects_per_site); }

/* A slot in use for which the condition holds, or -1. */
static int slot_where(bool (*holds)(int))
{
    int slot = (int)chance(SLOTS);
    for (int i = 0; i < SLOTS; i++, slot = (slot + 1) % SLOTS)
        if (t.passage[slot].status != FREE && holds(slot))
            return slot;
    return -1;
}

static bool home_is_up(int slot) { return !t.site[t.passage[slot].home].down; }
static bool is_active(int slot) { return t.passage[slot].status == ACTIVE && home_is_up(slot); }
static bool is_running(int slot)
{
    enum status status = t.passage[slot].status;
    return (status == ACTIVE || status == COMMITTING) && home_is_up(slot);
}
static bool can_terminate(int slot)
{
    return t.passage[slot].status == ABORTED && home_is_up(slot) && t.visit[t.passage[slot].home][slot].there;
}
static bool in_phase_1(int slot) { return t.passage[slot].round.phase == 1 && home_is_up(slot); }
static bool in_phase_2(int slot) { return t.passage[slot].round.phase == 2 && home_is_up(slot); }
static bool has_calls_on_the_way(int slot)
{
    for (int m = 0; m < MESSAGES; m++)
        if (t.message[m].kind == CALL && slot_of(t.message[m].handle) == slot)
            return true;
    return false;
}
static bool can_prepare_well(int slot) { return is_running(slot) && !has_calls_on_the_way(slot); }
static bool can_close(int slot) { return in_phase_1(slot) && is_closed(&t.passage[slot].round); }
static bool can_retire(int slot) { return foresee(make(RETIRE, 0, 0, 0, handle_of(&t, slot), 0, 0)).number == 0; }

/* A visit for which the condition holds; false if there is none. */
static bool visit_where(bool (*holds)(int, int), int *site, int *slot)
{
    uint32_t from = chance(SITES * SLOTS);
    for (uint32_t i = 0; i < SITES * SLOTS; i++) {
        uint32_t place = (from + i) % (SITES * SLOTS);
        *site = (int)(place / SLOTS);
        *slot = (int)(place % SLOTS);
        if (t.visit[*site][*slot].there && holds(*site, *slot))
            return true;
    }
    return false;
}

static bool at_an_up_site(int site, int slot) { (void)slot; return !t.site[site].down; }
static bool can_call(int site, int slot)
{
    return !t.site[site].down && t.site[site].clock + 1 < t.visit[site][slot].q;
}
static bool can_be_swept(int site, int slot)
{
    const struct visit *visit = &t.visit[site][slot];
    return !t.site[site].down && !visit->prepared && visit->r <= t.site[site].clock + 1;
}

/* A message slot that is not empty, or -1. */
static int any_message(void)
{
    int m = (int)chance(MESSAGES);
    for (int i = 0; i < MESSAGES; i++, m = (m + 1) % MESSAGES)
        if (t.message[m].kind != EMPTY)
            return m;
    return -1;
}

static uint32_t at_most(uint32_t number, uint32_t most) { return number < most ? number : most; }

/* A Q and an R after the site's clock. */
static void choose_times(int site, uint32_t *q, uint32_t *r)
{
    uint32_t span = percent(20) ? 3 : percent(30) ? p->span / 4 + 1 : p->span;
    uint32_t keep = percent(20) ? 0 : percent(30) ? p->keep / 8 : p->keep;
    *q = at_most(t.site[site].clock + 2 + chance(span), TIME_MAX);
    *r = at_most(*q + chance(keep + 1), TIME_MAX);
}

static bool move_tick(struct record *r)
{
    int site = any_site();
    uint32_t n = between(1, 4);
    if (p->span > 1000000 && percent(50))
        n = between(1, TICK_MAX);
    else if (percent(20))
        n = between(1, p->keep / 8 + 1);
    *r = make(TICK, site, 0, 0, 0, at_most(n, TICK_MAX), 0);
    return true;
}

static bool move_begin(struct record *r)
{
    int site = any_site(), slot = any_slot();
    uint32_t q, release;
    if (t.passage[slot].status != FREE)
        return false;
    choose_times(site, &q, &release);
    *r = make(BEGIN, site, slot, 0, 0, q, release);
    return true;
}

static struct record call_from(int site, int slot)
{
    bool write = percent(50);
    uint32_t value = percent(5) ? VALUE_MAX : percent(5) ? 0 : chance(VALUE_MAX + 1);
    int to = percent(15) ? site : any_site();
    return make(INVOKE, site, write, any_object(to), handle_of(&t, slot), write ? value : 0, 0);
}

static bool move_invoke(struct record *r)
{
    int site, slot;
    if (!visit_where(can_call, &site, &slot))
        return false;
    *r = call_from(site, slot);
    return true;
}

static bool move_refresh(struct record *r)
{
    int slot = slot_where(is_active);
    uint32_t q, release;
    if (slot < 0)
        return false;
    choose_times(t.passage[slot].home, &q, &release);
    *r = make(REFRESH, 0, 0, 0, handle_of(&t, slot), q, release);
    return true;
}

static bool move_on_slot(struct record *r, int code, bool (*holds)(int))
{
    int slot = slot_where(holds);
    if (slot < 0)
        return false;
    *r = make(code, 0, 0, 0, handle_of(&t, slot), 0, 0);
    return true;
}

/* Asks a site that has a visit and has not answered; now and then one that has. */
static bool move_ask(struct record *r)
{
    int slot = slot_where(in_phase_1);
    if (slot < 0)
        return false;
    int site = (int)chance(SITES);
    for (int i = 0; i < SITES; i++, site = (site + 1) % SITES)
        if (site != t.passage[slot].home && t.visit[site][slot].there
            && (percent(10) || t.visit[site][slot].round < t.passage[slot].round.number)) {
            *r = make(ASK, site, 0, 0, handle_of(&t, slot), 0, 0);
            return true;
        }
    return false;
}

static bool move_close(struct record *r)
{
    return move_on_slot(r, CLOSE, percent(95) ? can_close : in_phase_1);
}

/* Tells a site that answered and still has its visit; now and then one that has none. */
static bool move_tell(struct record *r)
{
    int slot = slot_where(in_phase_2);
    if (slot < 0)
        return false;
    int site = (int)chance(SITES);
    for (int i = 0; i < SITES; i++, site = (site + 1) % SITES)
        if (site != t.passage[slot].home && has_answered(&t.passage[slot].round, site)
            && (percent(10) || t.visit[site][slot].there)) {
            *r = make(TELL, site, 0, 0, handle_of(&t, slot), 0, 0);
            return true;
        }
    return false;
}

static bool move_on_message(struct record *r, int code)
{
    int m = any_message();
    if (m < 0)
        return false;
    *r = make(code, 0, 0, m, 0, 0, 0);
    return true;
}

/* Drops a message; mostly one that no delivery will take any more, or a reply. */
static bool move_drop(struct record *r)
{
    for (int tries = 0; tries < 4; tries++) {
        if (!move_on_message(r, DELIVER))
            return false;
        int number = foresee(*r).number;
        bool reply = t.message[r->c].kind == REPLY && percent(30);
        if (reply || number == 6 || number == 8 || number == 9 || number == 13 || tries == 3)
            break;
    }
    r->code = DROP;
    return true;
}

static bool move_sweep(struct record *r)
{
    int site, slot;
    if (!visit_where(can_be_swept, &site, &slot)) {
        if (percent(80))
            return false;
        site = any_site();
    }
    *r = make(SWEEP, site, 0, 0, 0, 0, 0);
    return true;
}

static bool move_recover(struct record *r)
{
    int site = any_site();
    if (!t.site[site].down)
        return false;
    *r = make(RECOVER, site, 0, 0, 0, 0, 0);
    return true;
}

static bool move(struct record *r, int code)
{
    switch (code) {
    case TICK: return move_tick(r);
    case BEGIN: return move_begin(r);
    case INVOKE: return move_invoke(r);
    case REFRESH: return move_refresh(r);
    case TERMINATE: return move_on_slot(r, TERMINATE, can_terminate);
    case PREPARE: return move_on_slot(r, PREPARE, percent(80) ? can_prepare_well : is_running);
    case ASK: return move_ask(r);
    case CLOSE: return move_close(r);
    case TELL: return move_tell(r);
    case ABORT: return move_on_slot(r, ABORT, is_running);
    case DELIVER: return move_on_message(r, DELIVER);
    case DROP: return move_drop(r);
    case SWEEP: return move_sweep(r);
    case CRASH: *r = make(CRASH, any_site(), 0, 0, 0, 0, 0); return true;
    case RECOVER: return move_recover(r);
    default: return move_on_slot(r, RETIRE, can_retire);
    }
}

static int any_code(void)
{
    uint32_t sum = 0;
    for (int code = TICK; code <= RETIRE; code++)
        sum += (uint32_t)p->weight[code];
    uint32_t at = chance(sum);
    int code = TICK;
    while (at >= (uint32_t)p->weight[code])
        at -= (uint32_t)p->weight[code++];
    return code;
}

/* A message of the passage that a delivery would take, or -1. */
static int ready_message(int slot)
{
    int m = (int)chance(MESSAGES);
    for (int i = 0; i < MESSAGES; i++, m = (m + 1) % MESSAGES)
        if (t.message[m].kind != EMPTY && slot_of(t.message[m].handle) == slot
            && foresee(make(DELIVER, 0, 0, m, 0, 0, 0)).number == 0)
            return m;
    return -1;
}

/* A site away from home that has a visit of an older round, or for phase 2 one that answered and was not told; -1 if there is none. */
static int site_behind(int slot)
{
    const struct passage *passage = &t.passage[slot];
    int site = (int)chance(SITES);
    for (int i = 0; i < SITES; i++, site = (site + 1) % SITES) {
        const struct visit *visit = &t.visit[site][slot];
        if (site == passage->home || !visit->there)
            continue;
        if (passage->round.phase == 1 && visit->round < passage->round.number)
            return site;
        if (passage->round.phase != 2 || !has_answered(&passage->round, site))
            continue;
        if (passage->round.kind == KIND_REFRESH ? visit->q < passage->round.new_q
            : passage->round.kind == KIND_TERMINATE ? visit->r > largest_q(&passage->round) : true)
            return site;
    }
    return -1;
}

/* What the programmer of the passage would do next. */
static bool next_of(int slot, struct record *r)
{
    const struct passage *passage = &t.passage[slot];
    uint32_t handle = handle_of(&t, slot);
    int home = passage->home, site, m = ready_message(slot);
    uint32_t q, release;
    if (m >= 0 && percent(80)) {
        *r = make(DELIVER, 0, 0, m, 0, 0, 0);
        return true;
    }
    if (t.site[home].down) {
        *r = make(RECOVER, home, 0, 0, 0, 0, 0);
        return true;
    }
    if (passage->round.phase != 0 && (site = site_behind(slot)) >= 0 && percent(90)) {
        *r = make(passage->round.phase == 1 ? ASK : TELL, site, 0, 0, handle, 0, 0);
        return true;
    }
    if (can_close(slot)) {
        *r = make(CLOSE, 0, 0, 0, handle, 0, 0);
        return true;
    }
    switch (passage->status) {
    case ACTIVE:
        for (site = (int)chance(SITES), m = 0; m < SITES && percent(85); m++, site = (site + 1) % SITES)
            if (t.visit[site][slot].there && can_call(site, slot)) {
                *r = call_from(site, slot);
                return true;
            }
        if (percent(40)) {
            choose_times(home, &q, &release);
            *r = make(REFRESH, 0, 0, 0, handle, q, release);
        } else {
            *r = make(percent(70) && !has_calls_on_the_way(slot) ? PREPARE : ABORT, 0, 0, 0, handle, 0, 0);
        }
        return true;
    case COMMITTING:
        *r = make(percent(60) ? PREPARE : ABORT, 0, 0, 0, handle, 0, 0);
        return true;
    default:
        for (site = 0; site < SITES; site++)
            if (t.visit[site][slot].there && can_be_swept(site, slot)) {
                *r = make(SWEEP, site, 0, 0, 0, 0, 0);
                return true;
            }
        if (can_retire(slot)) {
            *r = make(RETIRE, 0, 0, 0, handle, 0, 0);
            return true;
        }
        if (passage->status == ABORTED && t.visit[home][slot].there
            && (passage->round.kind != KIND_TERMINATE || percent(15))) {
            *r = make(TERMINATE, 0, 0, 0, handle, 0, 0);
            return true;
        }
        for (m = 0; m < MESSAGES; m++)
            if (t.message[m].kind != EMPTY && slot_of(t.message[m].handle) == slot && percent(50)) {
                *r = make(DROP, 0, 0, m, 0, 0, 0);
                return true;
            }
        for (site = 0; site < SITES; site++)
            if (t.visit[site][slot].there && !t.site[site].down && t.visit[site][slot].r > t.site[site].clock) {
                *r = make(TICK, site, 0, 0, 0, at_most(t.visit[site][slot].r - t.site[site].clock, TICK_MAX), 0);
                return percent(p->span > 1000000 ? 5 : 60);
            }
        return false;
    }
}

static bool is_in_use(int slot) { (void)slot; return true; }

/* One step that the tables accept, if a few tries find one. */
static void put_accepted(void)
{
    for (int i = 0; i < 40; i++) {
        struct record r = make(0, 0, 0, 0, 0, 0, 0);
        int slot = slot_where(is_in_use);
        bool found = slot >= 0 && percent((uint32_t)p->steady) ? next_of(slot, &r) : move(&r, any_code());
        if (found && foresee(r).number == 0) {
            put(r);
            return;
        }
    }
    put(make(TICK, any_site(), 0, 0, 0, 1, 0));
}

/* --------------------------------------------------------- refused steps */

static uint32_t any_handle(void)
{
    int slot = percent(85) ? slot_where(home_is_up) : (int)chance(SLOTS);
    if (slot < 0)
        slot = any_slot();
    uint32_t handle = handle_of(&t, slot);
    if (percent(8))
        return (handle + 16 * between(1, 255)) % 4096;
    if (percent(3))
        return percent(50) ? HANDLE_MAX + 1 : between(HANDLE_MAX + 1, 65535);
    return handle;
}

/* A number out of range: the first such, or any that a byte can hold. */
static uint8_t beyond(uint32_t range) { return (uint8_t)(percent(50) ? range : between(range, 255)); }

/* A record with likely but unweighed fields; some of them out of range, some set where the step does not name them. */
static struct record wild_record(void)
{
    struct record r = make((int)between(TICK, RETIRE), 0, 0, 0, 0, 0, 0);
    uint8_t names = named[r.code];
    if (names & A)
        r.a = (uint8_t)(percent(97) ? chance(SITES) : beyond(SITES));
    if (names & H)
        r.h = (uint16_t)any_handle();
    if (r.code == TICK)
        r.u = percent(90) ? between(1, 3) : percent(50) ? TICK_MAX + chance(2) : chance(2);
    if (r.code == BEGIN || r.code == REFRESH) {
        choose_times(r.a % SITES, &r.u, &r.v);
        if (percent(10))
            r.u = t.site[r.a % SITES].clock + 1;
        if (percent(5))
            r.v = r.u - 1;
        if (percent(3))
            r.v = TIME_MAX + chance(2);
        if (percent(3))
            r.u = r.v = TIME_MAX + chance(2);
    }
    if (r.code == BEGIN)
        r.b = (uint8_t)(percent(97) ? chance(SLOTS) : beyond(SLOTS));
    if (r.code == INVOKE) {
        r.b = (uint8_t)(percent(97) ? chance(2) : beyond(2));
        r.c = (uint8_t)(percent(97) ? chance(OBJECTS) : beyond(OBJECTS));
        if (r.b == 1)
            r.u = percent(90) ? chance(VALUE_MAX + 1) : VALUE_MAX + chance(2);
        else if (percent(3))
            r.u = 1;
    }
    if (r.code == DELIVER || r.code == DROP) {
        int m = any_message();
        r.c = (uint8_t)(percent(85) && m >= 0 ? m : percent(90) ? (int)chance(MESSAGES) : beyond(MESSAGES));
    }
    if (percent(2))
        r.zero = (uint16_t)between(1, 65535);
    if (percent(2)) {
        switch (chance(6)) {
        case 0: r.a |= (uint8_t)(1u << chance(8)); break;
        case 1: r.b |= (uint8_t)(1u << chance(8)); break;
        case 2: r.c |= (uint8_t)(1u << chance(8)); break;
        case 3: r.h |= (uint16_t)(1u << chance(16)); break;
        case 4: r.u |= 1u << chance(32); break;
        default: r.v |= 1u << chance(32); break;
        }
    }
    return r;
}

/* Of many records that would be refused, the one whose reason was met least. */
static void put_refused(void)
{
    struct record best = make(0, 0, 0, 0, 0, 0, 0);
    unsigned long least = (unsigned long)-1;
    for (int i = 0; i < 30; i++) {
        struct record r = wild_record();
        struct answer answer = foresee(r);
        if (answer.number == 0)
            continue;
        unsigned long count = *count_of_reason(&r, what_is_met(&t, &r), answer);
        if (count < least) {
            least = count;
            best = r;
        }
    }
    put(best);
}

/* Every delivery that would be refused, once each. */
static void put_refused_deliveries(void)
{
    for (int m = 0; m < MESSAGES; m++) {
        struct record r = make(DELIVER, 0, 0, m, 0, 0, 0);
        if (t.message[m].kind != EMPTY && foresee(r).number != 0)
            put(r);
    }
}

/* Sixteen bytes of which the machine can know nothing. */
static void put_garbage(void)
{
    struct record r;
    uint8_t raw[RECORD];
    for (int i = 0; i < RECORD; i++)
        raw[i] = (uint8_t)(percent(50) ? 0 : chance(256));
    r = read_record(raw);
    if (percent(60))
        r.code = (uint8_t)(percent(70) ? between(1, 16) : percent(50) ? 17 : chance(256));
    put(r);
}

/* ------------------------------------------------- both sides of a Q or an R */

/* Moves the clock of a site so that its next step but a delivery is done at the given time. False if that time is past. */
static bool next_step_at(int site, uint32_t time)
{
    while (t.site[site].clock + 1 < time) {
        uint32_t n = at_most(time - 1 - t.site[site].clock, TICK_MAX);
        if (!done(make(TICK, site, 0, 0, 0, n, 0)))
            return false;
    }
    return t.site[site].clock + 1 == time;
}

/* A call at clock Q - 1 and one at Q; or a delivery at Q - 1 or Q; or a sweep at R - 1 and at R. */
static void put_edge(void)
{
    int site, slot;
    if (!visit_where(at_an_up_site, &site, &slot))
        return;
    const struct visit *visit = &t.visit[site][slot];
    uint32_t clock = t.site[site].clock;
    uint32_t q = visit->q, release = visit->r;
    switch (chance(4)) {
    case 0:
        if (q < clock + 2 || q - clock > 5000000 || !next_step_at(site, q - 1))
            return;
        put(call_from(site, slot));
        put(call_from(site, slot));
        break;
    case 1:
        if (release < clock + 2 || release - clock > 5000000 || !next_step_at(site, release - 1))
            return;
        put(make(SWEEP, site, 0, 0, 0, 0, 0));
        put(make(SWEEP, site, 0, 0, 0, 0, 0));
        break;
    default: {
        /* a call, just before the Q that counts or at it; or a reply, to which no Q counts */
        int m = any_message();
        if (m < 0 || (t.message[m].kind != CALL && t.message[m].kind != REPLY))
            return;
        const struct message *message = &t.message[m];
        visit = &t.visit[message->destination][slot_of(message->handle)];
        q = visit->there ? visit->q : message->q;
        clock = t.site[message->destination].clock;
        if (t.site[message->destination].down || q < clock + 2 || q - clock > 5000000)
            return;
        next_step_at(message->destination, q - chance(2));
        put(make(DELIVER, 0, 0, m, 0, 0, 0));
    }
    }
}

/* A walk by the profile until the sheet has so many records. */
static void walk(size_t until)
{
    while (records < until && !sheet_is_full()) {
        uint32_t dice = chance(100);
        if (percent(1))
            put_garbage();
        else if (percent(2))
            put_refused_deliveries();
        else if (dice < (uint32_t)p->aimed)
            put_refused();
        else if (dice < (uint32_t)(p->aimed + p->wild))
            put(wild_record());
        else if (dice < (uint32_t)(p->aimed + p->wild + p->edge))
            put_edge();
        else
            put_accepted();
    }
}

/* ------------------------------------------------------------ written scenes
 *
 * Each goes to one limit of a table. They use chance for sites, slots and order.
 */

/* Begins a passage in a free slot; -1 if that is refused. */
static int scene_begin(int home, uint32_t q, uint32_t r)
{
    for (int slot = 0; slot < SLOTS; slot++)
        if (t.passage[slot].status == FREE)
            return done(make(BEGIN, home, slot, 0, 0, q, r)) ? slot : -1;
    return -1;
}

/* A read or a write of the one object at the station that the passage uses. */
static struct answer scene_call(int slot, int from, int to)
{
    bool write = percent(50);
    uint32_t value = write ? chance(VALUE_MAX + 1) : 0;
    return put(make(INVOKE, from, write, to * OBJECTS_PER_SITE + slot % OBJECTS_PER_SITE, handle_of(&t, slot), value, 0));
}

static struct answer scene_deliver(uint32_t m) { return put(make(DELIVER, 0, 0, (int)m, 0, 0, 0)); }

static struct answer on_handle(int code, int slot) { return put(make(code, 0, 0, 0, handle_of(&t, slot), 0, 0)); }

/* Takes the reply out of the message slot, if there is one: it is delivered, or now and then dropped. */
static void scene_collect(uint32_t m)
{
    if (t.message[m].kind == REPLY && (percent(10) || scene_deliver(m).number != 0))
        put(make(DROP, 0, 0, (int)m, 0, 0, 0));
}

/* Sends a call and delivers it; its reply stays on its way. Gives the message slot, or -1. */
static int scene_leave_reply(int slot, int from, int to)
{
    struct answer answer = scene_call(slot, from, to);
    return answer.number == 0 && scene_deliver(answer.value).number == 0 ? (int)answer.value : -1;
}

/* Sends a call, delivers it and collects the reply. */
static bool scene_visit(int slot, int from, int to)
{
    int m = scene_leave_reply(slot, from, to);
    if (m >= 0)
        scene_collect((uint32_t)m);
    return m >= 0;
}

/* Brings a message in, and its reply too if it has one; now and then that one is left. */
static void scene_bring_in(uint32_t m)
{
    scene_deliver(m);
    if (percent(90))
        scene_collect(m);
}

/* Asks a site, delivers the question and the answer. */
static bool scene_ask(int slot, int site)
{
    struct answer answer = put(make(ASK, site, 0, 0, handle_of(&t, slot), 0, 0));
    return answer.number == 0 && scene_deliver(answer.value).number == 0 && scene_deliver(answer.value).number == 0;
}

/* "A handle held through 256 reuses of its slot is valid again." */
static void scene_generations(void)
{
    int slot = (int)chance(SLOTS), site = (int)chance(SITES), other = (site + 1) % SITES;
    uint32_t cycles = between(250, 520);
    for (uint32_t i = 0; i < cycles && !sheet_is_full(); i++) {
        uint32_t clock = t.site[site].clock;
        uint32_t old = handle_of(&t, slot);
        uint32_t q = clock + 3 + (percent(20) ? 3 : 0);
        struct answer begun = put(make(BEGIN, site, slot, 0, 0, q, q));
        if (begun.number != 0)
            break;
        if (percent(5))
            put(make(BEGIN, other, slot, 0, 0, TIME_MAX, TIME_MAX));
        if (percent(10)) {
            struct answer call = scene_call(slot, site, other);
            on_handle(ABORT, slot);
            on_handle(RETIRE, slot);
            put(make(SWEEP, site, 0, 0, 0, 0, 0));
            put(make(SWEEP, site, 0, 0, 0, 0, 0));
            on_handle(RETIRE, slot);
            if (call.number == 0)
                put(make(percent(30) ? DROP : DELIVER, 0, 0, (int)call.value, 0, 0, 0));
            if (call.number == 0 && t.message[call.value].kind == REPLY)
                scene_collect(call.value);
            else if (call.number == 0)
                put(make(DROP, 0, 0, (int)call.value, 0, 0, 0));
            if (t.visit[other][slot].there)
                next_step_at(other, t.visit[other][slot].r);
            put(make(SWEEP, other, 0, 0, 0, 0, 0));
        } else if (percent(30)) {
            on_handle(PREPARE, slot);
            on_handle(CLOSE, slot);
        } else {
            on_handle(ABORT, slot);
            put(make(SWEEP, site, 0, 0, 0, 0, 0));
        }
        if (t.visit[site][slot].there) {
            next_step_at(site, t.visit[site][slot].r);
            put(make(SWEEP, site, 0, 0, 0, 0, 0));
        }
        if (percent(10)) {
            int code = (int)between(REFRESH, PREPARE);
            put(make(code, 0, 0, 0, (old + 16 * chance(3)) % 4096, 0, 0));
        }
        on_handle(RETIRE, slot);
        if (percent(10))
            put(make(RETIRE, 0, 0, 0, old, 0, 0));
    }
}

/* Message 32 and 33, for each step that sends one; then some are emptied and the lowest is taken again. */
static void scene_full(void)
{
    uint32_t q = between(5000, 60000), r = q + chance(5000);
    int one = scene_begin(0, q, r), two = scene_begin(1, q, r), three = scene_begin(2, q, r);
    if (one < 0 || two < 0 || three < 0)
        return;
    scene_visit(one, 0, 3);
    put(make(REFRESH, 0, 0, 0, handle_of(&t, one), q, r));
    scene_ask(one, 3);
    on_handle(CLOSE, one);
    on_handle(PREPARE, two);
    for (int turn = 0; turn < 6; turn++) {
        while (lowest_empty_message(&t) < MESSAGES && !sheet_is_full()) {
            bool sent;
            switch (chance(4)) {
            case 0: sent = done(make(TELL, 3, 0, 0, handle_of(&t, one), 0, 0)); break;
            case 1: sent = done(make(ASK, 3 + (int)chance(5), 0, 0, handle_of(&t, two), 0, 0)); break;
            default: sent = scene_call(three, 2, 3 + (int)chance(4)).number == 0; break;
            }
            if (!sent && percent(20))
                break;
        }
        scene_call(three, 2, 3);
        put(make(ASK, 3, 0, 0, handle_of(&t, two), 0, 0));
        put(make(TELL, 3, 0, 0, handle_of(&t, one), 0, 0));
        uint32_t emptied = between(1, 2 * MESSAGES);
        for (uint32_t i = 0; i < emptied; i++) {
            int code = percent(50) ? DROP : DELIVER;
            put(make(code, 0, 0, (int)chance(MESSAGES), 0, 0, 0));
        }
    }
}

/* Fills the message table with calls of the passage. */
static void scene_fill(int slot, int from, int to)
{
    while (lowest_empty_message(&t) < MESSAGES && scene_call(slot, from, to).number == 0)
        continue;
}

/* The lowest call of the passage that is on its way, or 0. */
static uint32_t lowest_call_of(int slot)
{
    for (uint32_t m = 0; m < MESSAGES; m++)
        if (t.message[m].kind == CALL && slot_of(t.message[m].handle) == slot)
            return m;
    return 0;
}

/* Delivers some calls of the passage and drops the others. No reply of it stays. */
static void scene_empty(int slot)
{
    for (int m = 0; m < MESSAGES; m++) {
        if (slot_of(t.message[m].handle) != slot)
            continue;
        if (t.message[m].kind == CALL)
            put(make(percent(50) ? DELIVER : DROP, 0, 0, m, 0, 0, 0));
        scene_collect((uint32_t)m);
    }
}

/* A refresh round over all visits of the passage, with a try to close it before and after. */
static void scene_count(int slot, uint32_t q)
{
    put(make(REFRESH, 0, 0, 0, handle_of(&t, slot), q, q));
    on_handle(CLOSE, slot);
    for (int site = 0; site < SITES; site++)
        if (site != t.passage[slot].home && t.visit[site][slot].there)
            scene_ask(slot, site);
    on_handle(CLOSE, slot);
}

/* The step at both stations, once where they are one. */
static void at_both(int code, int from, int to, uint32_t n)
{
    put(make(code, from, 0, 0, 0, n, 0));
    if (to != from)
        put(make(code, to, 0, 0, 0, n, 0));
}

/* Call 1,000 and 1,001, sent and received, and the rounds that count them.
 * The calls go from home or from a station away, to another station or to the same one. Another passage fills the message table, and holds an object where they go. */
static void scene_calls(void)
{
    static uint32_t turn;
    int home = (int)chance(SITES), more = (home + 3) % SITES, elsewhere = (home + 4) % SITES;
    int from = turn % 2 == 0 ? home : (home + 1) % SITES;
    int to = turn / 2 % 2 == 0 ? (home + 2) % SITES : from;
    uint32_t received = CALLS_MAX - turn++ % 3; /* how far these calls bring the count there; the rest of them are lost */
    uint32_t q = between(20000, 40000);
    int slot = scene_begin(home, q, q + chance(1000)), other = scene_begin(from, TIME_MAX, TIME_MAX);
    if (slot < 0 || other < 0)
        return;
    const struct visit *there = &t.visit[to][slot];
    if (from != home)
        scene_visit(slot, home, from);
    scene_visit(slot, home, more);
    scene_visit(other, from, to);
    for (uint32_t i = 1; i < CALLS_MAX; i++) {
        struct answer call = scene_call(slot, from, to);
        if (call.number != 0)
            break;
        put(make(there->received < received ? DELIVER : DROP, 0, 0, (int)call.value, 0, 0, 0));
        scene_collect(call.value);
    }
    /* call 1,000 and 1,001, each as message 33 and as message 32 */
    scene_fill(other, from, to);
    scene_call(slot, from, to);
    uint32_t lowest = lowest_call_of(other);
    scene_deliver(lowest);
    scene_call(slot, from, to);
    scene_collect(lowest);
    struct answer last = scene_call(slot, from, to);
    scene_call(slot, from, to);
    put(make(there->received < received ? DELIVER : DROP, 0, 0, (int)last.value, 0, 0, 0));
    scene_collect(last.value);
    scene_call(slot, from, to);
    scene_visit(slot, from, elsewhere);
    scene_empty(other);
    scene_call(slot, from, to);
    if (received == CALLS_MAX)
        scene_count(slot, q);
    /* calls from a third station, one of them to the object that the other passage holds */
    struct answer held = put(make(INVOKE, more, 0, to * OBJECTS_PER_SITE + other % OBJECTS_PER_SITE, handle_of(&t, slot), 0, 0));
    for (int i = 0; i < 5; i++) {
        scene_deliver(held.value);
        struct answer call = scene_call(slot, more, to);
        if (call.number != 0)
            continue;
        if (scene_deliver(call.value).number == 0)
            scene_collect(call.value);
        else if (percent(80))
            put(make(DROP, 0, 0, (int)call.value, 0, 0, 0));
    }
    /* a call to an object that nobody holds, which comes in as call 1,001 */
    int unheld = to * OBJECTS_PER_SITE + (other + 1) % OBJECTS_PER_SITE;
    struct answer late = put(make(INVOKE, more, 0, unheld, handle_of(&t, slot), 0, 0));
    scene_fill(other, from, to);
    scene_deliver(late.value);
    scene_deliver(held.value);
    scene_empty(other);
    scene_visit(slot, to, elsewhere);
    if (to != from)
        scene_visit(slot, more, from);
    /* both counts at Q - 1 and at Q */
    next_step_at(from, q - 1);
    next_step_at(to, q - 1);
    for (int i = 0; i < 2; i++) {
        scene_call(slot, from, to);
        scene_deliver(late.value);
        at_both(TICK, from, to, 1);
    }
    /* the object was not taken: the other passage gets it */
    struct answer taken = put(make(INVOKE, from, 0, unheld, handle_of(&t, other), 0, 0));
    scene_deliver(taken.value);
    scene_collect(taken.value);
    scene_count(slot, TIME_MAX);
    /* both counts where the station is down */
    at_both(CRASH, from, to, 0);
    scene_call(slot, from, to);
    scene_deliver(late.value);
    at_both(RECOVER, from, to, 0);
}

/* Opens a round of the kind, a refresh with that Q. */
static struct answer scene_round(int slot, int kind, uint32_t q)
{
    if (kind == KIND_REFRESH)
        return put(make(REFRESH, 0, 0, 0, handle_of(&t, slot), q, q));
    return on_handle(kind == KIND_TERMINATE ? TERMINATE : PREPARE, slot);
}

/* Tries a round of each kind. */
static void scene_each_round(int slot, uint32_t q)
{
    for (int kind = KIND_REFRESH; kind <= KIND_PREPARE; kind++)
        scene_round(slot, kind, q);
}

/* Round 1,000 by one of the steps that open a round, then 1,001 by each of them.
 * It is tried with the message table full and not, in a wrong state, and then at a station that is down and without the home visit; or at the end of the clock. */
static void scene_rounds(void)
{
    static uint32_t turn;
    int last = KIND_REFRESH + (int)(turn % 3); /* the kind of round 1,000 */
    bool at_the_end = turn % 2 == 1;
    bool stays_open = last == KIND_PREPARE && turn % 12 != 2; /* a prepare that closes lets no round be tried after it */
    turn++;
    int home = (int)chance(SITES), x = (home + 1 + (int)chance(SITES - 1)) % SITES;
    uint32_t refreshes = last == KIND_REFRESH ? ROUND_MAX : chance(ROUND_MAX);
    uint32_t prepares = last == KIND_PREPARE ? ROUND_MAX : chance(ROUND_MAX - refreshes);
    uint32_t q = at_the_end ? TIME_MAX - chance(2) : between(4000, 9000);
    uint32_t r = at_the_end ? TIME_MAX : q + chance(100);
    int slot = scene_begin(home, q, r), other = scene_begin(x, TIME_MAX, TIME_MAX);
    if (slot < 0 || other < 0)
        return;
    const struct round *round = &t.passage[slot].round;
    scene_visit(slot, home, x);
    for (uint32_t i = 0; i < refreshes && round->number < ROUND_MAX - 1; i++) {
        scene_round(slot, KIND_REFRESH, q);
        if (percent(2)) {
            scene_ask(slot, x);
            on_handle(CLOSE, slot);
            struct answer told = put(make(TELL, x, 0, 0, handle_of(&t, slot), 0, 0));
            if (told.number == 0 && percent(80))
                scene_deliver(told.value);
        }
    }
    for (uint32_t i = 0; i < prepares && round->number < ROUND_MAX - 1; i++)
        on_handle(PREPARE, slot);
    if (last == KIND_TERMINATE)
        on_handle(ABORT, slot);
    while (last == KIND_TERMINATE && round->number < ROUND_MAX - 1 && !sheet_is_full())
        on_handle(TERMINATE, slot);
    /* round 1,000 and all its deliveries with 32 messages in flight */
    scene_fill(other, x, x);
    scene_round(slot, last, q);
    scene_each_round(slot, q);
    put(make(ASK, x, 0, 0, handle_of(&t, slot), 0, 0));
    put(make(DROP, 0, 0, (int)lowest_call_of(other), 0, 0, 0));
    struct answer asked = put(make(ASK, x, 0, 0, handle_of(&t, slot), 0, 0));
    scene_deliver(asked.value);
    scene_deliver(asked.value);
    if (!stays_open) {
        on_handle(CLOSE, slot);
        struct answer told = put(make(TELL, x, 0, 0, handle_of(&t, slot), 0, 0));
        scene_deliver(told.value);
    }
    scene_empty(other);
    scene_each_round(slot, q);
    if (at_the_end) {
        next_step_at(home, CLOCK_MAX);
        scene_each_round(slot, q);
        put(make(TICK, home, 0, 0, 0, 1, 0));
        scene_each_round(slot, q);
        return;
    }
    on_handle(ABORT, slot);
    scene_each_round(slot, q);
    put(make(CRASH, home, 0, 0, 0, 0, 0));
    scene_each_round(slot, q);
    put(make(RECOVER, home, 0, 0, 0, 0, 0));
    next_step_at(home, t.visit[home][slot].r);
    put(make(SWEEP, home, 0, 0, 0, 0, 0));
    scene_each_round(slot, q);
}

/* How often a step, or a kind of delivery, was the one that brought a clock to 2,000,000,000. */
static unsigned long spent[RETIRE + 1 + NOT_A_DELIVERY], refused_there[RETIRE + 1 + NOT_A_DELIVERY];

/* Brings a late clock to one before the last moment, tries what is refused there, and spends the last moment on the step that was taken least. */
static void spend_last_moment(int site)
{
    if (t.site[site].down)
        put(make(RECOVER, site, 0, 0, 0, 0, 0));
    put(make(TICK, site, 0, 0, 0, CLOCK_MAX - t.site[site].clock + 1, 0));
    bool crashed = percent(10);
    if (t.site[site].clock + 1 + crashed < CLOCK_MAX)
        put(make(TICK, site, 0, 0, 0, CLOCK_MAX - t.site[site].clock - 1 - crashed, 0));
    if (crashed)
        put(make(CRASH, site, 0, 0, 0, 0, 0));
    struct record best = make(TICK, site, 0, 0, 0, 1, 0);
    unsigned long least = spent[TICK];
    for (int i = 0; i < 1500; i++) {
        struct record r = wild_record();
        struct answer answer = foresee(r);
        enum met met = what_is_met(&t, &r);
        int acts = met != NOT_A_DELIVERY && met != MET_EMPTY ? t.message[r.c].destination
            : r.code == DROP || r.code == RETIRE || r.code == DELIVER ? -1
            : named[r.code] & A && r.code != ASK && r.code != TELL ? r.a : t.passage[slot_of(r.h)].home;
        if (acts != site || (r.code == TICK && r.u != 1))
            continue;
        int row = met == NOT_A_DELIVERY ? r.code : RETIRE + 1 + (int)met;
        if (answer.number >= 8) {
            if (percent(refused_there[row] < 20 ? 30 : 1)) {
                refused_there[row]++;
                put(r);
            }
        } else if (answer.number == 0 && spent[row] < least) {
            least = spent[row];
            best = r;
        }
    }
    enum met met = what_is_met(&t, &best);
    spent[met == NOT_A_DELIVERY ? best.code : RETIRE + 1 + (int)met]++;
    put(best);
    put(best);
}

/* Takes a passage to one of thirteen states, most of them with a message on its way. */
static void scene_state(uint32_t state)
{
    int home = (int)chance(SITES), x = (home + 1 + (int)chance(SITES - 1)) % SITES;
    int slot = scene_begin(home, TIME_MAX, TIME_MAX), k = x * OBJECTS_PER_SITE;
    if (slot < 0)
        return;
    while (k < (x + 1) * OBJECTS_PER_SITE - 1 && t.object[k].holder != NOBODY)
        k++;
    struct answer call = put(make(INVOKE, home, 0, k, handle_of(&t, slot), 0, 0));
    if (state == 0 || call.number != 0) /* a call on its way */
        return;
    scene_deliver(call.value);
    if (state == 12) /* a reply on its way */
        return;
    scene_collect(call.value);
    if (state == 1) /* active */
        return;
    if (state == 2) { /* aborted */
        on_handle(ABORT, slot);
        return;
    }
    int kind = KIND_REFRESH + (int)(state % 3);
    if (kind == KIND_TERMINATE)
        on_handle(ABORT, slot);
    if (kind == KIND_REFRESH)
        put(make(REFRESH, 0, 0, 0, handle_of(&t, slot), TIME_MAX, TIME_MAX));
    else
        on_handle(kind == KIND_TERMINATE ? TERMINATE : PREPARE, slot);
    if (state < 6) { /* asked */
        put(make(ASK, x, 0, 0, handle_of(&t, slot), 0, 0));
        return;
    }
    if (state < 9) { /* answered; the answer is on its way, or has come */
        struct answer asked = put(make(ASK, x, 0, 0, handle_of(&t, slot), 0, 0));
        scene_deliver(asked.value);
        if (percent(30))
            scene_deliver(asked.value);
        return;
    }
    scene_ask(slot, x); /* told */
    on_handle(CLOSE, slot);
    put(make(TELL, x, 0, 0, handle_of(&t, slot), 0, 0));
}

/* Passages in every state and messages of every kind; then one clock goes to the last moments, a round brings the others there, and all that is refused there is tried. */
static void scene_late(void)
{
    static uint32_t state;
    int late = (int)chance(SITES);
    int slot = scene_begin(late, TIME_MAX, TIME_MAX);
    for (int site = 0; site < SITES; site++)
        if (site != late && percent(90)) {
            int m = scene_leave_reply(slot, late, site);
            if (m >= 0 && percent(60))
                scene_collect((uint32_t)m);
        }
    for (int i = 0; i < SLOTS - 2; i++)
        scene_state(state++ % 13);
    while (t.site[late].clock < CLOCK_MAX - 200 && !sheet_is_full())
        if (!done(make(TICK, late, 0, 0, 0, at_most(CLOCK_MAX - 200 - t.site[late].clock, TICK_MAX), 0)))
            break;
    if (percent(50)) {
        on_handle(ABORT, slot);
        on_handle(TERMINATE, slot);
    } else {
        put(make(REFRESH, 0, 0, 0, handle_of(&t, slot), TIME_MAX, TIME_MAX));
    }
    for (int site = 0; site < SITES; site++)
        scene_ask(slot, site);
    for (int i = 0; i < SITES; i++)
        if (t.site[(late + i) % SITES].clock > CLOCK_MAX / 2)
            spend_last_moment((late + i) % SITES);
    put_refused_deliveries();
    for (slot = 0; slot < SLOTS; slot++) {
        for (int code = REFRESH; code <= ABORT; code++)
            put(make(code, code == ASK || code == TELL ? (int)chance(SITES) : 0, 0, 0, handle_of(&t, slot), 0, 0));
        for (int site = 0; site < SITES; site++) {
            if (t.visit[site][slot].there)
                scene_call(slot, site, late);
            if (has_answered(&t.passage[slot].round, site))
                put(make(TELL, site, 0, 0, handle_of(&t, slot), 0, 0));
        }
    }
    for (int site = 0; site < SITES; site++) {
        put(make(BEGIN, site, 15, 0, 0, TIME_MAX, TIME_MAX));
        put(make(SWEEP, site, 0, 0, 0, 0, 0));
        put(make(CRASH, site, 0, 0, 0, 0, 0));
        put(make(RECOVER, site, 0, 0, 0, 0, 0));
    }
    p = &profiles[FAR_TIMES];
}

/* Calls that go round by stations that are not home, one of them late; a round that must not close before it is there. */
static void scene_round_trip(void)
{
    uint32_t q = between(300, 3000);
    int home = (int)chance(SITES);
    int x = (home + 1 + (int)chance(3)) % SITES, y = (home + 4 + (int)chance(4)) % SITES;
    int slot = scene_begin(home, t.site[home].clock + q, t.site[home].clock + q + chance(100));
    if (slot < 0)
        return;
    scene_visit(slot, home, x);
    scene_visit(slot, x, y);
    struct answer late = scene_call(slot, y, x);
    struct answer more = scene_call(slot, x, y);
    if (percent(30))
        scene_call(slot, y, home);
    int kind = (int)between(KIND_REFRESH, KIND_PREPARE);
    if (kind == KIND_TERMINATE)
        on_handle(ABORT, slot);
    uint32_t next = t.site[home].clock + q;
    if (kind == KIND_REFRESH)
        put(make(REFRESH, 0, 0, 0, handle_of(&t, slot), next, next + chance(50)));
    else
        on_handle(kind == KIND_TERMINATE ? TERMINATE : PREPARE, slot);
    scene_ask(slot, x);
    if (percent(50) && late.number == 0)
        scene_bring_in(late.value);
    scene_ask(slot, y);
    on_handle(CLOSE, slot);
    if (more.number == 0)
        scene_bring_in(more.value);
    if (late.number == 0)
        scene_bring_in(late.value);
    /* a second round counts again */
    if (kind == KIND_REFRESH)
        put(make(REFRESH, 0, 0, 0, handle_of(&t, slot), next, next + chance(50)));
    else
        on_handle(kind == KIND_TERMINATE ? TERMINATE : PREPARE, slot);
    scene_ask(slot, y);
    scene_ask(slot, x);
    on_handle(CLOSE, slot);
    for (int turn = 0; turn < 2; turn++) {
        put(make(TELL, x, 0, 0, handle_of(&t, slot), 0, 0));
        put(make(TELL, y, 0, 0, handle_of(&t, slot), 0, 0));
    }
    for (int m = 0; m < MESSAGES; m++)
        if (t.message[m].kind != EMPTY && percent(70))
            scene_bring_in((uint32_t)m);
}

/* Opens a round of the kind. */
static struct answer scene_open(int slot, int kind)
{
    uint32_t q, release;
    if (kind == KIND_REFRESH) {
        choose_times(t.passage[slot].home, &q, &release);
        return put(make(REFRESH, 0, 0, 0, handle_of(&t, slot), q, release));
    }
    if (kind == KIND_TERMINATE && t.passage[slot].status != ABORTED)
        on_handle(ABORT, slot);
    return on_handle(kind == KIND_TERMINATE ? TERMINATE : PREPARE, slot);
}

/* A phase 2 message that comes late: after a crash, a sweep, a newer round, or a second time. */
static void scene_stale(void)
{
    int home = (int)chance(SITES), x = (home + 1 + (int)chance(SITES - 1)) % SITES;
    uint32_t q = t.site[home].clock + 30 + chance(300);
    int slot = scene_begin(home, q, q + chance(100));
    if (slot < 0 || !scene_visit(slot, home, x))
        return;
    static uint32_t turn;
    int kind = KIND_REFRESH + (int)(turn % 3);
    uint32_t event = turn++ / 3 % 6;
    scene_open(slot, kind);
    scene_ask(slot, x);
    on_handle(CLOSE, slot);
    struct answer told = put(make(TELL, x, 0, 0, handle_of(&t, slot), 0, 0));
    struct answer again = put(make(TELL, x, 0, 0, handle_of(&t, slot), 0, 0));
    if (told.number != 0 || again.number != 0)
        return;
    switch (event) {
    case 0:
        put(make(CRASH, x, 0, 0, 0, 0, 0));
        scene_deliver(told.value);
        put(make(RECOVER, x, 0, 0, 0, 0, 0));
        break;
    case 1:
        if (t.visit[x][slot].there && t.visit[x][slot].r < t.site[x].clock + 10 * TICK_MAX)
            next_step_at(x, t.visit[x][slot].r);
        put(make(SWEEP, x, 0, 0, 0, 0, 0));
        break;
    case 2:
        scene_open(slot, kind == KIND_REFRESH ? (int)between(KIND_REFRESH, KIND_PREPARE) : kind);
        scene_ask(slot, x);
        break;
    case 3:
        scene_call(slot, x, home);
        scene_call(slot, home, x);
        break;
    default:
        break;
    }
    scene_deliver(told.value);
    put(make(INVOKE, x, 0, x * OBJECTS_PER_SITE, handle_of(&t, slot), 0, 0));
    if (percent(50))
        put(make(CRASH, x, 0, 0, 0, 0, 0));
    if (percent(80) && t.site[x].down)
        put(make(RECOVER, x, 0, 0, 0, 0, 0));
    scene_deliver(again.value);
    put(make(SWEEP, x, 0, 0, 0, 0, 0));
}

/* A passage through many stations: calls from any of them to any, then rounds over all of them, with a fault now and then. */
static void scene_tour(void)
{
    uint32_t faults = percent(50) ? 0 : between(1, 8);
    uint32_t stations = between(2, SITES);
    int home = (int)chance(SITES);
    uint32_t q = t.site[home].clock + 100 + chance(3000);
    int slot = scene_begin(home, q, q + chance(500));
    if (slot < 0)
        return;
    for (uint32_t round = between(1, 4); round > 0 && !sheet_is_full(); round--) {
        for (uint32_t calls = between(stations, 3 * stations); calls > 0; calls--) {
            int from = (int)chance(SITES);
            for (int i = 0; i < SITES && !t.visit[from][slot].there; i++)
                from = (from + 1) % SITES;
            int object = (home + (int)chance(stations)) % SITES * OBJECTS_PER_SITE;
            object += (int)chance(OBJECTS_PER_SITE);
            struct answer call = put(make(INVOKE, from, 1, object, handle_of(&t, slot), chance(VALUE_MAX + 1), 0));
            if (call.number == 0 && !percent(faults))
                scene_bring_in(call.value);
            if (percent(faults))
                walk(records + between(1, 6));
        }
        for (int m = 0; m < MESSAGES && percent(80); m++)
            if (t.message[m].kind == CALL && slot_of(t.message[m].handle) == slot)
                scene_bring_in((uint32_t)m);
        int kind = round > 1 && t.passage[slot].status == ACTIVE ? KIND_REFRESH
            : percent(60) && t.passage[slot].status != ABORTED ? KIND_PREPARE : KIND_TERMINATE;
        if (scene_open(slot, kind).number != 0)
            return;
        int first = (int)chance(SITES);
        for (int i = 0; i < SITES; i++)
            if (t.visit[(first + i) % SITES][slot].there && !percent(faults))
                scene_ask(slot, (first + i) % SITES);
        if (on_handle(CLOSE, slot).number != 0)
            continue;
        first = (int)chance(SITES);
        for (int i = 0; i < SITES; i++) {
            struct answer told = put(make(TELL, (first + i) % SITES, 0, 0, handle_of(&t, slot), 0, 0));
            if (told.number == 0 && !percent(faults))
                scene_deliver(told.value);
            if (percent(faults))
                walk(records + between(1, 6));
        }
    }
    for (int site = 0; site < SITES; site++)
        if (t.visit[site][slot].there && percent(90)) {
            if (t.visit[site][slot].r < t.site[site].clock + 10 * TICK_MAX)
                next_step_at(site, t.visit[site][slot].r - chance(2));
            put(make(SWEEP, site, 0, 0, 0, 0, 0));
        }
    on_handle(RETIRE, slot);
    scene_empty(slot);
    on_handle(RETIRE, slot);
}

/* Replies that come late: after Q, an abort, a commit, a crash of the caller or of the station that replied, a sweep, or a change of the object. */
static void scene_late_replies(void)
{
    static const int path[][2] = { { 0, 1 }, { 0, 0 }, { 1, 2 }, { 1, 1 }, { 1, 0 }, { 0, 2 } };
    enum { REPLIES = sizeof path / sizeof path[0] };
    static uint32_t turn;
    int home = (int)chance(SITES), x = (home + 1 + (int)chance(3)) % SITES, y = (home + 4 + (int)chance(4)) % SITES;
    int station[] = { home, x, y }, reply[REPLIES];
    uint32_t clock = max_of(t.site[home].clock, max_of(t.site[x].clock, t.site[y].clock));
    uint32_t q = clock + 40 + chance(40), event = turn++ % 7;
    int slot = scene_begin(home, q, q + between(1, 20));
    if (slot < 0 || !scene_visit(slot, home, x))
        return;
    for (int i = 0; i < REPLIES; i++)
        reply[i] = scene_leave_reply(slot, station[path[i][0]], station[path[i][1]]);
    for (int i = 0; i < REPLIES; i++)
        if (reply[i] < 0)
            return;
    switch (event) {
    case 0: /* at Q - 1, at Q and past it, at home and away */
        for (int i = 0; i < 2; i++) {
            next_step_at(station[i], q - 1);
            scene_deliver((uint32_t)reply[3 * i]);
            scene_deliver((uint32_t)reply[3 * i + 1]);
        }
        break;
    case 1: /* while it commits, and when it has committed */
        scene_open(slot, KIND_PREPARE);
        scene_deliver((uint32_t)reply[0]);
        scene_ask(slot, x);
        scene_ask(slot, y);
        scene_deliver((uint32_t)reply[2]);
        on_handle(CLOSE, slot);
        scene_deliver((uint32_t)reply[1]);
        for (int i = 1; i < 3; i++) {
            struct answer told = put(make(TELL, station[i], 0, 0, handle_of(&t, slot), 0, 0));
            scene_deliver(told.value);
        }
        break;
    case 2: /* the caller, home or not, is down and comes up again */
    case 3: {
        int from = station[event - 2];
        put(make(CRASH, from, 0, 0, 0, 0, 0));
        for (int i = 0; i < REPLIES; i++)
            scene_deliver((uint32_t)reply[i]);
        put(make(DROP, 0, 0, reply[event == 2 ? 5 : 4], 0, 0, 0));
        put(make(RECOVER, from, 0, 0, 0, 0, 0));
        break;
    }
    case 4: /* the station that replied is down */
        put(make(CRASH, x, 0, 0, 0, 0, 0));
        scene_deliver((uint32_t)reply[0]);
        put(make(CRASH, y, 0, 0, 0, 0, 0));
        put(make(RECOVER, x, 0, 0, 0, 0, 0));
        scene_deliver((uint32_t)reply[2]);
        put(make(RECOVER, y, 0, 0, 0, 0, 0));
        break;
    default: /* aborted and swept; then another passage writes over what was read */
        on_handle(ABORT, slot);
        scene_deliver((uint32_t)reply[0]);
        for (int i = 0; i < 3; i++) {
            next_step_at(station[i], t.visit[station[i]][slot].r);
            put(make(SWEEP, station[i], 0, 0, 0, 0, 0));
        }
        if (event == 6) {
            int object = y * OBJECTS_PER_SITE + slot % OBJECTS_PER_SITE;
            int other = scene_begin(y, t.site[y].clock + 20, t.site[y].clock + 30);
            struct answer call = put(make(INVOKE, y, 1, object, handle_of(&t, other < 0 ? 0 : other), between(1, VALUE_MAX), 0));
            if (call.number == 0)
                scene_bring_in(call.value);
        }
    }
    /* the rest of them, one after the other, and each time a retire */
    for (int i = 0; i < REPLIES; i++) {
        on_handle(RETIRE, slot);
        scene_collect((uint32_t)reply[i]);
    }
    on_handle(RETIRE, slot);
}

/* 32 replies that nobody collects: no call, question or word goes out until one of them is taken away. */
static void scene_uncollected(void)
{
    int home = (int)chance(SITES), x = (home + 1) % SITES, y = (home + 2) % SITES;
    uint32_t q = between(5000, 60000), r = q + chance(5000);
    int one = scene_begin(home, q, r), two = scene_begin(x, q, r), three = scene_begin(y, q, r);
    if (one < 0 || two < 0 || three < 0)
        return;
    scene_visit(one, home, x);
    put(make(REFRESH, 0, 0, 0, handle_of(&t, one), q, r));
    scene_ask(one, x);
    on_handle(CLOSE, one);
    on_handle(PREPARE, two);
    while (lowest_empty_message(&t) < MESSAGES - 1 && scene_leave_reply(three, y, (y + (int)chance(4)) % SITES) >= 0)
        continue;
    for (int turn = 0; turn < 3; turn++) {
        /* with 31 of them each goes out, and the call makes 32 */
        struct answer asked = put(make(ASK, home, 0, 0, handle_of(&t, two), 0, 0));
        put(make(DROP, 0, 0, (int)asked.value, 0, 0, 0));
        struct answer told = put(make(TELL, x, 0, 0, handle_of(&t, one), 0, 0));
        put(make(DROP, 0, 0, (int)told.value, 0, 0, 0));
        scene_leave_reply(three, y, x);
        scene_call(three, y, x);
        put(make(ASK, home, 0, 0, handle_of(&t, two), 0, 0));
        put(make(TELL, x, 0, 0, handle_of(&t, one), 0, 0));
        int code = percent(70) ? DELIVER : DROP;
        put(make(code, 0, 0, (int)chance(MESSAGES), 0, 0, 0));
    }
    scene_empty(three);
}

/* A reply with the latest stamp: its call came in at the last clock before the largest Q.
 * Then the caller's clock goes to its end, where the last moment goes to a reply or to a crash, while others wait. */
static void scene_latest_stamp(void)
{
    static uint32_t turn;
    int home = (int)chance(SITES), x = (home + 1 + (int)chance(SITES - 1)) % SITES;
    int slot = scene_begin(home, TIME_MAX, TIME_MAX);
    if (slot < 0)
        return;
    int waits[3];
    for (int i = 0; i < 3; i++) {
        waits[i] = scene_leave_reply(slot, home, i == 2 ? home : x);
        if (waits[i] < 0)
            return;
    }
    struct answer call = scene_call(slot, home, x);
    next_step_at(x, TIME_MAX - 1);
    scene_deliver(call.value);
    scene_deliver(call.value);
    put(make(TICK, home, 0, 0, 0, 1, 0));
    next_step_at(home, CLOCK_MAX);
    if (turn++ % 2 == 0)
        scene_deliver((uint32_t)waits[0]);
    else
        put(make(CRASH, home, 0, 0, 0, 0, 0));
    for (int i = 0; i < 3; i++)
        scene_deliver((uint32_t)waits[i]);
    scene_collect((uint32_t)waits[1]);
}

/* ------------------------------------------------------------- whole sheets */

/* Sets the heading before the records and the trailer after them. Gives the length. */
static size_t finish(size_t heading)
{
    size_t length = RECORD * records;
    if (heading + length + TRAILER > SHEET_MAX)
        heading = SHEET_MAX - TRAILER - length;
    memmove(bytes + heading, bytes, length);
    for (size_t i = 0; i < heading; i++)
        bytes[i] = (uint8_t)chance(256);
    put_number(bytes + heading + length, (uint32_t)length, 4);
    memcpy(bytes + heading + length + 4, "PASS", 4);
    return heading + length + TRAILER;
}

static void flip_a_bit(size_t place) { bytes[place] ^= (uint8_t)(1u << chance(8)); }

/* Cuts, damages or swells a finished sheet, each way in turn. */
static size_t damage(size_t length)
{
    static uint32_t turn;
    size_t trailer = length - TRAILER;
    switch (turn++ % 14) {
    case 0: /* under 8 bytes */
        memmove(bytes, bytes + length - 8, 8);
        return chance(8);
    case 1: /* 8 bytes and no record */
        put_number(bytes, 0, 4);
        memcpy(bytes + 4, "PASS", 4);
        return 8;
    case 2: /* the mark wrong in one bit */
        flip_a_bit(trailer + 4 + chance(4));
        return length;
    case 3: /* the distance not a multiple of 16 */
        put_number(bytes + trailer, (uint32_t)trailer - between(1, 15), 4);
        return length;
    case 4: /* the distance 16 more than there is */
        put_number(bytes + trailer, (uint32_t)(trailer / 16 * 16 + 16), 4);
        return length;
    case 5: /* a distance that is nearly 2^32 */
        put_number(bytes + trailer, 0u - 16 * between(1, 4096), 4);
        return length;
    case 6: /* some of the records are heading */
        put_number(bytes + trailer, 16 * chance((uint32_t)(trailer / 16 + 1)), 4);
        return length;
    case 7: /* the end cut off */
        return length - at_most((uint32_t)length, between(1, 40));
    case 8: /* one byte more than 65,536, or many, the trailer at the end */
    case 9: {
        size_t longer = percent(50) ? SHEET_MAX + 1 : SHEET_MAX + between(2, 20000);
        memset(bytes + length, 0, longer - length);
        put_number(bytes + longer - 8, 16, 4);
        memcpy(bytes + longer - 4, "PASS", 4);
        return longer;
    }
    case 10: { /* exactly 65,536 bytes, the rest is heading */
        size_t shift = SHEET_MAX - length;
        memmove(bytes + shift, bytes, length);
        for (size_t i = 0; i < shift; i++)
            bytes[i] = (uint8_t)chance(256);
        return SHEET_MAX;
    }
    case 11: /* any bytes, with a trailer that fits */
        for (size_t i = 0; i < trailer; i++)
            bytes[i] = (uint8_t)(percent(60) ? chance(18) : chance(256));
        put_number(bytes + trailer, (uint32_t)(trailer / 16 * 16), 4);
        return length;
    case 12: /* any bytes at all */
        for (size_t i = 0; i < length; i++)
            bytes[i] = (uint8_t)chance(256);
        return length;
    default: /* some bytes of the records changed */
        for (uint32_t i = between(1, 20); i > 0; i--)
            flip_a_bit(chance((uint32_t)trailer + 1));
        return length;
    }
}

/* Each hundred sheets have the same share of each scene. */
static size_t make_sheet(unsigned long place)
{
    start(&t);
    records = 0;
    limit = RECORDS_MAX;
    p = &profiles[chance(PROFILES)];
    uint32_t dice = (uint32_t)(place % 100 * 37 % 100);
    if (dice < 3) {
        scene_late();
    } else if (dice < 5) {
        scene_calls();
    } else if (dice < 7) {
        scene_rounds();
    } else if (dice < 10) {
        scene_generations();
    } else if (dice < 14) {
        scene_full();
    } else if (dice < 40) {
        walk(chance(80));
        for (uint32_t i = between(2, 8); i > 0; i--) {
            switch (chance(5)) {
            case 0: scene_round_trip(); break;
            case 1: scene_stale(); break;
            case 2: scene_late_replies(); break;
            default: scene_tour(); break;
            }
            walk(records + chance(20));
        }
    } else if (dice < 52) {
        walk(between(1, 60));
        return damage(finish(chance(40)));
    } else if (dice < 54) {
        walk(RECORDS_MAX);
    } else if (dice < 56) {
        scene_uncollected();
    } else if (dice < 57) {
        scene_latest_stamp();
    } else if (dice < 60) {
        for (uint32_t i = 0; i < 7; i++) {
            scene_late_replies();
            walk(records + chance(20));
        }
    }
    walk(records + between(50, 700));
    return finish(percent(70) ? 0 : chance(100));
}

int main(int argc, char **argv)
{
    if (argc != 4) {
        fprintf(stderr, "usage: generate SEED N DIR\n");
        return 2;
    }
    uint64_t seed = strtoull(argv[1], NULL, 10);
    unsigned long count = strtoul(argv[2], NULL, 10);
    for (unsigned long i = 0; i < count; i++) {
        char name[4096];
        int wanted = snprintf(name, sizeof name, "%s/%05lu.sheet", argv[3], i);
        if (wanted < 0 || (size_t)wanted >= sizeof name) {
            fprintf(stderr, "generate: the folder's name is too long\n");
            return 2;
        }
        chance_state = seed * 0x9e3779b97f4a7c15u + i * 0xd1342543de82ef95u + 1;
        size_t length = make_sheet(i);
        FILE *file = fopen(name, "wb");
        if (file == NULL || fwrite(bytes, 1, length, file) != length || fclose(file) != 0) {
            perror(name);
            return 2;
        }
    }
    return 0;
}

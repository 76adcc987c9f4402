/* ask_clearance: writes sheets, lists and requests for the comparison of ./clearance with the witness.
 *
 *   ask_clearance SEED COUNT FOLDER    writes FOLDER/1.sheet, 1.station, 1.company, 1.request and so on to COUNT; the same seed and count give the same bytes
 *
 * Each case is aimed at one answer: a verdict, a refused step, an own refusal, or a line for what is not read.
 * The sheet is made for it, and the witness foresees what the request gets; where that is another answer, a new try is made.
 * Each two hundred cases have the same share of each answer.
 */
#define CLEARANCE_NO_MAIN
#include "clearance.c"

#include <stdlib.h>

/* ------------------------------------------------------------------ chance */

static uint64_t chance_state;

/* splitmix64. No expression below asks for chance twice in an order that C leaves open, so that every compiler gives the same files. */
static uint64_t chance64(void)
{
    uint64_t z = chance_state += 0x9e3779b97f4a7c15u;
    z = (z ^ z >> 30) * 0xbf58476d1ce4e5b9u;
    z = (z ^ z >> 27) * 0x94d049bb133111ebu;
    return z ^ z >> 31;
}

/* 0..n-1; 0 for n = 0 */
static uint32_t chance(uint32_t n) { return n == 0 ? 0 : (uint32_t)(chance64() % n); }

/* low..high */
static uint32_t between(uint32_t low, uint32_t high) { return low + chance(high - low + 1); }

static bool percent(uint32_t p) { return chance(100) < p; }

/* ------------------------------------------------------- the sheet at hand */

enum { RECORDS_MAX = (SHEET_MAX - TRAILER) / RECORD };

static struct tables t;
static uint8_t sheet[2 * SHEET_MAX];
static size_t records;

static void put_number(uint8_t *at, uint32_t number, int count)
{
    for (int i = 0; i < count; i++)
        at[i] = (uint8_t)(number >> 8 * i);
}

/* Writes the record at the end of the sheet and runs it. A full sheet takes no more. */
static struct answer put(struct record r)
{
    if (records == RECORDS_MAX)
        return refuse(99, "the sheet is full");
    uint8_t *at = sheet + RECORD * records++;
    at[0] = r.code;
    at[1] = r.a;
    at[2] = r.b;
    at[3] = r.c;
    put_number(at + 4, r.h, 2);
    put_number(at + 6, r.zero, 2);
    put_number(at + 8, r.u, 4);
    put_number(at + 12, r.v, 4);
    return run_record(&t, &r);
}

static bool done(struct record r) { return put(r).number == 0; }

/* What the machine would say. */
static struct answer foresee(struct record r)
{
    static struct tables copy;
    copy = t;
    return run_record(&copy, &r);
}

static uint32_t latest_clock(void)
{
    uint32_t clock = 0;
    for (int s = 0; s < SITES; s++)
        clock = max_of(clock, t.site[s].clock);
    return clock;
}

/* A passage slot that is free, or in use; -1 if there is none. */
static int slot_that(bool is_free)
{
    int slot = (int)chance(SLOTS);
    for (int i = 0; i < SLOTS; i++, slot = (slot + 1) % SLOTS)
        if ((t.passage[slot].status == FREE) == is_free)
            return slot;
    return -1;
}

/* A station that is up, or down; -1 if there is none. */
static int site_that(bool is_down)
{
    int site = (int)chance(SITES);
    for (int i = 0; i < SITES; i++, site = (site + 1) % SITES)
        if (t.site[site].down == is_down)
            return site;
    return -1;
}

/* ------------------------------------------------------------------- scenes */

/* The widths of a case: as in a lock, all at the limit, all small, or any. */
static uint32_t widths;

static uint32_t any_width(void)
{
    switch (widths) {
    case 0: return VALUE_MAX;
    case 1: return between(1, 12);
    case 2: return percent(10) ? 0 : between(1, VALUE_MAX);
    default: return percent(5) ? 0 : between(9000, 14000);
    }
}

/* How far a crew goes. */
enum stage { CALLED, WRITTEN, LEFT_ABORTED, PREPARED, ASKED, CLOSED, TOLD, RETIRED };

/* Takes the reply out of a message slot: mostly it is delivered, now and then dropped. */
static void collect(uint32_t m)
{
    if (percent(10) || !done(make(DELIVER, 0, 0, (int)m, 0, 0, 0)))
        put(make(DROP, 0, 0, (int)m, 0, 0, 0));
}

/* A crew begins a passage, calls some objects and goes on to the stage. A read holds its object like a write.
 * It collects its replies; one that will not be retired leaves some. */
static void crew(int home, int slot, int calls, enum stage stage)
{
    uint32_t q = latest_clock() + between(120, 900), m;
    if (home < 0 || slot < 0 || q > TIME_MAX - 100)
        return;
    struct answer begun = put(make(BEGIN, home, slot, 0, 0, q, q + between(10, 90)));
    if (begun.number != 0)
        return;
    uint32_t h = begun.value;
    int whole = percent(50) ? (int)chance(SITES) : -1; /* one station's objects, or any */
    for (int i = 0; i < calls; i++) {
        int object = whole >= 0 ? 4 * whole + (int)chance(4) : (int)chance(OBJECTS);
        bool write = percent(85);
        struct answer called = put(make(INVOKE, home, write, object, h, write ? any_width() : 0, 0));
        if (called.number != 0 || (stage == CALLED && percent(60)))
            continue;
        if (!done(make(DELIVER, 0, 0, (int)called.value, 0, 0, 0)))
            put(make(DROP, 0, 0, (int)called.value, 0, 0, 0));
        else if (stage == RETIRED || percent(80))
            collect(called.value);
    }
    if (stage == LEFT_ABORTED)
        put(make(ABORT, 0, 0, 0, h, 0, 0));
    if (stage < PREPARED || !done(make(PREPARE, 0, 0, 0, h, 0, 0)) || stage == PREPARED)
        return;
    for (int s = 0; s < SITES; s++)
        if (s != home && t.visit[s][slot].there) {
            m = put(make(ASK, s, 0, 0, h, 0, 0)).value;
            put(make(DELIVER, 0, 0, (int)m, 0, 0, 0));
            if (stage == ASKED && percent(40))
                return;
            put(make(DELIVER, 0, 0, (int)m, 0, 0, 0));
        }
    if (stage == ASKED || !done(make(CLOSE, 0, 0, 0, h, 0, 0)))
        return;
    for (int s = 0; s < SITES; s++)
        if (s != home && t.visit[s][slot].there && (stage > CLOSED || percent(30))) {
            m = put(make(TELL, s, 0, 0, h, 0, 0)).value;
            put(make(DELIVER, 0, 0, (int)m, 0, 0, 0));
        }
    if (stage == RETIRED)
        put(make(RETIRE, 0, 0, 0, h, 0, 0));
}

/* A crew that calls a few objects, commits and is retired. */
static void crew_commits(void)
{
    int home = site_that(false), slot = slot_that(true);
    crew(home, slot, (int)between(1, 8), RETIRED);
}

/* A crew that stops on its way and leaves objects held, most often. */
static void crew_stops(void)
{
    enum stage stage = (enum stage)chance(RETIRED);
    int home = site_that(false), slot = slot_that(true);
    crew(home, slot, (int)between(1, 6), stage);
}

/* One passage writes to all 32 objects and commits. */
static void crew_of_all(void)
{
    int home = (int)chance(SITES), slot = (int)chance(SLOTS);
    uint32_t q = latest_clock() + 200, m;
    struct answer begun = put(make(BEGIN, home, slot, 0, 0, q, q + 10));
    if (begun.number != 0)
        return;
    for (int k = 0; k < OBJECTS; k++) {
        m = put(make(INVOKE, home, 1, k, begun.value, any_width(), 0)).value;
        put(make(DELIVER, 0, 0, (int)m, 0, 0, 0));
        collect(m);
    }
    put(make(PREPARE, 0, 0, 0, begun.value, 0, 0));
    for (int turn = 0; turn < 2; turn++) {
        for (int s = 0; s < SITES; s++) {
            if (s == home)
                continue;
            m = put(make(turn == 0 ? ASK : TELL, s, 0, 0, begun.value, 0, 0)).value;
            put(make(DELIVER, 0, 0, (int)m, 0, 0, 0));
            if (turn == 0)
                put(make(DELIVER, 0, 0, (int)m, 0, 0, 0));
        }
        if (turn == 0)
            put(make(CLOSE, 0, 0, 0, begun.value, 0, 0));
    }
    put(make(RETIRE, 0, 0, 0, begun.value, 0, 0));
}

/* Uses a slot again and again, so that its generation moves on, past 255 if often enough. */
static void use_again(int slot, int times)
{
    while (times-- > 0) {
        int home = site_that(false);
        if (home < 0)
            return;
        uint32_t q = t.site[home].clock + 3;
        struct answer begun = put(make(BEGIN, home, slot, 0, 0, q, q));
        if (begun.number != 0)
            return;
        put(make(PREPARE, 0, 0, 0, begun.value, 0, 0));
        put(make(CLOSE, 0, 0, 0, begun.value, 0, 0));
        put(make(RETIRE, 0, 0, 0, begun.value, 0, 0));
    }
}

/* Calls of one passage stay on their way until so many messages are in flight; or they come in, and their replies stay. */
static void fill(int messages)
{
    int home = site_that(false), slot = slot_that(true);
    if (home < 0 || slot < 0)
        return;
    uint32_t q = latest_clock() + 500;
    struct answer begun = put(make(BEGIN, home, slot, 0, 0, q, q + 10));
    if (begun.number != 0)
        return;
    uint32_t replies = percent(50) ? 0 : percent(50) ? 40 : 100;
    while (lowest_empty_message(&t) < messages) {
        struct answer called = put(make(INVOKE, home, 0, (int)chance(OBJECTS), begun.value, 0, 0));
        if (called.number != 0)
            return;
        if (percent(replies))
            put(make(DELIVER, 0, 0, (int)called.value, 0, 0, 0));
    }
}

/* All 32 messages in flight, then one of them dropped. */
static void fill_but_one(void)
{
    fill(MESSAGES);
    put(make(DROP, 0, 0, (int)chance(MESSAGES), 0, 0, 0));
}

/* Brings a station's clock to a time. */
static void tick_to(int site, uint32_t time)
{
    while (t.site[site].clock < time)
        if (!done(make(TICK, site, 0, 0, 0, min_of(time - t.site[site].clock, TICK_MAX), 0)))
            return;
}

/* Any step with likely fields. */
static struct record any_step(void)
{
    int slot = slot_that(false), site = (int)chance(SITES), m = (int)chance(4);
    if (slot < 0)
        slot = (int)chance(SLOTS);
    uint32_t h = handle_of(&t, slot), q = latest_clock() + between(2, 150);
    bool write = percent(60);
    int object = (int)chance(OBJECTS);
    switch (chance(26)) {
    case 0: return make(TICK, site, 0, 0, 0, between(1, 40), 0);
    case 1: case 2: slot = (int)chance(SLOTS); return make(BEGIN, site, slot, 0, 0, q, q + chance(100));
    case 3: case 4: case 5: case 6: return make(INVOKE, site, write, object, h, write ? any_width() : 0, 0);
    case 7: return make(REFRESH, 0, 0, 0, h, q, q + chance(100));
    case 8: return make(TERMINATE, 0, 0, 0, h, 0, 0);
    case 9: return make(PREPARE, 0, 0, 0, h, 0, 0);
    case 10: case 11: return make(ASK, site, 0, 0, h, 0, 0);
    case 12: case 13: return make(CLOSE, 0, 0, 0, h, 0, 0);
    case 14: case 15: return make(TELL, site, 0, 0, h, 0, 0);
    case 16: return make(ABORT, 0, 0, 0, h, 0, 0);
    case 17: return make(DROP, 0, 0, m, 0, 0, 0);
    case 18: return make(SWEEP, site, 0, 0, 0, 0, 0);
    case 19: return make(percent(15) ? CRASH : RECOVER, site, 0, 0, 0, 0, 0);
    case 20: return make(RETIRE, 0, 0, 0, h, 0, 0);
    default: return make(DELIVER, 0, 0, m, 0, 0, 0);
    }
}

/* Steps that the tables accept, and a refused one now and then. */
static void walk(uint32_t steps)
{
    while (steps-- > 0)
        for (int tries = 0; tries < 20; tries++) {
            struct record r = any_step();
            bool good = foresee(r).number == 0;
            if (good || percent(4))
                put(r);
            if (good)
                break;
        }
}

/* Something that happens at the stations before the check. */
static void disturb(void)
{
    switch (chance(10)) {
    case 0: crew_stops(); crew_stops(); break;
    case 1: fill((int)between(1, 12)); break;
    case 2: fill_but_one(); break;
    case 3: put(make(CRASH, (int)chance(SITES), 0, 0, 0, 0, 0)); break;
    case 4: {
        int site = (int)chance(SITES);
        put(make(CRASH, site, 0, 0, 0, 0, 0));
        put(make(RECOVER, site, 0, 0, 0, 0, 0));
        break;
    }
    case 5: {
        int site = (int)chance(SITES);
        tick_to(site, percent(10) ? TIME_MAX - between(1, 100) : t.site[site].clock + between(1, 400));
        break;
    }
    case 6: {
        int slot = (int)chance(SLOTS);
        use_again(slot, percent(10) ? (int)between(250, 300) : (int)between(1, 9));
        break;
    }
    case 7: walk(between(5, 60)); break;
    case 8: put(make(SWEEP, (int)chance(SITES), 0, 0, 0, 0, 0)); break;
    default: crew_stops(); break;
    }
}

/* Widths at the stations, and what else happens there. */
static void scene(uint32_t most)
{
    start(&t);
    records = 0;
    widths = chance(12);
    if (percent(25))
        crew_of_all();
    else
        for (uint32_t i = between(1, 4); i > 0; i--)
            crew_commits();
    for (uint32_t i = chance(most + 1); i > 0; i--)
        disturb();
}

/* ----------------------------------------------------------------- requests */

enum { PLAN_MAX = 64 };

/* What is to be asked; more objects than the checker takes, if wanted. */
struct plan {
    uint32_t beam, margin, home, slot, quiesce, release;
    uint32_t object[PLAN_MAX];
    int objects;
};

static bool has(const struct plan *plan, uint32_t object)
{
    for (int i = 0; i < plan->objects; i++)
        if (plan->object[i] == object)
            return true;
    return false;
}

/* Adds an object that is not in the list yet. */
static void add(struct plan *plan, uint32_t object)
{
    if (!has(plan, object) && plan->objects < LIST_MAX)
        plan->object[plan->objects++] = object;
}

static bool can_be_read(uint32_t object, bool written)
{
    return t.object[object].holder == NOBODY && !t.site[object / 4].down && (!written || t.object[object].value > 0);
}

/* Up to eight objects: those at one station, at home, at every station, with object 31, or any. */
static void choose_objects(struct plan *plan, bool written)
{
    uint32_t shape = chance(8), wanted = percent(15) ? 8 : percent(15) ? 1 : between(1, 8), site = chance(SITES);
    if (shape == 1)
        site = plan->home;
    if (shape == 2)
        wanted = 8;
    if (shape == 3 && (!written || can_be_read(OBJECTS - 1, true)))
        add(plan, OBJECTS - 1);
    for (int tries = 0; tries < 200 && plan->objects < (int)wanted; tries++) {
        uint32_t object = shape <= 1 ? 4 * site + chance(4) : shape == 2 ? 4 * (uint32_t)plan->objects + chance(4) : chance(OBJECTS);
        if (can_be_read(object, written) || (!written && percent(5)))
            add(plan, object);
    }
    if (shape == 2)
        for (int i = plan->objects - 1; i > 0; i--) {
            uint32_t j = chance((uint32_t)i + 1), object = plan->object[i];
            plan->object[i] = plan->object[j];
            plan->object[j] = object;
        }
}

/* A request that the tables should let through. */
static struct plan good_plan(bool written)
{
    struct plan plan;
    memset(&plan, 0, sizeof plan);
    int home = percent(10) ? SITES - 1 : site_that(false), slot = percent(10) ? SLOTS - 1 : slot_that(true);
    plan.home = (uint32_t)(home < 0 ? 0 : home);
    plan.slot = (uint32_t)(slot < 0 ? 0 : slot);
    plan.beam = percent(20) ? 1 : between(1, 12000);
    plan.margin = percent(20) ? 0 : chance(600);
    choose_objects(&plan, written);
    uint32_t clock = latest_clock();
    plan.quiesce = percent(10) || clock > TIME_MAX - 1000 ? TIME_MAX : clock + between(40, 600);
    plan.release = percent(20) ? plan.quiesce : min_of(plan.quiesce + chance(200), TIME_MAX);
    return plan;
}

/* ---- the request as words, before they are joined */

enum { WORD_MAX = 48, FIXED = 13 };

static char word[FIXED + PLAN_MAX + 4][WORD_MAX];
static int words;

static void put_word(const char *text) { snprintf(word[words++], WORD_MAX, "%s", text); }

/* A number, now and then with zeros before it. */
static void put_digits(uint32_t number)
{
    static const char zeros[] = "000000000000000000000000";
    int before = percent(94) ? 0 : percent(70) ? (int)between(1, 3) : (int)between(8, 24);
    snprintf(word[words++], WORD_MAX, "%.*s%u", before, zeros, (unsigned)number);
}

static void say_plan(const struct plan *plan)
{
    words = 0;
    put_word("beam");
    put_digits(plan->beam);
    put_word("margin");
    put_digits(plan->margin);
    put_word("home");
    put_digits(plan->home);
    put_word("slot");
    put_digits(plan->slot);
    put_word("quiesce");
    put_digits(plan->quiesce);
    put_word("release");
    put_digits(plan->release);
    put_word("objects");
    for (int i = 0; i < plan->objects; i++)
        put_digits(plan->object[i]);
}

static uint8_t request[8192];
static size_t request_length;

static void join_words(void)
{
    request_length = 0;
    for (int i = 0; i < words; i++) {
        if (i > 0)
            request[request_length++] = ' ';
        memcpy(request + request_length, word[i], strlen(word[i]));
        request_length += strlen(word[i]);
    }
}

static void insert_word(int at, const char *text)
{
    memmove(word[at + 1], word[at], (size_t)(words - at) * WORD_MAX);
    snprintf(word[at], WORD_MAX, "%s", text);
    words++;
}

static void remove_word(int at)
{
    memmove(word[at], word[at + 1], (size_t)(words - at - 1) * WORD_MAX);
    words--;
}

/* The place of a number of the request: one of the six, or an object. */
static int any_number(void)
{
    int numbers = 6 + words - FIXED, i = (int)chance((uint32_t)numbers);
    return i < 6 ? 2 * i + 1 : FIXED + i - 6;
}

/* Puts a text before a word, or behind it. */
static void glue(int at, const char *before, const char *behind)
{
    char text[2 * WORD_MAX];
    snprintf(text, sizeof text, "%s%s%s", before, word[at], behind);
    snprintf(word[at], WORD_MAX, "%.*s", WORD_MAX - 1, text);
}

/* Spoils the words, each way in turn. No byte is 0, so that they can be said as arguments. */
static void spoil_words(void)
{
    static const char *const odd[] = { "x", ".", ",", "_", "\t", "\n", "\r", "\xff", "\xc2\xa0", "/", ":", "e3" };
    static uint32_t turn;
    int at, number = any_number();
    char swapped[WORD_MAX];
    switch (turn++ % 24) {
    case 0: remove_word((int)chance(FIXED)); break;
    case 1: at = (int)chance(FIXED); memcpy(swapped, word[at], WORD_MAX); insert_word(at, swapped); break;
    case 2: /* two of the seven words change places, each with its number or without it */
        at = 2 * (int)chance(5);
        memcpy(swapped, word[at], WORD_MAX);
        memcpy(word[at], word[at + 2], WORD_MAX);
        memcpy(word[at + 2], swapped, WORD_MAX);
        if (percent(50)) {
            memcpy(swapped, word[at + 1], WORD_MAX);
            memcpy(word[at + 1], word[at + 3], WORD_MAX);
            memcpy(word[at + 3], swapped, WORD_MAX);
        }
        break;
    case 3: glue(number, "-", ""); break;
    case 4: glue(number, "+", ""); break;
    case 5: word[number][0] = 0; break;
    case 6: snprintf(word[number], WORD_MAX, "4294967296"); break;
    case 7: snprintf(word[number], WORD_MAX, "%s", percent(50) ? "18446744073709551616" : "99999999999999999999999"); break;
    case 8: insert_word((int)between(1, (uint32_t)words - 1), ""); break;
    case 9: insert_word(0, ""); break;
    case 10: put_word(""); break;
    case 11: at = 2 * (int)chance(7); word[at][0] = (char)(word[at][0] - 'a' + 'A'); break;
    case 12: case 13: case 14: glue(number, "", odd[chance(sizeof odd / sizeof odd[0])]); break;
    case 15: glue(number, odd[chance(sizeof odd / sizeof odd[0])], ""); break;
    case 16: snprintf(word[FIXED - 1], WORD_MAX, "object"); break;
    case 17: words = (int)chance(FIXED); break;
    case 18: put_word(percent(50) ? "now" : "beam"); break;
    case 19: at = 2 * (int)chance(6); glue(at, "", word[at + 1]); remove_word(at + 1); break;
    case 20: /* a number too large, or no number, behind the ninth object */
        while (words < FIXED + 10)
            put_word("1");
        snprintf(word[words - 1], WORD_MAX, "%s", percent(50) ? "4294967296" : "x");
        break;
    case 21: snprintf(word[number], WORD_MAX, "0x10"); break;
    case 22: glue(words - 1, "", "\n"); break;
    default: insert_word(0, percent(50) ? "clearance" : "7"); break;
    }
}

/* -------------------------------------------------------------------- lists */

static uint8_t station[4 * NAMES_MAX], company[4 * NAMES_MAX];
static size_t station_length, company_length;

static size_t list_text(uint8_t *list, size_t length, const char *text)
{
    memcpy(list + length, text, strlen(text));
    return length + strlen(text);
}

static size_t list_number(uint8_t *list, size_t length, const char *zeros, uint64_t number)
{
    char text[64];
    snprintf(text, sizeof text, "%s%llu", zeros, (unsigned long long)number);
    return list_text(list, length, text);
}

/* A line about an object, one that matches or one that nearly does. Its newline is put later. */
static size_t list_line(uint8_t *list, size_t n, uint32_t object)
{
    static const char *const name[] = {
        "upper sill", "lower gate", "bridge", "lower gate, fenders out", "4", "= 12500", "no reading", " two spaces", "x", "swing span (north)"
    };
    const char *text = name[chance(sizeof name / sizeof name[0])];
    switch (chance(20)) {
    case 0: n = list_number(list, n, "0", object); break;
    case 1: n = list_number(list, n, "00", object); break;
    case 2: n = list_number(list, n, "00000000000000000000", object); break;
    case 3: n = list_number(list, n, "", object + 256 * (uint64_t)between(1, 3)); break;
    case 4: n = list_number(list, n, "", object + 4294967296u * (uint64_t)between(1, 3)); break;
    case 5: /* 2 to the power 64 and the object, in 20 digits */
        n = list_number(list, n, "184467440737095", 51616 + object);
        break;
    case 6: return list_number(list, n, "", object);
    case 7: { /* the number, and no space behind it */
        uint32_t behind = chance(5);
        n = list_number(list, n, "", object);
        list[n++] = (uint8_t)"\t,x:\r"[behind];
        return list_text(list, n, text);
    }
    case 8: { /* a byte before the number */
        uint32_t before = chance(4);
        list[n++] = (uint8_t)" -+#"[before];
        n = list_number(list, n, "", object);
        break;
    }
    case 9: /* nothing, or no number */
        if (percent(50))
            return n;
        break;
    case 10: n = list_number(list, n, "", object); list[n++] = ' '; return n;
    case 11: n = list_number(list, n, "", object); list[n++] = 0; return list_text(list, n, " after byte 0");
    case 12: case 13: { /* a line with odd bytes */
        n = list_number(list, n, "", object);
        list[n++] = ' ';
        for (uint32_t left = between(1, 12); left > 0; left--) {
            uint32_t byte = percent(30) ? 0 : percent(40) ? 128 + chance(128) : chance(256);
            list[n++] = (uint8_t)(byte == 10 ? 13 : byte);
        }
        return n;
    }
    case 14: n = list_number(list, n, "", object); list[n++] = ' '; n = list_text(list, n, text); list[n++] = '\r'; return n;
    default: n = list_number(list, n, "", object); break;
    }
    list[n++] = ' ';
    return list_text(list, n, text);
}

/* Makes a list longer by bytes at its front or by its last line. */
static size_t swell(uint8_t *list, size_t length, size_t wanted)
{
    if (length >= wanted)
        return length;
    if (percent(50)) {
        size_t more = wanted - length;
        memmove(list + more, list, length);
        memset(list, 'y', more);
        list[more - 1] = 10;
    } else {
        memset(list + length, 'z', wanted - length);
    }
    return wanted;
}

static size_t make_list(uint8_t *list, const struct plan *plan, uint32_t empty)
{
    size_t n = 0;
    if (percent(empty))
        return 0;
    for (uint32_t left = between(1, 14); left > 0; left--) {
        uint32_t object = percent(80) && plan->objects > 0 ? plan->object[chance((uint32_t)plan->objects)] : chance(40);
        n = list_line(list, n, object);
        if (left > 1 || percent(60))
            list[n++] = 10;
    }
    return percent(4) ? swell(list, n, NAMES_MAX) : n;
}

static void make_lists(const struct plan *plan)
{
    station_length = make_list(station, plan, 30);
    company_length = make_list(company, plan, 15);
}

/* One list, the other, or both in turn, over 16,384 bytes. */
static void lengthen_lists(void)
{
    static uint32_t turn;
    uint32_t which = turn++ % 3;
    size_t longer = percent(60) ? NAMES_MAX + 1 : NAMES_MAX + between(2, 2 * NAMES_MAX);
    if (which != 0)
        station_length = swell(station, station_length, longer);
    if (which != 1)
        company_length = swell(company, company_length, longer);
}

/* -------------------------------------------------------------------- sheets */

static size_t sheet_length;

/* Sets a heading before the records and the trailer after them. */
static void finish_sheet(void)
{
    size_t length = RECORD * records, heading = percent(80) ? 0 : percent(90) ? chance(60) : SHEET_MAX;
    if (heading + length + TRAILER > SHEET_MAX)
        heading = SHEET_MAX - TRAILER - length;
    memmove(sheet + heading, sheet, length);
    for (size_t i = 0; i < heading; i++)
        sheet[i] = (uint8_t)chance(256);
    put_number(sheet + heading + length, (uint32_t)length, 4);
    memcpy(sheet + heading + length + 4, "PASS", 4);
    sheet_length = heading + length + TRAILER;
}

/* Makes a finished sheet one that is refused with the number. */
static void damage_sheet(int number)
{
    size_t trailer = sheet_length - TRAILER, longer, at;
    switch (number) {
    case 1:
        longer = percent(60) ? SHEET_MAX + 1 : SHEET_MAX + between(2, 5000);
        memset(sheet + sheet_length, 0, longer - sheet_length);
        put_number(sheet + longer - 8, 16, 4);
        memcpy(sheet + longer - 4, "PASS", 4);
        sheet_length = longer;
        break;
    case 2:
        memmove(sheet, sheet + trailer, TRAILER);
        sheet_length = chance(TRAILER);
        break;
    case 3:
        at = trailer + 4 + chance(4);
        sheet[at] ^= (uint8_t)(1u << chance(8));
        break;
    default:
        put_number(sheet + trailer, percent(50) ? (uint32_t)trailer / 16 * 16 + 16 : (uint32_t)trailer / 16 * 16 + between(1, 15), 4);
    }
}

/* -------------------------------------------------------------------- answers */

/* What a case is aimed at. A refused step has its code in `step`, and in `number` its refusal; the others have in `number` the own refusal or the sheet's. */
struct aim {
    enum { AIM_FITS, AIM_NARROW, AIM_REFUSED_STEP, AIM_OWN, AIM_NOT_READ, AIM_LIST, AIM_SHEET, AIM_ANY } kind;
    int step, number;
};

/* How many of each two hundred cases are aimed so. No other refused step is met by a run from the start. */
static const struct { int cases; struct aim aim; } shares[] = {
    { 36, { AIM_FITS, 0, 0 } },
    { 36, { AIM_NARROW, 0, 0 } },
    { 6, { AIM_REFUSED_STEP, BEGIN, 2 } },
    { 4, { AIM_REFUSED_STEP, BEGIN, 4 } },
    { 4, { AIM_REFUSED_STEP, BEGIN, 5 } },
    { 2, { AIM_REFUSED_STEP, BEGIN, 7 } },
    { 4, { AIM_REFUSED_STEP, BEGIN, 8 } },
    { 4, { AIM_REFUSED_STEP, INVOKE, 8 } },
    { 4, { AIM_REFUSED_STEP, INVOKE, 11 } },
    { 4, { AIM_REFUSED_STEP, DELIVER, 4 } },
    { 2, { AIM_REFUSED_STEP, DELIVER, 7 } },
    { 4, { AIM_REFUSED_STEP, DELIVER, 8 } },
    { 6, { AIM_REFUSED_STEP, DELIVER, 10 } },
    { 12, { AIM_OWN, 0, 1 } },
    { 12, { AIM_OWN, 0, 2 } },
    { 12, { AIM_OWN, 0, 3 } },
    { 12, { AIM_OWN, 0, 4 } },
    { 12, { AIM_OWN, 0, 5 } },
    { 12, { AIM_NOT_READ, 0, 0 } },
    { 3, { AIM_LIST, 0, 0 } },
    { 1, { AIM_SHEET, 0, 1 } },
    { 1, { AIM_SHEET, 0, 2 } },
    { 1, { AIM_SHEET, 0, 3 } },
    { 2, { AIM_SHEET, 0, 4 } },
    { 4, { AIM_ANY, 0, 0 } },
};

/* Neighbours in the table stand far apart in the cases. */
static struct aim aim_of(unsigned long place)
{
    int dice = (int)(place % 200 * 77 % 200);
    size_t i = 0;
    while (dice >= shares[i].cases)
        dice -= shares[i++].cases;
    return shares[i].aim;
}

static struct said said;

static void foresee_answer(void)
{
    answer_to(bytes_of(station, station_length), bytes_of(company, company_length), bytes_of(request, request_length),
              bytes_of(sheet, sheet_length), &said);
}

/* Whether the case has the answer that it is aimed at. */
static bool is_met(struct aim aim)
{
    foresee_answer();
    const struct cleared *found = &said.cleared;
    switch (aim.kind) {
    case AIM_NOT_READ: return said.outcome == NOT_READ;
    case AIM_LIST: return said.outcome == LIST_TOO_LONG;
    case AIM_SHEET: return said.outcome == SHEET_REFUSED && said.sheet == aim.number;
    case AIM_FITS: return said.outcome == CHECKED && found->verdict == FITS;
    case AIM_NARROW: return said.outcome == CHECKED && found->verdict == NARROW;
    case AIM_OWN: return said.outcome == CHECKED && found->verdict == REFUSED && found->own == aim.number;
    case AIM_REFUSED_STEP:
        return said.outcome == CHECKED && found->verdict == NO_READING && found->step.code == aim.step && found->refusal.number == aim.number;
    default: return true;
    }
}

/* What a check of the plan's first objects finds; false if it does not commit. */
static bool try_plan(const struct plan *plan, int objects, struct cleared *found)
{
    static struct tables copy;
    struct question q;
    memset(&q, 0, sizeof q);
    q.beam = 1;
    q.home = counted(plan->home);
    q.slot = counted(plan->slot);
    q.quiesce = plan->quiesce;
    q.release = plan->release;
    q.objects = objects;
    for (int i = 0; i < objects; i++)
        q.object[i] = counted(plan->object[i]);
    copy = t;
    *found = clear(&copy, &q);
    return found->verdict == FITS || found->verdict == NARROW;
}

/* The smallest width that the plan reads; false if it reads none. */
static bool smallest_width(const struct plan *plan, uint32_t *width)
{
    struct cleared found;
    bool committed = try_plan(plan, plan->objects, &found);
    *width = VALUE_MAX;
    for (int i = 0; i < found.count; i++)
        *width = min_of(*width, found.width[i]);
    return committed;
}

/* Sets Q so that the check comes through the first objects of the list and has no moment to spare, or one. The reply to the last of them comes at Q then, or just before it. */
static void tighten(struct plan *plan, int objects, uint32_t spare)
{
    struct cleared found;
    if (!try_plan(plan, objects, &found) || found.read_at + 1 + spare > TIME_MAX)
        return;
    plan->quiesce = found.read_at + 1 + spare;
    plan->release = min_of(plan->quiesce + chance(50), TIME_MAX);
}

/* Sets beam and margin so that their sum is as given, where that can be. */
static void set_sum(struct plan *plan, uint32_t sum)
{
    uint32_t most = min_of(MARGIN_MAX, sum > 0 ? sum - 1 : 0), shape = chance(4);
    plan->margin = shape == 0 ? 0 : shape == 1 ? most : min_of(chance(600), most);
    if (sum > BEAM_MAX)
        plan->margin = max_of(plan->margin, min_of(sum - BEAM_MAX, MARGIN_MAX));
    plan->beam = min_of(sum - plan->margin, BEAM_MAX);
}

static void aim_width(struct plan *plan, struct aim aim)
{
    uint32_t width;
    if (!smallest_width(plan, &width))
        return;
    if (percent(20))
        tighten(plan, plan->objects, chance(2));
    if (aim.kind == AIM_FITS)
        set_sum(plan, percent(50) ? width : width - chance(width / 2 + 1));
    else
        set_sum(plan, percent(50) ? width + 1 : percent(10) ? BEAM_MAX + MARGIN_MAX : width + 1 + chance(3000));
}

/* A number out of the range: the first such, or one that a byte does not hold, or the largest. */
static uint32_t beyond(uint32_t first)
{
    static const uint32_t far[] = { 255, 256, 300, 4294967295u };
    return percent(40) ? first : percent(30) ? between(first, 255) : far[chance(4)];
}

/* Makes the list longer than eight, some of it twice. */
static void lengthen_plan(struct plan *plan)
{
    static const int lengths[] = { 9, 9, 10, 20, 60 };
    int wanted = lengths[chance(5)];
    while (plan->objects < wanted)
        plan->object[plan->objects++] = percent(80) ? chance(OBJECTS) : beyond(OBJECTS);
}

/* Makes one object of the list one over 31, each of these in turn. */
static void spoil_object(struct plan *plan)
{
    static const uint32_t over[] = { 32, 255, 256, 300, 4294967295u, 33 };
    static uint32_t turn;
    if (plan->objects == 0)
        plan->objects = 1;
    plan->object[chance((uint32_t)plan->objects)] = over[turn++ % 6];
}

static void double_object(struct plan *plan)
{
    if (plan->objects == 0)
        plan->object[plan->objects++] = chance(OBJECTS);
    if (plan->objects == LIST_MAX)
        plan->objects--;
    uint32_t from = percent(50) ? 0 : chance((uint32_t)plan->objects);
    uint32_t object = plan->object[from];
    plan->object[plan->objects++] = object;
}

/* Gives the plan the own refusal, and often a later one with it. */
static void aim_own(struct plan *plan, int number)
{
    static const uint32_t beams[] = { 0, BEAM_MAX + 1, 4294967295u };
    static const uint32_t margins[] = { MARGIN_MAX + 1, 4294967295u };
    uint32_t later = percent(50) ? 0 : 1u << between((uint32_t)number, 5);
    if (number == 1)
        plan->beam = percent(80) ? beams[chance(3)] : between(BEAM_MAX + 1, 4294967294u);
    else if (percent(20))
        plan->beam = BEAM_MAX;
    if (number == 2 || later & 4)
        plan->margin = percent(80) ? margins[chance(2)] : between(MARGIN_MAX + 1, 4294967294u);
    else if (percent(20))
        plan->margin = MARGIN_MAX;
    if (number == 5 || later & 32)
        double_object(plan);
    if (number == 4 || later & 16)
        spoil_object(plan);
    if (number == 3 || later & 8) {
        if (percent(30))
            plan->objects = 0;
        else
            lengthen_plan(plan);
    }
    if (percent(20))
        plan->home = beyond(SITES);
    if (percent(20))
        plan->slot = beyond(SLOTS);
}

/* Makes begin refuse the fields. */
static void spoil_begin(struct plan *plan)
{
    switch (chance(7)) {
    case 0: case 1: plan->home = beyond(SITES); break;
    case 2: case 3: plan->slot = beyond(SLOTS); break;
    case 4: plan->release = plan->quiesce - 1; break;
    case 5: plan->release = TIME_MAX + 1; break;
    default: plan->quiesce = plan->release = percent(50) ? TIME_MAX + 1 : 4294967295u; break;
    }
}

/* Sets the tables and the plan so that the step is likely to be refused by the number. */
static void aim_step(struct plan *plan, struct aim aim)
{
    int object = plan->objects > 0 ? (int)plan->object[chance((uint32_t)plan->objects)] : 0, site = site_of_object(object);
    int home = (int)plan->home;
    switch (100 * aim.step + aim.number) {
    case 100 * BEGIN + 2:
        spoil_begin(plan);
        break;
    case 100 * BEGIN + 4:
        put(make(CRASH, home, 0, 0, 0, 0, 0));
        break;
    case 100 * BEGIN + 5:
        plan->slot = (uint32_t)slot_that(false);
        break;
    case 100 * BEGIN + 7:
        tick_to(home, CLOCK_MAX);
        break;
    case 100 * BEGIN + 8:
        if (percent(15)) { /* the last clock that begin does not refuse by 7 */
            tick_to(home, CLOCK_MAX - 1);
            break;
        }
        plan->quiesce = percent(60) ? t.site[home].clock + 1 : chance(t.site[home].clock + 2);
        plan->release = max_of(plan->quiesce, plan->release);
        break;
    case 100 * INVOKE + 8:
        if (plan->objects > 1 && percent(50)) {
            tighten(plan, (int)between(1, (uint32_t)plan->objects - 1), 0);
            break;
        }
        plan->quiesce = t.site[home].clock + 2 + (percent(40) ? 0 : chance((uint32_t)plan->objects * 2));
        plan->release = max_of(plan->quiesce, plan->release);
        break;
    case 100 * INVOKE + 11:
        fill(MESSAGES);
        break;
    case 100 * DELIVER + 4:
        put(make(CRASH, site, 0, 0, 0, 0, 0));
        break;
    case 100 * DELIVER + 7:
        tick_to(site, CLOCK_MAX);
        break;
    case 100 * DELIVER + 8:
        if (percent(15))
            tick_to(site, CLOCK_MAX - 1);
        else if (percent(50))
            tick_to(site, plan->quiesce - 1 + chance(3));
        else
            plan->quiesce = t.site[site].clock + between(1, 4);
        plan->release = max_of(plan->quiesce, plan->release);
        break;
    default: /* another passage comes to the object before */
        crew_stops();
        crew_stops();
    }
}

static void make_case(struct aim aim)
{
    for (int scenes = 0; scenes < 200; scenes++) {
        scene(aim.kind == AIM_FITS || aim.kind == AIM_NARROW ? 3 : 2);
        if (aim.kind != AIM_FITS && aim.kind != AIM_REFUSED_STEP && percent(15)) {
            /* a sheet without records */
            start(&t);
            records = 0;
        }
        if (aim.kind == AIM_ANY)
            walk(between(20, 300));
        struct plan plan = good_plan(aim.kind == AIM_FITS || (aim.kind == AIM_NARROW && percent(80)));
        if (aim.kind == AIM_REFUSED_STEP)
            aim_step(&plan, aim);
        if (aim.kind == AIM_FITS || aim.kind == AIM_NARROW)
            aim_width(&plan, aim);
        if (aim.kind == AIM_OWN)
            aim_own(&plan, aim.number);
        if (aim.kind > AIM_OWN && aim.kind < AIM_ANY && percent(30))
            aim_own(&plan, (int)between(1, 5));
        say_plan(&plan);
        if (aim.kind == AIM_NOT_READ)
            spoil_words();
        join_words();
        make_lists(&plan);
        if (aim.kind == AIM_LIST || (aim.kind == AIM_NOT_READ && percent(20)))
            lengthen_lists();
        finish_sheet();
        if (aim.kind == AIM_SHEET)
            damage_sheet(aim.number);
        if ((aim.kind == AIM_LIST || aim.kind == AIM_NOT_READ) && percent(30))
            damage_sheet((int)between(1, 4));
        if (is_met(aim))
            return;
    }
}

/* ------------------------------------------------------------------- files */

static bool write_file(const char *folder, unsigned long place, const char *part, const uint8_t *at, size_t length)
{
    char name[4096];
    int wanted = snprintf(name, sizeof name, "%s/%lu.%s", folder, place, part);
    if (wanted < 0 || (size_t)wanted >= sizeof name) {
        fprintf(stderr, "ask_clearance: the folder's name is too long\n");
        return false;
    }
    FILE *file = fopen(name, "wb");
    if (file == NULL || fwrite(at, 1, length, file) != length || fclose(file) != 0) {
        perror(name);
        return false;
    }
    return true;
}

int main(int argc, char **argv)
{
    if (argc != 4) {
        fprintf(stderr, "usage: ask_clearance SEED COUNT FOLDER\n");
        return 2;
    }
    uint64_t seed = strtoull(argv[1], NULL, 10);
    unsigned long count = strtoul(argv[2], NULL, 10);
    for (unsigned long i = 1; i <= count; i++) {
        chance_state = seed * 0x9e3779b97f4a7c15u + i * 0xd1342543de82ef95u + 1;
        make_case(aim_of(i));
        if (!write_file(argv[3], i, "sheet", sheet, sheet_length)
            || !write_file(argv[3], i, "station", station, station_length)
            || !write_file(argv[3], i, "company", company, company_length)
            || !write_file(argv[3], i, "request", request, request_length))
            return 2;
    }
    return 0;
}

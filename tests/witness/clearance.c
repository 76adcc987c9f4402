/* clearance: a second writing of the clearance checker, request b of document 02, in plain C, with the replies of request c.
 *
 *   clearance STATION COMPANY REQUEST SHEET             prints the text of ./clearance, and ends with its status
 *   clearance --counts STATION COMPANY REQUEST SHEET    the same, and on standard error a line for each thing that was met
 *
 * All four are files of any bytes. STATION and COMPANY are the two width lists, empty where none is given.
 * REQUEST holds the words of the request with one space between them, and SHEET the sheet.
 * A line that ./clearance puts on standard error stands on standard output here; its status is 2.
 * Status 3 says that the four files could not be read, or that the check left something that it must not leave.
 *
 * It was written from request b and from the issue "Request b: the clearance checker", over the machine of witness.c.
 * Comments in "double quotes" are sentences of that issue; those of document 02 say so.
 * What request c changes is from the issue "Request c: replies must come home", and its sentences stand after that name.
 *
 * Where the issue is silent:
 * - A number is one digit or more, and leading zeros change nothing, however many.
 * - The words are read as one text. A word that holds a space is two words, and an empty word is two spaces in a row.
 * - Each word behind `objects` is a number, those behind the ninth too.
 * - A home, a slot or an object above 255 is told as 255, in the words of a refused begin too.
 * - "for a read" is all three steps of a read: the invoke, the deliver of its call and the deliver of its reply.
 * - A line without a digit at its start matches nothing, object 0 neither.
 * - A line of digits and byte 32 alone matches, and is handed back with that byte.
 * - The bytes of a line go out as they stand, a carriage return and byte 0 among them.
 * - `list too long` is given for either list.
 * - Each line of the text ends with a newline, and the text has no other.
 *
 * With CLEARANCE_NO_MAIN defined there is no main, so that another file can include this one and foresee an answer.
 */
#define WITNESS_NO_MAIN
#define WITNESS_SHEET
#include "witness.c"

#include <stdarg.h>

/* ---------------------------------------------------------------- numbers */

#define BEAM_MAX 1000000u
#define MARGIN_MAX 5000u

/* "of more than nine the first nine are handed on" */
enum { LIST_MAX = 8, HANDED_MAX = 9, NAMES_MAX = 16384, NOT_A_READ = -1 };

/* Request c: "its loop is then at most 62 turns". They are begin, three for each of eight objects, prepare, three for each of seven stations, close, and two for each of those again. */
enum { TURNS_MAX = 1 + 3 * LIST_MAX + 1 + 3 * (SITES - 1) + 1 + 2 * (SITES - 1) };

/* Bytes that are lent. */
struct bytes {
    const uint8_t *at;
    size_t length;
};

static struct bytes bytes_of(const void *at, size_t length)
{
    struct bytes bytes = { at, length };
    return bytes;
}

static struct record make(int code, int a, int b, int c, uint32_t h, uint32_t u, uint32_t v)
{
    struct record r;
    r.code = (uint8_t)code;
    r.a = (uint8_t)a;
    r.b = (uint8_t)b;
    r.c = (uint8_t)c;
    r.h = (uint16_t)h;
    r.zero = 0;
    r.u = u;
    r.v = v;
    return r;
}

/* --------------------------------------------------------------- the check */

/* "`Verdict` is an enum: `Refused(own refusal)`, `NoReading(step, refusal)` with the step that was refused and its refusal, `Narrow`, `Fits`." */
enum verdict { REFUSED, NO_READING, NARROW, FITS };

/* What is asked of the check, as it is handed on. */
struct question {
    uint32_t beam, margin, quiesce, release;
    uint8_t home, slot;
    uint8_t object[HANDED_MAX];
    int objects;
};

struct cleared {
    enum verdict verdict;
    int own; /* refused: 1 to 5 */
    /* no reading: the step that was refused, what a delivery met, its refusal, and the place in the list of the object whose read it was */
    struct record step;
    enum met met;
    struct answer refusal;
    int read;
    /* "`count` is the number of widths shown: the list's length for fits and narrow, else 0; places from `count` on are 0." */
    uint32_t width[LIST_MAX];
    int count;
    /* "`handle` is begin's value and means something only where `begun`" */
    bool begun;
    uint16_t handle;
    /* for the counts alone: the slot of the last message, the steps up to the last tell, the clocks of the last call that was delivered and of the last reply */
    uint32_t message;
    int turns;
    uint32_t read_at, replied_at;
    const char *strange; /* what must not be, or NULL */
};

/* "Own refusals, before any step, in this order, tables as handed in: 1 beam 0 or over 1,000,000; 2 margin over 5,000; 3 list empty or longer than eight; 4 object over 31; 5 twice." 0 if there is none. */
static int own_refusal(const struct question *q)
{
    if (q->beam == 0 || q->beam > BEAM_MAX)
        return 1;
    if (q->margin > MARGIN_MAX)
        return 2;
    if (q->objects == 0 || q->objects > LIST_MAX)
        return 3;
    for (int i = 0; i < q->objects; i++)
        if (q->object[i] >= OBJECTS)
            return 4;
    for (int i = 0; i < q->objects; i++)
        for (int j = 0; j < i; j++)
            if (q->object[i] == q->object[j])
                return 5;
    return 0;
}

/* One step of the check. A refused one is kept; an accepted one gives its value. */
static bool taken(struct tables *t, struct record r, struct cleared *done, uint32_t *value)
{
    enum met met = what_is_met(t, &r);
    struct answer answer = run_record(t, &r);
    *value = answer.value;
    done->turns++;
    if (answer.number == 0)
        return true;
    done->step = r;
    done->met = met;
    done->refusal = answer;
    return false;
}

/* "Each station 0..7, rising, not home, with an object of the list, once" */
static bool is_on_the_way(const struct question *q, int site)
{
    bool has_object = false;
    for (int i = 0; i < q->objects; i++)
        has_object |= site_of_object(q->object[i]) == site;
    return has_object && site != q->home;
}

/* "each object of the list is held by the given slot, its value is the width shown" */
static bool held_together(const struct tables *t, const struct question *q, const struct cleared *done)
{
    for (int i = 0; i < q->objects; i++) {
        const struct object *object = &t->object[q->object[i]];
        if (object->holder != q->slot || object->value != done->width[i])
            return false;
    }
    return true;
}

/* Whether the message slot has the reply to a read of the object: on its way home, with the value that the object has and is held with. */
static bool is_reply_for(const struct tables *t, const struct question *q, uint32_t m, int object)
{
    const struct message *message = &t->message[m];
    return message->kind == REPLY && message->destination == q->home && message->source == site_of_object(object)
        && slot_of(message->handle) == q->slot && message->found == t->object[object].value
        && t->object[object].holder == q->slot;
}

/* "Steps, each answered before the next": those from 1 to 5, false at the first that is refused. */
static bool steps_to_close(struct tables *t, const struct question *q, struct cleared *done)
{
    uint32_t value, m;
    done->read = NOT_A_READ;
    /* "begin; h is its value." */
    if (!taken(t, make(BEGIN, q->home, q->slot, 0, 0, q->quiesce, q->release), done, &value))
        return false;
    done->begun = true;
    done->handle = (uint16_t)value;
    /* "Each object, in the list's order: invoke h at home, read; deliver m, m that invoke's value."
     * Request c: "delivers m a second time and takes the width from the reply" */
    for (int i = 0; i < q->objects; i++) {
        done->read = i;
        if (!taken(t, make(INVOKE, q->home, 0, q->object[i], done->handle, 0, 0), done, &m))
            return false;
        done->message = m;
        if (!taken(t, make(DELIVER, 0, 0, (int)m, 0, 0, 0), done, &value))
            return false;
        if (value != 0 || !is_reply_for(t, q, m, q->object[i]))
            done->strange = "a delivered read has not left its reply";
        done->read_at = t->message[m].stamp;
        if (!taken(t, make(DELIVER, 0, 0, (int)m, 0, 0, 0), done, &done->width[i]))
            return false;
        done->replied_at = t->site[q->home].clock;
    }
    done->read = NOT_A_READ;
    if (!held_together(t, q, done))
        done->strange = "the widths are not held together before prepare";
    /* "prepare h." */
    if (!taken(t, make(PREPARE, 0, 0, 0, done->handle, 0, 0), done, &value))
        return false;
    if (!held_together(t, q, done))
        done->strange = "the widths are not held together after prepare";
    /* "ask; deliver m; deliver m (the answer, same slot)." */
    for (int site = 0; site < SITES; site++) {
        if (!is_on_the_way(q, site))
            continue;
        if (!taken(t, make(ASK, site, 0, 0, done->handle, 0, 0), done, &m))
            return false;
        if (!taken(t, make(DELIVER, 0, 0, (int)m, 0, 0, 0), done, &value))
            return false;
        if (!taken(t, make(DELIVER, 0, 0, (int)m, 0, 0, 0), done, &value))
            return false;
    }
    /* "close h. Accepted means committed." */
    return taken(t, make(CLOSE, 0, 0, 0, done->handle, 0, 0), done, &value);
}

/* "The stations of 4 again: tell; if accepted, deliver m." "A refusal in 6 (none is reachable here) changes no verdict: the next station follows." */
static void tell_all(struct tables *t, const struct question *q, struct cleared *done)
{
    for (int site = 0; site < SITES; site++) {
        if (!is_on_the_way(q, site))
            continue;
        struct record r = make(TELL, site, 0, 0, done->handle, 0, 0);
        struct answer told = run_record(t, &r);
        done->turns++;
        if (told.number == 0) {
            r = make(DELIVER, 0, 0, (int)told.value, 0, 0, 0);
            told = run_record(t, &r);
            done->turns++;
        }
        if (told.number != 0)
            done->strange = "a tell, or its delivery, is refused";
    }
}

/* "A refusal in 1 to 5 ends it: abort h (not after a refused begin), then drop m (after a refused deliver)."
 * "after an accepted begin its abort and drop are accepted [...], the passage is aborted" */
static void give_up(struct tables *t, struct cleared *done)
{
    if (done->begun) {
        struct record r = make(ABORT, 0, 0, 0, done->handle, 0, 0);
        if (run_record(t, &r).number != 0 || t->passage[slot_of(done->handle)].status != ABORTED)
            done->strange = "the passage is not aborted";
    }
    if (done->step.code == DELIVER) {
        struct record r = make(DROP, 0, 0, done->step.c, 0, 0, 0);
        if (run_record(t, &r).number != 0)
            done->strange = "the drop is refused";
    }
    /* "every width in the result is 0, those already read too" */
    memset(done->width, 0, sizeof done->width);
}

/* The check itself, on the tables that are handed in; it leaves them as the check leaves them. */
static struct cleared clear(struct tables *t, const struct question *q)
{
    struct cleared done;
    memset(&done, 0, sizeof done);
    done.met = NOT_A_DELIVERY;
    done.own = own_refusal(q);
    if (done.own != 0) {
        done.verdict = REFUSED;
        return done;
    }
    bool was_empty[MESSAGES];
    for (int m = 0; m < MESSAGES; m++)
        was_empty[m] = t->message[m].kind == EMPTY;
    if (steps_to_close(t, q, &done)) {
        tell_all(t, q, &done);
        /* "`Fits` exactly if close was accepted and beam + margin ≤ every width; else, after an accepted close, `narrow`." */
        done.verdict = FITS;
        done.count = q->objects;
        for (int i = 0; i < q->objects; i++)
            if (q->beam + q->margin > done.width[i])
                done.verdict = NARROW;
    } else {
        done.verdict = NO_READING;
        give_up(t, &done);
    }
    /* "every message slot that was empty is empty again" */
    for (int m = 0; m < MESSAGES; m++)
        if (was_empty[m] != (t->message[m].kind == EMPTY))
            done.strange = "a message slot is not as it was";
    if (done.turns > TURNS_MAX)
        done.strange = "the check has more than 62 turns";
    return done;
}

/* ---------------------------------------------------------------- the names */

/* The number of the digits at a line's start, 256 for any that is larger. `digits` is how many there are. */
static uint32_t number_of_line(struct bytes line, size_t *digits)
{
    uint32_t number = 0;
    *digits = 0;
    while (*digits < line.length && '0' <= line.at[*digits] && line.at[*digits] <= '9') {
        number = min_of(10 * number + (uint32_t)(line.at[*digits] - '0'), 256);
        ++*digits;
    }
    return number;
}

/* "A line matches if it begins with digits whose number is the object's (leading zeros change nothing; a number of 256 or more matches nothing), then byte 32." */
static bool line_matches(struct bytes line, uint8_t object)
{
    size_t digits;
    uint32_t number = number_of_line(line, &digits);
    return digits > 0 && number == object && digits < line.length && line.at[digits] == 32;
}

/* "Lines end at byte 10 or the list's end." Takes the next line off the list. */
static struct bytes next_line(struct bytes *list)
{
    struct bytes line = { list->at, 0 };
    while (line.length < list->length && list->at[line.length] != 10)
        line.length++;
    size_t gone = line.length < list->length ? line.length + 1 : line.length;
    list->at += gone;
    list->length -= gone;
    return line;
}

/* The first line of a list that matches, without its newline. Empty if there is none. */
static struct bytes first_match(struct bytes list, uint8_t object)
{
    while (list.length > 0) {
        struct bytes line = next_line(&list);
        if (line_matches(line, object))
            return line;
    }
    return list;
}

/* "Handed back: the station's first matching line, whole, without newline; else the company's; else `&company[company.len()..]`." */
static struct bytes line_for(struct bytes station, struct bytes company, uint8_t object)
{
    struct bytes line = first_match(station, object);
    return line.length > 0 ? line : first_match(company, object);
}

/* -------------------------------------------------------------- the request */

/* The words of a request, as they were said. */
struct request {
    uint32_t beam, margin, home, slot, quiesce, release;
    uint32_t object[HANDED_MAX];
    int objects; /* nine for any longer list */
    int said; /* how many objects were named */
};

/* Takes a text off the front of the rest, which must stand there byte by byte. */
static bool take(struct bytes *rest, const char *text)
{
    size_t length = strlen(text);
    if (rest->length < length || memcmp(rest->at, text, length) != 0)
        return false;
    rest->at += length;
    rest->length -= length;
    return true;
}

/* "Numbers are decimal, at most 4,294,967,295" */
static bool take_number(struct bytes *rest, uint32_t *number)
{
    uint64_t sum = 0;
    size_t digits = 0;
    while (digits < rest->length && '0' <= rest->at[digits] && rest->at[digits] <= '9') {
        sum = 10 * sum + (uint64_t)(rest->at[digits++] - '0');
        if (sum > UINT32_MAX)
            return false;
    }
    *number = (uint32_t)sum;
    rest->at += digits;
    rest->length -= digits;
    return digits > 0;
}

/* "The words stand in the order shown, each once." "Anything else: `request not read`." */
static bool read_request(struct bytes rest, struct request *said)
{
    memset(said, 0, sizeof *said);
    if (!take(&rest, "beam ") || !take_number(&rest, &said->beam)
        || !take(&rest, " margin ") || !take_number(&rest, &said->margin)
        || !take(&rest, " home ") || !take_number(&rest, &said->home)
        || !take(&rest, " slot ") || !take_number(&rest, &said->slot)
        || !take(&rest, " quiesce ") || !take_number(&rest, &said->quiesce)
        || !take(&rest, " release ") || !take_number(&rest, &said->release)
        || !take(&rest, " objects"))
        return false;
    /* "`objects` with none behind it is an empty list [...]; of more than nine the first nine are handed on." */
    while (rest.length > 0) {
        uint32_t object;
        if (!take(&rest, " ") || !take_number(&rest, &object))
            return false;
        if (said->objects < HANDED_MAX)
            said->object[said->objects++] = object;
        said->said++;
    }
    return true;
}

/* "home, slot and an object above 255 count as 255" */
static uint8_t counted(uint32_t number) { return (uint8_t)min_of(number, 255); }

static struct question question_of(const struct request *said)
{
    struct question q;
    memset(&q, 0, sizeof q);
    q.beam = said->beam;
    q.margin = said->margin;
    q.home = counted(said->home);
    q.slot = counted(said->slot);
    q.quiesce = said->quiesce;
    q.release = said->release;
    q.objects = said->objects;
    for (int i = 0; i < said->objects; i++)
        q.object[i] = counted(said->object[i]);
    return q;
}

/* ----------------------------------------------------------------- the text */

enum outcome { NOT_READ, LIST_TOO_LONG, SHEET_REFUSED, CHECKED };

/* A text has at most a line for each object, and no line of a list twice. */
struct said {
    int status;
    enum outcome outcome;
    int sheet; /* the number of a refused sheet */
    struct request request;
    struct question question;
    struct cleared cleared;
    size_t length;
    uint8_t text[2 * NAMES_MAX + 4096];
};

static void put_bytes(struct said *said, struct bytes bytes)
{
    memcpy(said->text + said->length, bytes.at, bytes.length);
    said->length += bytes.length;
}

/* Puts a short text in printf's manner. */
__attribute__((format(printf, 2, 3))) static void put_text(struct said *said, const char *format, ...)
{
    char text[256];
    va_list rest;
    va_start(rest, format);
    int length = vsnprintf(text, sizeof text, format, rest);
    va_end(rest);
    put_bytes(said, bytes_of(text, (size_t)length));
}

/* The looked-up line; "a miss: its number". */
static void put_name(struct said *said, struct bytes station, struct bytes company, uint8_t object)
{
    struct bytes line = line_for(station, company, object);
    if (line.length > 0)
        put_bytes(said, line);
    else
        put_text(said, "%u", (unsigned)object);
}

/* A step "in passread's words", as docs/WORDS.md has them; the check takes these six up to its close. */
static void put_step(struct said *said, const struct record *r)
{
    switch (r->code) {
    case BEGIN:
        put_text(said, "begin home %u slot %u quiesce %u release %u", r->a, r->b, (unsigned)r->u, (unsigned)r->v);
        break;
    case INVOKE:
        put_text(said, "invoke %u at %u read object %u", r->h, r->a, r->c);
        break;
    case PREPARE:
        put_text(said, "prepare %u", r->h);
        break;
    case ASK:
        put_text(said, "ask %u at %u", r->h, r->a);
        break;
    case CLOSE:
        put_text(said, "close %u", r->h);
        break;
    default:
        put_text(said, "deliver %u", r->c);
        break;
    }
}

/* The phrases of docs/WORDS.md. */
static const char *const phrase[] = {
    [1] = "no such step",
    [2] = "field or times not allowed",
    [3] = "no such passage or message",
    [4] = "site is down",
    [5] = "does not fit as it stands",
    [6] = "no visit there",
    [7] = "clock would pass its end",
    [8] = "quiesced or dead",
    [9] = "wrong round or done before",
    [10] = "object is held",
    [11] = "the message table is full",
    [12] = "round is not closed",
    [13] = "no call is left to that station",
    [14] = "no round is left",
};

static const char *const own_name[] = { "", "beam", "margin", "list", "object", "twice" };

/* The verdict and what stands below it. */
static void put_cleared(struct said *said, struct bytes station, struct bytes company)
{
    const struct cleared *done = &said->cleared;
    const struct question *q = &said->question;
    switch (done->verdict) {
    case REFUSED:
        put_text(said, "refused %d %s\n", done->own, own_name[done->own]);
        said->status = 2;
        return;
    case NO_READING:
        /* "the refused step in passread's words, ` refused N PHRASE`, and for a read ` for ` and the looked-up line (a miss: its number)." */
        put_text(said, "no reading\n");
        put_step(said, &done->step);
        put_text(said, " refused %d %s", done->refusal.number, phrase[done->refusal.number]);
        if (done->read != NOT_A_READ) {
            put_text(said, " for ");
            put_name(said, station, company, q->object[done->read]);
        }
        put_text(said, "\n");
        break;
    default:
        /* "for each object its looked-up line (a miss: its number), ` = `, the width." */
        put_text(said, done->verdict == FITS ? "fits\n" : "narrow\n");
        for (int i = 0; i < done->count; i++) {
            put_name(said, station, company, q->object[i]);
            put_text(said, " = %u\n", (unsigned)done->width[i]);
        }
    }
    /* "Status 0 for fits alone; 1 for narrow and no reading; 2 for the other lines" */
    said->status = done->verdict == FITS ? 0 : 1;
}

/* "runs the sheet, then checks on the tables that it leaves."
 * "Tried in this order: request not read, list too long, `sheet N`, `refused N NAME`." */
static void answer_to(struct bytes station, struct bytes company, struct bytes request, struct bytes sheet, struct said *said)
{
    static struct tables t;
    size_t first, count;
    memset(said, 0, sizeof *said);
    said->status = 2;
    if (!read_request(request, &said->request)) {
        said->outcome = NOT_READ;
        put_text(said, "request not read\n");
        return;
    }
    /* "one over 16,384 bytes is `list too long`" */
    if (station.length > NAMES_MAX || company.length > NAMES_MAX) {
        said->outcome = LIST_TOO_LONG;
        put_text(said, "list too long\n");
        return;
    }
    said->sheet = read_sheet(sheet.at, sheet.length, &first, &count);
    if (said->sheet != 0) {
        said->outcome = SHEET_REFUSED;
        put_text(said, "sheet %d\n", said->sheet);
        return;
    }
    start(&t);
    for (size_t i = 0; i < count; i++) {
        struct record r = read_record(sheet.at + first + RECORD * i);
        run_record(&t, &r);
    }
    said->outcome = CHECKED;
    said->question = question_of(&said->request);
    said->cleared = clear(&t, &said->question);
    put_cleared(said, station, company);
}

#ifndef CLEARANCE_NO_MAIN

/* ---------------------------------------------------------- what was met */

/* What is told of a refused step; a delivery is told with what it met. */
static const char *const step_told[] = {
    [BEGIN] = "begin", [INVOKE] = "invoke", [PREPARE] = "prepare", [ASK] = "ask", [CLOSE] = "close"
};
static const char *const met_told[] = {
    [MET_CALL] = "deliver call", [MET_REPLY] = "deliver reply", [MET_PREPARE_1] = "deliver prepare-1", [MET_ANSWER] = "deliver answer", [NOT_A_DELIVERY] = "deliver"
};

/* What stands in one list about an object, beside the line that a look into it hands back. */
static void count_list(struct bytes list, uint8_t object)
{
    struct bytes rest = list, hit = first_match(list, object);
    int matches = 0;
    while (rest.length > 0) {
        struct bytes line = next_line(&rest);
        size_t digits;
        uint32_t number = number_of_line(line, &digits);
        bool space = digits < line.length && line.at[digits] == 32;
        uint32_t low = 0; /* the number as a byte would keep it */
        for (size_t i = 0; i < digits; i++)
            low = (10 * low + (uint32_t)(line.at[i] - '0')) % 256;
        matches += line_matches(line, object);
        if (number == 256 && low == object && space)
            fprintf(stderr, "edge number of 256 or more, the object's in a byte\n");
        if (digits > 0 && number == object && !space)
            fprintf(stderr, "edge the object's number without a space\n");
    }
    if (hit.length == 0)
        return;
    size_t digits;
    number_of_line(hit, &digits);
    if (matches > 1)
        fprintf(stderr, "edge two lines of one list match\n");
    if (hit.at[0] == '0' && digits > 1)
        fprintf(stderr, "edge leading zeros\n");
    if (digits >= 20)
        fprintf(stderr, "edge 20 digits that match\n");
    if (digits + 1 == hit.length)
        fprintf(stderr, "edge nothing behind the space\n");
    if (hit.at + hit.length == list.at + list.length)
        fprintf(stderr, "edge the list's end without a newline\n");
    if (memchr(hit.at, 0, hit.length) != NULL)
        fprintf(stderr, "edge byte 0 in a line\n");
    if (memchr(hit.at, '\r', hit.length) != NULL)
        fprintf(stderr, "edge carriage return in a line\n");
    for (size_t i = 0; i < hit.length; i++)
        if (hit.at[i] > 127) {
            fprintf(stderr, "edge byte above 127 in a line\n");
            break;
        }
}

/* One look into the lists. */
static void count_look(struct bytes station, struct bytes company, uint8_t object)
{
    bool own = first_match(station, object).length > 0, common = first_match(company, object).length > 0;
    fprintf(stderr, "%s\n", own ? "station hit" : common ? "company hit" : "list miss");
    if (own && common)
        fprintf(stderr, "edge both lists have the object\n");
    count_list(station, object);
    count_list(company, object);
}

static void count_request(const struct request *request)
{
    fprintf(stderr, "said beam %u\nsaid margin %u\n", (unsigned)request->beam, (unsigned)request->margin);
    fprintf(stderr, "said home %u\nsaid slot %u\n", (unsigned)request->home, (unsigned)request->slot);
    fprintf(stderr, "said objects %d\n", request->said);
    for (int i = 0; i < request->objects; i++)
        fprintf(stderr, "said object %u\n", (unsigned)request->object[i]);
}

/* The edges of a check that was committed. */
static void count_widths(const struct question *q, const struct cleared *done)
{
    uint32_t smallest = VALUE_MAX, sum = q->beam + q->margin;
    int away = 0, at_home = 0;
    for (int i = 0; i < done->count; i++) {
        smallest = min_of(smallest, done->width[i]);
        at_home += site_of_object(q->object[i]) == q->home;
    }
    for (int site = 0; site < SITES; site++)
        away += is_on_the_way(q, site);
    if (sum == smallest)
        fprintf(stderr, "edge beam and margin are the smallest width\n");
    if (sum == smallest + 1)
        fprintf(stderr, "edge beam and margin are 1 above the smallest width\n");
    if (smallest == 0)
        fprintf(stderr, "edge a width that was never written, or is 0\n");
    if (at_home == done->count)
        fprintf(stderr, "edge all objects at home\n");
    if (at_home == 0)
        fprintf(stderr, "edge no object at home\n");
    if (at_home == 0 && away == 1 && done->count > 1)
        fprintf(stderr, "edge all objects at one other station\n");
    if (away == SITES - 1)
        fprintf(stderr, "edge seven stations to ask\n");
    if (done->handle >= SLOTS)
        fprintf(stderr, "edge handle of a slot that was used before\n");
    if (done->message > 0)
        fprintf(stderr, "edge committed with its messages in another slot than 0\n");
    if (q->quiesce == TIME_MAX)
        fprintf(stderr, "edge committed with Q 1000000000\n");
    if (done->replied_at + 1 == q->quiesce)
        fprintf(stderr, "edge committed, its last reply at Q - 1\n");
    if (done->replied_at == q->quiesce)
        fprintf(stderr, "edge committed, its last reply at Q\n");
    if (done->turns == TURNS_MAX)
        fprintf(stderr, "edge 62 turns\n");
}

static void count_met(struct bytes station, struct bytes company, const struct said *said)
{
    const struct cleared *done = &said->cleared;
    const struct question *q = &said->question;
    if (station.length == NAMES_MAX || company.length == NAMES_MAX)
        fprintf(stderr, "edge list of 16384 bytes\n");
    if (station.length == NAMES_MAX + 1 || company.length == NAMES_MAX + 1)
        fprintf(stderr, "edge list of 16385 bytes\n");
    if (said->outcome != NOT_READ)
        count_request(&said->request);
    switch (said->outcome) {
    case NOT_READ: fprintf(stderr, "verdict request not read\n"); return;
    case LIST_TOO_LONG: fprintf(stderr, "verdict list too long\n"); return;
    case SHEET_REFUSED: fprintf(stderr, "verdict sheet %d\n", said->sheet); return;
    case CHECKED: break;
    }
    switch (done->verdict) {
    case REFUSED:
        fprintf(stderr, "verdict refused\nown %d\n", done->own);
        return;
    case NO_READING:
        fprintf(stderr, "verdict no reading\nno reading by %d\n", done->refusal.number);
        fprintf(stderr, "%s by %d\n", done->step.code == DELIVER ? met_told[done->met] : step_told[done->step.code], done->refusal.number);
        if (done->read != NOT_A_READ)
            count_look(station, company, q->object[done->read]);
        if (done->read > 0)
            fprintf(stderr, "edge no reading after a width was read\n");
        if (done->read > 0 && done->step.code == INVOKE && done->replied_at == q->quiesce)
            fprintf(stderr, "edge call refused by 8 after a reply at Q\n");
        if (done->step.code == DELIVER && done->step.c > 0)
            fprintf(stderr, "edge no reading with a message in another slot than 0\n");
        return;
    default:
        fprintf(stderr, "verdict %s\n", done->verdict == FITS ? "fits" : "narrow");
        for (int i = 0; i < done->count; i++)
            count_look(station, company, q->object[i]);
        count_widths(q, done);
    }
}

/* -------------------------------------------------------------- the program */

/* Of a longer file no more is read than shows that it is too long. */
enum { FILE_MAX = 2 * SHEET_MAX };

static bool read_file(const char *name, uint8_t *at, struct bytes *bytes)
{
    FILE *file = fopen(name, "rb");
    if (file == NULL) {
        perror(name);
        return false;
    }
    *bytes = bytes_of(at, fread(at, 1, FILE_MAX, file));
    bool good = ferror(file) == 0;
    fclose(file);
    return good;
}

int main(int argc, char **argv)
{
    static uint8_t room[4][FILE_MAX];
    static struct said said;
    struct bytes part[4];
    bool counts = argc == 6 && strcmp(argv[1], "--counts") == 0;
    if (argc != 5 && !counts) {
        fprintf(stderr, "usage: clearance [--counts] STATION COMPANY REQUEST SHEET\n");
        return 3;
    }
    for (int i = 0; i < 4; i++)
        if (!read_file(argv[argc - 4 + i], room[i], &part[i]))
            return 3;
    answer_to(part[0], part[1], part[2], part[3], &said);
    if (counts)
        count_met(part[0], part[1], &said);
    if (said.cleared.strange != NULL) {
        fprintf(stderr, "clearance: %s\n", said.cleared.strange);
        return 3;
    }
    if (fwrite(said.text, 1, said.length, stdout) != said.length || fclose(stdout) != 0) {
        perror("clearance: the text could not be written");
        return 3;
    }
    return said.status;
}

#endif

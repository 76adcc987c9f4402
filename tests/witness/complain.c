/* complain: a text on standard input; on standard output what passwrite answers where the text is bad, and nothing where it is good.
   Written from docs/WORDS.md, and not from the code that it is compared with.
   The place in the grammar at which the fault fell goes to standard error, for tests/words to count.
   complain places: all places, one to a line. */
#include <stdint.h>
#include <stdio.h>
#include <string.h>

/* The lines that are taken. %1, %2 and %4 are a number of so many bytes, %x is 32 hex digits.
   A line that ends where another goes on stands after it, so that `nothing` is said last. */
static const char *const form[] = {
    "tick %1 by %4",
    "begin home %1 slot %1 quiesce %4 release %4",
    "invoke %2 at %1 read object %1 value %4",
    "invoke %2 at %1 read object %1",
    "invoke %2 at %1 write object %1 value %4",
    "invoke %2 at %1 operation %1 object %1 value %4",
    "refresh %2 quiesce %4 release %4",
    "terminate %2",
    "prepare %2",
    "ask %2 at %1",
    "close %2",
    "tell %2 at %1",
    "abort %2",
    "deliver %1",
    "drop %1",
    "sweep %1",
    "crash %1",
    "recover %1",
    "retire %2",
    "raw %x",
};
enum { FORMS = sizeof form / sizeof form[0] };

enum { TEXT_LIMIT = 524288, LINE_LIMIT = 1000, RECORD_LIMIT = 4095, LETTER_LIMIT = 12, SHOWN_LIMIT = 20 };
static const uint64_t number_limit = 4294967299;

typedef const unsigned char *bytes;

static long line;                /* the number of the line */
static const char *rest[FORMS];  /* of each form that agrees with the line so far, what has still to come; else null */
static int items;                /* how many words and numbers agreed */
static int digits;               /* how many hex digits stood after `raw` */

static int is_blank(int c) { return c == ' ' || c == '\t' || c == '\r'; }
static int is_small(int c) { return c >= 'a' && c <= 'z'; }
static int is_capital(int c) { return c >= 'A' && c <= 'Z'; }
static int is_digit(int c) { return c >= '0' && c <= '9'; }
static int is_hex(int c) { return is_digit(c) || (c >= 'a' && c <= 'f') || (c >= 'A' && c <= 'F'); }

/* The first form that agrees. There always is one. */
static int agreeing(void)
{
    int f = 0;
    while (!rest[f])
        f++;
    return f;
}

/* Whether the line may end here. */
static int is_complete(void)
{
    for (int f = 0; f < FORMS; f++)
        if (rest[f] && !*rest[f])
            return 1;
    return digits == 32;
}

static const char *after_item(const char *r)
{
    r += strcspn(r, " ");
    return r + (*r == ' ');
}

/* What may come, each once, as in `a, b or c`. */
static void print_expected(void)
{
    const char *phrase[FORMS];
    int length[FORMS], count = 0;
    for (int f = 0; f < FORMS && items > 0; f++) {
        if (!rest[f])
            continue;
        const char *p = !*rest[f] ? "nothing" : *rest[f] != '%' ? rest[f] : rest[f][1] == 'x' ? "32 hex digits" : "a number";
        int n = (int)(p == rest[f] ? strcspn(p, " ") : strlen(p)), i = 0;
        while (i < count && (length[i] != n || memcmp(phrase[i], p, (size_t)n) != 0))
            i++;
        if (i == count) {
            phrase[count] = p;
            length[count++] = n;
        }
    }
    if (items == 0)
        printf("a step");
    for (int i = 0; i < count; i++)
        printf("%s%.*s", i == 0 ? "" : i < count - 1 ? ", " : " or ", length[i], phrase[i]);
    printf(" expected\n");
}

/* A place in the grammar is what of a form stands before it. */
static void print_place(FILE *out, const char *from, const char *to, const char *note)
{
    fprintf(out, "%.*s...%s\n", (int)(to - from) - (to > from && to[-1] == ' '), from, note);
}

/* Tells a fault of the grammar, with what stands from `at` to the next blank or the end. */
static int fault(const char *name, bytes at, bytes end)
{
    int f = agreeing();
    print_place(stderr, form[f], rest[f], "");
    printf("line %ld: %s", line, name);
    if (at < end) {
        printf(" '");
        for (int i = 0; i < SHOWN_LIMIT && at < end && !is_blank(*at); i++, at++)
            putchar(is_small(*at) || is_capital(*at) || is_digit(*at) ? *at : '?');
        printf("'");
    }
    printf(", ");
    print_expected();
    return -1;
}

static int plain_fault(const char *name)
{
    printf("line %ld: %s\n", line, name);
    return -1;
}

/* What stands from `at` to `end`, where no blank is. It is judged at the first byte that settles it. */
enum kind { WORD, NUMBER, TOO_LARGE, UNKNOWN };
static enum kind kind_of(bytes at, bytes end, uint64_t *value)
{
    *value = 0;
    if (is_small(*at)) {
        for (int letters = 0; at < end; at++, letters++)
            if (!is_small(*at) || letters == LETTER_LIMIT)
                return UNKNOWN;
        return WORD;
    }
    for (; at < end; at++) {
        if (!is_digit(*at))
            return UNKNOWN;
        *value = 10 * *value + (uint64_t)(*at - '0');
        if (*value > number_limit)
            return TOO_LARGE;
    }
    return NUMBER;
}

/* Keeps the forms of which the next item is this word or number; 0 where none is left, and then all stay. */
static int agree(enum kind kind, bytes at, bytes end)
{
    size_t length = (size_t)(end - at);
    int agrees[FORMS], left = 0;
    for (int f = 0; f < FORMS; f++) {
        const char *r = rest[f];
        agrees[f] = r && *r && (kind == NUMBER ? *r == '%' : strcspn(r, " ") == length && memcmp(r, at, length) == 0);
        left += agrees[f];
    }
    for (int f = 0; f < FORMS && left > 0; f++)
        rest[f] = agrees[f] ? after_item(rest[f]) : 0;
    return left > 0;
}

/* One line, without its newline: 1 where it says a record, 0 where it says nothing, -1 where it is bad. */
static int read_line(bytes at, bytes end)
{
    if (end - at > LINE_LIMIT)
        return plain_fault("line too long");
    bytes comment = memchr(at, '#', (size_t)(end - at));
    if (comment)
        end = comment;
    memcpy(rest, form, sizeof rest);
    items = digits = 0;
    for (;;) {
        while (at < end && is_blank(*at))
            at++;
        if (at == end)
            break;
        int f = agreeing();
        const char *wanted = rest[f];
        if (items > 0 && wanted[0] == '%' && wanted[1] == 'x') {
            if (!is_hex(*at) || digits == 32)
                return fault("unknown word", at, end);
            digits++;
            at++;
            continue;
        }
        bytes next = at;
        while (next < end && !is_blank(*next))
            next++;
        uint64_t value;
        enum kind kind = kind_of(at, next, &value);
        if (kind == UNKNOWN)
            return fault("unknown word", at, end);
        if (kind == TOO_LARGE || (kind == NUMBER && wanted[0] == '%' && value >> 8 * (wanted[1] - '0') != 0)) {
            print_place(stderr, form[f], wanted, " too large");
            return plain_fault("number too large");
        }
        if (!agree(kind, at, next))
            return fault(items == 0 || is_complete() ? "unknown word" : "missing field at", at, end);
        items++;
        at = next;
    }
    if (items == 0)
        return 0;
    return is_complete() ? 1 : fault("missing field", end, end);
}

/* Digits of `raw` that are too many stand at the same place as the others. */
static void print_places(void)
{
    for (int f = 0; f < FORMS; f++)
        for (const char *r = form[f];; r = after_item(r)) {
            print_place(stdout, form[f], r, "");
            if (!*r || r[1] == 'x')
                break;
            if (*r == '%')
                print_place(stdout, form[f], r, " too large");
        }
}

int main(int count, char **argument)
{
    static unsigned char text[TEXT_LIMIT + 1];
    if (count > 1 && strcmp(argument[1], "places") == 0) {
        print_places();
        return 0;
    }
    size_t length = fread(text, 1, sizeof text, stdin);
    if (length > TEXT_LIMIT) {
        puts("text too long");
        return 0;
    }
    bytes at = text, end = text + length;
    if (length >= 3 && memcmp(text, "\xEF\xBB\xBF", 3) == 0)
        at += 3;
    /* A text has fewer than a million lines, so only its records can be too many. */
    for (int records = 0; at < end;) {
        bytes next = memchr(at, '\n', (size_t)(end - at));
        if (!next)
            next = end;
        line++;
        int says = read_line(at, next);
        if (says < 0)
            return 0;
        records += says;
        if (records > RECORD_LIMIT) {
            plain_fault("too many lines");
            return 0;
        }
        at = next + (next < end);
    }
    return 0;
}

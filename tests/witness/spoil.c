/* spoil SEED N DIR: writes N texts for passwrite, DIR/0001.words and so on. About a third of them is good.
   A text has lines of any step, as docs/WORDS.md has them, oddly spaced; in a bad one some lines are spoiled in one way or two.
   The same seed and number give the same texts everywhere. */
#include <stdint.h>
#include <stdio.h>
#include <stdlib.h>
#include <string.h>

/* The lines that are taken. %1, %2 and %4 are a number of so many bytes, %x is 32 hex digits. `raw` stands here often, as it can be spoiled in more ways. */
static const char *const form[] = {
    "tick %1 by %4",
    "begin home %1 slot %1 quiesce %4 release %4",
    "invoke %2 at %1 read object %1",
    "invoke %2 at %1 read object %1 value %4",
    "invoke %2 at %1 write object %1 value %4",
    "invoke %2 at %1 operation %1 object %1 value %4",
    "refresh %2 quiesce %4 release %4",
    "terminate %2",
    "prepare %2",
    "ask %2 at %1",
    "close %2",
    "tell %2 at %1",
    "abort %2",
    "deliver %1",
    "drop %1",
    "sweep %1",
    "crash %1",
    "recover %1",
    "retire %2",
    "raw %x",
    "raw %x",
    "raw %x",
};
enum { FORMS = sizeof form / sizeof form[0] };

enum { TEXT_LIMIT = 524288, LINE_LIMIT = 1000, RECORD_LIMIT = 4095, TOKEN_LIMIT = 120, ROOM = 600000 };

/* A line, before it is spaced: its words and numbers. */
struct token { int length; unsigned char byte[TOKEN_LIMIT]; };
static struct token token[32];
static int tokens;
static int is_raw;

static unsigned char text[ROOM];
static size_t length;

/* ---- chance: splitmix64. No call has two arguments that pick, as compilers differ in which comes first. */
static uint64_t state;

static uint32_t pick(uint32_t below)
{
    uint64_t z = state += 0x9E3779B97F4A7C15;
    z = (z ^ z >> 30) * 0xBF58476D1CE4E5B9;
    z = (z ^ z >> 27) * 0x94D049BB133111EB;
    return (uint32_t)((z ^ z >> 31) >> 33) % below;
}

static int one_in(uint32_t n) { return pick(n) == 0; }
static int any_blank(void) { return " \t\r"[pick(3)]; }

/* A byte that stands in no word and no number. */
static int any_odd(void)
{
    switch (pick(4)) {
    case 0: return "\0\1\x7F"[pick(3)];
    case 1: return 128 + (int)pick(128);
    case 2: return "'\"`"[pick(3)];
    default: return "-+.,:;=/\\_@[{~\v\f\x1F"[pick(17)];
    }
}

/* ---- words and numbers */
static void put(struct token *t, int c)
{
    if (t->length < TOKEN_LIMIT)
        t->byte[t->length++] = (unsigned char)c;
}

static void put_string(struct token *t, const char *s)
{
    while (*s)
        put(t, *s++);
}

static void put_letters(struct token *t, int count)
{
    while (count-- > 0)
        put(t, 'a' + (int)pick(26));
}

static void put_number(struct token *t, uint64_t n)
{
    char s[24];
    snprintf(s, sizeof s, "%llu", (unsigned long long)n);
    put_string(t, s);
}

/* Any bytes but a newline, behind a `#`. */
static void put_comment(struct token *t)
{
    put(t, '#');
    for (int n = (int)pick(24); n > 0; n--) {
        int c = one_in(2) ? (int)pick(256) : "sweep 7 #\xEF\xBB\xBF"[pick(12)];
        put(t, c == '\n' ? '\0' : c);
    }
}

/* A number that fits, at its limit often. */
static void put_fitting(struct token *t, int width)
{
    uint64_t most = ((uint64_t)1 << 8 * width) - 1;
    if (one_in(8))
        for (int n = 1 + (int)pick(30); n > 0; n--)
            put(t, '0');
    switch (pick(4)) {
    case 0: put_number(t, most); break;
    case 1: put_number(t, pick(2) * (most - 1)); break;
    case 2: put_number(t, pick(10)); break;
    default: put_number(t, pick(0x7FFFFFFF) % (most + 1)); break;
    }
}

/* A number at one side of a limit, or one of 30 digits. */
static void put_edge(struct token *t)
{
    static const uint64_t edge[] = {255, 256, 65535, 65536, 4294967295, 4294967296, 4294967299, 4294967300};
    uint32_t which = pick(10);
    if (one_in(6))
        put_string(t, "000");
    if (which < 8)
        put_number(t, edge[which]);
    else
        for (int i = 0; i < 30; i++)
            put(t, '0' + (int)(which == 8 && i < 28 ? 0 : pick(10)));
}

/* A word of the grammar, from any place in it. */
static void put_grammar_word(struct token *t)
{
    const char *word;
    do {
        word = form[pick(FORMS)];
        for (int n = (int)pick(9); n > 0 && strchr(word, ' '); n--)
            word = strchr(word, ' ') + 1;
    } while (*word == '%');
    while (*word && *word != ' ')
        put(t, *word++);
}

/* A word or a number that most likely doesn't belong where it stands. */
static void put_stray(struct token *t)
{
    static const int letters[] = {1, 4, 12, 13, 40};
    static const char *const near[] = {"look", "valu", "values", "now", "nothing", "operations", "x7", "7x", "0x7", "sweep7", "Read"};
    t->length = 0;
    switch (pick(6)) {
    case 0: put_edge(t); break;
    case 1: put_number(t, pick(300)); break;
    case 2: put_letters(t, letters[pick(5)]); break;
    case 3: put_string(t, near[pick(11)]); break;
    case 4: put(t, any_odd()); put_letters(t, (int)pick(3)); break;
    default: put_grammar_word(t); break;
    }
}

static void insert_byte(struct token *t, int at, int c)
{
    if (t->length == TOKEN_LIMIT)
        return;
    memmove(t->byte + at + 1, t->byte + at, (size_t)(t->length - at));
    t->byte[at] = (unsigned char)c;
    t->length++;
}

/* An odd byte at the start, in the middle or at the end. */
static void insert_odd(struct token *t)
{
    int at = (int)pick(3) * t->length / 2;
    insert_byte(t, at, any_odd());
}

static void remove_byte(struct token *t, int at)
{
    memmove(t->byte + at, t->byte + at + 1, (size_t)(t->length - at - 1));
    t->length--;
}

static void insert_token(int at)
{
    memmove(token + at + 1, token + at, (size_t)(tokens - at) * sizeof token[0]);
    token[at].length = 0;
    tokens++;
}

static void remove_token(int at)
{
    memmove(token + at, token + at + 1, (size_t)(tokens - at - 1) * sizeof token[0]);
    tokens--;
}

/* ---- good lines, and ways to spoil them */
static void put_hex(struct token *t, int count)
{
    int spaced = one_in(2);
    for (; count > 0; count--) {
        put(t, "0123456789abcdefABCDEF"[pick(22)]);
        while (spaced && one_in(6))
            put(t, any_blank());
    }
}

static void good_line(const char *f)
{
    is_raw = strncmp(f, "raw", 3) == 0;
    for (tokens = 0; *f; tokens++) {
        struct token *t = &token[tokens];
        t->length = 0;
        if (f[0] == '%' && f[1] == 'x')
            put_hex(t, 32);
        else if (f[0] == '%')
            put_fitting(t, f[1] - '0');
        else
            while (*f && *f != ' ')
                put(t, *f++);
        f += strcspn(f, " ");
        f += *f == ' ';
    }
}

/* The digits of `raw`: too few or too many, a bad one, a comment in the middle. */
static void spoil_digits(struct token *t)
{
    static const int count[] = {0, 1, 31, 32, 33, 64};
    int at;
    switch (pick(4)) {
    case 0:
    case 1:
        t->length = 0;
        put_hex(t, count[pick(6)]);
        break;
    case 2:
        at = (int)pick((uint32_t)t->length + 1);
        insert_byte(t, at, one_in(2) ? any_odd() : "gGzZxX"[pick(6)]);
        break;
    default:
        t->length = (int)pick((uint32_t)t->length + 1);
        put_comment(t);
        break;
    }
}

/* One way, at the token `at`; behind the last one something is added. */
static void spoil(int at)
{
    struct token *t = &token[at];
    if (at == tokens) {
        insert_token(at);
        put_stray(t);
        return;
    }
    if (is_raw && at > 0) {
        spoil_digits(t);
        return;
    }
    int byte = t->length > 0 ? (int)pick((uint32_t)t->length) : 0;
    int is_word = t->length > 0 && t->byte[0] >= 'a';
    switch (pick(18)) {
    case 0: /* a letter changed */
        if (t->length > 0)
            t->byte[byte] = (unsigned char)('a' + pick(26));
        break;
    case 1: /* a letter dropped */
        if (t->length > 0)
            remove_byte(t, byte);
        break;
    case 2: /* a letter doubled, or one inside a number */
        if (is_word)
            insert_byte(t, byte, t->byte[byte]);
        else
            insert_byte(t, byte, 'a' + (int)pick(26));
        break;
    case 3: /* a letter made capital, or one behind a number */
        if (is_word)
            t->byte[byte] = (unsigned char)(t->byte[byte] & 0xDF);
        else
            insert_byte(t, t->length, 'A' + (int)pick(26));
        break;
    case 4: /* dropped */
        remove_token(at);
        break;
    case 5: /* doubled */
        insert_token(at);
        *t = t[1];
        break;
    case 6: /* swapped with its neighbour */
        if (at + 1 < tokens) {
            struct token other = t[1];
            t[1] = *t;
            *t = other;
        } else {
            remove_token(at);
        }
        break;
    case 7:
    case 8: /* a word of another place */
        t->length = 0;
        put_grammar_word(t);
        break;
    case 9: /* a small number, instead or before */
        if (is_word && one_in(2))
            insert_token(at);
        t->length = 0;
        put_number(t, pick(300));
        break;
    case 10:
    case 11: /* a number at a limit */
        t->length = 0;
        put_edge(t);
        break;
    case 12: /* a long word */
        t->length = 0;
        put_letters(t, 12);
        if (one_in(2))
            put_letters(t, one_in(2) ? 1 : 28);
        break;
    case 13: /* an odd byte */
        insert_odd(t);
        break;
    case 14: /* a comment directly behind */
        put_comment(t);
        break;
    case 15: /* no space behind */
        if (at + 1 < tokens) {
            for (int i = 0; i < t[1].length; i++)
                put(t, t[1].byte[i]);
            remove_token(at + 1);
        } else {
            put_letters(t, 1);
        }
        break;
    case 16: /* the line ends */
        tokens = at;
        break;
    default: /* anything else, instead or before */
        if (one_in(2))
            insert_token(at);
        put_stray(t);
        break;
    }
}

/* ---- texts */
static void write_byte(int c) { text[length++] = (unsigned char)c; }

static void write_blanks(int count)
{
    while (count-- > 0)
        write_byte(any_blank());
}

static void write_token(const struct token *t)
{
    memcpy(text + length, t->byte, (size_t)t->length);
    length += (size_t)t->length;
}

/* The first bytes of EF BB BF. */
static void write_mark(int count)
{
    for (int i = 0; i < count; i++)
        write_byte("\xEF\xBB\xBF"[i]);
}

/* The tokens, with any spacing, and a comment perhaps. No newline. */
static void write_line(void)
{
    if (one_in(8))
        write_blanks((int)pick(4));
    for (int i = 0; i < tokens; i++) {
        if (i > 0 && one_in(5))
            write_blanks(1 + (int)pick(4));
        else if (i > 0)
            write_byte(' ');
        write_token(&token[i]);
    }
    if (one_in(8))
        write_blanks((int)pick(4));
    if (one_in(6)) {
        struct token comment = {0};
        put_comment(&comment);
        write_token(&comment);
    }
    if (one_in(10))
        write_byte('\r');
}

/* Makes the line that starts at `start` so many bytes long: blanks before it or after it, or a comment. */
static void lengthen(size_t start, size_t whole)
{
    size_t now = length - start;
    if (now >= whole)
        return;
    size_t more = whole - now;
    int way = (int)pick(3);
    if (way == 0) {
        memmove(text + start + more, text + start, now);
        memset(text + start, any_blank(), more);
    } else {
        memset(text + length, way == 1 ? any_blank() : '7', more);
        if (way == 2)
            text[length] = '#';
    }
    length += more;
}

static void end_line(void)
{
    write_byte('\n');
    while (one_in(8)) {
        if (one_in(2))
            write_byte("\r#"[pick(2)]);
        write_byte('\n');
    }
}

static void write_good_line(void)
{
    size_t start = length;
    good_line(form[pick(FORMS)]);
    write_line();
    if (one_in(25))
        lengthen(start, LINE_LIMIT - pick(2));
}

/* A line spoiled at one token, and sometimes at another one too. */
static void write_bad_line(const char *f, int at)
{
    size_t start = length;
    good_line(f);
    spoil(at);
    if (one_in(4))
        spoil((int)pick((uint32_t)tokens + 1));
    write_line();
    if (one_in(20))
        length = start + pick((uint32_t)(length - start) + 1);
    if (one_in(12))
        lengthen(start, LINE_LIMIT - 1 + pick(3));
}

/* Good lines, and a mark before them perhaps. */
static void write_start(void)
{
    if (one_in(10))
        write_mark(3);
    for (int n = (int)pick(4); n > 0; n--) {
        write_good_line();
        end_line();
    }
}

/* Lines after the bad one, of which nothing may be said. */
static void write_rest(void)
{
    for (int n = (int)pick(3); n > 0; n--) {
        end_line();
        const char *f = form[pick(FORMS)];
        write_bad_line(f, (int)pick(2));
    }
}

/* A text with a line that is spoiled in any way at any place. */
static void messy_text(void)
{
    const char *f = form[pick(FORMS)];
    int last = 1;
    for (const char *c = f; *c; c++)
        last += *c == ' ';
    switch (pick(20)) {
    case 0: write_mark(3); write_mark(3); break;
    case 1: write_mark(1 + (int)pick(2)); break;
    case 2: write_byte(any_blank()); write_mark(3); break;
    }
    write_start();
    if (one_in(20))
        write_mark(1 + (int)pick(3));
    write_bad_line(f, (int)pick((uint32_t)last + 1));
    write_rest();
}

/* The faults that are aimed at: at each place behind a step's name a byte that doesn't belong there, the end of the line, another word or number.
   Where a number must stand, or nothing, one of these by chance is enough, as there are many such places; a number may be too large as well. */
enum fault { ODD, END, OTHER, ANY, LARGE };
static struct { const char *f; int at; enum fault fault; } aim[400];
static int aims;

static void add_aim(const char *f, int at, enum fault fault)
{
    aim[aims].f = f;
    aim[aims].at = at;
    aim[aims++].fault = fault;
}

static void find_aims(void)
{
    for (int i = 0; i < FORMS; i++) {
        const char *next = form[i];
        for (int at = 1; (next = strchr(next, ' ')); at++) {
            next++;
            int met = 0;
            for (int j = 0; j < i; j++)
                met |= strncmp(form[j], form[i], (size_t)(next - form[i])) == 0;
            if (!met && (next[0] != '%' || next[1] == 'x'))
                for (int fault = ODD; fault <= OTHER; fault++)
                    add_aim(form[i], at, (enum fault)fault);
            else if (!met) {
                add_aim(form[i], at, ANY);
                add_aim(form[i], at, LARGE);
            }
            if (!strchr(next, ' '))
                add_aim(form[i], at + 1, ANY);
        }
    }
}

/* A number that no field of this width holds, at the limit often. */
static void put_too_large(struct token *t, int width)
{
    if (one_in(6))
        put_string(t, "000");
    switch (pick(6)) {
    case 0: put_number(t, 4294967296 + pick(5)); break;
    case 1: put_string(t, "123456789012345678901234567890"); break;
    default: put_number(t, (uint64_t)1 << 8 * width); break;
    }
}

/* Spoils the line so that its first fault falls at `at`. */
static void spoil_there(const char *f, int at, enum fault fault)
{
    struct token *t = &token[at];
    if (fault == ANY)
        fault = (enum fault)pick(3);
    if (at == tokens) {
        insert_token(at);
        put_letters(t, 6);
        if (fault == END)
            return;
    }
    int byte = (int)pick((uint32_t)t->length);
    int is_word = t->byte[0] >= 'a' && !(is_raw && at == 1);
    switch (fault) {
    case ODD:
        if (one_in(2))
            insert_odd(t);
        else if (is_raw && at == 1)
            insert_byte(t, byte, "gGzZxX"[pick(6)]);
        else if (one_in(2))
            insert_byte(t, t->length, is_word ? '7' : 'x');
        else if (is_word && one_in(2))
            t->byte[byte] = (unsigned char)(t->byte[byte] & 0xDF);
        else {
            t->length = 0;
            put_letters(t, one_in(2) ? 13 : 40);
        }
        break;
    case LARGE:
        for (int i = 0; i < at; i++)
            f = strchr(f, ' ') + 1;
        t->length = 0;
        put_too_large(t, f[1] - '0');
        break;
    case END:
        tokens = at;
        if (one_in(2))
            put_comment(&token[at - 1]);
        break;
    default:
        if (is_word && one_in(2)) {
            if (one_in(2))
                remove_byte(t, byte);
            else
                insert_byte(t, byte, t->byte[byte]);
            break;
        }
        if (one_in(2))
            insert_token(at);
        t->length = 0;
        if (is_raw && at == 1)
            put_letters(t, 40);
        else if (is_word)
            put_number(t, pick(300));
        else if (one_in(2))
            put_letters(t, 1 + (int)pick(12));
        else
            put_grammar_word(t);
        break;
    }
}

static void aimed_text(int turn)
{
    write_start();
    size_t start = length;
    good_line(aim[turn % aims].f);
    spoil_there(aim[turn % aims].f, aim[turn % aims].at, aim[turn % aims].fault);
    write_line();
    if (one_in(12))
        lengthen(start, LINE_LIMIT - pick(2));
    write_rest();
}

static void good_text(void)
{
    if (one_in(6))
        write_mark(3);
    for (int n = (int)pick(6); n > 0; n--) {
        write_good_line();
        if (n > 1)
            end_line();
    }
}

/* A text at the limit of its bytes, of blank lines or of comments, with a line at its end. */
static void longest_text(int turn)
{
    size_t whole = TEXT_LIMIT + (size_t)turn % 2;
    if (turn % 5 >= 3)
        write_mark(3);
    while (length < whole - 8)
        if (turn / 2 % 2 == 0) {
            write_byte('\n');
        } else {
            size_t start = length, left = whole - 8 - length;
            write_byte('#');
            lengthen(start, left - 1 < LINE_LIMIT ? left - 1 : LINE_LIMIT);
            write_byte('\n');
        }
    memcpy(text + length, turn % 3 == 1 ? "\nsweep x" : "\nsweep 7", 8);
    length += 8;
}

/* A text of about as many records as a sheet holds. Its last line is spoiled sometimes. */
static void fullest_text(int turn)
{
    for (int n = RECORD_LIMIT - 1 + turn % 3; n > 0; n--) {
        good_line(form[7 + pick(12)]);
        for (int i = 0; i < tokens; i++) {
            write_token(&token[i]);
            write_byte(i + 1 < tokens ? ' ' : '\n');
        }
        if (one_in(100))
            end_line();
    }
    if (turn % 4 == 1)
        write_bad_line(form[pick(FORMS)], 1);
    else
        write_good_line();
}

/* Of every 150 texts a few are of their own kind. Of the others a third is good, a third is spoiled anywhere, and a third is aimed. */
static void make_text(int number)
{
    static int aimed;
    int turn = number / 150;
    length = 0;
    switch (number % 150) {
    case 0: break;
    case 1: longest_text(turn); return;
    case 2: fullest_text(turn); break;
    case 3: write_mark(turn % 4); break;
    default:
        switch (number % 3) {
        case 0: good_text(); break;
        case 1: messy_text(); break;
        default: aimed_text(aimed++); break;
        }
        break;
    }
    if (length > 0 && one_in(2))
        write_byte('\n');
}

int main(int count, char **argument)
{
    if (count != 4) {
        fprintf(stderr, "spoil SEED N DIR\n");
        return 2;
    }
    uint64_t seed = strtoull(argument[1], 0, 10);
    int most = atoi(argument[2]);
    find_aims();
    for (int number = 1; number <= most; number++) {
        char name[4096];
        snprintf(name, sizeof name, "%s/%04d.words", argument[3], number);
        state = seed * 0x100000001B3 + (uint64_t)number;
        pick(2);
        state *= 0x2545F4914F6CDD1D;
        make_text(number);
        FILE *file = fopen(name, "wb");
        if (!file || fwrite(text, 1, length, file) != length || fclose(file) != 0) {
            perror(name);
            return 1;
        }
    }
    return 0;
}

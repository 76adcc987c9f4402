/* say: a sheet that is taken on standard input, its records in words on standard output, one to a line.
   Written from docs/WORDS.md and the record of document 01, and not from the code that it is compared with. */
#include <stdint.h>
#include <stdio.h>
#include <string.h>

enum { A = 1, B = 2, C = 4, H = 8, U = 16, V = 32 };

/* Of each step its words, where a letter after `%` stands for a field, and the fields that it names. */
static const struct { const char *words; int names; } step[17] = {
    {0, 0},
    {"tick %a by %u", A | U},
    {"begin home %a slot %b quiesce %u release %v", A | B | U | V},
    {"invoke %h at %a %o", H | A | B | C | U},
    {"refresh %h quiesce %u release %v", H | U | V},
    {"terminate %h", H},
    {"prepare %h", H},
    {"ask %h at %a", H | A},
    {"close %h", H},
    {"tell %h at %a", H | A},
    {"abort %h", H},
    {"deliver %c", C},
    {"drop %c", C},
    {"sweep %a", A},
    {"crash %a", A},
    {"recover %a", A},
    {"retire %h", H},
};

static uint32_t number(const uint8_t *bytes, int count)
{
    uint32_t n = 0;
    for (int i = count; i > 0; i--)
        n = 256 * n + bytes[i - 1];
    return n;
}

/* What an invoke does, with which object, and the value where it is said. */
static void say_operation(const uint8_t *r)
{
    uint32_t value = number(r + 8, 4);
    if (r[2] == 0)
        printf("read object %d", r[3]);
    else if (r[2] == 1)
        printf("write object %d", r[3]);
    else
        printf("operation %d object %d", r[2], r[3]);
    if (r[2] != 0 || value != 0)
        printf(" value %u", (unsigned)value);
}

static int is_a_step(const uint8_t *r)
{
    if (r[0] < 1 || r[0] > 16)
        return 0;
    int names = step[r[0]].names;
    return ((names & A) || r[1] == 0) && ((names & B) || r[2] == 0) && ((names & C) || r[3] == 0)
        && ((names & H) || number(r + 4, 2) == 0) && number(r + 6, 2) == 0
        && ((names & U) || number(r + 8, 4) == 0) && ((names & V) || number(r + 12, 4) == 0);
}

static void say(const uint8_t *r)
{
    if (!is_a_step(r)) {
        printf("raw ");
        for (int i = 0; i < 16; i++)
            printf("%02x", r[i]);
        return;
    }
    for (const char *w = step[r[0]].words; *w; w++) {
        if (*w != '%') {
            putchar(*w);
            continue;
        }
        switch (*++w) {
        case 'a': printf("%d", r[1]); break;
        case 'b': printf("%d", r[2]); break;
        case 'c': printf("%d", r[3]); break;
        case 'h': printf("%u", (unsigned)number(r + 4, 2)); break;
        case 'u': printf("%u", (unsigned)number(r + 8, 4)); break;
        case 'v': printf("%u", (unsigned)number(r + 12, 4)); break;
        case 'o': say_operation(r); break;
        }
    }
}

int main(void)
{
    static uint8_t sheet[65537];
    size_t length = fread(sheet, 1, sizeof sheet, stdin);
    if (length < 8 || length > 65536 || memcmp(sheet + length - 4, "PASS", 4) != 0)
        return 1;
    size_t distance = number(sheet + length - 8, 4);
    if (distance % 16 != 0 || distance > length - 8)
        return 1;
    for (size_t at = length - 8 - distance; at < length - 8; at += 16) {
        say(sheet + at);
        putchar('\n');
    }
    return 0;
}

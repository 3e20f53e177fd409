/* The two functions for a C host (include/leadginger.h), called from C, with results by hand: the number that an answer becomes, the names,
   helpers and words of the header, and the caller's own buffers. What the functions answer to any bytes is compared with the model by
   tests/run-differ, through the operations that they call.

   Each call is made twice: on buffers that begin right after a page that may not be touched, and on buffers that end right before one, so that
   a read or a write outside of them stops the program. Compared are the 64-bit result, what the helpers make of it, every byte of the
   output with guard bytes at its open end, and the input, which has to be unchanged. */
#define _DEFAULT_SOURCE /* for MAP_ANONYMOUS */
#include <inttypes.h>
#include <stdint.h>
#include <stdio.h>
#include <stdlib.h>
#include <string.h>
#include <sys/mman.h>
#include <unistd.h>

#include "../include/leadginger.h"

#define AREA 73728u /* bytes of the longest input, and of the longest output: enough to show a length that is cut to 16 bits */
#define GUARD 64u   /* bytes that are watched at the open end of the output */
#define MAX_NUMBER 4294967295u
#define MAX_COUNT 4096u

/* ---- the groups and their counts ---- */

static const char *group;
static unsigned long cases, all_cases, groups;

static void begin(const char *name)
{
    group = name;
    cases = 0;
    printf("%-56s", name); /* before the cases, so that a run that stops shows where */
    fflush(stdout);
}

static void end(void)
{
    printf("%9lu\n", cases);
    all_cases += cases;
    groups++;
}

/* Says which case went wrong and ends the program. */
static void fail(const char *call, const char *what, uint64_t expected, uint64_t got)
{
    printf("\ntests/host: FAILED: %s, case %lu: %s\n", group, cases, call);
    printf("  %s: expected %" PRIu64 ", got %" PRIu64 "\n", what, expected, got);
    exit(1);
}

/* ---- memory between two pages that may not be touched ---- */

struct area {
    uint8_t *start, *end;
};

static struct area input, output;

static struct area new_area(void)
{
    size_t page = (size_t)sysconf(_SC_PAGESIZE);
    uint8_t *all = mmap(NULL, AREA + 2 * page, PROT_READ | PROT_WRITE, MAP_PRIVATE | MAP_ANONYMOUS, -1, 0);
    struct area area;

    if (AREA % page != 0 || all == MAP_FAILED || mprotect(all, page, PROT_NONE) != 0 || mprotect(all + page + AREA, page, PROT_NONE) != 0) {
        printf("tests/host: FAILED: no memory between pages that may not be touched\n");
        exit(1);
    }
    area.start = all + page;
    area.end = all + page + AREA;
    return area;
}

/* So many bytes at the start of an area, or at its end. */
static uint8_t *lent(struct area area, size_t n, int at_end)
{
    return at_end ? area.end - n : area.start;
}

/* ---- one call ---- */

/* What holds of either call: the result, what the helpers make of it, and the input. */
static void compare(const char *call, uint64_t expected, uint64_t got, const uint8_t *s, const uint8_t *lent_s, size_t n)
{
    int answer = (int)(expected & 31);
    uint64_t value = answer == 0 ? expected >> 5 : 0, place = answer == 7 ? expected >> 5 : 0;

    cases++;
    if (got != expected)
        fail(call, "result", expected, got);
    if (leadginger_answer(got) != answer)
        fail(call, "leadginger_answer", (uint64_t)answer, (uint64_t)leadginger_answer(got));
    if (leadginger_value(got) != value)
        fail(call, "leadginger_value", value, leadginger_value(got));
    if (leadginger_place(got) != place)
        fail(call, "leadginger_place", place, leadginger_place(got));
    if (n > 0 && memcmp(lent_s, s, n) != 0)
        fail(call, "the input has changed (expected 0 for no)", 0, 1);
}

static uint8_t before(size_t i)
{
    return (uint8_t)(0xA5 ^ 37 * i);
}

/* An accepted read leaves the row, four bytes for each number, and every other byte as it was. */
static void read_at(int at_end, const uint8_t *s, size_t n, size_t room, uint64_t expected, const uint8_t *row)
{
    uint8_t *lent_s = lent(input, n, at_end), *out = lent(output, room, at_end);
    size_t guard = AREA - room < GUARD ? AREA - room : GUARD, whole = room + guard, i;
    uint8_t *watched = at_end ? out - guard : out;
    size_t first = (size_t)(out - watched), written = expected % 32 == 0 ? 4 * (size_t)(expected / 32) : 0;
    char call[100];
    uint64_t got;

    if (n > 0)
        memcpy(lent_s, s, n);
    for (i = 0; i < whole; i++)
        watched[i] = before(i);
    snprintf(call, sizeof call, "leadginger_read(s, %zu, out, %zu)", n, room);
    got = leadginger_read(lent_s, n, out, room);
    compare(call, expected, got, s, lent_s, n);
    for (i = 0; i < whole; i++) {
        uint8_t byte = i >= first && i - first < written ? row[i - first] : before(i);

        if (watched[i] != byte)
            fail(call, "a byte of the output, or beside it", byte, watched[i]);
    }
    for (i = 0; i < written / 4; i++) {
        uint64_t number = row[4 * i] + 256 * (row[4 * i + 1] + 256 * (row[4 * i + 2] + 256 * (uint64_t)row[4 * i + 3]));

        if (leadginger_number(out, i) != number)
            fail(call, "leadginger_number", number, leadginger_number(out, i));
    }
}

static void reads(const uint8_t *s, size_t n, size_t room, uint64_t expected, const uint8_t *row)
{
    read_at(0, s, n, room, expected, row);
    read_at(1, s, n, room, expected, row);
}

static void totals(size_t order, const uint8_t *s, size_t n, size_t a, size_t b, uint64_t expected)
{
    char call[120];
    int at_end;

    snprintf(call, sizeof call, "leadginger_total(%zu, s, %zu, %zu, %zu)", order, n, a, b);
    for (at_end = 0; at_end < 2; at_end++) {
        uint8_t *lent_s = lent(input, n, at_end);

        if (n > 0)
            memcpy(lent_s, s, n);
        compare(call, expected, leadginger_total(order, lent_s, n, a, b), s, lent_s, n);
    }
}

/* ---- making encodings ---- */

static uint8_t made[AREA]; /* zeros from made_bits on */
static size_t made_bits;

static size_t made_length(void)
{
    return (made_bits + 7) / 8;
}

static void clear(void)
{
    memset(made, 0, made_length());
    made_bits = 0;
}

static void put_bit(int bit)
{
    if (bit)
        made[made_bits / 8] |= (uint8_t)(128 >> made_bits % 8);
    made_bits++;
}

static void put_ones(size_t n)
{
    while (n-- > 0)
        put_bit(1);
}

static size_t unhex(const char *hex, uint8_t *to)
{
    size_t n = 0;
    int used;
    unsigned byte;

    while (sscanf(hex, " %2x%n", &byte, &used) == 1) {
        to[n++] = (uint8_t)byte;
        hex += used;
    }
    return n;
}

/* The first bits of bytes written in hex. */
static void put(const char *hex, size_t bits)
{
    uint8_t s[8];
    size_t k;

    unhex(hex, s);
    for (k = 0; k < bits; k++)
        put_bit(s[k / 8] >> (7 - k % 8) & 1);
}

/* ---- results by hand ---- */

/* For each order the largest number and the next, and the bits of either. The codewords were worked out by the greedy rule. */
static const char *const largest[7] = {
    NULL, NULL, "24 88 08 A2 A1 16", "D0 59 60 A4 6E", "96 5A 5C 9B 3C", "F1 08 82 69 7C", "D2 A8 B3 DC 7E"};
static const char *const one_more[7] = {
    NULL, NULL, "A4 88 08 A2 A1 16", "30 59 60 A4 6E", "56 5A 5C 9B 3C", "09 08 82 69 7C", "32 A8 B3 DC 7E"};
static const size_t bits_of_either[7] = {0, 0, 47, 39, 38, 38, 39};

static void worked_read(const char *hex, size_t room, uint64_t result, const char *row)
{
    uint8_t s[64], numbers[64];

    unhex(row, numbers);
    reads(s, unhex(hex, s), room, result, numbers);
}

static void worked_total(size_t order, const char *hex, size_t a, size_t b, uint64_t result)
{
    uint8_t s[64];

    totals(order, s, unhex(hex, s), a, b, result);
}

/* Paper 01's knots to check by pencil, the open points of docs/READINGS.md, and each refusal. */
static void worked_examples(void)
{
    size_t m;

    begin("worked examples, with results by hand");
    worked_total(2, "", 0, 0, 0);
    worked_total(2, "3E DE", 0, 5, 352);
    worked_read("6D B8", 4, 32, "58 02 00 00"); /* 600, not 599 */
    worked_total(3, "6D B8", 0, 1, 32 * 600);
    worked_read("E0", 4, 32, "01 00 00 00");
    worked_read("E0", 3, 5, "");
    worked_read("E0", 5, 32, "01 00 00 00");
    worked_total(6, "7E", 0, 1, 32 * 2);
    worked_total(2, "FF", 0, 4, 32 * 4);
    worked_total(2, "00", 0, 0, 6);
    worked_total(2, "E0", 0, 0, 6); /* 111 is number 1 and a remaining 1 */
    worked_read("", 0, 0, "");
    worked_read("E6 0B 2C 14 8D C0", 8, 39, ""); /* 1, then the number after the largest */
    worked_total(3, "E6 0B 2C 14 8D C0", 0, 2, 39);
    worked_read("6D BF CE DB 75 C0", 20, 160, "58 02 00 00 01 00 00 00 0C 00 00 00 58 02 00 00 07 00 00 00");
    worked_read("FC", 8, 64, "01 00 00 00 01 00 00 00");
    worked_read("FF", 8, 6, "");
    worked_read("07 E0", 8, 64, "10 00 00 00 01 00 00 00");
    worked_read("03 BF", 12, 96, "1D 00 00 00 02 00 00 00 01 00 00 00");
    worked_read("00 00 00 00 00 00 00 00 07 01", 4, 7, ""); /* 7 comes before 6 */
    worked_total(2, "3E DE", 5, 5, 0);
    worked_total(2, "3E DE", 6, 6, 8);
    worked_total(2, "3E DE", 3, 2, 8);
    worked_total(2, "3E DE", 1, 4, 32 * 7);
    worked_total(2, "E0", 9, 0, 6); /* the encoding is judged before the span, and the order before the encoding */
    worked_total(7, "E0", 9, 0, 1);
    for (m = 2; m <= 6; m++) {
        worked_total(m, largest[m], 0, 1, 32 * (uint64_t)MAX_NUMBER);
        worked_total(m, one_more[m], 0, 1, 7);
    }
    worked_read("D0 59 60 A4 6E", 4, 32, "FF FF FF FF");
    worked_read("30 59 60 A4 6E", 4, 7, "");
    end();
}

/* ---- numbers that a result holds ---- */

static void counts(void)
{
    static uint8_t row[4 * MAX_COUNT];
    size_t count;

    begin("every count");
    for (count = 0; count < MAX_COUNT; count++)
        row[4 * count] = 1;
    for (count = 0; count <= MAX_COUNT + 2; count++) {
        uint64_t expected = count <= MAX_COUNT ? 32 * count : 4;

        clear();
        put_ones(3 * count);
        reads(made, made_length(), 4 * count, expected, row);
        if (count > 0 && count <= MAX_COUNT)
            reads(made, made_length(), 4 * count - 1, 5, row);
        totals(3, made, made_length(), 0, count, expected);
        totals(3, made, made_length(), 0, count + 1, count <= MAX_COUNT ? 8 : 4);
    }
    end();
}

static void places(void)
{
    size_t m, place;

    begin("every place of a number too large");
    for (place = 0; place <= MAX_COUNT + 1; place++)
        for (m = 2; m <= 6; m++) {
            uint64_t expected = place < MAX_COUNT ? 7 + 32 * place : 4;

            clear();
            put_ones(m * place);
            put(one_more[m], bits_of_either[m]);
            put_ones(m * (place % 3));
            totals(m, made, made_length(), 0, place, expected);
            if (m == 3)
                reads(made, made_length(), 4 * place, expected, NULL);
        }
    end();
}

static void largest_totals(void)
{
    static const size_t edges[] = {0, 1, 2048, 4095, 4096, 4097, SIZE_MAX};
    static uint8_t row[4 * MAX_COUNT];
    size_t m, i, a, b;

    begin("the largest totals");
    memset(row, 0xFF, sizeof row);
    for (m = 2; m <= 6; m++) {
        clear();
        for (i = 0; i < MAX_COUNT; i++)
            put(largest[m], bits_of_either[m]);
        for (a = 0; a < sizeof edges / sizeof edges[0]; a++)
            for (b = 0; b < sizeof edges / sizeof edges[0]; b++)
                totals(m, made, made_length(), edges[a], edges[b],
                       edges[a] <= edges[b] && edges[b] <= MAX_COUNT ? 32 * (uint64_t)(edges[b] - edges[a]) * MAX_NUMBER : 8);
        if (m == 3)
            reads(made, made_length(), 4 * MAX_COUNT, 32 * MAX_COUNT, row);
    }
    end();
}

/* ---- sizes ---- */

static void output_sizes(void)
{
    static const char row[] = "58 02 00 00 01 00 00 00 0C 00 00 00 58 02 00 00 07 00 00 00";
    static const size_t edges[] = {16383, 16384, 16385, 65535, 65536, 65537, AREA};
    size_t room, i;

    begin("outputs of every size");
    for (room = 0; room <= 40; room++) {
        worked_read("6D BF CE DB 75 C0", room, room < 20 ? 5 : 160, row);
        worked_read("", room, 0, "");
        worked_read("E0 01", room, 6, ""); /* refused before the output is looked at */
        worked_read("E6 0B 2C 14 8D C0", room, 39, "");
    }
    for (i = 0; i < sizeof edges / sizeof edges[0]; i++)
        worked_read("6D BF CE DB 75 C0", edges[i], 160, row);
    end();
}

static void input_sizes(void)
{
    static const size_t edges[] = {1, 24063, 24064, 24065, 32768, 65535, 65536, 65537, 65538, AREA};
    size_t i;

    begin("inputs of up to 24,064 bytes and above");
    clear();
    for (i = 0; i < sizeof edges / sizeof edges[0]; i++) {
        uint64_t expected = edges[i] <= 24064 ? 6 : 2;

        reads(made, edges[i], 16, expected, NULL); /* zeros */
        totals(2, made, edges[i], 0, 0, expected);
        totals(7, made, edges[i], 0, 0, 1);
    }
    end();
}

static void orders_and_spans(void)
{
    static const size_t wide[] = {7, 8, 9, 32, 255, 256, 258, 259, 65536, 65538, 65539, (size_t)(((uint64_t)1 << 32) + 2),
                                  (size_t)(((uint64_t)1 << 32) + 3), SIZE_MAX / 2 + 4, SIZE_MAX - 1, SIZE_MAX};
    size_t i;

    begin("orders and places of every width");
    worked_total(0, "3E DE", 0, 5, 1);
    worked_total(1, "3E DE", 0, 5, 1);
    for (i = 0; i < sizeof wide / sizeof wide[0]; i++) {
        worked_total(wide[i], "3E DE", 0, 5, 1);
        worked_total(wide[i], "E0", 1, 0, 1);
        worked_total(2, "3E DE", 0, wide[i], 8);
        worked_total(2, "3E DE", wide[i], 0, 8);
        worked_total(2, "3E DE", wide[i], wide[i], 8);
    }
    end();
}

/* A null pointer with length 0 is an empty encoding, and an output with no room. */
static void null_pointers(void)
{
    uint8_t *out = output.start;
    uint8_t one = 0xE0, rest = 0xE1;

    begin("null pointers");
    memset(out, 0xA5, 8);
    compare("leadginger_read(NULL, 0, out, 8)", 0, leadginger_read(NULL, 0, out, 8), NULL, NULL, 0);
    if (out[0] != 0xA5 || memcmp(out, out + 1, 7) != 0)
        fail("leadginger_read(NULL, 0, out, 8)", "the output has changed (expected 0 for no)", 0, 1);
    compare("leadginger_read(NULL, 0, NULL, 0)", 0, leadginger_read(NULL, 0, NULL, 0), NULL, NULL, 0);
    compare("leadginger_read of 1, NULL, 0", 5, leadginger_read(&one, 1, NULL, 0), NULL, NULL, 0);
    compare("leadginger_read of a rest, NULL, 0", 6, leadginger_read(&rest, 1, NULL, 0), NULL, NULL, 0);
    compare("leadginger_total(2, NULL, 0, 0, 0)", 0, leadginger_total(2, NULL, 0, 0, 0), NULL, NULL, 0);
    compare("leadginger_total(6, NULL, 0, 0, 1)", 8, leadginger_total(6, NULL, 0, 0, 1), NULL, NULL, 0);
    compare("leadginger_total(7, NULL, 0, 0, 0)", 1, leadginger_total(7, NULL, 0, 0, 0), NULL, NULL, 0);
    end();
}

/* Every answer has words of its own, and what is none has others. */
static void words(void)
{
    static const int answers[] = {LEADGINGER_ACCEPTED, LEADGINGER_ORDER, LEADGINGER_BYTES, LEADGINGER_COUNT, LEADGINGER_ROOM,
                                  LEADGINGER_REST, LEADGINGER_NUMBER, LEADGINGER_SPAN, 3, 9};
    static const int numbers[] = {0, 1, 2, 4, 5, 6, 7, 8, 3, 9};
    size_t i, j;

    begin("the names and words of the header");
    for (i = 0; i < 10; i++) {
        cases++;
        if (answers[i] != numbers[i])
            fail("a name", "number", (uint64_t)numbers[i], (uint64_t)answers[i]);
        for (j = 0; j < i; j++)
            if ((strcmp(leadginger_words((uint64_t)answers[i]), leadginger_words((uint64_t)answers[j])) == 0) != (i == 9 && j == 8))
                fail("leadginger_words", "two answers with the same words", (uint64_t)answers[i], (uint64_t)answers[j]);
    }
    cases += 3;
    if (LEADGINGER_NUMBER_MAX != MAX_NUMBER || LEADGINGER_COUNT_MAX != MAX_COUNT || LEADGINGER_BYTES_MAX != 24064)
        fail("the limits", "(expected 0 for as in paper 01)", 0, 1);
    end();
}

int main(void)
{
    input = new_area();
    output = new_area();
    worked_examples();
    counts();
    places();
    largest_totals();
    output_sizes();
    input_sizes();
    orders_and_spans();
    null_pointers();
    words();
    printf("tests/host: %lu cases in %lu groups agree\n", all_cases, groups);
    return 0;
}

#include "report.h"

#include <math.h>
#include <stdio.h>
#include <stdlib.h>
#include <string.h>

#define GROUPS_MOST 256

static struct times groups[GROUPS_MOST];
static size_t group_count;

/* A side beside another, and the ratio to reach for each kind of numbers (geometric, to 1,000, to 2^32-1, ..), 0 where none is asked for: on rows of 4,096
   numbers, of append on rows of every length, or on encodings of two bytes. */
struct pair {
    enum side side, other;
    double at_most[TWO_BYTES + 1];
};

static const struct pair pairs[] = {
    {TABLE_READ, PLAIN_TABLE_READ, {1.1, 1.1, 1.1}},
    {TABLE_READ, PLAIN_READ, {0.2, 0.2, 0.2, [TWO_BYTES] = 4}},
    {TABLE_READ_BYTES, PLAIN_TABLE_READ, {0}},
    {READ, PLAIN_READ, {0.3, 0.2, 0.1, [TWO_BYTES] = 5}},
    {READ, SDSL_DECODE, {1.3, 1.0, 0.7}},
    {WRITE, PLAIN_WRITE, {0.5, 0.5, 0.5}},
    {WRITE, SDSL_ENCODE, {1.0, 1.0, 1.0}},
    {DENSE_READ, PLAIN_DENSE_READ, {1.3, 1.3, 1.3}},
    {DENSE_WRITE, PLAIN_DENSE_WRITE, {1.2, 1.2, 1.2}},
    {APPEND, PLAIN_PUT, {1.3, 1.3, 1.3}},
    {HEADER, READ, {0}},
    {TOTAL, READ, {0.95, 0.95, 0.95}},
    {REPEATED_TOTAL, READ, {1.0, 1.0, 1.0}},
    {TOTAL, PLAIN_TOTAL, {0}},
    {REPEATED_TOTAL, PLAIN_REPEATED_TOTAL, {0}},
    {TOTAL, SDSL_SUM, {0}},
    {REPLACE_FIRST, TOTAL, {1.3, 1.3, 1.3}},
    {REPLACE_MIDDLE, TOTAL, {1.3, 1.3, 1.3}},
    {REPLACE_LAST, TOTAL, {1.3, 1.3, 1.3}},
    {REPLACE_MIDDLE, PLAIN_REPLACE, {0}},
    {BUILD, PLAIN_BUILD, {[TO_256] = 1.5}},
    {BUILD, HUFF_BUILD, {0}},
    {BUILD, INT_BUILD, {0}},
    {EXTRACT, PLAIN_EXTRACT, {[TO_256] = 1.5}},
    {EXTRACT, HUFF_EXTRACT, {0}},
    {EXTRACT, INT_EXTRACT, {0}},
    {RANK, PLAIN_RANK, {[TO_256] = 1.5}},
    {RANK, HUFF_RANK, {0}},
    {RANK, INT_RANK, {0}},
    {SELECT, PLAIN_SELECT, {[TO_256] = 1.5}},
    {SELECT, HUFF_SELECT, {0}},
    {SELECT, INT_SELECT, {0}},
    {LISTING, PLAIN_LISTING, {0}},
};

#define PAIRS (sizeof pairs / sizeof *pairs)

static const char *const kind_names[] = {
    [GEOMETRIC] = "geometric",
    [TO_1000] = "to 1,000",
    [TO_LARGEST] = "to 2^32-1",
    [TO_256] = "to 256",
    [LISTED] = "to 1,000",
    [TWO_BYTES] = "2 bytes",
    [REFUSED_4] = "a number too many (4)",
    [REFUSED_6] = "a rest that is too long (6)",
    [REFUSED_7] = "a number that is too large in the last place (7)",
};

struct times *report_times(size_t code, enum kind kind, size_t count)
{
    if (group_count == GROUPS_MOST) {
        fprintf(stderr, "bench: too many groups\n");
        exit(1);
    }
    struct times *t = &groups[group_count++];
    *t = (struct times){.code = code, .kind = kind, .count = count};
    return t;
}

/* The times of a group, or NULL. */
static const struct times *find(size_t code, enum kind kind, size_t count)
{
    for (size_t i = 0; i < group_count; i++)
        if (groups[i].code == code && groups[i].kind == kind && groups[i].count == count)
            return &groups[i];
    return NULL;
}

/* The ratio of a pair in a group, or 0 where one of them was not measured. */
static double ratio(const struct times *t, struct pair p)
{
    if (t == NULL || t->ns[p.side] == 0 || t->ns[p.other] == 0)
        return 0;
    return t->ns[p.side] / t->ns[p.other];
}

/* Whether a ratio, as it is printed, is at most what it may be. */
static int reached(double r, double at_most)
{
    return r < at_most + 0.005;
}

/* Whether a side is held to a ratio on rows of every length that is measured. */
static int by_every_length(enum side s)
{
    return s == APPEND;
}

/* Whether a group has a ratio of a pair to reach: in order 2 read has SDSL's decode beside it, and not the plain reader. */
static int is_asked(const struct times *t, struct pair p, enum kind kind)
{
    if (p.side == READ && p.other == PLAIN_READ && t->code == 2)
        return 0;
    return p.at_most[kind] > 0 && t->kind == kind && (by_every_length(p.side) || t->count == (kind == TWO_BYTES ? 4 : 4096));
}

/* The worst ratio of a pair over the codes and, for append, over the lengths of rows, where there is one to reach, and its group. */
static double worst(struct pair p, enum kind kind, const struct times **where)
{
    double most = 0;

    for (size_t i = 0; i < group_count; i++)
        if (is_asked(&groups[i], p, kind) && ratio(&groups[i], p) > most) {
            most = ratio(&groups[i], p);
            *where = &groups[i];
        }
    return most;
}

/* ## Tables */

static void print_code(size_t code)
{
    printf(is_dense(code) ? "s = %zu" : "order %zu", code);
}

/* The length of a row, which is at most 4,096. */
static void print_count(size_t count)
{
    if (count < 1000)
        printf("%zu", count);
    else
        printf("%zu,%03zu", count / 1000, count % 1000);
}

static void reach_line(struct pair p, enum kind kind)
{
    const struct times *t = NULL;
    double r = worst(p, kind, &t);

    if (t == NULL)
        return;
    printf("| %s | %s | %s | %.2f | %.2f | ", calls[p.side].name, calls[p.other].name, kind_names[kind], p.at_most[kind], r);
    print_code(t->code);
    if (by_every_length(p.side)) {
        printf(", rows of ");
        print_count(t->count);
    }
    printf(" | %s |\n", reached(r, p.at_most[kind]) ? "yes" : "NO");
}

static void print_reach(void)
{
    printf("## To reach\n\nThe worst ratio over the orders (of read beside plain C, over 3 to 6) or, in the dense code, over the stoppers s,"
           " proved side over the other, rows of 4,096 numbers; of append over rows of 4,096, 64 and 4.\n\n");
    printf("| operation | against | numbers | at most | measured | at | reached |\n|---|---|---|---|---|---|---|\n");
    for (size_t i = 0; i < PAIRS; i++)
        for (enum kind kind = GEOMETRIC; kind <= TWO_BYTES; kind++)
            reach_line(pairs[i], kind);
}

/* A time with three digits or so, and a ratio with two or more. */
static void print_time(double ns)
{
    printf(ns < 10 ? "%.2f" : ns < 1000 ? "%.1f" : "%.0f", ns);
}

static void print_ratio(double r)
{
    printf(r < 0.095 ? "%.2g" : "%.2f", r);
}

static void print_cell(const struct times *t, struct pair p, double per)
{
    double r = ratio(t, p);

    if (r > 0) {
        print_time(t->ns[p.side] / per);
        printf(" / ");
        print_time(t->ns[p.other] / per);
        printf(" = ");
        print_ratio(r);
    }
    printf(" |");
}

/* Questions are measured by the call, all else by the number. */
static int by_call(enum side s)
{
    return s == EXTRACT || s == RANK || s == SELECT;
}

/* Whether both of a pair were measured, in one of the codes. */
static int measured(struct pair p, enum kind kind, size_t count, const size_t *codes, size_t n)
{
    for (size_t i = 0; i < n; i++)
        if (ratio(find(codes[i], kind, count), p) > 0)
            return 1;
    return 0;
}

static void pair_line(struct pair p, enum kind kind, size_t count, const size_t *codes, size_t n)
{
    if (!measured(p, kind, count, codes, n))
        return;
    printf("| %s | %s | ", calls[p.side].name, calls[p.other].name);
    print_count(count);
    printf(" | %s | ", kind_names[kind]);
    for (size_t i = 0; i < n; i++) {
        print_cell(find(codes[i], kind, count), p, by_call(p.side) ? 1 : (double)count);
        printf(i + 1 < n ? " " : "\n");
    }
}

/* A table with a column for each of the codes. */
static void print_pairs(const size_t *codes, size_t n)
{
    static const size_t counts[] = {4096, 64, 4};

    printf("| operation | against | row | numbers |");
    for (size_t i = 0; i < n; i++) {
        printf(" ");
        print_code(codes[i]);
        printf(" |");
    }
    printf("\n|---|---|---|---|");
    for (size_t i = 0; i < n; i++)
        printf("---|");
    printf("\n");
    for (size_t i = 0; i < PAIRS; i++)
        for (size_t c = 0; c < 3; c++)
            for (enum kind kind = GEOMETRIC; kind <= LISTED; kind++)
                pair_line(pairs[i], kind, counts[c], codes, n);
}

/* Appending is called for each number of a row. */
static double time_of_a_call(const struct times *t, enum side s)
{
    return t->ns[s] / (s == APPEND ? t->count : 1);
}

/* A table of the times of a call against the length of the row, in order 3. */
static void print_growth(enum kind kind, const enum side *sides, size_t n)
{
    printf("| row |");
    for (size_t k = 0; k < n; k++)
        printf(" %s |", calls[sides[k]].name);
    printf("\n|---|");
    for (size_t k = 0; k < n; k++)
        printf("---|");
    for (size_t count = 1; count <= 4096; count *= 2) {
        const struct times *t = find(3, kind, count);
        if (t == NULL)
            continue;
        printf("\n| ");
        print_count(count);
        printf(" |");
        for (size_t k = 0; k < n; k++) {
            printf(" ");
            print_time(time_of_a_call(t, sides[k]));
            printf(" |");
        }
    }
    printf("\n");
}

void report_tables(void)
{
    static const enum side growing[] = {READ, TABLE_READ, TOTAL, REPLACE_MIDDLE, APPEND, WRITE};
    static const enum side indexed[] = {BUILD, EXTRACT, RANK, SELECT};
    static const enum side refused[] = {READ, TABLE_READ, TOTAL};

    print_reach();
    printf("\n## All times and ratios\n\nNanoseconds a number (questions: a call), proved / other = ratio, by order.\n\n");
    print_pairs(orders, ORDERS);
    printf("\nThe same for the dense code, by its stoppers s:\n\n");
    print_pairs(stoppers, STOPPERS);
    printf("\n## Growth\n\nNanoseconds a call against the length of the row; order 3, numbers to 1,000.\n\n");
    print_growth(GROWING, growing, 6);
    printf("\nThe same for the index, numbers to 256:\n\n");
    print_growth(INDEXED, indexed, 4);
    for (enum kind kind = REFUSED_4; kind <= REFUSED_7; kind++) {
        printf("\nThe same for encodings that are refused at their end, for %s:\n\n", kind_names[kind]);
        print_growth(kind, refused, 3);
    }
}

/* ## Picture: a bar for each ratio to reach, on a scale of powers of two, with a mark at what it may be */

#define LEFT 470
#define WIDTH 520
#define LINE 17
#define LEAST (1.0 / 32)
#define MOST 8.0

static double x_of(double r)
{
    double at = r < LEAST ? LEAST : r > MOST ? MOST : r;

    return LEFT + WIDTH * log2(at / LEAST) / log2(MOST / LEAST);
}

static void bar(FILE *f, struct pair p, enum kind kind, int *line)
{
    const struct times *t = NULL;
    double r = worst(p, kind, &t), at_most = p.at_most[kind];

    if (t == NULL)
        return;
    int y = 50 + LINE * (*line)++;
    fprintf(f, "<text x='%d' y='%d' text-anchor='end'>%s / %s, %s</text>\n", LEFT - 8, y + 11, calls[p.side].name, calls[p.other].name,
            kind_names[kind]);
    fprintf(f, "<rect x='%d' y='%d' width='%.1f' height='12' fill='%s'/>\n", LEFT, y, x_of(r) - LEFT, reached(r, at_most) ? "#4a7ba6" : "#c0504d");
    fprintf(f, "<line x1='%.1f' x2='%.1f' y1='%d' y2='%d' stroke='black' stroke-width='2'/>\n", x_of(at_most), x_of(at_most), y - 2, y + 14);
    fprintf(f, "<text x='%.1f' y='%d'>%.2f</text>\n", x_of(r > at_most ? r : at_most) + 6, y + 11, r);
}

static void axis(FILE *f, int height)
{
    for (double r = LEAST; r <= MOST; r *= 2) {
        fprintf(f, "<line x1='%.1f' x2='%.1f' y1='44' y2='%d' stroke='%s'/>\n", x_of(r), x_of(r), height - 24, r == 1 ? "#888" : "#ddd");
        fprintf(f, "<text x='%.1f' y='%d' text-anchor='middle'>", x_of(r), height - 8);
        fprintf(f, r < 1 ? "1/%.0f</text>\n" : "%.0f</text>\n", r < 1 ? 1 / r : r);
    }
}

static int lines_of(void)
{
    const struct times *t = NULL;
    int n = 0;

    for (size_t i = 0; i < PAIRS; i++)
        for (enum kind kind = GEOMETRIC; kind <= TWO_BYTES; kind++)
            n += worst(pairs[i], kind, &t) > 0;
    return n;
}

int report_picture(const char *folder)
{
    char path[4096];
    int line = 0, height = 50 + LINE * lines_of() + 34;

    snprintf(path, sizeof path, "%s/ratios.svg", folder);
    FILE *f = fopen(path, "w");
    if (f == NULL) {
        fprintf(stderr, "bench: %s cannot be written\n", path);
        return 0;
    }
    fprintf(f, "<svg xmlns='http://www.w3.org/2000/svg' width='%d' height='%d' font-family='sans-serif' font-size='12'>\n", LEFT + WIDTH + 70, height);
    fprintf(f, "<rect width='100%%' height='100%%' fill='white'/>\n");
    fprintf(f, "<text x='10' y='22' font-size='15'>%s</text>\n",
            "Time of the proved side over the other's: rows of 4,096 (append: also 64 and 4), the worst order or s; the mark is what it may be");
    axis(f, height);
    for (size_t i = 0; i < PAIRS; i++)
        for (enum kind kind = GEOMETRIC; kind <= TWO_BYTES; kind++)
            bar(f, pairs[i], kind, &line);
    fprintf(f, "</svg>\n");
    return fclose(f) == 0;
}

/* The benchmark. bench FOLDER: measures, prints the tables, and writes the picture of the ratios to FOLDER/ratios.svg. */
#include "measure.h"
#include "plain.h"
#include "report.h"

#include <stdio.h>

static const enum side codec[] = {
    READ,        TOTAL,       REPEATED_TOTAL,       HEADER,      APPEND,        REPLACE_FIRST, REPLACE_MIDDLE,   REPLACE_LAST,
    PLAIN_READ,  PLAIN_TOTAL, PLAIN_REPEATED_TOTAL, PLAIN_PUT,   PLAIN_REPLACE, TABLE_READ,    TABLE_READ_BYTES, PLAIN_TABLE_READ,
    SDSL_DECODE, SDSL_SUM,    WRITE,                PLAIN_WRITE, SDSL_ENCODE,
};
static const enum side index_sides[] = {
    EXTRACT,      PLAIN_EXTRACT, RANK,        PLAIN_RANK, SELECT,      PLAIN_SELECT, BUILD,      PLAIN_BUILD,
    HUFF_EXTRACT, HUFF_RANK,     HUFF_SELECT, HUFF_BUILD, INT_EXTRACT, INT_RANK,     INT_SELECT, INT_BUILD,
};
static const enum side dense[] = {DENSE_READ, PLAIN_DENSE_READ, DENSE_WRITE, PLAIN_DENSE_WRITE};
static const enum side listings[] = {LISTING, PLAIN_LISTING};
static const enum side readers[] = {TABLE_READ, READ, PLAIN_READ, PLAIN_TABLE_READ};
static const enum side growing[] = {READ, TABLE_READ, TOTAL, REPLACE_MIDDLE, APPEND, WRITE};
static const enum side indexed[] = {BUILD, EXTRACT, RANK, SELECT};
static const enum side refused[] = {READ, TABLE_READ, TOTAL};

#define SIDES_OF(list) (list), (sizeof(list) / sizeof *(list))

static struct pool pool;

/* The byte readers are of order 3, and SDSL's code is of order 2. */
static int has(size_t code, enum side s)
{
    if (s == TABLE_READ || s == TABLE_READ_BYTES || s == PLAIN_TABLE_READ)
        return code == 3;
    return s < SDSL_DECODE || pool.in[0].peer != NULL;
}

static void group(size_t code, enum kind kind, size_t count, const enum side *all, size_t n)
{
    enum side some[SIDES];
    size_t k = 0;

    pool_fill(&pool, code, kind, count);
    for (size_t i = 0; i < n; i++)
        if (has(code, all[i]))
            some[k++] = all[i];
    measure(&pool, some, k, report_times(code, kind, count));
    pool_free(&pool);
}

/* Rows of 4,096, 64 and 4 numbers in each of some codes. */
static void each(const size_t *codes, size_t n_codes, enum kind kind, const enum side *all, size_t n)
{
    static const size_t counts[] = {4096, 64, 4};

    for (size_t c = 0; c < 3; c++)
        for (size_t i = 0; i < n_codes; i++)
            group(codes[i], kind, counts[c], all, n);
    fprintf(stderr, ".");
}

/* Rows of 1, 2, 4 .. 4,096 numbers in order 3, which every reader has. */
static void growth(enum kind kind, const enum side *all, size_t n)
{
    for (size_t count = 1; count <= 4096; count *= 2)
        group(3, kind, count, all, n);
    fprintf(stderr, ".");
}

int main(int argc, char **argv)
{
    if (argc != 2) {
        fprintf(stderr, "usage: bench FOLDER\n");
        return 2;
    }
    plain_start();
    for (enum kind kind = GEOMETRIC; kind <= TO_LARGEST; kind++)
        each(orders, ORDERS, kind, SIDES_OF(codec));
    each(orders, ORDERS, TO_256, SIDES_OF(index_sides));
    each(orders, ORDERS, LISTED, SIDES_OF(listings));
    group(3, TWO_BYTES, 4, SIDES_OF(readers));
    growth(GROWING, SIDES_OF(growing));
    growth(INDEXED, SIDES_OF(indexed));
    growth(REFUSED_6, SIDES_OF(refused));
    growth(REFUSED_7, SIDES_OF(refused));
    group(3, REFUSED_4, 4096, SIDES_OF(refused));
    /* last, so that the inputs of the others are drawn as they were without it */
    for (enum kind kind = GEOMETRIC; kind <= TO_LARGEST; kind++)
        each(stoppers, STOPPERS, kind, SIDES_OF(dense));
    fprintf(stderr, "\n");
    report_tables();
    return report_picture(argv[1]) ? 0 : 1;
}

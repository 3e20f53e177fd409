#define _POSIX_C_SOURCE 199309L
#include "measure.h"

#include <stdio.h>
#include <stdlib.h>
#include <time.h>

#define BLOCKS 9 /* of each block of rounds the best counts, and of those the median */
#define ROUNDS 5
#define PARTS_MOST 8
#define LEAST_NS 20000.0 /* a part is gone over until so much time has passed */

static double now(void)
{
    struct timespec t;

    clock_gettime(CLOCK_MONOTONIC, &t);
    return 1e9 * t.tv_sec + t.tv_nsec;
}

/* Nanoseconds for one pass over the inputs from `from` up to but without `to`. */
static double once(struct pool *p, enum side s, size_t from, size_t to, size_t passes)
{
    double start = now();

    for (size_t k = 0; k < passes; k++)
        for (size_t i = from; i < to; i++)
            calls[s].run(&p->in[i]);
    return (now() - start) / passes;
}

/* The refusal that a kind has to get, 0 for none. */
static uint64_t refusal_of(enum kind kind)
{
    return kind == REFUSED_4 ? 4 : kind == REFUSED_6 ? 6 : kind == REFUSED_7 ? 7 : 0;
}

static void check(struct pool *p, enum side s, enum kind kind)
{
    for (size_t i = 0; i < p->n; i++) {
        calls[s].run(&p->in[i]);
        int right = refusal_of(kind) == 0 ? calls[s].right(&p->in[i]) : answered() == refusal_of(kind);
        if (!right) {
            fprintf(stderr, "bench: '%s' is wrong at input %zu\n", calls[s].name, i);
            exit(1);
        }
    }
}

/* A side's time on a part, where it is better than before. */
static void better(struct pool *p, enum side s, size_t part, size_t passes, double *best)
{
    double ns = once(p, s, part * p->part, (part + 1) * p->part, passes);

    if (*best == 0 || ns < *best)
        *best = ns;
}

static int by_size(const void *a, const void *b)
{
    double x = *(const double *)a, y = *(const double *)b;

    return x < y ? -1 : x > y;
}

static double median(double *times)
{
    qsort(times, BLOCKS, sizeof *times, by_size);
    return times[BLOCKS / 2];
}

/* The sides take turns part by part, each at another part than the one before it, which would else make the next one's branches known. */
void measure(struct pool *p, const enum side *sides, size_t n, struct times *t)
{
    double best[SIDES][PARTS_MOST][BLOCKS] = {{{0}}};
    size_t passes[SIDES], parts = p->n / p->part;

    for (size_t i = 0; i < n; i++) {
        check(p, sides[i], t->kind);
        passes[i] = 1 + (size_t)(LEAST_NS / once(p, sides[i], 0, p->part, 1));
    }
    for (size_t turn = 0; turn < BLOCKS * ROUNDS * parts; turn++)
        for (size_t i = 0; i < n; i++) {
            size_t part = (turn + i) % parts;
            better(p, sides[i], part, passes[i], &best[i][part][turn / (ROUNDS * parts)]);
        }
    for (size_t i = 0; i < n; i++)
        for (size_t k = 0; k < parts; k++)
            t->ns[sides[i]] += median(best[i][k]) / p->n / shares_of(sides[i]);
}

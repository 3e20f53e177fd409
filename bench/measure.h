/* Times of several sides on the same inputs, interleaved, best of several rounds. */
#ifndef MEASURE_H
#define MEASURE_H

#include "sides.h"

/* What a group of calls took: nanoseconds a call, 0 where a side was not asked for. */
struct times {
    size_t code, count;
    enum kind kind;
    double ns[SIDES];
};

/* Ends the program where a side gives a wrong result, or is not refused where it has to be. */
void measure(struct pool *p, const enum side *sides, size_t n, struct times *t);

#endif

/* What is measured: each side is one call on an input (of appending, one for each number of its row; of replacing two), and a test that it gave the right
   result. */
#ifndef SIDES_H
#define SIDES_H

#include "inputs.h"

enum side {
    READ,
    TABLE_READ,
    TABLE_READ_BYTES,
    TOTAL,
    REPEATED_TOTAL,
    HEADER,
    APPEND,
    REPLACE_FIRST,
    REPLACE_MIDDLE,
    REPLACE_LAST,
    WRITE,
    BUILD,
    EXTRACT,
    RANK,
    SELECT,
    LISTING,
    DENSE_READ,
    DENSE_WRITE,
    PLAIN_READ,
    PLAIN_TABLE_READ,
    PLAIN_TOTAL,
    PLAIN_REPEATED_TOTAL,
    PLAIN_PUT,
    PLAIN_REPLACE,
    PLAIN_WRITE,
    PLAIN_BUILD,
    PLAIN_EXTRACT,
    PLAIN_RANK,
    PLAIN_SELECT,
    PLAIN_LISTING,
    PLAIN_DENSE_READ,
    PLAIN_DENSE_WRITE,
    SDSL_DECODE,
    SDSL_SUM,
    SDSL_ENCODE,
    HUFF_BUILD,
    HUFF_EXTRACT,
    HUFF_RANK,
    HUFF_SELECT,
    INT_BUILD,
    INT_EXTRACT,
    INT_RANK,
    INT_SELECT,
    SIDES
};

struct call {
    const char *name;
    void (*run)(struct input *in);
    int (*right)(struct input *in); /* whether the last run gave the right result */
};

extern const struct call calls[SIDES];

/* What a time of a side's run is divided by: 2 for replacing, which goes there and back, else 1. */
double shares_of(enum side s);

/* The number of the answer of the last call of a proved operation. */
uint64_t answered(void);

#endif

/* The inputs that all sides get: rows, their encodings, indexes and listings, from a fixed seed. */
#ifndef INPUTS_H
#define INPUTS_H

#include "sdsl.h"

#include <stddef.h>
#include <stdint.h>

/* The kinds of inputs. The first four say how the numbers of a row are drawn; in the others they are as named. */
enum kind {
    GEOMETRIC, /* with mean 8 */
    TO_1000,
    TO_LARGEST,
    TO_256,
    LISTED,    /* texts for the listing, of numbers to 1,000 */
    TWO_BYTES, /* encodings of order 3 that have two bytes */
    GROWING,   /* rows of many lengths, of numbers to 1,000 */
    INDEXED,   /* the same for the index, of numbers to 256 */
    REFUSED_4, /* encodings that are refused at their end: a number too many, */
    REFUSED_6, /* a rest that is too long, */
    REFUSED_7  /* a number that is too large, in the last place */
};

#define ALPHABET 256

/* A code: one of the orders or, for a dense code, its stoppers, which are more than an order. */
#define ORDERS 5
#define STOPPERS 4
extern const size_t orders[ORDERS], stoppers[STOPPERS];
int is_dense(size_t code);

/* What goes with an encoding: bits in use, numbers, and their total. */
struct header {
    size_t bits, count;
    uint64_t total;
};

/* The bytes of an encoding's buffer: a codeword has at most 47 bits, and what is put behind an encoding is shorter than 32 bytes. */
#define ENCODING_ROOM(count) (6 * (count) + 32)

/* A row and what is made of it. What a group of calls does not need is NULL. */
struct input {
    size_t order, stoppers; /* of its code; the other is 0 */
    size_t count;
    uint32_t *row;
    uint8_t *encoding; /* the encoding, its header, and how many bytes it has; replacing changes it, and changes it back */
    struct header header;
    size_t used;
    uint8_t *shorter; /* the encoding without the last number, with room for it, and its header; its last byte, which appending changes */
    struct header shorter_header;
    size_t shorter_used;
    uint8_t shorter_last;
    uint8_t *index;
    size_t index_bits;
    char *text; /* the listing's input */
    size_t lines;
    size_t place, use; /* a question: `number` stands at `place` for the `use`-th time */
    uint32_t number;
    struct sdsl_row *peer; /* SDSL's row and trees, in order 2 */
};

#define POOL_MOST 8192

/* The inputs of a group, in parts that are timed each by itself. */
struct pool {
    size_t n, part;
    struct input in[POOL_MOST];
};

/* Fills a pool with inputs of a kind: eight parts of 4,096 numbers, or, for the index, of eight rows. */
void pool_fill(struct pool *p, size_t code, enum kind kind, size_t count);
void pool_free(struct pool *p);

#endif

#include "inputs.h"
#include "plain.h"

#include <math.h>
#include <stdio.h>
#include <stdlib.h>
#include <string.h>

const size_t orders[ORDERS] = {2, 3, 4, 5, 6};
const size_t stoppers[STOPPERS] = {8, 128, 200, 254};

int is_dense(size_t code)
{
    return code > 6;
}

static uint64_t state = 88172645463325252u;

static uint64_t draw(void)
{
    state ^= state << 13;
    state ^= state >> 7;
    state ^= state << 17;
    return state;
}

static uint32_t number_of(enum kind kind)
{
    switch (kind) {
    case GEOMETRIC:
    case TWO_BYTES:
        return 1 + (uint32_t)(log1p(-(double)(draw() >> 11) / 9007199254740992.0) / log1p(-1.0 / 8));
    case TO_256:
    case INDEXED:
        return 1 + draw() % ALPHABET;
    case TO_LARGEST:
        return 1 + draw() % 4294967295u;
    default:
        return 1 + draw() % 1000;
    }
}

static void *room(size_t n)
{
    void *p = calloc(n, 1);

    if (p == NULL) {
        fprintf(stderr, "bench: no memory\n");
        exit(1);
    }
    return p;
}

static void add_row(struct input *in, size_t code, enum kind kind, size_t count)
{
    memset(in, 0, sizeof *in);
    if (is_dense(code))
        in->stoppers = code;
    else
        in->order = code;
    in->count = count;
    in->row = room(4 * count);
    for (size_t i = 0; i < count; i++)
        in->row[i] = number_of(kind);
}

static size_t bytes_of(size_t bits)
{
    return (bits + 7) / 8;
}

static void put(const struct input *in, uint32_t n, uint8_t *encoding, struct header *header)
{
    header->bits = plain_put_codeword(in->order, n, encoding, header->bits);
    header->count++;
    header->total += n;
}

/* The encoding of the first `count` numbers. */
static uint8_t *encoding_of(const struct input *in, size_t count, struct header *header)
{
    uint8_t *encoding = room(ENCODING_ROOM(in->count));

    memset(header, 0, sizeof *header);
    for (size_t i = 0; i < count; i++)
        put(in, in->row[i], encoding, header);
    return encoding;
}

static void add_encoding(struct input *in, size_t count)
{
    in->encoding = encoding_of(in, count, &in->header);
    in->used = bytes_of(in->header.bits);
}

static void add_encodings(struct input *in)
{
    add_encoding(in, in->count);
    in->shorter = encoding_of(in, in->count - 1, &in->shorter_header);
    in->shorter_used = bytes_of(in->shorter_header.bits);
    in->shorter_last = in->shorter_used > 0 ? in->shorter[in->shorter_used - 1] : 0;
    if (in->order == 2)
        in->peer = sdsl_row_of(in->row, in->count);
}

static void add_dense(struct input *in)
{
    in->encoding = room(PLAIN_DENSE_BYTES * in->count);
    in->used = plain_dense_write(in->stoppers, in->row, in->count, in->encoding);
}

/* The index, and a question about a place of the row. */
static void add_index(struct input *in)
{
    in->index = room(2 * in->count + 8);
    in->index_bits = plain_build(in->order, ALPHABET, in->row, in->count, in->index);
    in->place = draw() % in->count;
    in->number = in->row[in->place];
    for (size_t i = 0; i <= in->place; i++)
        in->use += in->row[i] == in->number;
    if (in->order == 2)
        in->peer = sdsl_row_of(in->row, in->count);
    if (in->peer != NULL) {
        sdsl_build(in->peer, WT_HUFF_INT);
        sdsl_build(in->peer, WT_INT);
    }
}

static void add_text(struct input *in)
{
    in->lines = in->count + 1;
    in->text = room(11 * in->lines + 1);
    sprintf(in->text, "%10zu\n", in->order);
    for (size_t i = 0; i < in->count; i++)
        sprintf(in->text + 11 * (i + 1), "%10u\n", in->row[i]);
}

/* A codeword of more than 72 zeros and the last ones is above every number of a row. */
static void add_refused(struct input *in, enum kind kind)
{
    add_encoding(in, kind == REFUSED_7 ? in->count - 1 : in->count);
    if (kind == REFUSED_4) {
        put(in, 1, in->encoding, &in->header);
        in->used = bytes_of(in->header.bits);
    }
    if (kind == REFUSED_6)
        in->used += 1;
    if (kind == REFUSED_7) {
        in->encoding[in->used + 9] = 255;
        in->used += 10;
    }
}

/* Rows of one to four numbers, until one has two bytes. */
static void add_two_bytes(struct input *in, size_t order)
{
    add_row(in, order, TWO_BYTES, 1 + draw() % 4);
    add_encoding(in, in->count);
    while (in->used != 2) {
        free(in->row);
        free(in->encoding);
        add_row(in, order, TWO_BYTES, 1 + draw() % 4);
        add_encoding(in, in->count);
    }
}

static void add(struct input *in, size_t code, enum kind kind, size_t count)
{
    if (kind == TWO_BYTES) {
        add_two_bytes(in, code);
        return;
    }
    add_row(in, code, kind, count);
    if (is_dense(code))
        add_dense(in);
    else if (kind == TO_256 || kind == INDEXED)
        add_index(in);
    else if (kind == LISTED)
        add_text(in);
    else if (kind >= REFUSED_4)
        add_refused(in, kind);
    else
        add_encodings(in);
}

void pool_fill(struct pool *p, size_t code, enum kind kind, size_t count)
{
    p->part = kind == TO_256 || kind == INDEXED ? 8 : 4096 / count;
    p->n = 8 * p->part;
    if (p->n > POOL_MOST)
        p->n = POOL_MOST;
    for (size_t k = 0; k < p->n; k++)
        add(&p->in[k], code, kind, count);
}

void pool_free(struct pool *p)
{
    for (size_t k = 0; k < p->n; k++) {
        struct input *in = &p->in[k];
        free(in->row);
        free(in->encoding);
        free(in->shorter);
        free(in->index);
        free(in->text);
        sdsl_free(in->peer);
    }
}

/* The row index in plain C. */
#include "plain.h"

#include <string.h>

/* What a walk down the tree knows of a string of bits: how many it has, how many ones it ends with, the number of the codeword that goes on with a 0 and the
   last ones, and of the one that goes on with ones only. */
struct cursor {
    size_t depth, ones;
    uint64_t next, number;
};

static const struct cursor root = {0, 0, 2, 1};

struct tree {
    size_t order;
    uint64_t alphabet;
    const uint8_t *index;
};

static struct cursor side(size_t order, struct cursor v, int one)
{
    uint64_t step = plain_F[order][v.depth + 1];

    if (one)
        return (struct cursor){v.depth + 1, v.ones + 1, v.next + 2 * step, v.number};
    return (struct cursor){v.depth + 1, 0, v.next + step, v.next};
}

static int is_node(const struct tree *t, struct cursor v)
{
    return v.ones < t->order && v.next <= t->alphabet;
}

/* The codeword of a number from the top of a word. */
static uint32_t aligned_codeword(size_t order, uint32_t n)
{
    size_t d = 0;
    uint32_t w = 0;

    while (plain_first[order][d + 1] <= n)
        d++;
    uint64_t left = n - plain_first[order][d];
    for (size_t j = d; j >= 1; j--)
        if (plain_F[order][j] <= left) {
            left -= plain_F[order][j];
            w |= 1u << (32 - j);
        }
    for (size_t k = 0; k < order; k++)
        w |= 1u << (31 - d - k);
    return w;
}

/* ## Building, by stable partition */

static void set_bit(uint8_t *out, size_t at, int bit)
{
    if (bit)
        out[at / 8] |= 128 >> at % 8;
    else
        out[at / 8] &= ~(128 >> at % 8);
}

static size_t write_subtree(const struct tree *t, struct cursor v, uint32_t *words, size_t n, uint32_t *spare, uint8_t *out, size_t at)
{
    size_t zeros = 0, ones = 0;

    if (n == 0 || !is_node(t, v))
        return at;
    for (size_t i = 0; i < n; i++) {
        int bit = words[i] >> (31 - v.depth) & 1;
        set_bit(out, at++, bit);
        if (bit)
            spare[ones++] = words[i];
        else
            words[zeros++] = words[i];
    }
    memcpy(words + zeros, spare, ones * sizeof *words);
    at = write_subtree(t, side(t->order, v, 0), words, zeros, spare, out, at);
    return write_subtree(t, side(t->order, v, 1), words + zeros, ones, spare, out, at);
}

size_t plain_build(size_t order, uint32_t alphabet, const uint32_t *row, size_t count, uint8_t *out)
{
    struct tree t = {order, alphabet, NULL};
    uint32_t words[4096], spare[4096];

    for (size_t i = 0; i < count; i++)
        words[i] = aligned_codeword(order, row[i]);
    size_t bits = write_subtree(&t, root, words, count, spare, out, 0);
    for (size_t k = bits; k % 8 != 0; k++)
        set_bit(out, k, 0);
    return bits;
}

/* ## Questions */

/* The ones of a word. (Without machine flags a compiler's own function may be a call of a library.) */
static size_t ones_of(uint64_t w)
{
    w -= w >> 1 & 0x5555555555555555;
    w = (w & 0x3333333333333333) + (w >> 2 & 0x3333333333333333);
    w = (w + (w >> 4)) & 0x0f0f0f0f0f0f0f0f;
    return w * 0x0101010101010101 >> 56;
}

/* How many of the first `end` bits are ones. */
static size_t ones_before(const uint8_t *s, size_t end)
{
    size_t n = 0, i = 0;

    for (; i + 8 <= end / 8; i += 8) {
        uint64_t w;
        memcpy(&w, s + i, 8);
        n += ones_of(w);
    }
    for (; i < end / 8; i++)
        n += ones_of(s[i]);
    if (end % 8 != 0)
        n += ones_of(s[i] >> (8 - end % 8));
    return n;
}

/* How many of the k bits from bit `at` on are ones. */
static size_t ones_in(const uint8_t *s, size_t at, size_t k)
{
    s += at / 8;
    return ones_before(s, at % 8 + k) - ones_before(s, at % 8);
}

static int bit_at(const uint8_t *s, size_t k)
{
    return s[k / 8] >> (7 - k % 8) & 1;
}

/* The place of the bit with j others of its kind before it, among the k bits from bit `at` on; k where there is none. */
static size_t select_in(const uint8_t *s, size_t at, size_t k, int bit, size_t j)
{
    size_t p = 0;

    for (size_t step = 64; step > 0; step = step == 64 ? 8 : step == 8 ? 1 : 0)
        while (p + step <= k) {
            size_t ones = ones_in(s, at + p, step);
            size_t here = bit ? ones : step - ones;
            if (here > j)
                break;
            j -= here;
            p += step;
        }
    return p;
}

/* Where the bitmaps of k numbers below a string end. */
static size_t end_of(const struct tree *t, struct cursor v, size_t k, size_t at)
{
    if (k == 0 || !is_node(t, v))
        return at;
    size_t ones = ones_in(t->index, at, k);
    at = end_of(t, side(t->order, v, 0), k - ones, at + k);
    return end_of(t, side(t->order, v, 1), ones, at);
}

/* What a walk finds: where the bitmaps end, the number at its end, and how many places of that number are before the place in view. */
struct walked {
    size_t end;
    uint64_t number;
    size_t rank;
};

/* Walks the bitmaps of k numbers below a string with place i in view: the way of the place, or of a codeword. */
static struct walked descend(const struct tree *t, struct cursor v, size_t k, size_t at, int by_place, uint32_t x, size_t i)
{
    if (!is_node(t, v))
        return (struct walked){at, v.number, i};
    size_t ones = ones_in(t->index, at, k);
    size_t before = ones_in(t->index, at, i);
    int one = by_place ? bit_at(t->index, at + i) : (int)(x >> (31 - v.depth) & 1);
    if (one) {
        at = end_of(t, side(t->order, v, 0), k - ones, at + k);
        return descend(t, side(t->order, v, 1), ones, at, by_place, x, before);
    }
    struct walked f = descend(t, side(t->order, v, 0), k - ones, at + k, by_place, x, i - before);
    f.end = end_of(t, side(t->order, v, 1), ones, f.end);
    return f;
}

uint32_t plain_extract(size_t order, uint32_t alphabet, size_t count, const uint8_t *index, size_t i, size_t *end)
{
    struct tree t = {order, alphabet, index};
    struct walked f = descend(&t, root, count, 0, 1, 0, i);

    *end = f.end;
    return (uint32_t)f.number;
}

size_t plain_rank(size_t order, uint32_t alphabet, size_t count, const uint8_t *index, uint32_t n, size_t i, size_t *end)
{
    struct tree t = {order, alphabet, index};
    struct walked f = descend(&t, root, count, 0, 0, aligned_codeword(order, n), i);

    *end = f.end;
    return f.rank;
}

/* Walks down the codeword x and back, for the use that has j others before it; gives its place, or k. */
static size_t select_below(const struct tree *t, struct cursor v, size_t k, size_t *at, uint32_t x, size_t j)
{
    size_t start = *at;

    if (!is_node(t, v))
        return j < k ? j : k;
    size_t ones = ones_in(t->index, start, k);
    if (x >> (31 - v.depth) & 1) {
        *at = end_of(t, side(t->order, v, 0), k - ones, start + k);
        j = select_below(t, side(t->order, v, 1), ones, at, x, j);
        return select_in(t->index, start, k, 1, j);
    }
    *at = start + k;
    j = select_below(t, side(t->order, v, 0), k - ones, at, x, j);
    *at = end_of(t, side(t->order, v, 1), ones, *at);
    return select_in(t->index, start, k, 0, j);
}

size_t plain_select(size_t order, uint32_t alphabet, size_t count, const uint8_t *index, uint32_t n, size_t j, size_t *end)
{
    struct tree t = {order, alphabet, index};

    *end = 0;
    return select_below(&t, root, count, end, aligned_codeword(order, n), j - 1);
}

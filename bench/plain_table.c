/* The table reader of 001 for order 3, with whole numbers in place of its root: for 0, 1 or 2 ones at the end of what is pending, and a byte, a row of the
   table tells what the byte finishes, what lies inside it and what remains. A value moves behind d others by
   F(d + j) = F(d) F(j) + F(d - 1) (F(j - 1) + F(j - 2)) + F(d - 2) F(j - 1). */
#include "plain.h"

struct row {
    uint16_t count;      /* how many codewords end in the byte */
    uint16_t len;        /* the bits that finish the pending codeword, or make it longer */
    uint16_t x, y, z;    /* and what they are worth: sums of F(j), F(j - 1) + F(j - 2), F(j - 1) */
    uint16_t second, third;
    uint16_t left, value; /* what remains up to the last zero */
    uint16_t next;        /* 256 for each one after it */
};

static struct row rows[768];
static uint64_t F3[64], first3[64];
static uint64_t moved[66]; /* moved[d + 2] is F(d); F(-1) and F(-2) are 0 */

static uint64_t F_of(int j)
{
    return j < 0 ? 0 : F3[j];
}

/* Adds the value of a one at position j of the first bits of a row. */
static void add(struct row *r, int j)
{
    r->x += F_of(j);
    r->y += F_of(j - 1) + F_of(j - 2);
    r->z += F_of(j - 1);
}

/* Follows the bits of a byte after so many ones. */
static struct row follow(int ones, int byte)
{
    struct row r = {0};
    int run = ones, len = 0;
    uint64_t value = 0;
    uint16_t inside[2] = {0, 0};

    for (int k = 7; k >= 0; k--) {
        if (byte >> k & 1) {
            if (++run < 3)
                continue;
            if (r.count == 0)
                r.len = len;
            else
                inside[r.count - 1] = first3[len] + value;
            r.count++;
            run = len = 0;
            value = 0;
        } else {
            for (; run > 0; run--) {
                value += F3[++len];
                if (r.count == 0)
                    add(&r, len);
            }
            len++;
        }
    }
    if (r.count == 0)
        r.len = len;
    r.second = inside[0];
    r.third = inside[1];
    r.left = len;
    r.value = value;
    r.next = 256 * run;
    return r;
}

void plain_table_start(void)
{
    for (int n = 0; n < 64; n++) {
        F3[n] = plain_F[3][n];
        first3[n] = plain_first[3][n];
        moved[n + 2] = F3[n];
    }
    for (int ones = 0; ones < 3; ones++)
        for (int byte = 0; byte < 256; byte++)
            rows[256 * ones + byte] = follow(ones, byte);
}

size_t plain_table_read(const uint8_t *s, size_t len, uint32_t *out)
{
    size_t count = 0, d = 0, state = 0;
    uint64_t value = 0;

    for (size_t i = 0; i < len; i++) {
        const struct row *r = &rows[state + s[i]];
        uint64_t sum = value + moved[d + 2] * r->x + moved[d + 1] * r->y + moved[d] * r->z;
        state = r->next;
        if (r->count == 0) {
            d += r->len;
            value = sum;
        } else {
            out[count] = first3[d + r->len] + sum;
            out[count + 1] = r->second;
            out[count + 2] = r->third;
            count += r->count;
            d = r->left;
            value = r->value;
        }
    }
    return count;
}

#include "plain.h"

#include <stdio.h>
#include <stdlib.h>

uint64_t plain_F[7][PLAIN_DIGITS];
uint64_t plain_first[7][PLAIN_DIGITS];

void plain_start(void)
{
    for (size_t m = 2; m <= 6; m++) {
        plain_F[m][0] = 1;
        for (size_t n = 1; n < PLAIN_DIGITS; n++) {
            plain_F[m][n] = 0;
            for (size_t k = 1; k <= m && k <= n; k++)
                plain_F[m][n] += plain_F[m][n - k];
        }
        plain_first[m][0] = 1;
        for (size_t d = 1; d < PLAIN_DIGITS; d++)
            plain_first[m][d] = plain_first[m][d - 1] + plain_F[m][d - 1];
    }
    plain_table_start();
}

/* Writes one bit, and begins a byte with zeros. */
static size_t put_bit(uint8_t *out, size_t at, int bit)
{
    if (at % 8 == 0)
        out[at / 8] = 0;
    if (bit)
        out[at / 8] |= 128 >> at % 8;
    return at + 1;
}

size_t plain_put_codeword(size_t order, uint32_t n, uint8_t *out, size_t at)
{
    int digits[PLAIN_DIGITS];
    size_t d = 0;

    while (plain_first[order][d + 1] <= n)
        d++;
    uint64_t left = n - plain_first[order][d];
    for (size_t j = d; j >= 1; j--) {
        digits[j] = plain_F[order][j] <= left;
        if (digits[j])
            left -= plain_F[order][j];
    }
    for (size_t j = 1; j <= d; j++)
        at = put_bit(out, at, digits[j]);
    for (size_t k = 0; k < order; k++)
        at = put_bit(out, at, 1);
    return at;
}

size_t plain_write(size_t order, const uint32_t *row, size_t count, uint8_t *out)
{
    size_t at = 0;

    for (size_t i = 0; i < count; i++)
        at = plain_put_codeword(order, row[i], out, at);
    return (at + 7) / 8;
}

size_t plain_read(size_t order, const uint8_t *s, size_t len, uint32_t *out)
{
    size_t count = 0, d = 0, run = 0;
    uint64_t value = 0;

    for (size_t i = 0; i < len; i++)
        for (int j = 7; j >= 0; j--) {
            if (s[i] >> j & 1) {
                run++;
                if (run == order) {
                    out[count++] = plain_first[order][d] + value;
                    d = run = 0;
                    value = 0;
                }
            } else {
                for (; run > 0; run--)
                    value += plain_F[order][++d];
                d++;
            }
        }
    return count;
}

size_t plain_replace(size_t order, uint8_t *buf, size_t used, size_t place, uint32_t n)
{
    uint32_t row[4096];
    size_t count = plain_read(order, buf, used, row);

    row[place] = n;
    size_t now_used = plain_write(order, row, count, buf);
    for (size_t i = now_used; i < used; i++)
        buf[i] = 0;
    return now_used;
}

uint64_t plain_total(size_t order, const uint8_t *s, size_t len, size_t a, size_t b)
{
    uint32_t row[4096];
    uint64_t total = 0;

    plain_read(order, s, len, row);
    for (size_t i = a; i < b; i++)
        total += row[i];
    return total;
}

/* One line of the input as a number. */
static uint32_t line(const char *input, size_t i)
{
    char digits[11];

    snprintf(digits, sizeof digits, "%.10s", input + 11 * i);
    return (uint32_t)strtoul(digits, NULL, 10);
}

size_t plain_listing(const char *input, size_t lines, char *out)
{
    uint32_t order = line(input, 0);
    uint64_t total = 0;
    size_t bits = 0, at = 0;

    at += sprintf(out, "PLACE     NUMBER BITS           TOTAL\n");
    for (size_t i = 1; i < lines; i++) {
        uint32_t n = line(input, i);
        size_t d = 0;
        while (plain_first[order][d + 1] <= n)
            d++;
        bits += d + order;
        total += n;
        at += sprintf(out + at, "%5zu %10u %4zu %15llu\n", i - 1, n, d + order, (unsigned long long)total);
    }
    at += sprintf(out + at, "BYTES %10zu\n", (bits + 7) / 8);
    return at;
}

#include "plain.h"

size_t plain_dense_write(size_t stoppers, const uint32_t *row, size_t count, uint8_t *out)
{
    uint32_t s = (uint32_t)stoppers, c = 256 - s;
    size_t at = 0;

    for (size_t i = 0; i < count; i++) {
        uint8_t digits[PLAIN_DENSE_BYTES]; /* the last one first */
        size_t k = 0;
        uint32_t x = row[i] - 1;

        digits[k++] = (uint8_t)(x % s);
        for (x /= s; x > 0; x /= c) {
            x--;
            digits[k++] = (uint8_t)(s + x % c);
        }
        while (k > 0)
            out[at++] = digits[--k];
    }
    return at;
}

size_t plain_dense_read(size_t stoppers, const uint8_t *bytes, size_t len, uint32_t *out)
{
    uint32_t s = (uint32_t)stoppers, c = 256 - s, y = 0;
    size_t count = 0;

    for (size_t i = 0; i < len; i++)
        if (bytes[i] < s) {
            out[count++] = y * s + bytes[i] + 1;
            y = 0;
        } else {
            y = y * c + (bytes[i] - s + 1);
        }
    return count;
}

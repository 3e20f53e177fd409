/* Leadginger for a loom's host program written in C (C99 or later) or C++ (C++11 or later).

   A row is 0 to 4,096 whole numbers, each from 1 to 4,294,967,295. An encoding is the bytes of a row: the codewords of its numbers in
   the Fibonacci code of order 2 to 6, one after another without a gap, packed from the top of each byte, and padded with zeros to the end
   of the last byte. The empty row has no bytes. Places in a row count from 0. What remains of an encoding's bits after the last whole
   codeword is its rest.

   Both functions take any bytes and any numbers, always come to an end, and keep nothing from one call to the next. Either returns one
   64-bit number, the result:

       an accepted call    32 * value, the value being the count (leadginger_read) or the total (leadginger_total)
       refusal 7           7 + 32 * place, the place of the first number that is too large
       any other refusal   its number alone

   The helpers below take a result apart. The first check that fails decides, in the order in which each function lists its refusals, and
   a refusal writes to no buffer.

   The caller vouches for the buffers: a pointer has as many bytes behind it as its length says, and the two buffers of leadginger_read do
   not overlap. A pointer may be null where its length is 0 (as the data() of an empty std::vector may be): a null s is then the empty
   encoding, and a null out an output without room. The archive to link, crates/host/out/libhost.a, is for Linux on x86-64-v2 and needs the C
   library alone, and leadginger_read takes some 25 KB of the stack. */
#ifndef LEADGINGER_H
#define LEADGINGER_H

#include <stddef.h>
#include <stdint.h>

#ifdef __cplusplus
extern "C" {
#endif

/* The limits. */
#define LEADGINGER_NUMBER_MAX 4294967295u /* the largest number of a row */
#define LEADGINGER_COUNT_MAX 4096u        /* the most numbers of a row */
#define LEADGINGER_BYTES_MAX 24064u       /* the most bytes of an encoding */

/* The answers. 3 is no answer of these two functions. */
enum {
    LEADGINGER_ACCEPTED = 0,
    LEADGINGER_ORDER = 1,  /* the order is not 2 to 6 */
    LEADGINGER_BYTES = 2,  /* the encoding has more than 24,064 bytes */
    LEADGINGER_COUNT = 4,  /* it has more than 4,096 codewords */
    LEADGINGER_ROOM = 5,   /* the output has fewer than four bytes for each number */
    LEADGINGER_REST = 6,   /* the rest has 8 bits or more, or holds a one */
    LEADGINGER_NUMBER = 7, /* a number is above 4,294,967,295 */
    LEADGINGER_SPAN = 8    /* the span begins after its end, or ends after the row */
};

/* Reads the encoding of order 3 in s. Number i of the row goes to the four bytes from out[4 * i], the lowest first; bytes after the last
   number are untouched. The value is the count of the row's numbers. An out of 4 * LEADGINGER_COUNT_MAX bytes has room for every row.
   Refusals: LEADGINGER_BYTES; then from the left, at each finished codeword, LEADGINGER_COUNT if it is the 4,097th, else LEADGINGER_NUMBER;
   LEADGINGER_REST; LEADGINGER_ROOM. */
uint64_t leadginger_read(const uint8_t *s, size_t s_len, uint8_t *out, size_t out_len);

/* Adds up the numbers from place a up to but without place b of the encoding of the given order in s. The value is their total, 0 if
   a = b. The whole encoding is checked, not only the span.
   Refusals: LEADGINGER_ORDER; LEADGINGER_BYTES; LEADGINGER_COUNT, LEADGINGER_NUMBER and LEADGINGER_REST as in reading; LEADGINGER_SPAN. */
uint64_t leadginger_total(size_t order, const uint8_t *s, size_t s_len, size_t a, size_t b);

/* The answer: LEADGINGER_ACCEPTED, or the refusal. */
static inline int leadginger_answer(uint64_t result)
{
    return (int)(result % 32);
}

/* The count or the total of an accepted call; 0 after a refusal. */
static inline uint64_t leadginger_value(uint64_t result)
{
    return leadginger_answer(result) == LEADGINGER_ACCEPTED ? result / 32 : 0;
}

/* After LEADGINGER_NUMBER the place of the first number that is too large; otherwise 0. */
static inline size_t leadginger_place(uint64_t result)
{
    return leadginger_answer(result) == LEADGINGER_NUMBER ? (size_t)(result / 32) : 0;
}

/* Number i of the row that leadginger_read left in out. Call it for i below the count only. */
static inline uint32_t leadginger_number(const uint8_t *out, size_t i)
{
    const uint8_t *p = out + 4 * i;

    return (uint32_t)p[0] | (uint32_t)p[1] << 8 | (uint32_t)p[2] << 16 | (uint32_t)p[3] << 24;
}

/* The answer in words, to be shown to a person; never null. */
static inline const char *leadginger_words(uint64_t result)
{
    switch (leadginger_answer(result)) {
    case LEADGINGER_ACCEPTED: return "accepted";
    case LEADGINGER_ORDER: return "the order is not 2 to 6";
    case LEADGINGER_BYTES: return "the encoding has more than 24,064 bytes";
    case LEADGINGER_COUNT: return "the encoding has more than 4,096 numbers";
    case LEADGINGER_ROOM: return "the output has fewer than four bytes for each number";
    case LEADGINGER_REST: return "8 bits or more, or a one, remain after the last number";
    case LEADGINGER_NUMBER: return "a number is above 4,294,967,295";
    case LEADGINGER_SPAN: return "the span is not inside the row";
    default: return "no answer of this library";
    }
}

#ifdef __cplusplus
}
#endif

#endif

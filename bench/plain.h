/* Each operation in plain C, written the obvious way and unchecked: order or stoppers, bytes, numbers, places and room are taken to be right. */
#ifndef PLAIN_H
#define PLAIN_H

#include <stddef.h>
#include <stdint.h>

/* Makes the tables, and by plain_table_start the 768 rows of the table reader. To be called once, before anything else. */
void plain_start(void);
void plain_table_start(void);

/* plain_F[m][n] is F(n) of order m; plain_first[m][d] is the first number of order m with d bits before its last ones. */
#define PLAIN_DIGITS 64
extern uint64_t plain_F[7][PLAIN_DIGITS];
extern uint64_t plain_first[7][PLAIN_DIGITS];

/* Writing and replacing give the number of bytes, reading the number of numbers. Putting one codeword at a bit of a buffer gives the bit after it. */
size_t plain_write(size_t order, const uint32_t *row, size_t count, uint8_t *out);
size_t plain_put_codeword(size_t order, uint32_t n, uint8_t *out, size_t at);
size_t plain_read(size_t order, const uint8_t *s, size_t len, uint32_t *out);
size_t plain_replace(size_t order, uint8_t *buf, size_t used, size_t place, uint32_t n);
uint64_t plain_total(size_t order, const uint8_t *s, size_t len, size_t a, size_t b);

/* 001's reader of order 3 by a table, byte by byte, in one pass. */
size_t plain_table_read(const uint8_t *s, size_t len, uint32_t *out);

/* The dense code, in one pass: a number's bytes by division from the last one on, and a byte at a time. A codeword has at most 25 bytes. */
#define PLAIN_DENSE_BYTES 25
size_t plain_dense_write(size_t stoppers, const uint32_t *row, size_t count, uint8_t *out);
size_t plain_dense_read(size_t stoppers, const uint8_t *bytes, size_t len, uint32_t *out);

/* The row index. Building gives the number of bits. The questions go the same way over the bitmaps as the proved ones, over all of them, which shows where
   they end; `end` gets that. */
size_t plain_build(size_t order, uint32_t alphabet, const uint32_t *row, size_t count, uint8_t *out);
uint32_t plain_extract(size_t order, uint32_t alphabet, size_t count, const uint8_t *index, size_t i, size_t *end);
size_t plain_rank(size_t order, uint32_t alphabet, size_t count, const uint8_t *index, uint32_t n, size_t i, size_t *end);
size_t plain_select(size_t order, uint32_t alphabet, size_t count, const uint8_t *index, uint32_t n, size_t j, size_t *end);

/* The listing of an input of `count` lines, by the C library's number reading and printing; gives the length of the text. */
size_t plain_listing(const char *input, size_t lines, char *out);

#endif

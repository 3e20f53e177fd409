/* The proved operations as the crate `probe` exports them. A slice is a pointer and a length; what a call answers goes to the last one:
   the papers' answer number, the place, and four results. */
#ifndef PROBE_H
#define PROBE_H

#include <stddef.h>
#include <stdint.h>

void probe_write(size_t order, const uint32_t *row, size_t row_len, uint8_t *out, size_t out_len, uint64_t *answer, size_t answer_len);
void probe_read(size_t order, const uint8_t *s, size_t s_len, uint32_t *out, size_t out_len, uint64_t *answer, size_t answer_len);
void probe_table_read(const uint8_t *s, size_t s_len, uint32_t *out, size_t out_len, uint64_t *answer, size_t answer_len);
void probe_table_read_bytes(const uint8_t *s, size_t s_len, uint8_t *out, size_t out_len, uint64_t *answer, size_t answer_len);
void probe_dense_write(size_t stoppers, const uint32_t *row, size_t row_len, uint8_t *out, size_t out_len, uint64_t *answer, size_t answer_len);
void probe_dense_read(size_t stoppers, const uint8_t *b, size_t b_len, uint32_t *out, size_t out_len, uint64_t *answer, size_t answer_len);
void probe_header(size_t order, const uint8_t *s, size_t s_len, uint64_t *answer, size_t answer_len);
void probe_append(size_t order, uint8_t *buf, size_t buf_len, size_t bits, size_t count, uint64_t total, uint32_t n, uint64_t *answer,
                  size_t answer_len);
void probe_replace(size_t order, uint8_t *buf, size_t buf_len, size_t used, size_t place, uint32_t n, uint64_t *answer, size_t answer_len);
void probe_total(size_t order, const uint8_t *s, size_t s_len, size_t a, size_t b, uint64_t *answer, size_t answer_len);
void probe_repeated_total(size_t order, const uint8_t *s, size_t s_len, uint64_t repeats, uint64_t shared, uint64_t *answer, size_t answer_len);
void probe_build(size_t order, uint32_t alphabet, const uint32_t *row, size_t row_len, uint8_t *out, size_t out_len, uint64_t *answer,
                 size_t answer_len);
void probe_extract(size_t order, uint32_t alphabet, size_t len, const uint8_t *index, size_t index_len, size_t i, uint64_t *answer,
                   size_t answer_len);
void probe_rank(size_t order, uint32_t alphabet, size_t len, const uint8_t *index, size_t index_len, uint32_t n, size_t i, uint64_t *answer,
                size_t answer_len);
void probe_select(size_t order, uint32_t alphabet, size_t len, const uint8_t *index, size_t index_len, uint32_t n, size_t j, uint64_t *answer,
                  size_t answer_len);
void probe_listing(const uint8_t *input, size_t input_len, uint8_t *out, size_t out_len, uint64_t *answer, size_t answer_len);

#endif

/* SDSL's Fibonacci coder, which is of order 2, and its Wavelet trees. Each call works on a row that was prepared. */
#ifndef SDSL_PEER_H
#define SDSL_PEER_H

#include <stddef.h>
#include <stdint.h>

#ifdef __cplusplus
extern "C" {
#endif

struct sdsl_row;

enum sdsl_tree { WT_HUFF_INT, WT_INT };

/* A row with its code; the trees of it are there once they were built. */
struct sdsl_row *sdsl_row_of(const uint32_t *row, size_t count);
void sdsl_free(struct sdsl_row *r);

void sdsl_encode(struct sdsl_row *r);
void sdsl_decode(const struct sdsl_row *r, uint64_t *out); /* as many numbers as the row has, unchecked */
uint64_t sdsl_sum(const struct sdsl_row *r);
void sdsl_build(struct sdsl_row *r, enum sdsl_tree tree);
uint64_t sdsl_extract(const struct sdsl_row *r, enum sdsl_tree tree, size_t i);
uint64_t sdsl_rank(const struct sdsl_row *r, enum sdsl_tree tree, uint32_t n, size_t i);
uint64_t sdsl_select(const struct sdsl_row *r, enum sdsl_tree tree, uint32_t n, size_t j);

#ifdef __cplusplus
}
#endif

#endif

/* In the place of sdsl.cpp where SDSL is not there: no row is prepared, so none of the others is called. */
#include "sdsl.h"

struct sdsl_row *sdsl_row_of(const uint32_t *row, size_t count) { return (void)row, (void)count, NULL; }
void sdsl_free(struct sdsl_row *r) { (void)r; }
void sdsl_encode(struct sdsl_row *r) { (void)r; }
void sdsl_decode(const struct sdsl_row *r, uint64_t *out) { (void)r, (void)out; }
uint64_t sdsl_sum(const struct sdsl_row *r) { return (void)r, 0; }
void sdsl_build(struct sdsl_row *r, enum sdsl_tree tree) { (void)r, (void)tree; }
uint64_t sdsl_extract(const struct sdsl_row *r, enum sdsl_tree tree, size_t i) { return (void)r, (void)tree, (void)i, 0; }
uint64_t sdsl_rank(const struct sdsl_row *r, enum sdsl_tree tree, uint32_t n, size_t i) { return (void)r, (void)tree, (void)n, (void)i, 0; }
uint64_t sdsl_select(const struct sdsl_row *r, enum sdsl_tree tree, uint32_t n, size_t j) { return (void)r, (void)tree, (void)n, (void)j, 0; }

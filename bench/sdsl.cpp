#include "sdsl.h"

#include <sdsl/coder_fibonacci.hpp>
#include <sdsl/int_vector.hpp>
#include <sdsl/wavelet_trees.hpp>

struct sdsl_row {
    sdsl::int_vector<> numbers;
    sdsl::int_vector<> code;
    sdsl::wt_huff_int<> huff;
    sdsl::wt_int<> balanced;
};

sdsl_row *sdsl_row_of(const uint32_t *row, size_t count)
{
    auto *r = new sdsl_row;
    r->numbers.resize(count);
    for (size_t i = 0; i < count; i++)
        r->numbers[i] = row[i];
    sdsl_encode(r);
    return r;
}

void sdsl_free(sdsl_row *r)
{
    delete r;
}

void sdsl_encode(sdsl_row *r)
{
    sdsl::coder::fibonacci::encode(r->numbers, r->code);
}

void sdsl_decode(const sdsl_row *r, uint64_t *out)
{
    sdsl::coder::fibonacci::decode<false, true, uint64_t *>(r->code.data(), 0, r->numbers.size(), out);
}

uint64_t sdsl_sum(const sdsl_row *r)
{
    return sdsl::coder::fibonacci::decode_prefix_sum(r->code.data(), 0, r->numbers.size());
}

void sdsl_build(sdsl_row *r, enum sdsl_tree tree)
{
    if (tree == WT_INT)
        sdsl::construct_im(r->balanced, r->numbers);
    else
        sdsl::construct_im(r->huff, r->numbers);
}

uint64_t sdsl_extract(const sdsl_row *r, enum sdsl_tree tree, size_t i)
{
    return tree == WT_INT ? r->balanced[i] : r->huff[i];
}

uint64_t sdsl_rank(const sdsl_row *r, enum sdsl_tree tree, uint32_t n, size_t i)
{
    return tree == WT_INT ? r->balanced.rank(i, n) : r->huff.rank(i, n);
}

uint64_t sdsl_select(const sdsl_row *r, enum sdsl_tree tree, uint32_t n, size_t j)
{
    return tree == WT_INT ? r->balanced.select(j, n) : r->huff.select(j, n);
}

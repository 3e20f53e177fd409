#include "sides.h"
#include "plain.h"
#include "probe.h"

#include <string.h>

#define REPEATS 1000
#define SHARED 1

/* The total of a repeated row, in which each repeat shares a part with the next. */
static uint64_t joined(uint64_t total)
{
    return REPEATS * total - (REPEATS - 1) * SHARED;
}

/* Where the results go: the answer of a proved operation, one number, numbers, bytes. */
static uint64_t answer[6], result;
static size_t end;
static uint32_t numbers[4096 + 4];
static uint64_t wide_numbers[4096 + 4];
static uint8_t bytes[200000];

uint64_t answered(void)
{
    return answer[0];
}

/* ## The proved operations */

static void run_read(struct input *in) { probe_read(in->order, in->encoding, in->used, numbers, 4096, answer, 6); }
static void run_table_read(struct input *in) { probe_table_read(in->encoding, in->used, numbers, 4096, answer, 6); }
static void run_table_read_bytes(struct input *in) { probe_table_read_bytes(in->encoding, in->used, bytes, 4 * 4096, answer, 6); }
static void run_total(struct input *in) { probe_total(in->order, in->encoding, in->used, 0, in->count, answer, 6); }
static void run_repeated(struct input *in) { probe_repeated_total(in->order, in->encoding, in->used, REPEATS, SHARED, answer, 6); }
static void run_header(struct input *in) { probe_header(in->order, in->encoding, in->used, answer, 6); }
static void run_write(struct input *in) { probe_write(in->order, in->row, in->count, bytes, sizeof bytes, answer, 6); }
static void run_dense_read(struct input *in) { probe_dense_read(in->stoppers, in->encoding, in->used, numbers, 4096, answer, 6); }
static void run_dense_write(struct input *in) { probe_dense_write(in->stoppers, in->row, in->count, bytes, sizeof bytes, answer, 6); }
static void run_build(struct input *in) { probe_build(in->order, ALPHABET, in->row, in->count, bytes, sizeof bytes, answer, 6); }
static void run_listing(struct input *in) { probe_listing((const uint8_t *)in->text, 11 * in->lines, bytes, sizeof bytes, answer, 6); }

/* The encoding without its last number, as it was before that was appended. */
static void take_off(struct input *in)
{
    if (in->shorter_used > 0)
        in->shorter[in->shorter_used - 1] = in->shorter_last;
}

static void append(struct input *in, uint32_t n)
{
    const struct header *h = &in->shorter_header;

    take_off(in);
    probe_append(in->order, in->shorter, ENCODING_ROOM(in->count), h->bits, h->count, h->total, n, answer, 6);
}

/* Each number of the row, in turn, is the one that is put behind the others: so there are as many of them in a part, whatever the length of its rows, and none
   is known by heart. The last one makes the encoding of the row. */
static void run_append(struct input *in)
{
    for (size_t i = 0; i < in->count; i++)
        append(in, in->row[i]);
}

/* Puts a number at a place of an input's encoding, which has so many bytes, and gives how many it has then. */
typedef size_t replacing(struct input *in, size_t used, size_t place, uint32_t n);

static size_t replace(struct input *in, size_t used, size_t place, uint32_t n)
{
    probe_replace(in->order, in->encoding, ENCODING_ROOM(in->count), used, place, n, answer, 6);
    return answer[2];
}

/* Another number, whose codeword has another length: half of a number has some bits less, in every order. */
static uint32_t other_than(uint32_t n)
{
    return n > 1 ? n / 2 : 2;
}

/* Another number for the one at a place, and the one for the other: so the bits behind move each time, and the encoding is as it was. */
static void there_and_back(struct input *in, replacing *call, size_t place)
{
    size_t used = call(in, in->used, place, other_than(in->row[place]));

    call(in, used, place, in->row[place]);
}

static size_t middle_of(const struct input *in) { return in->count / 2; }
static void run_replace_first(struct input *in) { there_and_back(in, replace, 0); }
static void run_replace_middle(struct input *in) { there_and_back(in, replace, middle_of(in)); }
static void run_replace_last(struct input *in) { there_and_back(in, replace, in->count - 1); }

double shares_of(enum side s)
{
    return s == REPLACE_FIRST || s == REPLACE_MIDDLE || s == REPLACE_LAST || s == PLAIN_REPLACE ? 2 : 1;
}

static void run_extract(struct input *in)
{
    probe_extract(in->order, ALPHABET, in->count, in->index, (in->index_bits + 7) / 8, in->place, answer, 6);
}

static void run_rank(struct input *in)
{
    probe_rank(in->order, ALPHABET, in->count, in->index, (in->index_bits + 7) / 8, in->number, in->place, answer, 6);
}

static void run_select(struct input *in)
{
    probe_select(in->order, ALPHABET, in->count, in->index, (in->index_bits + 7) / 8, in->number, in->use, answer, 6);
}

/* ## Plain C */

static void plain_run_read(struct input *in) { result = plain_read(in->order, in->encoding, in->used, numbers); }
static void plain_run_table_read(struct input *in) { result = plain_table_read(in->encoding, in->used, numbers); }
static void plain_run_total(struct input *in) { result = plain_total(in->order, in->encoding, in->used, 0, in->count); }
static void plain_run_repeated(struct input *in) { result = joined(plain_total(in->order, in->encoding, in->used, 0, in->count)); }
static void plain_run_write(struct input *in) { result = plain_write(in->order, in->row, in->count, bytes); }
static void plain_run_dense_read(struct input *in) { result = plain_dense_read(in->stoppers, in->encoding, in->used, numbers); }
static void plain_run_dense_write(struct input *in) { result = plain_dense_write(in->stoppers, in->row, in->count, bytes); }
static void plain_run_build(struct input *in) { result = plain_build(in->order, ALPHABET, in->row, in->count, bytes); }
static void plain_run_listing(struct input *in) { result = plain_listing(in->text, in->lines, (char *)bytes); }

/* The same as appending. */
static void plain_run_put(struct input *in)
{
    for (size_t i = 0; i < in->count; i++) {
        take_off(in);
        result = plain_put_codeword(in->order, in->row[i], in->shorter, in->shorter_header.bits);
    }
}

static size_t plain_replace_in(struct input *in, size_t used, size_t place, uint32_t n)
{
    result = plain_replace(in->order, in->encoding, used, place, n);
    return result;
}

static void plain_run_replace(struct input *in) { there_and_back(in, plain_replace_in, middle_of(in)); }
static void plain_run_extract(struct input *in) { result = plain_extract(in->order, ALPHABET, in->count, in->index, in->place, &end); }
static void plain_run_rank(struct input *in) { result = plain_rank(in->order, ALPHABET, in->count, in->index, in->number, in->place, &end); }
static void plain_run_select(struct input *in) { result = plain_select(in->order, ALPHABET, in->count, in->index, in->number, in->use, &end); }

/* ## SDSL */

static void sdsl_run_decode(struct input *in) { sdsl_decode(in->peer, wide_numbers); }
static void sdsl_run_sum(struct input *in) { result = sdsl_sum(in->peer); }
static void sdsl_run_encode(struct input *in) { sdsl_encode(in->peer); }
static void huff_run_build(struct input *in) { sdsl_build(in->peer, WT_HUFF_INT); }
static void huff_run_extract(struct input *in) { result = sdsl_extract(in->peer, WT_HUFF_INT, in->place); }
static void huff_run_rank(struct input *in) { result = sdsl_rank(in->peer, WT_HUFF_INT, in->number, in->place); }
static void huff_run_select(struct input *in) { result = sdsl_select(in->peer, WT_HUFF_INT, in->number, in->use); }
static void int_run_build(struct input *in) { sdsl_build(in->peer, WT_INT); }
static void int_run_extract(struct input *in) { result = sdsl_extract(in->peer, WT_INT, in->place); }
static void int_run_rank(struct input *in) { result = sdsl_rank(in->peer, WT_INT, in->number, in->place); }
static void int_run_select(struct input *in) { result = sdsl_select(in->peer, WT_INT, in->number, in->use); }

/* ## Whether a result is right */

static uint64_t sum_of(const struct input *in)
{
    uint64_t sum = 0;

    for (size_t i = 0; i < in->count; i++)
        sum += in->row[i];
    return sum;
}

static int proved(uint64_t first)
{
    return answer[0] == 0 && answer[2] == first;
}

/* The three results from the one at `from` on: the header of the whole row. */
static int told_header(const struct input *in, size_t from)
{
    return answer[from] == in->header.bits && answer[from + 1] == in->count && answer[from + 2] == sum_of(in);
}

static int row_of(const struct input *in)
{
    return memcmp(numbers, in->row, 4 * in->count) == 0;
}

static int right_row(struct input *in) { return proved(in->count) && row_of(in); }
static int right_row_bytes(struct input *in) { return proved(in->count) && memcmp(bytes, in->row, 4 * in->count) == 0; }
static int right_total(struct input *in) { return proved(sum_of(in)); }
static int right_repeated(struct input *in) { return proved(joined(sum_of(in))); }
static int right_header(struct input *in) { return answer[0] == 0 && told_header(in, 2); }
static int right_dense(struct input *in) { return proved(in->used) && memcmp(bytes, in->encoding, in->used) == 0; }
static int right_encoding(struct input *in) { return right_dense(in) && told_header(in, 3); }
static int right_index(struct input *in) { return proved(in->index_bits) && memcmp(bytes, in->index, (in->index_bits + 7) / 8) == 0; }
static int right_number(struct input *in) { return proved(in->number); }
static int right_rank(struct input *in) { return proved(in->use - 1); }
static int right_place(struct input *in) { return proved(in->place); }

/* Whether the last call put a number behind the others, as plain C puts it. */
static int appended(const struct input *in, uint32_t n)
{
    const struct header *h = &in->shorter_header;
    uint8_t put[8] = {in->shorter_last};
    size_t k = h->bits / 8, bits = 8 * k + plain_put_codeword(in->order, n, put, h->bits % 8), used = (bits + 7) / 8;

    return proved(used) && answer[3] == bits && answer[4] == in->count && answer[5] == h->total + n &&
           memcmp(in->shorter, in->encoding, k) == 0 && memcmp(in->shorter + k, put, used - k) == 0;
}

static int right_append(struct input *in)
{
    for (size_t i = 0; i < in->count; i++) {
        append(in, in->row[i]);
        if (!appended(in, in->row[i]))
            return 0;
    }
    return 1;
}

/* The header of the row, whose encoding goes to the bytes, with zeros behind it. */
static struct header encode(const struct input *in)
{
    struct header h = {.count = in->count, .total = sum_of(in)};

    memset(bytes, 0, ENCODING_ROOM(in->count));
    for (size_t i = 0; i < in->count; i++)
        h.bits = plain_put_codeword(in->order, in->row[i], bytes, h.bits);
    return h;
}

/* Whether the last call made the encoding of the row as it is now, and left what is behind it as it was. */
static int plain_replaced(const struct input *in)
{
    struct header h = encode(in);

    return result == (h.bits + 7) / 8 && memcmp(in->encoding, bytes, ENCODING_ROOM(in->count)) == 0;
}

static int replaced(const struct input *in)
{
    struct header h = encode(in);

    return proved((h.bits + 7) / 8) && answer[3] == h.bits && answer[4] == h.count && answer[5] == h.total &&
           memcmp(in->encoding, bytes, ENCODING_ROOM(in->count)) == 0;
}

/* Whether the last run left the encoding of the row, and each of its two calls is right by itself. */
static int right_there_and_back(struct input *in, replacing *call, int (*right)(const struct input *in), size_t place)
{
    uint32_t n = in->row[place];

    if (!right(in))
        return 0;
    in->row[place] = other_than(n);
    size_t used = call(in, in->used, place, in->row[place]);
    int there = right(in);
    in->row[place] = n;
    call(in, used, place, n);
    return there && right(in);
}

static int right_replace_first(struct input *in) { return right_there_and_back(in, replace, replaced, 0); }
static int right_replace_middle(struct input *in) { return right_there_and_back(in, replace, replaced, middle_of(in)); }
static int right_replace_last(struct input *in) { return right_there_and_back(in, replace, replaced, in->count - 1); }
static int plain_right_replace(struct input *in) { return right_there_and_back(in, plain_replace_in, plain_replaced, middle_of(in)); }

static int right_text(struct input *in)
{
    static char text[200000];

    return proved(plain_listing(in->text, in->lines, text)) && memcmp(bytes, text, answer[2]) == 0;
}

static int plain_right_row(struct input *in) { return result == in->count && row_of(in); }
static int plain_right_total(struct input *in) { return result == sum_of(in); }
static int plain_right_repeated(struct input *in) { return result == joined(sum_of(in)); }
static int plain_right_encoding(struct input *in) { return result == in->used && memcmp(bytes, in->encoding, in->used) == 0; }
static int plain_right_put(struct input *in) { return result == in->header.bits && memcmp(in->shorter, in->encoding, in->used) == 0; }
static int plain_right_index(struct input *in) { return result == in->index_bits; }
static int plain_right_number(struct input *in) { return result == in->number && end == in->index_bits; }
static int plain_right_rank(struct input *in) { return result == in->use - 1 && end == in->index_bits; }
static int plain_right_place(struct input *in) { return result == in->place && end == in->index_bits; }
static int peer_right_number(struct input *in) { return result == in->number; }
static int peer_right_rank(struct input *in) { return result == in->use - 1; }
static int peer_right_place(struct input *in) { return result == in->place; }
static int any(struct input *in) { return in->peer != NULL; }

static int peer_right_row(struct input *in)
{
    for (size_t i = 0; i < in->count; i++)
        if (wide_numbers[i] != in->row[i])
            return 0;
    return 1;
}

static int text_there(struct input *in) { return result > in->lines; }

const struct call calls[SIDES] = {
    [READ] = {"read", run_read, right_row},
    [TABLE_READ] = {"table read (byte reader)", run_table_read, right_row},
    [TABLE_READ_BYTES] = {"table read for the host", run_table_read_bytes, right_row_bytes},
    [TOTAL] = {"total", run_total, right_total},
    [REPEATED_TOTAL] = {"repeated total", run_repeated, right_repeated},
    [HEADER] = {"header of an encoding", run_header, right_header},
    [APPEND] = {"append", run_append, right_append},
    [REPLACE_FIRST] = {"replace at the first place", run_replace_first, right_replace_first},
    [REPLACE_MIDDLE] = {"replace at the middle place", run_replace_middle, right_replace_middle},
    [REPLACE_LAST] = {"replace at the last place", run_replace_last, right_replace_last},
    [WRITE] = {"write", run_write, right_encoding},
    [BUILD] = {"build", run_build, right_index},
    [EXTRACT] = {"extract", run_extract, right_number},
    [RANK] = {"rank", run_rank, right_rank},
    [SELECT] = {"select", run_select, right_place},
    [LISTING] = {"listing", run_listing, right_text},
    [DENSE_READ] = {"dense read", run_dense_read, right_row},
    [DENSE_WRITE] = {"dense write", run_dense_write, right_dense},
    [PLAIN_READ] = {"plain C bit reader", plain_run_read, plain_right_row},
    [PLAIN_TABLE_READ] = {"001's table reader in C", plain_run_table_read, plain_right_row},
    [PLAIN_TOTAL] = {"plain C", plain_run_total, plain_right_total},
    [PLAIN_REPEATED_TOTAL] = {"plain C", plain_run_repeated, plain_right_repeated},
    [PLAIN_PUT] = {"plain C put of one codeword", plain_run_put, plain_right_put},
    [PLAIN_REPLACE] = {"plain C by reading and writing", plain_run_replace, plain_right_replace},
    [PLAIN_WRITE] = {"plain C writer, bit by bit", plain_run_write, plain_right_encoding},
    [PLAIN_BUILD] = {"plain C by stable partition", plain_run_build, plain_right_index},
    [PLAIN_EXTRACT] = {"the same walk in plain C", plain_run_extract, plain_right_number},
    [PLAIN_RANK] = {"the same walk in plain C", plain_run_rank, plain_right_rank},
    [PLAIN_SELECT] = {"the same walk in plain C", plain_run_select, plain_right_place},
    [PLAIN_LISTING] = {"plain C by sprintf", plain_run_listing, text_there},
    [PLAIN_DENSE_READ] = {"plain C dense reader", plain_run_dense_read, plain_right_row},
    [PLAIN_DENSE_WRITE] = {"plain C dense writer", plain_run_dense_write, plain_right_encoding},
    [SDSL_DECODE] = {"SDSL's decode", sdsl_run_decode, peer_right_row},
    [SDSL_SUM] = {"SDSL's prefix sum", sdsl_run_sum, plain_right_total},
    [SDSL_ENCODE] = {"SDSL's encode", sdsl_run_encode, any},
    [HUFF_BUILD] = {"SDSL's wt_huff_int", huff_run_build, any},
    [HUFF_EXTRACT] = {"SDSL's wt_huff_int", huff_run_extract, peer_right_number},
    [HUFF_RANK] = {"SDSL's wt_huff_int", huff_run_rank, peer_right_rank},
    [HUFF_SELECT] = {"SDSL's wt_huff_int", huff_run_select, peer_right_place},
    [INT_BUILD] = {"SDSL's wt_int", int_run_build, any},
    [INT_EXTRACT] = {"SDSL's wt_int", int_run_extract, peer_right_number},
    [INT_RANK] = {"SDSL's wt_int", int_run_rank, peer_right_rank},
    [INT_SELECT] = {"SDSL's wt_int", int_run_select, peer_right_place},
};

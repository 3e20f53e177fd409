// The header from C++: every name of it is used once, on results known by hand.
#include <cstdio>
#include <cstring>
#include <vector>

#include "leadginger.h"
#include "leadginger.h"

static int failures = 0;

static void check(bool good, const char *what)
{
    if (!good) {
        std::printf("tests/header: FAILED: %s\n", what);
        failures++;
    }
}

int main()
{
    const uint8_t row_600[] = {0x6D, 0xB8};
    const uint8_t too_large[] = {0xE6, 0x0B, 0x2C, 0x14, 0x8D, 0xC0}; // 1, then 4,294,967,296
    const uint8_t a_one_remains[] = {0xFF};
    static const uint8_t too_long[LEADGINGER_BYTES_MAX + 1] = {0};
    static const int answers[] = {LEADGINGER_ACCEPTED, LEADGINGER_ORDER, LEADGINGER_BYTES, LEADGINGER_COUNT,
                                  LEADGINGER_ROOM, LEADGINGER_REST, LEADGINGER_NUMBER, LEADGINGER_SPAN};
    static uint8_t out[4 * LEADGINGER_COUNT_MAX];
    uint64_t result;

    result = leadginger_read(row_600, sizeof row_600, out, sizeof out);
    check(leadginger_answer(result) == LEADGINGER_ACCEPTED && leadginger_value(result) == 1, "read 600");
    check(leadginger_number(out, 0) == 600 && leadginger_number(out, 0) <= LEADGINGER_NUMBER_MAX, "number");
    check(leadginger_place(result) == 0, "no place");

    result = leadginger_read(too_large, sizeof too_large, out, sizeof out);
    check(leadginger_answer(result) == LEADGINGER_NUMBER && leadginger_place(result) == 1 && leadginger_value(result) == 0, "too large");
    result = leadginger_read(a_one_remains, sizeof a_one_remains, out, sizeof out);
    check(leadginger_answer(result) == LEADGINGER_REST && leadginger_place(result) == 0 && leadginger_value(result) == 0, "rest");
    check(leadginger_read(row_600, sizeof row_600, out, 3) == LEADGINGER_ROOM, "room");
    check(leadginger_read(too_long, sizeof too_long, out, sizeof out) == LEADGINGER_BYTES, "bytes");

    result = leadginger_total(3, row_600, sizeof row_600, 0, 1);
    check(leadginger_answer(result) == LEADGINGER_ACCEPTED && leadginger_value(result) == 600, "total");
    check(leadginger_total(3, row_600, sizeof row_600, 0, 2) == LEADGINGER_SPAN, "span");
    check(leadginger_total(7, row_600, sizeof row_600, 0, 1) == LEADGINGER_ORDER, "order");

    std::vector<uint8_t> none;
    check(leadginger_read(none.data(), none.size(), none.data(), none.size()) == 0, "an empty vector");
    check(leadginger_total(3, none.data(), none.size(), 0, 0) == 0, "the total of an empty vector");

    for (int answer : answers)
        check(std::strlen(leadginger_words(static_cast<uint64_t>(answer))) > 0, "words");
    check(std::strcmp(leadginger_words(7 + 32 * 5), leadginger_words(7)) == 0, "words of a 7 with its place");
    return failures == 0 ? 0 : 1;
}

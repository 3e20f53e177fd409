/* loom FILE [FROM TO]

   Reads an encoding of order 3 from a file and prints the row, a line for each number (its place and the number), then the count and the
   total of the numbers from place FROM up to but without place TO, or of the whole row. A refusal is said in words, and no row is printed.
   Exit status: 0 accepted, 1 refused, 2 the arguments or the file would not do, or the output cannot be written. */
#include <errno.h>
#include <inttypes.h>
#include <stdint.h>
#include <stdio.h>
#include <string.h>

#include "leadginger.h"

/* One byte more than an encoding may have: a longer file is cut there, and the library refuses what is left as too long. */
static uint8_t encoding[LEADGINGER_BYTES_MAX + 1];
static uint8_t row[4 * LEADGINGER_COUNT_MAX];

/* Decimal digits and nothing else, at least one, of a number that a size_t holds. */
static int parse(const char *text, size_t *number)
{
    size_t n = 0;

    if (*text == 0)
        return 0;
    for (; *text != 0; text++) {
        size_t digit;

        if (*text < '0' || *text > '9')
            return 0;
        digit = (size_t)(*text - '0');
        if (n > (SIZE_MAX - digit) / 10)
            return 0;
        n = 10 * n + digit;
    }
    *number = n;
    return 1;
}

/* Reads at most as many bytes as `encoding` has; says what went wrong, if anything did. */
static int load(const char *name, size_t *length)
{
    FILE *file = fopen(name, "rb");
    int good;

    if (file == NULL) {
        fprintf(stderr, "loom: %s: %s\n", name, strerror(errno));
        return 0;
    }
    *length = fread(encoding, 1, sizeof encoding, file);
    good = !ferror(file);
    if (!good)
        fprintf(stderr, "loom: %s: cannot be read\n", name);
    fclose(file);
    return good;
}

static int refuse(const char *name, uint64_t result)
{
    int answer = leadginger_answer(result);

    fprintf(stderr, "loom: %s: refusal %d", name, answer);
    if (answer == LEADGINGER_NUMBER)
        fprintf(stderr, " at place %zu", leadginger_place(result));
    fprintf(stderr, ": %s\n", leadginger_words(result));
    return 1;
}

int main(int argc, char **argv)
{
    size_t length, count, from = 0, to = 0, i;
    uint64_t result, total;

    if ((argc != 2 && argc != 4) || (argc == 4 && (!parse(argv[2], &from) || !parse(argv[3], &to)))) {
        fprintf(stderr, "usage: loom FILE [FROM TO]\n");
        return 2;
    }
    if (!load(argv[1], &length))
        return 2;

    result = leadginger_read(encoding, length, row, sizeof row);
    if (leadginger_answer(result) != LEADGINGER_ACCEPTED)
        return refuse(argv[1], result);
    count = (size_t)leadginger_value(result);

    if (argc == 2)
        to = count;
    result = leadginger_total(3, encoding, length, from, to);
    if (leadginger_answer(result) != LEADGINGER_ACCEPTED)
        return refuse(argv[1], result);
    total = leadginger_value(result);

    for (i = 0; i < count; i++)
        printf("%5zu%16" PRIu32 "\n", i, leadginger_number(row, i));
    printf("COUNT%16zu\n", count);
    printf("TOTAL%16" PRIu64 "\n", total);
    if (fflush(stdout) != 0 || ferror(stdout)) {
        fprintf(stderr, "loom: the output cannot be written\n");
        return 2;
    }
    return 0;
}

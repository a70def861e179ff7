/* The cash account of a plan file by the library, at two rates: `WORD ACCOUNT BOUND`, or `refused` and the number of the check.
 *
 *     (cd crates/becketgrape && rt lib) && cc -std=c11 -Iinclude examples/cash.c crates/becketgrape/out/libbecketgrape.a -o target/cash
 *     target/cash examples/two_rates.plan 20000,20000,20000,20000,20000 80000,80000,80000,80000,80000
 *
 * The first list has the lending rates and the second the borrowing rates of years 2 to N, in millionths; `none` is a list of none. */
#include <stdio.h>
#include <stdlib.h>
#include <string.h>

#include "planner.h"

enum { MOST = 1000 };

/* The rates of a list in text, and how many there are; MOST at the most. */
static size_t rates_of(const char *list, int32_t *rates)
{
    size_t count = 0;
    if (strcmp(list, "none") == 0)
        return 0;
    for (const char *text = list; count < MOST;) {
        char *end;
        long rate = strtol(text, &end, 10);
        if (end == text || (*end != ',' && *end != 0) || rate < INT32_MIN || rate > INT32_MAX) {
            fprintf(stderr, "%s: not a list of rates\n", list);
            exit(2);
        }
        rates[count++] = (int32_t)rate;
        if (*end == 0)
            return count;
        text = end + 1;
    }
    fprintf(stderr, "a list has more than %d rates\n", MOST);
    exit(2);
}

int main(int argc, char **argv)
{
    static const char *const words[] = {"", "solvent", "short", "close"};
    static uint8_t file[PLANNER_FILE_BYTES + 1]; /* with one byte more, a file that is too long is seen to be */
    static int32_t lending[MOST], borrowing[MOST];

    if (argc != 4) {
        fprintf(stderr, "usage: %s PLAN LENDING BORROWING\n", argv[0]);
        return 2;
    }
    FILE *in = fopen(argv[1], "rb");
    if (in == NULL) {
        perror(argv[1]);
        return 2;
    }
    size_t file_length = fread(file, 1, sizeof file, in);
    if (ferror(in)) {
        perror(argv[1]);
        return 2;
    }
    fclose(in);

    size_t lending_length = rates_of(argv[2], lending);
    size_t borrowing_length = rates_of(argv[3], borrowing);
    int64_t account, bound;
    uint8_t word;
    uint8_t refusal = planner_cash(file, file_length, lending, lending_length, borrowing, borrowing_length, &account, &bound, &word);
    int written = refusal != PLANNER_ACCEPTED
        ? printf("refused %d\n", refusal)
        : printf("%s %lld %lld\n", words[word], (long long)account, (long long)bound);
    if (written < 0 || fflush(stdout) != 0) {
        perror("standard output");
        return 2;
    }
    return refusal != PLANNER_ACCEPTED;
}

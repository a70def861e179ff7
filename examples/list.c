/* Lists a plan file by the library, and says on standard error what the plan comes to.
 *
 *     (cd crates/becketgrape && rt lib) && cc -std=c11 -Iinclude examples/list.c crates/becketgrape/out/libbecketgrape.a -o target/list
 *     target/list examples/L.plan
 */
#include <stdio.h>

#include "planner.h"

static const char *name_of(uint8_t word)
{
    switch (word) {
    case PLANNER_SOLVENT:
        return "solvent";
    case PLANNER_SHORT:
        return "short";
    default:
        return "close";
    }
}

int main(int argc, char **argv)
{
    static uint8_t file[PLANNER_FILE_BYTES + 1]; /* with one byte more, a file that is too long is seen to be */
    static uint8_t listing[PLANNER_LISTING_BYTES];

    if (argc != 2) {
        fprintf(stderr, "usage: %s PLAN\n", argv[0]);
        return 2;
    }
    FILE *in = fopen(argv[1], "rb");
    if (in == NULL) {
        perror(argv[1]);
        return 2;
    }
    size_t file_length = fread(file, 1, sizeof file, in);
    if (ferror(in)) {
        perror(argv[1]);
        return 2;
    }
    fclose(in);

    size_t listing_length = planner_list(file, file_length, listing);
    if (fwrite(listing, 1, listing_length, stdout) != listing_length || fflush(stdout) != 0) {
        perror("standard output");
        return 2;
    }

    uint8_t words[PLANNER_PATTERNS];
    uint64_t shorts;
    uint8_t word;
    uint8_t refusal = planner_verdict(file, file_length, words, &shorts, &word);
    if (refusal != PLANNER_ACCEPTED) {
        fprintf(stderr, "%s: refused by check %d\n", argv[1], refusal);
        return 1;
    }

    int patterns = 0;
    int short_patterns = 0;
    int first_short = 0;
    for (int t = 1; t <= PLANNER_PATTERNS; t++) {
        if (words[t - 1] != 0) /* there is no word past the last pattern */
            patterns++;
        if (shorts >> (t - 1) & 1) {
            short_patterns++;
            if (first_short == 0)
                first_short = t;
        }
    }
    fprintf(stderr, "%s: %s, %d of %d patterns short", argv[1], name_of(word), short_patterns, patterns);
    if (first_short != 0)
        fprintf(stderr, ", the first %d", first_short);
    fprintf(stderr, "\n");
    return 0;
}

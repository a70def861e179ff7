/* An allocation of a plan file that works, by the library: `found` and the shares, `none`, or `refused` and the number of the check.
 *
 *     (cd crates/becketgrape && rt lib) && cc -std=c11 -Iinclude examples/find.c crates/becketgrape/out/libbecketgrape.a -o target/find
 *     target/find examples/L.plan 5
 *     target/find examples/L.plan 5 target/found.plan
 *
 * The number is that of the parts. With a third argument the plan is written there, with the allocation that was found in the place of its
 * own; where none was found, nothing is written. */
#include <stdio.h>
#include <stdlib.h>

#include "planner.h"

/* Writes the file of a plan; answers the exit status. */
static int write_to(const char *path, const struct planner_plan *plan)
{
    static uint8_t file[PLANNER_FILE_BYTES];
    size_t file_length;
    uint8_t refusal = planner_write_plan(plan, file, sizeof file, &file_length);
    if (refusal != PLANNER_ACCEPTED) {
        fprintf(stderr, "%s: refused by check %d\n", path, refusal);
        return 2;
    }
    FILE *out = fopen(path, "wb");
    if (out == NULL) {
        perror(path);
        return 2;
    }
    size_t written = fwrite(file, 1, file_length, out);
    if (fclose(out) != 0 || written != file_length) {
        perror(path);
        return 2;
    }
    return 0;
}

int main(int argc, char **argv)
{
    static uint8_t file[PLANNER_FILE_BYTES + 1]; /* with one byte more, a file that is too long is seen to be */
    static struct planner_plan plan;

    if (argc != 3 && argc != 4) {
        fprintf(stderr, "usage: %s PLAN PARTS [OUT]\n", argv[0]);
        return 2;
    }
    FILE *in = fopen(argv[1], "rb");
    if (in == NULL) {
        perror(argv[1]);
        return 2;
    }
    size_t file_length = fread(file, 1, sizeof file, in);
    if (ferror(in)) {
        perror(argv[1]);
        return 2;
    }
    fclose(in);
    char *end;
    size_t parts = strtoul(argv[2], &end, 10);
    if (argv[2][0] < '0' || argv[2][0] > '9' || *end != 0) {
        fprintf(stderr, "%s: not a number of parts\n", argv[2]);
        return 2;
    }

    /* The shares go into the plan in the place of its own. A file that the first call refuses is refused by the second. */
    uint8_t found;
    planner_read_plan(file, file_length, &plan);
    uint8_t refusal = planner_find(file, file_length, parts, &found, plan.allocation);
    if (refusal != PLANNER_ACCEPTED)
        printf("refused %d\n", refusal);
    else if (!found)
        printf("none\n");
    else {
        printf("found");
        for (size_t j = 0; j < plan.instruments; j++)
            printf("%c%lu", j == 0 ? ' ' : ',', (unsigned long)plan.allocation[j]);
        printf("\n");
    }
    if (fflush(stdout) != 0 || ferror(stdout)) {
        perror("standard output");
        return 2;
    }
    if (found && argc == 4)
        return write_to(argv[3], &plan);
    return refusal != PLANNER_ACCEPTED;
}

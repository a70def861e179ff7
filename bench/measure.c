/* Calls of the library and the same in C on one file, which must agree; then each again and again, timed.
 *
 *     measure FILE PARTS CALL ROUNDS [CALL ROUNDS]...
 *
 * where a CALL is verdict, cash or find, which alone asks for the PARTS. Prints for each a line: the refusal, the word (of find, whether
 * an allocation is found), and the nanoseconds per call of the library and of C. With 0 rounds each is called once, and the times are 0.
 * With 1, the times are of these calls. With more, they are the least of five turns of so many calls each, taken in turn. */
#include <stdbool.h>
#include <stdio.h>
#include <stdlib.h>
#include <string.h>
#include <time.h>

#include "planner.h"
#include "verdict.h"

/* A file, the parts of a search, and the lists of an account: `rates` in each. */
struct request {
    size_t length, parts, rates;
    uint8_t file[PLANNER_FILE_BYTES + 1];
    int32_t lending[UINT8_MAX], borrowing[UINT8_MAX];
};

struct answer {
    uint8_t refusal, word; /* of find, whether an allocation is found */
    union {
        uint8_t words[64];
        uint32_t shares[16]; /* of find */
    };
    uint64_t shorts;
    int64_t account, bound;
};

typedef void call(const struct request *given, struct answer *a);

static void verdict_by_library(const struct request *given, struct answer *a)
{
    a->refusal = planner_verdict(given->file, given->length, a->words, &a->shorts, &a->word);
}

static void verdict_by_c(const struct request *given, struct answer *a)
{
    a->refusal = c_verdict(given->file, given->length, a->words, &a->shorts, &a->word);
}

static void cash_by_library(const struct request *given, struct answer *a)
{
    a->refusal = planner_cash(given->file, given->length, given->lending, given->rates, given->borrowing, given->rates,
                              &a->account, &a->bound, &a->word);
}

static void cash_by_c(const struct request *given, struct answer *a)
{
    a->refusal = c_cash(given->file, given->length, given->lending, given->rates, given->borrowing, given->rates,
                        &a->account, &a->bound, &a->word);
}

static void find_by_library(const struct request *given, struct answer *a)
{
    a->refusal = planner_find(given->file, given->length, given->parts, &a->word, a->shares);
}

static void find_by_c(const struct request *given, struct answer *a)
{
    a->refusal = c_find(given->file, given->length, given->parts, &a->word, a->shares);
}

static const struct {
    const char *name;
    call *library, *c;
} CALLS[] = {
    {"verdict", verdict_by_library, verdict_by_c},
    {"cash", cash_by_library, cash_by_c},
    {"find", find_by_library, find_by_c},
};

/* The nanoseconds per call of so many, and the last one's answer. */
static double turn(call *one, const struct request *given, long rounds, struct answer *last)
{
    struct timespec began, ended;
    clock_gettime(CLOCK_MONOTONIC, &began);
    for (long k = 0; k < rounds; k++) {
        memset(last, 0xa5, sizeof *last);
        one(given, last);
    }
    clock_gettime(CLOCK_MONOTONIC, &ended);
    return ((double)(ended.tv_sec - began.tv_sec) * 1e9 + (double)(ended.tv_nsec - began.tv_nsec)) / (double)rounds;
}

static bool same(const struct answer *a, const struct answer *b)
{
    return a->refusal == b->refusal && a->word == b->word && a->shorts == b->shorts && a->account == b->account && a->bound == b->bound
        && !memcmp(a->words, b->words, sizeof a->words);
}

/* Asks both and, where they agree, prints their line; answers whether they do. */
static bool beside(call *library, call *c, const struct request *given, long rounds)
{
    struct answer ours, theirs;
    double least[2] = {turn(library, given, 1, &ours), turn(c, given, 1, &theirs)};
    if (!same(&ours, &theirs))
        return false;
    for (int k = 0; k < 5 && rounds > 1; k++) {
        double a = turn(library, given, rounds, &ours), b = turn(c, given, rounds, &theirs);
        least[0] = k == 0 || a < least[0] ? a : least[0];
        least[1] = k == 0 || b < least[1] ? b : least[1];
    }
    printf("%u %u %.0f %.0f\n", ours.refusal, ours.word, rounds > 0 ? least[0] : 0, rounds > 0 ? least[1] : 0);
    return true;
}

/* The place of a call's name among CALLS, or what is past its last. */
static size_t place_of(const char *name)
{
    size_t k = 0;
    while (k < sizeof CALLS / sizeof *CALLS && strcmp(name, CALLS[k].name))
        k++;
    return k;
}

/* As many rates in each list as a plan asks for with the N of the file's head: lending rates that rise by the year, and borrowing rates
 * above them. */
static void make_lists(struct request *given)
{
    given->rates = given->length > 4 && given->file[4] > 0 ? given->file[4] - 1u : 0;
    for (size_t l = 0; l < given->rates; l++) {
        given->lending[l] = 20000 + 1000 * (int32_t)l;
        given->borrowing[l] = 70000 + 1500 * (int32_t)l;
    }
}

int main(int count, char **words)
{
    static struct request given;
    bool good = count > 4 && count % 2 == 1;
    for (int k = 3; k < count; k += 2)
        good = good && place_of(words[k]) < sizeof CALLS / sizeof *CALLS;
    FILE *in = good ? fopen(words[1], "rb") : NULL;
    if (!in) {
        fprintf(stderr, "usage: measure FILE PARTS CALL ROUNDS [CALL ROUNDS]...\n");
        return 2;
    }
    given.length = fread(given.file, 1, sizeof given.file, in);
    given.parts = strtoul(words[2], NULL, 10);
    fclose(in);
    make_lists(&given);
    for (int k = 3; k < count; k += 2) {
        size_t at = place_of(words[k]);
        if (!beside(CALLS[at].library, CALLS[at].c, &given, atol(words[k + 1]))) {
            fprintf(stderr, "%s: the library and C differ in %s\n", words[1], words[k]);
            return 1;
        }
    }
    return 0;
}

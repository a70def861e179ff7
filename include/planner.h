/* The planner's calls, for programs in C.
 *
 * Link crates/becketgrape/out/libbecketgrape.a, which `rt lib` builds in crates/becketgrape. Every function is proved against the contract
 * that stands with it in crates/becketgrape/src/lib.rt. It asks of the caller only what C's pointers must be: each is to as many
 * elements as its declaration or the length beside it says, a buffer that is written overlaps no other, and none is null, also
 * where the length is 0. There is no state and no allocation: calls may be made on any threads at once, on buffers of their own. A
 * call needs at most PLANNER_STACK_BYTES of stack.
 *
 * A plan file goes in as bytes (any bytes: what is no plan file is refused), and the answer comes back in lent buffers. Each call
 * answers a refusal: PLANNER_ACCEPTED, or the number of the first check that fails. On a refusal every number of the answer is 0;
 * entries past the plan's own years, instruments, terms and patterns are always 0, and so are those of the opening (what money already
 * invested pays) and of the cost (what is left of each instrument at the horizon, at cost) where the plan holds none, the rates of a pattern
 * that is a slope, and the start, step and T of one that is not. Amounts are whole numbers in the unit of the file, shares and rates are
 * millionths.
 *
 * A fund, reckoned or exact, has what is left at the horizon inside, and so has each K_j; Q and the cash account have not. */
#ifndef PLANNER_H
#define PLANNER_H

#include <stddef.h>
#include <stdint.h>

#ifdef __cplusplus
extern "C" {
#define PLANNER_AT_LEAST(count)
#else
#define PLANNER_AT_LEAST(count) static count
#endif

/* Members of a struct without a name of their own: C has them since 2011, C++ by an extension that every compiler knows. */
#ifdef __GNUC__
#define PLANNER_EXTENSION __extension__
#else
#define PLANNER_EXTENSION
#endif

/* The most that a plan can have, and the most bytes of a plan file and of a listing. */
#define PLANNER_YEARS 30
#define PLANNER_INSTRUMENTS 16
#define PLANNER_TERMS 30
#define PLANNER_PATTERNS 64
#define PLANNER_FILE_BYTES 16384
#define PLANNER_LISTING_BYTES 32768

/* The stack that a thread needs for any call here, its own beginnings, some 4 KB, included; what the caller's frames and signal
 * handlers use comes on top. It is not proved: tests/stack reads it off the compiled code, over every path, and measures it. */
#define PLANNER_STACK_BYTES 98304

/* What a call answers, by number: the checks in their order, but for 13, which stands right before 8, 14, right after it, and 15, after 9
 * and before 10. */
enum planner_refusal {
    PLANNER_ACCEPTED = 0,
    PLANNER_FILE_TOO_LONG = 1,   /* the file is longer than PLANNER_FILE_BYTES */
    PLANNER_FILE_CUT = 2,        /* the last record is not whole */
    PLANNER_HEAD = 3,            /* the head is missing or not four bytes, or a number in it is outside its range */
    PLANNER_KINDS = 4,           /* the sequence of kinds is not that of a plan */
    PLANNER_LENGTH = 5,          /* a record's length is not what its kind and the head require, or a list has not N - 1 rates */
    PLANNER_AMOUNT = 6,          /* a payment, an outflow or an amount of the opening or of the cost is outside its range */
    PLANNER_ROLLOVER = 7,        /* the rollover shares do not sum to 1,000,000 */
    PLANNER_RATE = 8,            /* a rate that is listed, that a slope means or of a call's own list is below 0 or above 200,000 */
    PLANNER_ALLOCATION = 9,      /* the allocation does not sum to 1,000,000 */
    PLANNER_PATTERN = 10,        /* the pattern number is outside 1 to m */
    PLANNER_OUT_OF_LIMIT = 11,   /* a cell, a fund with its cost inside or a cash account is outside +-1,000,000,000,000 */
    PLANNER_BUFFER_TOO_SHORT = 12, /* the buffer is shorter than the file that goes into it */
    PLANNER_SLOPE = 13,          /* the T of a slope is outside 1 to 30 */
    PLANNER_BORROWING = 14,      /* a borrowing rate is below the lending rate of its year */
    PLANNER_PARTS = 15           /* the number of parts is none of those that a search knows, or there are more than four instruments */
};

/* What is said of a pattern, and of a plan. Of a cash account the words say the same, with the exact account in the place of the fund. */
enum planner_word {
    PLANNER_SOLVENT = 1, /* the exact fund is zero or more, in this pattern or in every one */
    PLANNER_SHORT = 2,   /* the exact fund is below zero, in this pattern or in some one */
    PLANNER_CLOSE = 3    /* the reckoned fund lies too near to zero to say */
};

/* A plan held as values goes over this border in four arrays, one for each width of number. The arrays have these places; a field that a
 * plan gains takes places after the last, so that no call's parameters and no place here ever change, and only the sizes grow: a program
 * is built again with the header of the library that it is linked with. A program that makes a plan begins with zeros: a field that it
 * does not know is then one that the plan does not hold.
 *
 * counts: N, n, q and m, then `opened`: 0 where the plan holds no opening, any other number where it does. Then `sloped`, for each
 * pattern: 0 where it lists its rates, any other number where it is a slope; then `until`, for each pattern the T of its slope. Then
 * `costed`: 0 where the plan holds no cost, any other number where it does. Of `opened`, `sloped` and `costed` planner_read answers 0 or
 * 1. */
#define PLANNER_AT_SLOPED 5
#define PLANNER_AT_UNTIL 69
#define PLANNER_AT_COSTED 133
#define PLANNER_COUNTS 134
/* amounts: the payments, a row of PLANNER_YEARS for each instrument, then the outflows, then the opening, then the cost. What instrument
 * j + 1 pays in year k + 1 per 1,000,000,000 put in stands at PLANNER_AT_PAYMENTS + j * PLANNER_YEARS + k. The opening is what money already
 * invested pays in each year; what stands at its places while `opened` is 0 plays no part. The cost is what is left of each instrument at
 * the horizon, at cost, per 1,000,000,000 put in; what stands at its places while `costed` is 0 plays no part. */
#define PLANNER_AT_PAYMENTS 0
#define PLANNER_AT_OUTFLOWS 480
#define PLANNER_AT_OPENING 510
#define PLANNER_AT_COST 540
#define PLANNER_AMOUNTS 556
/* shares: the rollover, then the allocation. */
#define PLANNER_AT_ROLLOVER 0
#define PLANNER_AT_ALLOCATION 30
#define PLANNER_SHARES 46
/* rates: a row of PLANNER_YEARS for each pattern, then for each pattern the start i_0 of its slope, then for each the step d. The rate
 * i_(k+2) of pattern t + 1 stands at PLANNER_AT_RATES + t * PLANNER_YEARS + k. A slope means i_k = i_0 + (min(k, T) - 1) * d for each year
 * k from 2 on. Where a pattern is a slope its row of rates plays no part, and where it lists its rates its start, step and T play none;
 * planner_read answers zeros there. */
#define PLANNER_AT_RATES 0
#define PLANNER_AT_START 1920
#define PLANNER_AT_STEP 1984
#define PLANNER_RATES 2048

/* The same as a struct: each array by its name, and by the names of its places. */
struct planner_plan {
    PLANNER_EXTENSION union {
        size_t counts[PLANNER_COUNTS];
        PLANNER_EXTENSION struct {
            size_t years, instruments, terms, patterns, opened;
            size_t sloped[PLANNER_PATTERNS], until[PLANNER_PATTERNS];
            size_t costed;
        };
    };
    PLANNER_EXTENSION union {
        int64_t amounts[PLANNER_AMOUNTS];
        PLANNER_EXTENSION struct {
            int64_t payments[PLANNER_INSTRUMENTS][PLANNER_YEARS];
            int64_t outflows[PLANNER_YEARS];
            int64_t opening[PLANNER_YEARS];
            int64_t cost[PLANNER_INSTRUMENTS];
        };
    };
    PLANNER_EXTENSION union {
        uint32_t shares[PLANNER_SHARES];
        PLANNER_EXTENSION struct {
            uint32_t rollover[PLANNER_TERMS];
            uint32_t allocation[PLANNER_INSTRUMENTS];
        };
    };
    PLANNER_EXTENSION union {
        int32_t all_rates[PLANNER_RATES];
        PLANNER_EXTENSION struct {
            int32_t rates[PLANNER_PATTERNS][PLANNER_YEARS];
            int32_t start[PLANNER_PATTERNS], step[PLANNER_PATTERNS];
        };
    };
};

/* The listing of a file, into the first bytes of `out`; answers how many they are. The other bytes of `out` are untouched. A file
 * that is refused is listed as `refused` and its number. */
size_t planner_list(const uint8_t *file, size_t file_length, uint8_t out[PLANNER_AT_LEAST(PLANNER_LISTING_BYTES)]);

/* The plan that a file holds. Refusals 1 to 9 and 13. */
uint8_t planner_read(const uint8_t *file, size_t file_length,
                     size_t counts[PLANNER_AT_LEAST(PLANNER_COUNTS)], int64_t amounts[PLANNER_AT_LEAST(PLANNER_AMOUNTS)],
                     uint32_t shares[PLANNER_AT_LEAST(PLANNER_SHARES)], int32_t rates[PLANNER_AT_LEAST(PLANNER_RATES)]);

/* The file of a plan, into the first bytes of `buffer`, and its length. A slope is written as one. What the arrays hold past the plan's
 * own numbers, or for what it does not hold, plays no part. Refusals 3, 6 to 9, 13 (also for a T that is too large for a byte) and 12;
 * on a refusal the buffer is untouched and the length is 0. */
uint8_t planner_write(const size_t counts[PLANNER_AT_LEAST(PLANNER_COUNTS)], const int64_t amounts[PLANNER_AT_LEAST(PLANNER_AMOUNTS)],
                      const uint32_t shares[PLANNER_AT_LEAST(PLANNER_SHARES)], const int32_t rates[PLANNER_AT_LEAST(PLANNER_RATES)],
                      uint8_t *buffer, size_t buffer_length, size_t *length);

/* The calls on one pattern, counted from 1. Refusals 1 to 11 and 13; the bound's call reckons no cell and has no 11. */

/* The reckoned fund, with what is left at the horizon inside: never above the exact fund, which has it inside too, and below it by less
 * than the bound. Where all rates of the pattern are equal, two files that differ only in their rollover, if both are accepted, have funds
 * that are less than the bound apart. */
uint8_t planner_fund(const uint8_t *file, size_t file_length, size_t pattern, int64_t *fund);

/* The bound B; one more where the plan holds a cost, also where every amount of it is 0. */
uint8_t planner_bound(const uint8_t *file, size_t file_length, size_t pattern, int64_t *bound);

/* The linear form: K_1 to K_n, each with the cost of its instrument inside, Q, and its value at the plan's allocation. */
uint8_t planner_form(const uint8_t *file, size_t file_length, size_t pattern,
                     int64_t coefficients[PLANNER_AT_LEAST(PLANNER_INSTRUMENTS)], int64_t *constant, int64_t *value);

/* The table of gammas: PLANNER_YEARS rows of PLANNER_YEARS, one after the other; entry l of row k stands at (k - 2) * PLANNER_YEARS
 * + (l - 1). */
uint8_t planner_gammas(const uint8_t *file, size_t file_length, size_t pattern,
                       int64_t gammas[PLANNER_AT_LEAST(PLANNER_YEARS * PLANNER_YEARS)]);

/* The verdict: the word of each pattern, the short ones as bits (bit t - 1 for pattern t), the plan's word. Refusals 1 to 9, 11
 * and 13. */
uint8_t planner_verdict(const uint8_t *file, size_t file_length,
                        uint8_t words[PLANNER_AT_LEAST(PLANNER_PATTERNS)], uint64_t *shorts, uint8_t *word);

/* The cash account of an operator who does not reinvest: what is left over at the end of a year is lent, what is missing is borrowed. Each
 * list has the rates of years 2 to N, N - 1 of them, none where N is 1; rates of either list are 0 to 200,000, and none of the borrowing
 * list is below the lending rate of its year. Answers the account at the end of year N, never above the exact one and below it by less than
 * the bound; the bound; and the word, which the two make as a fund and B do. The plan's patterns and its cost are checked and have no part
 * in it. Refusals 1 to 9, 11, 13 and 14; a list of another length is refused 5, after the file's own 5, and 8 and 14 come before 9. */
uint8_t planner_cash(const uint8_t *file, size_t file_length,
                     const int32_t *lending, size_t lending_length,
                     const int32_t *borrowing, size_t borrowing_length,
                     int64_t *account, int64_t *bound, uint8_t *word);

/* An allocation that works: the first whose shares are multiples of 1,000,000 / parts and whose plan verdict is solvent. The order is by
 * the larger share of instrument 1, then of 2, and so on. `parts` is 1, 2, 4, 5, 8, 10, 16, 20, 25 or 40, and the plan has at most four
 * instruments; another number of either is refused 15. Answers 1 in `found` and the share of instrument j + 1 at place j of `shares`, or 0
 * and zeros where there is no such allocation. The plan's own allocation is checked and has no part in it. Refusals 1 to 9, 13 and 15:
 * an allocation whose verdict is refused 11 is not solvent, and the call itself is never refused 11. */
uint8_t planner_find(const uint8_t *file, size_t file_length, size_t parts,
                     uint8_t *found, uint32_t shares[PLANNER_AT_LEAST(PLANNER_INSTRUMENTS)]);

/* planner_read and planner_write on a struct. */
static inline uint8_t planner_read_plan(const uint8_t *file, size_t file_length, struct planner_plan *plan)
{
    return planner_read(file, file_length, plan->counts, plan->amounts, plan->shares, plan->all_rates);
}

static inline uint8_t planner_write_plan(const struct planner_plan *plan, uint8_t *buffer, size_t buffer_length, size_t *length)
{
    return planner_write(plan->counts, plan->amounts, plan->shares, plan->all_rates, buffer, buffer_length, length);
}

#ifdef __cplusplus
}
#endif

#endif

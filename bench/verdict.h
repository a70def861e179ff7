/* The verdict on a plan file, its cash account and the search for its allocation, reckoned in plain C: what planner_verdict, planner_cash
 * and planner_find are measured against. */
#ifndef VERDICT_H
#define VERDICT_H

#include <stddef.h>
#include <stdint.h>

/* As planner_verdict: the words of the patterns, the short ones as bits, the plan's word; answers the refusal. */
uint8_t c_verdict(const uint8_t *file, size_t length, uint8_t words[static 64], uint64_t *shorts, uint8_t *word);

/* As planner_cash: V, g and the word; answers the refusal. */
uint8_t c_cash(const uint8_t *file, size_t length, const int32_t *lending, size_t lending_length, const int32_t *borrowing,
               size_t borrowing_length, int64_t *account, int64_t *bound, uint8_t *word);

/* As planner_find: whether an allocation of so many parts is solvent, and the first that is, or zeros; answers the refusal. */
uint8_t c_find(const uint8_t *file, size_t length, size_t parts, uint8_t *found, uint32_t shares[static 16]);

#endif

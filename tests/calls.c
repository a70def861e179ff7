/* The driver of tests/calls and tests/level: takes requests from standard input, makes every call of planner.h on each, or only that for
 * the cash account, that for an allocation or those for the fund and the bound, and prints what it got, a line a call. A request is struct
 * request as it stands, then the bytes of the file, the lending rates and the borrowing rates.
 *
 * What is lent to be read ends where memory ends, so that reading past it stops the driver. What is lent to be filled lies between
 * guards; it and they hold known bytes before the call. A line ends in ` guards` if one of these changed, and in ` lent` if what
 * was lent to be read did. Bytes are printed in hexadecimal, as many as the call says it wrote or more if it changed more. */
#define _GNU_SOURCE
#include <inttypes.h>
#include <stdio.h>
#include <stdlib.h>
#include <string.h>
#include <sys/mman.h>
#include <unistd.h>

#include "planner.h"

enum {
    GAMMAS = PLANNER_YEARS * PLANNER_YEARS,
    GUARD = 64,
    LIST = 1024, /* the most rates in a list of a request */
    SECONDS = 20 /* for all calls of a request */
};

enum only { EVERY_CALL, ONLY_CASH, ONLY_FIND, ONLY_AMOUNTS };

struct request {
    uint64_t file_length, lending_length, borrowing_length, only, pattern, parts, room, fill;
    size_t counts[PLANNER_COUNTS];
    int64_t amounts[PLANNER_AMOUNTS];
    uint32_t shares[PLANNER_SHARES];
    int32_t rates[PLANNER_RATES];
};

static struct request request;

/* The places of the arrays are those of the struct's members. */
#define AT(member, array) \
    ((offsetof(struct planner_plan, member) - offsetof(struct planner_plan, array)) / sizeof ((struct planner_plan *)0)->array[0])
#define ENDS(member, array) \
    (AT(member, array) + sizeof ((struct planner_plan *)0)->member / sizeof ((struct planner_plan *)0)->array[0])
_Static_assert(AT(patterns, counts) == 3 && AT(opened, counts) == 4 && ENDS(opened, counts) == PLANNER_AT_SLOPED, "counts");
_Static_assert(AT(sloped, counts) == PLANNER_AT_SLOPED && ENDS(sloped, counts) == PLANNER_AT_UNTIL, "counts");
_Static_assert(AT(until, counts) == PLANNER_AT_UNTIL && ENDS(until, counts) == PLANNER_AT_COSTED, "counts");
_Static_assert(AT(costed, counts) == PLANNER_AT_COSTED && ENDS(costed, counts) == PLANNER_COUNTS, "counts");
_Static_assert(AT(payments, amounts) == PLANNER_AT_PAYMENTS && AT(outflows, amounts) == PLANNER_AT_OUTFLOWS, "amounts");
_Static_assert(ENDS(payments, amounts) == PLANNER_AT_OUTFLOWS && ENDS(outflows, amounts) == PLANNER_AT_OPENING, "amounts");
_Static_assert(AT(opening, amounts) == PLANNER_AT_OPENING && ENDS(opening, amounts) == PLANNER_AT_COST, "amounts");
_Static_assert(AT(cost, amounts) == PLANNER_AT_COST && ENDS(cost, amounts) == PLANNER_AMOUNTS, "amounts");
_Static_assert(AT(rollover, shares) == PLANNER_AT_ROLLOVER && AT(allocation, shares) == PLANNER_AT_ALLOCATION, "shares");
_Static_assert(ENDS(rollover, shares) == PLANNER_AT_ALLOCATION && ENDS(allocation, shares) == PLANNER_SHARES, "shares");
_Static_assert(AT(rates, all_rates) == PLANNER_AT_RATES && ENDS(rates, all_rates) == PLANNER_AT_START, "rates");
_Static_assert(AT(start, all_rates) == PLANNER_AT_START && ENDS(start, all_rates) == PLANNER_AT_STEP, "rates");
_Static_assert(AT(step, all_rates) == PLANNER_AT_STEP && ENDS(step, all_rates) == PLANNER_RATES, "rates");

static void need(int holds, const char *what)
{
    if (!holds) {
        fprintf(stderr, "calls: %s\n", what);
        exit(2);
    }
}

/* What is lent to be read: copies of up to `most` bytes, flush with the end of a mapping that an inaccessible page follows. */
struct source {
    uint8_t *end;
    const void *first; /* what was copied */
    size_t size;
};

static struct source sources[5];
static size_t source_count;

static void map_source(struct source *source, size_t most)
{
    size_t page = (size_t)sysconf(_SC_PAGESIZE), size = (most + page - 1) / page * page;
    uint8_t *at = mmap(NULL, size + page, PROT_READ | PROT_WRITE, MAP_PRIVATE | MAP_ANONYMOUS, -1, 0);
    need(at != MAP_FAILED && mprotect(at + size, page, PROT_NONE) == 0, "no memory");
    source->end = at + size;
}

static const void *source(const void *first, size_t size)
{
    struct source *to = &sources[source_count++];
    to->first = first;
    to->size = size;
    return memcpy(to->end - size, first, size);
}

/* What is lent to be filled. */
struct target {
    uint8_t *at;
    size_t size;
};

static _Alignas(64) uint8_t arena[1 << 20];
static struct target targets[16];
static size_t target_count, used;

static uint8_t known(const uint8_t *at)
{
    return (uint8_t)(request.fill + 37 * (size_t)(at - arena));
}

static void *target(size_t size)
{
    uint8_t *from = arena + used, *at = from + GUARD;
    used += (GUARD + size + GUARD + 63) / 64 * 64;
    need(used <= sizeof arena, "no room for what is lent");
    for (uint8_t *p = from; p < at + size + GUARD; p++)
        *p = known(p);
    targets[target_count++] = (struct target){at, size};
    return at;
}

static void begin(const char *name)
{
    target_count = source_count = used = 0;
    fputs(name, stdout);
}

static void end(void)
{
    int guards = 0, lent = 0;
    for (size_t t = 0; t < target_count; t++)
        for (size_t k = 0; k < GUARD; k++) {
            const uint8_t *before = targets[t].at - GUARD + k, *after = targets[t].at + targets[t].size + k;
            guards |= *before != known(before) || *after != known(after);
        }
    for (size_t s = 0; s < source_count; s++)
        lent |= memcmp(sources[s].end - sources[s].size, sources[s].first, sources[s].size) != 0;
    puts(guards ? lent ? " guards lent" : " guards" : lent ? " lent" : "");
}

static void put(uint64_t number)
{
    printf(" %" PRIu64, number);
}

static void put_signed(const int64_t *numbers, size_t count)
{
    for (size_t k = 0; k < count; k++)
        printf(" %" PRId64, numbers[k]);
}

static void put_unsigned(const uint32_t *numbers, size_t count)
{
    for (size_t k = 0; k < count; k++)
        printf(" %" PRIu32, numbers[k]);
}

static void put_rates(const int32_t *numbers, size_t count)
{
    for (size_t k = 0; k < count; k++)
        printf(" %" PRId32, numbers[k]);
}

static void put_bytes(const uint8_t *bytes, size_t size, size_t length)
{
    static const char digits[] = "0123456789abcdef";
    size_t reach = size;
    while (reach > 0 && bytes[reach - 1] == known(bytes + reach - 1))
        reach--;
    if (length <= size && length > reach)
        reach = length;
    fputs(reach ? " " : " -", stdout);
    for (size_t k = 0; k < reach; k++) {
        putchar(digits[bytes[k] >> 4]);
        putchar(digits[bytes[k] & 15]);
    }
}

/* The calls. The file is the first source of each that takes one. */

static void call_list(const uint8_t *bytes)
{
    begin("list");
    const uint8_t *file = source(bytes, request.file_length);
    uint8_t *out = target(PLANNER_LISTING_BYTES);
    size_t length = planner_list(file, request.file_length, out);
    put(length);
    put_bytes(out, PLANNER_LISTING_BYTES, length);
    end();
}

static void call_read(const uint8_t *bytes)
{
    begin("read");
    const uint8_t *file = source(bytes, request.file_length);
    size_t *counts = target(PLANNER_COUNTS * sizeof *counts);
    int64_t *amounts = target(PLANNER_AMOUNTS * sizeof *amounts);
    uint32_t *shares = target(PLANNER_SHARES * sizeof *shares);
    int32_t *rates = target(PLANNER_RATES * sizeof *rates);
    put(planner_read(file, request.file_length, counts, amounts, shares, rates));
    for (size_t i = 0; i < PLANNER_COUNTS; i++)
        put(counts[i]);
    put_signed(amounts, PLANNER_AMOUNTS);
    put_unsigned(shares, PLANNER_SHARES);
    put_rates(rates, PLANNER_RATES);
    end();
}

static void call_write(void)
{
    begin("write");
    source_count = 1;
    const size_t *counts = source(request.counts, sizeof request.counts);
    const int64_t *amounts = source(request.amounts, sizeof request.amounts);
    const uint32_t *shares = source(request.shares, sizeof request.shares);
    const int32_t *rates = source(request.rates, sizeof request.rates);
    uint8_t *buffer = target(request.room);
    size_t *length = target(sizeof *length);
    put(planner_write(counts, amounts, shares, rates, buffer, request.room, length));
    put(*length);
    put_bytes(buffer, request.room, *length);
    end();
}

/* The plan that was read, written again: the numbers of both calls, and what was written. */
static void call_again(const uint8_t *bytes)
{
    begin("again");
    const uint8_t *file = source(bytes, request.file_length);
    struct planner_plan *plan = target(sizeof *plan);
    put(planner_read_plan(file, request.file_length, plan));
    uint8_t *buffer = target(request.file_length);
    size_t *length = target(sizeof *length);
    put(planner_write_plan(plan, buffer, request.file_length, length));
    put(*length);
    put_bytes(buffer, request.file_length, *length);
    end();
}

/* The calls that answer one amount: the fund and the bound. */
typedef uint8_t amount_call(const uint8_t *file, size_t file_length, size_t pattern, int64_t *amount);

static void call_amount(const char *name, amount_call *call, const uint8_t *bytes)
{
    begin(name);
    const uint8_t *file = source(bytes, request.file_length);
    int64_t *amount = target(sizeof *amount);
    put(call(file, request.file_length, request.pattern, amount));
    put_signed(amount, 1);
    end();
}

static void call_form(const uint8_t *bytes)
{
    begin("form");
    const uint8_t *file = source(bytes, request.file_length);
    int64_t *coefficients = target(PLANNER_INSTRUMENTS * sizeof *coefficients);
    int64_t *constant = target(sizeof *constant), *value = target(sizeof *value);
    put(planner_form(file, request.file_length, request.pattern, coefficients, constant, value));
    put_signed(coefficients, PLANNER_INSTRUMENTS);
    put_signed(constant, 1);
    put_signed(value, 1);
    end();
}

static void call_gammas(const uint8_t *bytes)
{
    begin("gammas");
    const uint8_t *file = source(bytes, request.file_length);
    int64_t *gammas = target(GAMMAS * sizeof *gammas);
    put(planner_gammas(file, request.file_length, request.pattern, gammas));
    put_signed(gammas, GAMMAS);
    end();
}

static void call_verdict(const uint8_t *bytes)
{
    begin("verdict");
    const uint8_t *file = source(bytes, request.file_length);
    uint8_t *words = target(PLANNER_PATTERNS), *word = target(1);
    uint64_t *shorts = target(sizeof *shorts);
    put(planner_verdict(file, request.file_length, words, shorts, word));
    for (size_t t = 0; t < PLANNER_PATTERNS; t++)
        put(words[t]);
    put(*shorts);
    put(*word);
    end();
}

static void call_cash(const uint8_t *bytes, const int32_t *lending, const int32_t *borrowing)
{
    begin("cash");
    const uint8_t *file = source(bytes, request.file_length);
    lending = source(lending, request.lending_length * sizeof *lending);
    borrowing = source(borrowing, request.borrowing_length * sizeof *borrowing);
    int64_t *account = target(sizeof *account), *bound = target(sizeof *bound);
    uint8_t *word = target(1);
    put(planner_cash(file, request.file_length, lending, request.lending_length, borrowing, request.borrowing_length,
                     account, bound, word));
    put_signed(account, 1);
    put_signed(bound, 1);
    put(*word);
    end();
}

static void call_find(const uint8_t *bytes)
{
    begin("find");
    const uint8_t *file = source(bytes, request.file_length);
    uint8_t *found = target(1);
    uint32_t *shares = target(PLANNER_INSTRUMENTS * sizeof *shares);
    put(planner_find(file, request.file_length, request.parts, found, shares));
    put(*found);
    put_unsigned(shares, PLANNER_INSTRUMENTS);
    end();
}

/* Takes `count` elements of a request, of which there can be `most`. */
static void take(void *to, size_t size, size_t count, size_t most)
{
    need(count <= most, "the request is too long");
    need(fread(to, size, count, stdin) == count, "the request is cut");
}

int main(void)
{
    static uint8_t bytes[1 << 17];
    static int32_t lending[LIST], borrowing[LIST];
    for (size_t s = 0; s < sizeof sources / sizeof *sources; s++)
        map_source(&sources[s], sizeof bytes); /* the most that any has to hold */
    while (fread(&request, sizeof request, 1, stdin) == 1) {
        take(bytes, 1, request.file_length, sizeof bytes);
        take(lending, sizeof *lending, request.lending_length, LIST);
        take(borrowing, sizeof *borrowing, request.borrowing_length, LIST);
        int every = request.only == EVERY_CALL;
        alarm(SECONDS);
        if (every) {
            call_read(bytes);
            call_write();
            call_again(bytes);
        }
        if (every || request.only == ONLY_AMOUNTS) {
            call_amount("fund", planner_fund, bytes);
            call_amount("bound", planner_bound, bytes);
        }
        if (every) {
            call_form(bytes);
            call_gammas(bytes);
            call_verdict(bytes);
            call_list(bytes);
        }
        if (every || request.only == ONLY_CASH)
            call_cash(bytes, lending, borrowing);
        if (every || request.only == ONLY_FIND)
            call_find(bytes);
        fflush(stdout);
        alarm(0);
    }
    return 0;
}

/* planner_list, planner_cash and planner_find on any bytes, and planner_fund and planner_bound on plans with a level pattern. What must hold,
 * or the program aborts: the listing is at most PLANNER_LISTING_BYTES long, nothing is changed after it, around the buffer or in the file,
 * nothing is read or written outside what is lent, the text has the form of a listing, and the same file gives the same text again. The cash
 * account is refused as the listing and the two lists of rates say, and then its numbers are 0; else the account and the bound are in their
 * ranges, and the word is theirs; the file, the lists and what is around the three numbers are unchanged, and the same file and lists give the
 * same answer again. The search is refused as the listing, but for 11, and the number of parts and n say, and then its numbers are 0, as they
 * are where nothing is found; what is found lies on the grid, and the file with it in the place of the allocation is listed as solvent; with
 * the allocations before it, or with all where nothing is found, it is not: of these the plan's own is tried, if it is one, the one right
 * before, and about eight more. The file and what is around the answer are unchanged, and the same file and number give the same answer again.
 * A plan with a pattern whose rates are all equal, those that a slope means, is written again with another rollover: all after one year, or,
 * where that is its own, all after thirty. In each such pattern the two plans have the same bound, and their funds are less than that apart,
 * if neither is refused 11.
 *
 * An input is a plan file, and the two lists of rates are made from it. Lending rates are those of its first pattern that lists them,
 * borrowing rates those of its last if it has two such, raised to the lending rate where they are below it. What is still missing is
 * drawn, and so is what is wrong: one file in eight has lists of other lengths (0, N - 1, N, N + 255, 30, 31, or any up to 1,024), one
 * in eight a borrowing rate below the lending rate, one in eight a rate outside the range, each whatever the others are; two in three
 * have nothing wrong. The generator begins with a hash of the records other than the payments, the outflows, the opening and the cost: a
 * change of an amount leaves the lists as they are. The number of parts is drawn next: in one file in eight one that is refused, else one
 * that leaves the search some hundreds of allocations at most, and in one of sixteen of these some thousands; fewer where the plan is large.
 *
 * Built for libFuzzer by fuzz/run, and with REPLAY as a program that takes files, or standard input, by fuzz/replay.
 *
 * The library is not instrumented. For libFuzzer its coverage is had by breakpoints: FUZZ_BLOCKS names a file with the address of
 * every block of its code, a breakpoint is set on each, and one that is reached is counted and taken off until the next input. */
#define _GNU_SOURCE
#include <signal.h>
#include <stdio.h>
#include <stdlib.h>
#include <string.h>
#include <sys/mman.h>
#include <ucontext.h>
#include <unistd.h>

#include "planner.h"

enum { MOST_FILE = 1 << 17, GUARD = 4096, FILL = 0xa5, MOST_RATES = GUARD / 4, TOP_RATE = 200000, MILLION = 1000000 };

static void must(int holds, const char *what)
{
    if (!holds) {
        fprintf(stderr, "list: %s\n", what);
        abort();
    }
}

/* ---- the records of a file */

/* Whether a whole record begins at `at`, and the length of its body. */
static int record(const uint8_t *data, size_t size, size_t at, size_t *length)
{
    if (size - at < 4)
        return 0;
    *length = data[at] | (size_t)data[at + 1] << 8;
    return size - at - 4 >= *length;
}

static int has_amounts(unsigned kind)
{
    return kind == 2 || kind == 3 || kind == 7 || kind == 9;
}

/* ---- the form of a listing */

/* The refusal that the text is; 0 if it is the listing of a plan. */
static int refusal_of(const uint8_t *text, size_t length)
{
    static const int refusals[] = {1, 2, 3, 4, 5, 6, 7, 13, 8, 9, 11};
    static char copy[PLANNER_LISTING_BYTES + 1];
    memcpy(copy, text, length);
    copy[length] = 0;
    for (size_t k = 0; k < sizeof refusals / sizeof *refusals; k++) {
        char refused[16];
        sprintf(refused, "refused %d\n", refusals[k]);
        if (strcmp(copy, refused) == 0)
            return refusals[k];
    }
    must(length > 0 && strlen(copy) == length && copy[length - 1] == '\n', "the text does not end in a line feed");
    must(strspn(copy, " -0123456789solventshortclose\n") == length, "the text has a character that no listing has");
    int shorts = 0, lowest = 0, patterns = 0, form = 0;
    for (char *line = copy, *end; *line; line = end + 1) {
        int fields = 1, number;
        char word[8];
        end = strchr(line, '\n');
        for (char *at = line; at < end; at++)
            fields += *at == ' ';
        if (end[1] == 0) {
            int count = 0, first = 0;
            must(fields == 3 && sscanf(line, "%7s %d %d", word, &count, &first) == 3, "the last line has another form");
            must(count == shorts && first == lowest, "the last line is not that of the patterns");
        } else {
            must(sscanf(line, "%d %7s", &number, word) == 2 && number == ++patterns, "a line has another number");
            must(fields >= 6 && fields <= 5 + PLANNER_INSTRUMENTS, "a line has another form");
            must(form == 0 || form == fields, "the lines have different forms");
            form = fields;
            if (strcmp(word, "short") == 0 && shorts++ == 0)
                lowest = number;
        }
        must(strcmp(word, "solvent") == 0 || strcmp(word, "short") == 0 || strcmp(word, "close") == 0, "a word is none of the three");
    }
    must(patterns >= 1 && patterns <= PLANNER_PATTERNS, "there are too few lines or too many");
    return 0;
}

/* ---- the lists of rates */

struct rates {
    size_t count;
    int32_t at[MOST_RATES];
};
static struct rates lending, borrowing;
static size_t right_count; /* N - 1, if the file has passed check 3 */
static uint64_t drawn;

/* A number below `count`. */
static uint32_t draw(size_t count)
{
    drawn = drawn * 6364136223846793005 + 1442695040888963407;
    return (uint32_t)((drawn >> 33) % count);
}

/* The generator begins with a hash of every record's head, and of its body where it has no amounts or these count too. */
static void begin_drawing(const uint8_t *data, size_t size, int amounts_count)
{
    size_t length;
    drawn = 14695981039346656037u;
    for (size_t at = 0; record(data, size, at, &length); at += 4 + length)
        for (size_t k = 0; k < (has_amounts(data[at + 2]) && !amounts_count ? 4 : 4 + length); k++)
            drawn = (drawn ^ data[at + k]) * 1099511628211;
}

static size_t some_count(void)
{
    const size_t counts[] = {0, right_count, right_count + 1, right_count + 256, 30, 31, draw(MOST_RATES + 1)};
    return counts[draw(sizeof counts / sizeof *counts)];
}

/* A rate from `low` to `high`, and each of these more often than others. */
static int32_t some_rate(int32_t low, int32_t high)
{
    uint32_t kind = draw(8);
    return kind == 0 ? low : kind == 1 ? high : low + (int32_t)draw((size_t)(high - low + 1));
}

/* Rates that nothing is wrong with, if there is nothing wrong with those of the patterns. */
static void fill_lists(const uint8_t *data, size_t size)
{
    int32_t top = some_rate(0, TOP_RATE);
    for (size_t k = 0; k < right_count || k < lending.count || k < borrowing.count; k++) {
        lending.at[k] = some_rate(0, top);
        borrowing.at[k] = some_rate(lending.at[k], top);
    }
    size_t length, found = 0;
    for (size_t at = 0; record(data, size, at, &length); at += 4 + length)
        if (data[at + 2] == 5 && length == 4 * right_count)
            memcpy(found++ == 0 ? lending.at : borrowing.at, data + at + 4, length);
    for (size_t k = 0; k < right_count; k++)
        if (borrowing.at[k] < lending.at[k])
            borrowing.at[k] = lending.at[k];
}

/* The two lists that go with a file. */
static void make_lists(const uint8_t *data, size_t size)
{
    static const int32_t outside[] = {-1, TOP_RATE + 1, INT32_MIN, INT32_MAX};
    right_count = size > 4 && data[4] >= 1 && data[4] <= PLANNER_YEARS ? data[4] - 1 : 0;
    begin_drawing(data, size, 0);
    lending.count = borrowing.count = right_count;
    if (draw(8) == 0) {
        lending.count = some_count();
        borrowing.count = draw(2) ? lending.count : some_count();
    }
    fill_lists(data, size);
    if (draw(8) == 0 && lending.count > 0 && borrowing.count > 0) {
        size_t k = draw(lending.count < borrowing.count ? lending.count : borrowing.count);
        lending.at[k] = some_rate(1, TOP_RATE);
        borrowing.at[k] = some_rate(0, lending.at[k] - 1);
    }
    struct rates *either = draw(2) ? &lending : &borrowing;
    if (draw(8) == 0 && either->count > 0)
        either->at[draw(either->count)] = outside[draw(4)];
}

/* The first check, 5, 8 or 14, that the lists fail; 0 if they fail none. */
static int wrong_in_lists(void)
{
    int outside = 0, below = 0;
    if (lending.count != right_count || borrowing.count != right_count)
        return 5;
    for (size_t k = 0; k < right_count; k++) {
        outside |= lending.at[k] < 0 || lending.at[k] > TOP_RATE || borrowing.at[k] < 0 || borrowing.at[k] > TOP_RATE;
        below |= borrowing.at[k] < lending.at[k];
    }
    return outside ? 8 : below ? 14 : 0;
}

/* ---- the number of parts */

enum { NUMBERS = 10, MOST_SEARCHED = 4 };
static const uint32_t numbers[NUMBERS] = {1, 2, 4, 5, 8, 10, 16, 20, 25, 40};
static size_t parts;

/* Where the number stands among those that are taken; NUMBERS if it does not. */
static size_t number_of(size_t count)
{
    size_t k = 0;
    while (k < NUMBERS && numbers[k] != count)
        k++;
    return k;
}

/* How many allocations to n instruments there are in so many parts. */
static size_t allocations(size_t n, size_t count)
{
    size_t all = 1;
    for (size_t k = 1; k < n; k++)
        all = all * (count + k) / k;
    return all;
}

/* The number of parts that goes with a file; it is drawn after the lists. */
static void make_parts(const uint8_t *data, size_t size)
{
    static const size_t others[] = {0, 3, 7, 50, ((size_t)1 << 32) + 4, SIZE_MAX};
    size_t n = size > 5 && data[5] >= 1 && data[5] <= MOST_SEARCHED ? data[5] : 1, most = draw(16) ? 400 : 13000, few = 1;
    size_t work = size > 7 ? (size_t)data[4] * data[4] * data[7] : 0; /* of one allocation: N years, each with those before it, m times */
    while (few < NUMBERS && allocations(n, numbers[few]) <= most && allocations(n, numbers[few]) * work <= 1 << 22)
        few++;
    parts = draw(8) ? numbers[draw(few)] : others[draw(sizeof others / sizeof *others)];
}

/* ---- one call */

/* A piece of memory between two inaccessible pages. */
static uint8_t *fenced(size_t size)
{
    size_t page = (size_t)sysconf(_SC_PAGESIZE);
    uint8_t *at = mmap(NULL, size + 2 * page, PROT_READ | PROT_WRITE, MAP_PRIVATE | MAP_ANONYMOUS, -1, 0);
    must(at != MAP_FAILED, "no memory");
    must(mprotect(at, page, PROT_NONE) == 0 && mprotect(at + page + size, page, PROT_NONE) == 0, "no memory");
    return at + page;
}

static int all_filled(const uint8_t *bytes, size_t count)
{
    return count == 0 || (bytes[0] == FILL && memcmp(bytes, bytes + 1, count - 1) == 0);
}

/* The listing of the file, into `out`, which holds FILL from `before` bytes before it to `after` bytes after its end. */
static size_t list(const uint8_t *data, size_t size, uint8_t *file, uint8_t *out, size_t before, size_t after)
{
    if (size > 0)
        memcpy(file, data, size);
    memset(out - before, FILL, before + PLANNER_LISTING_BYTES + after);
    size_t length = planner_list(file, size, out);
    must(length <= PLANNER_LISTING_BYTES, "the listing is too long");
    must(all_filled(out - before, before), "a byte before the buffer is changed");
    must(all_filled(out + length, PLANNER_LISTING_BYTES - length + after), "a byte after the listing is changed");
    must(size == 0 || memcmp(file, data, size) == 0, "the file is changed");
    return length;
}

static uint8_t *file_room, *out_room;

/* The refusal of the file's listing, which is made three times. */
static int list_refusal(const uint8_t *data, size_t size)
{
    /* In blocks of just the size, which valgrind sees. */
    uint8_t *file = malloc(size), *out = malloc(PLANNER_LISTING_BYTES);
    must(out && (file || size == 0), "no memory");
    size_t length = list(data, size, file, out, 0, 0);
    int refusal = refusal_of(out, length);
    /* Flush with an inaccessible page at the end, then at the beginning. */
    uint8_t *late = out_room + GUARD, *early = out_room;
    must(list(data, size, file_room + MOST_FILE - size, late, GUARD, 0) == length && memcmp(late, out, length) == 0,
         "the second listing is another");
    must(list(data, size, file_room, early, 0, GUARD) == length && memcmp(early, out, length) == 0, "the third listing is another");
    free(file);
    free(out);
    return refusal;
}

/* What is lent to planner_cash and planner_find, first what is read and then what is filled; each piece has a room of its own, and lies
 * in a block of just the size, or flush with the inaccessible page after its room or before it. */
enum { FILE_BYTES, LENDING, BORROWING, ACCOUNT, BOUND, WORD, FOUND, SHARES, PIECES };
enum place { NO_ROOM, LATE, EARLY };
static struct {
    uint8_t *room, *at;
    const void *from;
    size_t size;
} pieces[PIECES];

/* The piece, with what `from` has in it if it is one that is read. */
static void *lend(int k, const void *from, size_t size, enum place place)
{
    size_t room = k == FILE_BYTES ? MOST_FILE : GUARD;
    uint8_t *at = place == NO_ROOM ? malloc(size) : place == LATE ? pieces[k].room + room - size : pieces[k].room;
    must(at != NULL, "no memory");
    if (k >= ACCOUNT) {
        memset(pieces[k].room, FILL, room);
        memset(at, FILL, size);
    } else if (size > 0)
        memcpy(at, from, size);
    pieces[k].at = at;
    pieces[k].from = from;
    pieces[k].size = size;
    return at;
}

/* After the call, and after its answer is copied. */
static void take_back(int k, enum place place)
{
    if (k >= ACCOUNT) {
        memset(pieces[k].at, FILL, pieces[k].size);
        must(all_filled(pieces[k].room, GUARD), "a byte around an answer is changed");
    } else
        must(pieces[k].size == 0 || memcmp(pieces[k].at, pieces[k].from, pieces[k].size) == 0, "the file or a list is changed");
    if (place == NO_ROOM)
        free(pieces[k].at);
}

/* ---- the cash account */

struct answer {
    int64_t refusal, account, bound, word;
};

static struct answer cash(const uint8_t *data, size_t size, enum place place)
{
    const uint8_t *file = lend(FILE_BYTES, data, size, place);
    const int32_t *earned = lend(LENDING, lending.at, 4 * lending.count, place);
    const int32_t *owed = lend(BORROWING, borrowing.at, 4 * borrowing.count, place);
    int64_t *account = lend(ACCOUNT, NULL, 8, place), *bound = lend(BOUND, NULL, 8, place);
    uint8_t *word = lend(WORD, NULL, 1, place);
    struct answer answer;
    answer.refusal = planner_cash(file, size, earned, lending.count, owed, borrowing.count, account, bound, word);
    answer.account = *account;
    answer.bound = *bound;
    answer.word = *word;
    for (int k = FILE_BYTES; k <= WORD; k++)
        take_back(k, place);
    return answer;
}

/* The refusal that the call must answer, by that of the listing and by the lists; 0 where it may also be 11. */
static int due(int listed)
{
    int wrong = wrong_in_lists();
    if (listed >= 1 && listed <= 5)
        return listed;
    if (wrong == 5 || listed == 0 || listed == 11)
        return wrong;
    return listed == 9 && wrong != 0 ? wrong : listed;
}

/* What the answer for the cash account must be like, by the refusal of the listing. */
static void check(struct answer said, int listed)
{
    const int64_t limit = 1000000000000, most_bound = (int64_t)1 << 32;
    int refusal = due(listed);
    /* 60,000,000,000 a year, at 20 percent, pass the limit in year 9. */
    must(said.refusal == refusal || (said.refusal == 11 && refusal == 0 && right_count >= 8), "the cash account is refused in another way");
    if (said.refusal != 0) {
        must(said.account == 0 && said.bound == 0 && said.word == 0, "a number of a refusal is not 0");
        return;
    }
    must(said.account >= -limit && said.account <= limit, "the account is outside the limit");
    must(said.bound >= 1 && said.bound <= most_bound, "the bound is outside its range");
    must(said.word == (said.account >= 0 ? PLANNER_SOLVENT : said.account + said.bound <= 0 ? PLANNER_SHORT : PLANNER_CLOSE),
         "the word is not that of the account and the bound");
}

/* The answer for the cash account, which is made three times. */
static struct answer account_of(const uint8_t *data, size_t size, int listed)
{
    struct answer first = cash(data, size, NO_ROOM), second = cash(data, size, LATE), third = cash(data, size, EARLY);
    check(first, listed);
    must(memcmp(&second, &first, sizeof first) == 0, "the second answer for the cash account is another");
    must(memcmp(&third, &first, sizeof first) == 0, "the third answer for the cash account is another");
    return first;
}

/* ---- the search for an allocation */

struct finding {
    uint32_t refusal, found, shares[PLANNER_INSTRUMENTS];
};

static struct finding find(const uint8_t *data, size_t size, enum place place)
{
    const uint8_t *file = lend(FILE_BYTES, data, size, place);
    uint8_t *found = lend(FOUND, NULL, 1, place);
    uint32_t *shares = lend(SHARES, NULL, 4 * PLANNER_INSTRUMENTS, place);
    struct finding finding;
    finding.refusal = planner_find(file, size, parts, found, shares);
    finding.found = *found;
    memcpy(finding.shares, shares, sizeof finding.shares);
    take_back(FILE_BYTES, place);
    take_back(FOUND, place);
    take_back(SHARES, place);
    return finding;
}

/* Whether a plan's file, with these shares in the place of its allocation, is listed as solvent. */
static int solvent_with(const uint8_t *data, size_t size, const uint32_t *shares)
{
    uint8_t *file = file_room + MOST_FILE - size, *last;
    size_t n = data[5];
    memcpy(file, data, size);
    memcpy(file + size - 4 * n, shares, 4 * n);
    size_t length = planner_list(file, size, out_room);
    last = memrchr(out_room, '\n', length - 1);
    return strncmp((char *)(last ? last + 1 : out_room), "solvent ", 8) == 0;
}

/* From one allocation to the next, the larger share of instrument 1 first; 0 after the last. */
static int next_allocation(uint32_t *shares, size_t n, uint32_t unit)
{
    uint32_t moved = shares[n - 1] + unit;
    size_t k = n - 1;
    shares[n - 1] = 0;
    while (k > 0 && shares[k - 1] == 0)
        k--;
    if (k == 0)
        return 0;
    shares[k - 1] -= unit;
    shares[k] = moved;
    return 1;
}

/* The place of what is found, counted from 1, which must be the first that is solvent; 0 if nothing is found, and then none must be. */
static size_t place_of(const struct finding *said, const uint8_t *data, size_t size)
{
    uint32_t at[PLANNER_INSTRUMENTS] = {MILLION}, before[PLANNER_INSTRUMENTS], unit = MILLION / (uint32_t)parts;
    size_t n = data[5], all = allocations(n, parts), place = 1;
    int more = 1;
    begin_drawing(data, size, 1);
    for (; more && memcmp(at, said->shares, sizeof at) != 0; place++) {
        if (draw(all) < 8 || memcmp(at, data + size - 4 * n, 4 * n) == 0)
            must(!solvent_with(data, size, at), "an allocation that was passed over is solvent");
        memcpy(before, at, sizeof at);
        more = next_allocation(at, n, unit);
    }
    must(more == (int)said->found, "what is found is not on the grid");
    must(place == 1 || !solvent_with(data, size, before), "the last allocation that was passed over is solvent");
    must(!more || solvent_with(data, size, said->shares), "what is found is not solvent");
    return more ? place : 0;
}

/* What the search must answer, by the refusal of the listing; the place of what is found, or 0. */
static size_t check_finding(const struct finding *said, int listed, const uint8_t *data, size_t size)
{
    static const uint32_t zeros[PLANNER_INSTRUMENTS];
    uint32_t refusal = listed != 0 && listed != 11 ? listed : number_of(parts) == NUMBERS || data[5] > MOST_SEARCHED ? 15 : 0;
    must(said->refusal == refusal, "the search is refused in another way");
    must(said->found <= (refusal == 0), "it is found on a refusal, or neither found nor not");
    must(said->found || memcmp(said->shares, zeros, sizeof zeros) == 0, "a share of a refusal or of none is not 0");
    return refusal == 0 ? place_of(said, data, size) : 0;
}

/* ---- level patterns */

/* Of a pattern's rates, that of year k, from 2 on. */
static int64_t rate_of(const struct planner_plan *plan, size_t t, size_t k)
{
    size_t steps = (k < plan->until[t] ? k : plan->until[t]) - 1;
    return plan->sloped[t] ? plan->start[t] + (int64_t)steps * plan->step[t] : plan->rates[t][k - 2];
}

static int is_level(const struct planner_plan *plan, size_t t)
{
    size_t k = 3;
    while (k <= plan->years && rate_of(plan, t, k) == rate_of(plan, t, 2))
        k++;
    return k > plan->years;
}

typedef uint8_t amount_call(const uint8_t *file, size_t file_length, size_t pattern, int64_t *amount);

struct amount {
    int64_t refusal, is;
};

static struct amount ask(amount_call *call, const uint8_t *data, size_t size, size_t pattern, enum place place)
{
    const uint8_t *file = lend(FILE_BYTES, data, size, place);
    int64_t *amount = lend(ACCOUNT, NULL, 8, place);
    struct amount said;
    said.refusal = call(file, size, pattern, amount);
    said.is = *amount;
    take_back(FILE_BYTES, place);
    take_back(ACCOUNT, place);
    must(said.refusal == 0 || said.is == 0, "an amount of a refusal is not 0");
    return said;
}

/* What the level patterns of a file came to. */
struct level {
    size_t patterns, pairs; /* how many there are, and in how many both funds are taken */
    int64_t apart, bound;   /* the two funds that are farthest apart, as a part of their bound */
};

/* The funds of a level pattern of two files that differ in the rollover. */
static void compare(struct level *level, const uint8_t *data, size_t size, const uint8_t *other, size_t other_size, size_t pattern, int listed)
{
    struct amount fund = ask(planner_fund, data, size, pattern, NO_ROOM), second = ask(planner_fund, other, other_size, pattern, EARLY);
    struct amount bound = ask(planner_bound, data, size, pattern, LATE), again = ask(planner_bound, other, other_size, pattern, NO_ROOM);
    must(fund.refusal == 0 || (fund.refusal == 11 && listed == 11), "a fund is refused in another way than the listing");
    must(second.refusal == 0 || second.refusal == 11, "a fund with another rollover is refused in another way");
    must(bound.refusal == 0 && again.refusal == 0 && bound.is == again.is, "the bound of a level pattern is another with another rollover");
    level->patterns++;
    if (fund.refusal == 0 && second.refusal == 0) {
        int64_t apart = fund.is < second.is ? second.is - fund.is : fund.is - second.is;
        must(apart < bound.is, "the funds of a level pattern at two rollovers are as far apart as the bound");
        if (level->pairs++ == 0 || apart * level->bound > level->apart * bound.is) {
            level->apart = apart;
            level->bound = bound.is;
        }
    }
}

/* Every level pattern of a file, beside the same plan with another rollover. */
static struct level level_of(const uint8_t *data, size_t size, int listed)
{
    static struct planner_plan plan;
    static uint8_t other[PLANNER_FILE_BYTES];
    struct level level = {0};
    size_t other_size;
    if (listed != 0 && listed != 11)
        return level;
    must(planner_read_plan(data, size, &plan) == 0, "a file that was listed is not read");
    plan.terms = plan.rollover[0] == MILLION ? PLANNER_TERMS : 1;
    memset(plan.rollover, 0, sizeof plan.rollover);
    plan.rollover[plan.terms - 1] = MILLION;
    must(planner_write_plan(&plan, other, sizeof other, &other_size) == 0, "a plan that was read is not written");
    for (size_t t = 0; t < plan.patterns; t++)
        if (is_level(&plan, t))
            compare(&level, data, size, other, other_size, t + 1, listed);
    return level;
}

/* ---- one input */

struct result {
    int listed; /* the refusal of the listing */
    struct answer account;
    struct finding finding;
    size_t place; /* of what is found */
    struct level level;
};

static struct result one_input(const uint8_t *data, size_t size)
{
    struct result result;
    if (!file_room) {
        file_room = pieces[FILE_BYTES].room = fenced(MOST_FILE);
        out_room = fenced(PLANNER_LISTING_BYTES + GUARD);
        for (int k = LENDING; k < PIECES; k++)
            pieces[k].room = fenced(GUARD);
    }
    result.listed = list_refusal(data, size);
    make_lists(data, size);
    result.account = account_of(data, size, result.listed);
    make_parts(data, size);
    result.finding = find(data, size, NO_ROOM);
    struct finding second = find(data, size, LATE), third = find(data, size, EARLY);
    must(memcmp(&second, &result.finding, sizeof second) == 0, "the second answer of the search is another");
    must(memcmp(&third, &result.finding, sizeof third) == 0, "the third answer of the search is another");
    result.place = check_finding(&result.finding, result.listed, data, size);
    result.level = level_of(data, size, result.listed);
    return result;
}

#ifdef REPLAY

static int accounts, found;
static size_t levels, pairs;

static void replay(FILE *from, const char *name)
{
    static uint8_t data[MOST_FILE];
    size_t size = fread(data, 1, sizeof data, from);
    if (ferror(from) || !feof(from)) {
        fprintf(stderr, "list: %s cannot be read whole\n", name);
        exit(2);
    }
    fclose(from);
    struct result result = one_input(data, size);
    accounts += result.account.refusal == 0;
    found += result.place > 0;
    levels += result.level.patterns;
    pairs += result.level.pairs;
}

int main(int argc, char **argv)
{
    if (argc == 1)
        replay(stdin, "standard input");
    for (int k = 1; k < argc; k++) {
        FILE *from = fopen(argv[k], "rb");
        if (!from) {
            perror(argv[k]);
            return 2;
        }
        replay(from, argv[k]);
    }
    printf("%d files, %d cash accounts, %d allocations found, %zu level patterns, %zu of them with funds at both rollovers\n",
           argc == 1 ? 1 : argc - 1, accounts, found, levels, pairs);
    return 0;
}

#else

/* ---- coverage by breakpoints */

enum { BLOCKS = 1 << 14, BREAKPOINT = 0xcc };

/* What libFuzzer looks at after each input: a counter for each block, for which was reached after which, and for what the plan, its
 * listing, its cash account, the search and its level patterns are like. */
#define COUNTERS __attribute__((section("__libfuzzer_extra_counters"))) static volatile uint8_t
COUNTERS reached[BLOCKS];
COUNTERS after[BLOCKS];
COUNTERS like[768];

static struct {
    uint8_t *at, first; /* where it is, and its own first byte */
    int ever;           /* whether any input has reached it */
} blocks[BLOCKS];
static size_t block_count, hits[BLOCKS], hit_count, plan_count, account_counts[4];
static struct level levels; /* of all inputs */

/* How a search can end. */
enum { NOTHING, FIRST, BETWEEN, LAST, ENDS };
static size_t end_counts[ENDS];

static void on_breakpoint(int number, siginfo_t *info, void *context)
{
    greg_t *pc = &((ucontext_t *)context)->uc_mcontext.gregs[REG_RIP];
    uint8_t *at = (uint8_t *)*pc - 1;
    size_t low = 0, high = block_count;
    (void)info;
    while (low + 1 < high) {
        size_t middle = (low + high) / 2;
        *(blocks[middle].at <= at ? &low : &high) = middle;
    }
    if (block_count == 0 || blocks[low].at != at || reached[low]) {
        signal(number, SIG_DFL);
        abort();
    }
    *at = blocks[low].first;
    reached[low] = blocks[low].ever = 1;
    if (hit_count > 0)
        after[(hits[hit_count - 1] * 257 + low) % BLOCKS] = 1;
    hits[hit_count++] = low;
    *pc -= 1;
}

static void say_coverage(void)
{
    size_t ever = 0;
    for (size_t k = 0; k < block_count; k++)
        ever += blocks[k].ever;
    fprintf(stderr, "stat::plans_listed:             %zu\n", plan_count);
    fprintf(stderr, "stat::accounts:                 %zu solvent, %zu short, %zu close\n", account_counts[PLANNER_SOLVENT],
            account_counts[PLANNER_SHORT], account_counts[PLANNER_CLOSE]);
    fprintf(stderr, "stat::searches:                 %zu found at the first place, %zu between, %zu at the last, %zu nothing\n",
            end_counts[FIRST], end_counts[BETWEEN], end_counts[LAST], end_counts[NOTHING]);
    fprintf(stderr, "stat::level_patterns:           %zu, %zu with funds at both rollovers, at most %lld of a bound of %lld apart\n",
            levels.patterns, levels.pairs, (long long)levels.apart, (long long)levels.bound);
    fprintf(stderr, "stat::library_blocks_reached:   %zu of %zu\n", ever, block_count);
}

int LLVMFuzzerInitialize(int *argc, char ***argv)
{
    const char *name = getenv("FUZZ_BLOCKS");
    FILE *from = name ? fopen(name, "r") : NULL;
    unsigned long at;
    (void)argc, (void)argv;
    must(from != NULL, "FUZZ_BLOCKS names no file");
    while (block_count < BLOCKS && fscanf(from, "%lx", &at) == 1)
        blocks[block_count++].at = (uint8_t *)at; /* in rising order */
    fclose(from);
    must(block_count > 0 && block_count < BLOCKS, "FUZZ_BLOCKS has no blocks, or too many");
    size_t page = (size_t)sysconf(_SC_PAGESIZE);
    uint8_t *low = blocks[0].at - (size_t)blocks[0].at % page, *high = blocks[block_count - 1].at + 1;
    must(mprotect(low, (size_t)(high - low), PROT_READ | PROT_WRITE | PROT_EXEC) == 0, "the code cannot be made writable");
    struct sigaction action = {.sa_sigaction = on_breakpoint, .sa_flags = SA_SIGINFO};
    must(sigaction(SIGTRAP, &action, NULL) == 0, "no handler for breakpoints");
    for (size_t k = 0; k < block_count; k++) {
        blocks[k].first = *blocks[k].at;
        *blocks[k].at = BREAKPOINT;
    }
    atexit(say_coverage);
    return 0;
}

static void look_at_level(const struct level *level)
{
    if (level->patterns > level->pairs)
        like[712] = 1;
    if (level->pairs > 0) {
        like[713 + 32 * level->apart / level->bound] = 1; /* how far apart, in parts of the bound */
        if (levels.pairs == 0 || level->apart * levels.bound > levels.apart * level->bound) {
            levels.apart = level->apart;
            levels.bound = level->bound;
        }
    }
    levels.patterns += level->patterns;
    levels.pairs += level->pairs;
}

int LLVMFuzzerTestOneInput(const uint8_t *data, size_t size)
{
    if (size > MOST_FILE)
        return 0;
    while (hit_count > 0)
        *blocks[hits[--hit_count]].at = BREAKPOINT;
    struct result result = one_input(data, size);
    struct answer account = result.account;
    int refusal = result.listed;
    like[refusal] = 1;
    like[16 + account.refusal] = 1;
    like[32 + result.finding.refusal] = 1;
    like[448 + 4 * refusal + wrong_in_lists() / 4] = 1; /* what is wrong in the file and in the lists */
    plan_count += refusal == 0;
    account_counts[account.word]++;
    if (account.refusal == 0)
        like[320 + 32 * account.word + data[4]] = 1; /* its word and N */
    if (result.finding.refusal == 0) {
        size_t place = result.place;
        int end = place == 0 ? NOTHING : place == 1 ? FIRST : place < allocations(data[5], parts) ? BETWEEN : LAST;
        end_counts[end]++;
        like[512 + ENDS * (NUMBERS * data[5] + number_of(parts)) + end] = 1; /* its end, n and D */
    }
    if (refusal == 0)
        for (size_t k = 0; k < 4; k++)
            like[64 + 64 * k + data[4 + k]] = 1; /* N, n, q, m */
    look_at_level(&result.level);
    return 0;
}

/* ---- mutations */

size_t LLVMFuzzerMutate(uint8_t *data, size_t size, size_t most);

/* A slope's T goes into its range, and its start and step where every rate that it can mean is in its own, unless all that it means
 * already are. */
static void put_slope_right(uint8_t *body, int years)
{
    int32_t start, step;
    memcpy(&start, body, 4);
    memcpy(&step, body + 4, 4);
    if (body[8] < 1 || body[8] > 30)
        body[8] = body[8] % 30 + 1;
    int last = years < body[8] ? years : body[8], first = last < 2 ? last : 2;
    int64_t from = start + (int64_t)step * (first - 1), to = start + (int64_t)step * (last - 1);
    if (years < 2 || (from >= 0 && from <= 200000 && to >= 0 && to <= 200000))
        return;
    start = abs(start % 200001);
    step %= (step < 0 ? start : 200000 - start) / 29 + 1;
    memcpy(body, &start, 4);
    memcpy(body + 4, &step, 4);
}

/* Amounts and rates go into their ranges, and shares are made to sum to 1,000,000 by the last one. */
static void put_right(unsigned kind, uint8_t *body, size_t length, int years)
{
    if (kind == 8 && length == 9)
        put_slope_right(body, years);
    for (size_t k = 0; has_amounts(kind) && k + 8 <= length; k += 8) {
        int64_t amount;
        memcpy(&amount, body + k, 8);
        amount %= 20000000001;
        if (kind != 3 && amount < 0)
            amount = -amount;
        memcpy(body + k, &amount, 8);
    }
    uint32_t left = 1000000;
    for (size_t k = 0; kind >= 4 && kind <= 6 && k + 4 <= length; k += 4) {
        uint32_t part;
        memcpy(&part, body + k, 4);
        part = kind == 5 ? part % 200001 : k + 8 > length ? left : part % (left + 1);
        left -= kind == 5 ? 0 : part;
        memcpy(body + k, &part, 4);
    }
}

/* One input in four is changed anywhere. In the others one record's body is changed and keeps its length, and in two of these three
 * the numbers are then put right; else nearly all would be refused before anything is reckoned. */
size_t LLVMFuzzerCustomMutator(uint8_t *data, size_t size, size_t most, unsigned seed)
{
    static uint8_t copy[1 << 16];
    size_t at, length, count = 0;
    for (at = 0; record(data, size, at, &length); at += 4 + length)
        count++;
    if (seed % 4 == 0 || count == 0)
        return LLVMFuzzerMutate(data, size, most);
    size_t chosen = seed / 4 % count;
    int years = size > 4 ? data[4] : 0;
    for (at = 0; record(data, size, at, &length); at += 4 + length) {
        uint8_t *body = data + at + 4;
        if (chosen-- == 0 && length > 0) {
            memcpy(copy, body, length);
            LLVMFuzzerMutate(copy, length, length);
            memcpy(body, copy, length);
        }
        if (seed % 4 != 1)
            put_right(data[at + 2], body, length, years);
    }
    return size;
}

#endif

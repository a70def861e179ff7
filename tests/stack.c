/* The driver of tests/stack: calls of planner.h on threads.
 *
 *     stack BYTES CALL FILE NUMBER
 *
 * makes one call on a thread whose stack has just that many bytes, and prints the refusal that it answered and how many of the
 * bytes were used. FILE is the plan file, and NUMBER the pattern; for `write`, FILE is a struct planner_plan as it stands, and
 * NUMBER the length of the buffer; for `cash`, NUMBER is how many rates each list has, all of them RATE; for `find`, NUMBER is the number
 * of parts. The call `nothing` does nothing: what it uses is the thread's own. The stack holds known bytes before, and an inaccessible page
 * lies below it.
 *
 *     stack together FILE FILE ..
 *
 * makes every call on each file alone, and then many times on a thread for each file, all threads at once; `find` in PARTS parts. It ends
 * with status 1 if an answer differs. */
#define _GNU_SOURCE
#include <pthread.h>
#include <stdio.h>
#include <stdlib.h>
#include <string.h>
#include <sys/mman.h>
#include <unistd.h>

#include "planner.h"

enum { CALLS = 10, KNOWN = 0xa5, PARTS = 40, RATE = 200000, ROUNDS = 100, SECONDS = 60 };

/* What is asked, and room for every answer. */
struct work {
    const uint8_t *file;
    size_t file_length, pattern, room, rates, parts;
    struct planner_plan plan;
    uint8_t written[PLANNER_FILE_BYTES], listing[PLANNER_LISTING_BYTES];
    size_t written_length, listing_length;
    int64_t fund, bound, coefficients[PLANNER_INSTRUMENTS], constant, value, gammas[PLANNER_YEARS * PLANNER_YEARS];
    uint8_t words[PLANNER_PATTERNS], word;
    uint64_t shorts;
    int64_t account, account_bound;
    uint8_t account_word, found;
    uint32_t shares[PLANNER_INSTRUMENTS];
    uint8_t refusals[CALLS];
};

static void need(int holds, const char *what)
{
    if (!holds) {
        fprintf(stderr, "stack: %s\n", what);
        exit(2);
    }
}

/* The calls. Each answers its refusal. */

static uint8_t call_nothing(struct work *w)
{
    (void)w;
    return 0;
}

static uint8_t call_read(struct work *w)
{
    return planner_read_plan(w->file, w->file_length, &w->plan);
}

static uint8_t call_write(struct work *w)
{
    return planner_write_plan(&w->plan, w->written, w->room, &w->written_length);
}

static uint8_t call_fund(struct work *w)
{
    return planner_fund(w->file, w->file_length, w->pattern, &w->fund);
}

static uint8_t call_bound(struct work *w)
{
    return planner_bound(w->file, w->file_length, w->pattern, &w->bound);
}

static uint8_t call_form(struct work *w)
{
    return planner_form(w->file, w->file_length, w->pattern, w->coefficients, &w->constant, &w->value);
}

static uint8_t call_gammas(struct work *w)
{
    return planner_gammas(w->file, w->file_length, w->pattern, w->gammas);
}

static uint8_t call_verdict(struct work *w)
{
    return planner_verdict(w->file, w->file_length, w->words, &w->shorts, &w->word);
}

/* The refusal of a listing is the number in its text. */
static uint8_t call_list(struct work *w)
{
    static const char refused[] = "refused ";
    w->listing_length = planner_list(w->file, w->file_length, w->listing);
    if (memcmp(w->listing, refused, sizeof refused - 1) != 0)
        return 0;
    return (uint8_t)strtoul((const char *)w->listing + sizeof refused - 1, NULL, 10);
}

static int32_t rates[PLANNER_YEARS + 1]; /* each of them RATE */

static uint8_t call_cash(struct work *w)
{
    return planner_cash(w->file, w->file_length, rates, w->rates, rates, w->rates, &w->account, &w->account_bound, &w->account_word);
}

static uint8_t call_find(struct work *w)
{
    return planner_find(w->file, w->file_length, w->parts, &w->found, w->shares);
}

typedef uint8_t a_call(struct work *w);

static const struct {
    const char *name;
    a_call *call;
} calls[CALLS] = {
    {"read", call_read}, {"write", call_write}, {"fund", call_fund}, {"bound", call_bound},
    {"form", call_form}, {"gammas", call_gammas}, {"verdict", call_verdict}, {"list", call_list},
    {"cash", call_cash}, {"find", call_find},
};

static a_call *call_of(const char *name)
{
    for (size_t k = 0; k < CALLS; k++)
        if (strcmp(calls[k].name, name) == 0)
            return calls[k].call;
    need(strcmp(name, "nothing") == 0, "no such call");
    return call_nothing;
}

static size_t number_of(const char *text)
{
    char *end;
    size_t number = strtoull(text, &end, 10);
    need(end != text && *end == 0, "not a number");
    return number;
}

static void *zeros(size_t size)
{
    void *at = calloc(1, size);
    need(at != NULL, "no memory");
    return at;
}

static size_t load(const char *path, void *to, size_t most)
{
    FILE *in = fopen(path, "rb");
    need(in != NULL, path);
    size_t length = fread(to, 1, most, in);
    need(!ferror(in) && getc(in) == EOF, path);
    fclose(in);
    return length;
}

static struct work *work_on(const char *path, size_t pattern, size_t room)
{
    enum { MOST = 1 << 17 };
    struct work *w = zeros(sizeof *w);
    uint8_t *bytes = zeros(MOST);
    need(room <= sizeof w->written, "too much room");
    w->file = bytes;
    w->file_length = load(path, bytes, MOST);
    w->pattern = pattern;
    w->room = room;
    w->rates = w->file_length > 4 && bytes[4] >= 1 && bytes[4] <= PLANNER_YEARS ? bytes[4] - 1u : 0;
    w->parts = PARTS;
    return w;
}

/* One call on a stack of a known size. */

static a_call *the_call;

static void *on_thread(void *w)
{
    return (void *)(uintptr_t)the_call(w);
}

static uint8_t *known_stack(size_t size)
{
    size_t page = (size_t)sysconf(_SC_PAGESIZE);
    need(size % page == 0, "the stack is not of whole pages");
    uint8_t *at = mmap(NULL, page + size, PROT_READ | PROT_WRITE, MAP_PRIVATE | MAP_ANONYMOUS, -1, 0);
    need(at != MAP_FAILED && mprotect(at, page, PROT_NONE) == 0, "no memory");
    /* not by memset, which the loader is to find only when the library calls it, on the thread's stack */
    for (volatile uint8_t *p = at + page; p < at + page + size; p++)
        *p = KNOWN;
    return at + page;
}

static int measure(size_t size, struct work *w)
{
    uint8_t *stack = known_stack(size);
    pthread_attr_t how;
    pthread_t thread;
    void *refusal;
    need(pthread_attr_init(&how) == 0 && pthread_attr_setstack(&how, stack, size) == 0, "no such stack");
    need(pthread_create(&thread, &how, on_thread, w) == 0 && pthread_join(thread, &refusal) == 0, "no thread");
    size_t untouched = 0;
    while (untouched < size && stack[untouched] == KNOWN)
        untouched++;
    printf("%u %zu\n", (unsigned)(uintptr_t)refusal, size - untouched);
    return 0;
}

static int one_call(char **argv)
{
    size_t number = number_of(argv[4]);
    the_call = call_of(argv[2]);
    struct work *w = work_on(argv[3], number, the_call == call_write ? number : 0);
    if (the_call == call_write)
        need(load(argv[3], &w->plan, sizeof w->plan) == sizeof w->plan, "no plan to write");
    if (the_call == call_cash) {
        need(number <= PLANNER_YEARS + 1, "too many rates");
        w->rates = number;
    }
    if (the_call == call_find)
        w->parts = number;
    return measure(number_of(argv[1]), w);
}

/* Every call on several files at once. */

struct side {
    const struct work *alone;
    pthread_t thread;
    int differs;
};

static struct work *make_all(struct work *w)
{
    for (size_t k = 0; k < CALLS; k++)
        w->refusals[k] = calls[k].call(w);
    return w;
}

/* The same question, with no answer yet. */
static void ask_again(struct work *w, const struct work *of)
{
    memset(w, 0, sizeof *w);
    w->file = of->file;
    w->file_length = of->file_length;
    w->pattern = of->pattern;
    w->room = of->room;
    w->rates = of->rates;
    w->parts = of->parts;
}

static void *make_again(void *at)
{
    struct side *side = at;
    struct work *w = zeros(sizeof *w);
    for (int round = 0; round < ROUNDS; round++) {
        ask_again(w, side->alone);
        make_all(w);
        side->differs |= memcmp(w, side->alone, sizeof *w) != 0;
    }
    free(w);
    return NULL;
}

static int together(size_t count, char **paths)
{
    struct side *sides = zeros(count * sizeof *sides);
    int differs = 0;
    for (size_t k = 0; k < count; k++)
        sides[k].alone = make_all(work_on(paths[k], 1, PLANNER_FILE_BYTES));
    for (size_t k = 0; k < count; k++)
        need(pthread_create(&sides[k].thread, NULL, make_again, &sides[k]) == 0, "no thread");
    for (size_t k = 0; k < count; k++) {
        need(pthread_join(sides[k].thread, NULL) == 0, "no thread");
        differs |= sides[k].differs;
    }
    printf("%zu threads at once, every call %d times on each: %s\n", count, ROUNDS,
           differs ? "AN ANSWER DIFFERS" : "the same answers");
    return differs;
}

int main(int argc, char **argv)
{
    for (size_t k = 0; k <= PLANNER_YEARS; k++)
        rates[k] = RATE;
    alarm(SECONDS);
    if (argc > 2 && strcmp(argv[1], "together") == 0)
        return together((size_t)argc - 2, argv + 2);
    need(argc == 5, "see the head of tests/stack.c");
    return one_call(argv);
}

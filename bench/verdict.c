/* The yearly reckoning of document 01, with the opening, slopes and the cost left at the horizon, and the cash account and the search for
 * an allocation of document 02, in plain C: the same checks in the same order, the same window of q terms, every flow of every pattern
 * reckoned once, the same allocations tried in the same order. Nothing is copied that C need not copy; the plan is passed by pointer. */
#include "verdict.h"

#include <stdbool.h>
#include <string.h>

#define MILLION 1000000
#define LIMIT INT64_C(1000000000000)
#define MOST INT64_C(20000000000)

struct plan {
    size_t years, instruments, terms, patterns;
    int64_t payments[16][30], outflows[30], opening[30], cost[16]; /* the opening and the cost are 0 where the file has none */
    int64_t costed;                                                /* 1 where the file has a cost, else 0 */
    uint32_t rollover[30], allocation[16];
    int64_t rates[64][30]; /* as listed, or as a slope means them */
    uint8_t until[64];     /* the T of a slope; 1 where the rates are listed */
};

struct row {
    uint8_t word;
    int64_t fund, bound, coefficients[16], constant;
};

/* ---- the plan file */

static size_t u16_at(const uint8_t *p)
{
    return (size_t)(p[0] | p[1] << 8);
}

static uint32_t u32_at(const uint8_t *p)
{
    return p[0] | (uint32_t)p[1] << 8 | (uint32_t)p[2] << 16 | (uint32_t)p[3] << 24;
}

static int64_t i64_at(const uint8_t *p)
{
    return (int64_t)(u32_at(p) | (uint64_t)u32_at(p + 4) << 32);
}

static bool from(size_t low, size_t high, size_t x)
{
    return low <= x && x <= high;
}

/* The kind of record t, 5 for a slope too; `opened` is 1 where there is an opening, else 0, and so is `costed` for a cost. */
static size_t kind_of(size_t n, size_t m, size_t opened, size_t costed, size_t t)
{
    size_t last = n + 1 + opened + costed; /* of the records with amounts */
    if (t > last)
        return t == last + 1 ? 4 : t < last + m + 2 ? 5 : 6;
    return t == 0 ? 1 : t <= n ? 2 : t == n + 1 ? 3 : t == n + 1 + opened ? 7 : 9;
}

static void amounts(int64_t *out, const uint8_t *body, size_t n)
{
    for (size_t k = 0; k < n; k++)
        out[k] = i64_at(body + 8 * k);
}

static void shares(uint32_t *out, const uint8_t *body, size_t n)
{
    for (size_t k = 0; k < n; k++)
        out[k] = u32_at(body + 4 * k);
}

static void rates(int64_t *out, const uint8_t *body, size_t n)
{
    for (size_t k = 0; k < n; k++)
        out[k] = u32_at(body + 4 * k);
}

/* The n rates that a slope means, from year 2 on. */
static void slope(int64_t *out, const uint8_t *body, size_t n)
{
    int64_t start = (int32_t)u32_at(body), step = (int32_t)u32_at(body + 4), until = body[8];
    for (int64_t k = 2; k < (int64_t)n + 2; k++)
        out[k - 2] = start + ((k < until ? k : until) - 1) * step;
}

/* Checks 1 to 5, and the numbers. */
static uint8_t read_plan(const uint8_t *file, size_t length, struct plan *plan)
{
    if (length > 16384)
        return 1;
    for (size_t at = 0; at < length; at += 4 + u16_at(file + at))
        if (length - at < 4 || length - at - 4 < u16_at(file + at))
            return 2;
    if (length == 0 || u16_at(file + 2) != 1 || u16_at(file) != 4)
        return 3;
    size_t N = file[4], n = file[5], q = file[6], m = file[7];
    if (!from(1, 30, N) || !from(1, 16, n) || !from(1, 30, q) || !from(1, 64, m))
        return 3;
    size_t count = n + m + 4, opened = 0, costed = 0, at = 0;
    for (size_t t = 0; t < count + opened + costed; t++) {
        if (at == length)
            return 4;
        size_t kind = u16_at(file + at + 2);
        if (t == n + 2 && kind == 7)
            opened = 1;
        if (t == n + 2 + opened && kind == 9)
            costed = 1;
        if ((kind == 8 ? 5 : kind) != kind_of(n, m, opened, costed, t))
            return 4;
        at += 4 + u16_at(file + at);
    }
    if (at != length)
        return 4;
    const size_t sizes[] = {0, 4, 8 * N, 8 * N, 4 * q, 4 * (N - 1), 4 * n, 8 * N, 9, 8 * n};
    at = 0;
    for (size_t t = 0; t < count + opened + costed; t++) {
        if (u16_at(file + at) != sizes[u16_at(file + at + 2)])
            return 5;
        at += 4 + u16_at(file + at);
    }
    plan->years = N;
    plan->instruments = n;
    plan->terms = q;
    plan->patterns = m;
    const uint8_t *body = file + 12;
    for (size_t j = 0; j < n; j++, body += 4 + 8 * N)
        amounts(plan->payments[j], body, N);
    amounts(plan->outflows, body, N);
    body += 4 + 8 * N;
    memset(plan->opening, 0, sizeof plan->opening);
    if (opened) {
        amounts(plan->opening, body, N);
        body += 4 + 8 * N;
    }
    plan->costed = (int64_t)costed;
    memset(plan->cost, 0, sizeof plan->cost);
    if (costed) {
        amounts(plan->cost, body, n);
        body += 4 + 8 * n;
    }
    shares(plan->rollover, body, q);
    body += 4 + 4 * q;
    for (size_t t = 0; t < m; t++) {
        bool sloped = u16_at(body - 2) == 8;
        if (sloped)
            slope(plan->rates[t], body, N - 1);
        else
            rates(plan->rates[t], body, N - 1);
        plan->until[t] = sloped ? body[8] : 1;
        body += 4 + u16_at(body - 4);
    }
    shares(plan->allocation, body, n);
    return 0;
}

static bool within(const int64_t *xs, size_t n, int64_t low, int64_t high)
{
    for (size_t k = 0; k < n; k++)
        if (xs[k] < low || xs[k] > high)
            return false;
    return true;
}

static uint64_t sum(const uint32_t *xs, size_t n)
{
    uint64_t s = 0;
    for (size_t k = 0; k < n; k++)
        s += xs[k];
    return s;
}

/* Checks 6, 7, 13 and 8. */
static uint8_t check_plan(const struct plan *plan)
{
    for (size_t j = 0; j < plan->instruments; j++)
        if (!within(plan->payments[j], plan->years, 0, MOST))
            return 6;
    if (!within(plan->outflows, plan->years, -MOST, MOST) || !within(plan->opening, plan->years, 0, MOST))
        return 6;
    if (!within(plan->cost, plan->instruments, 0, MOST))
        return 6;
    if (sum(plan->rollover, plan->terms) != MILLION)
        return 7;
    for (size_t t = 0; t < plan->patterns; t++)
        if (!from(1, 30, plan->until[t]))
            return 13;
    for (size_t t = 0; t < plan->patterns; t++)
        if (!within(plan->rates[t], plan->years - 1, 0, 200000))
            return 8;
    return 0;
}

/* Check 9. */
static uint8_t check_allocation(const struct plan *plan)
{
    return sum(plan->allocation, plan->instruments) != MILLION ? 9 : 0;
}

/* ---- the reckoning */

static int64_t down(int64_t z)
{
    int64_t q = z / MILLION;
    return q - (q * MILLION > z);
}

static int64_t share(int64_t x, int64_t f)
{
    return down(x * f);
}

/* The opening less the outflow, in the year of place k. */
static int64_t net_at(const struct plan *plan, size_t k)
{
    return plan->opening[k] - plan->outflows[k];
}

/* The allocation's flow, in the year of place k. */
static int64_t flow_at(const struct plan *plan, size_t k)
{
    int64_t s = 0;
    for (size_t j = 0; j < plan->instruments; j++)
        s += plan->payments[j][k] * (int64_t)plan->allocation[j];
    return down(s) + net_at(plan, k);
}

/* What the allocation has left at the horizon, at cost. */
static int64_t left_of(const struct plan *plan)
{
    int64_t s = 0;
    for (size_t j = 0; j < plan->instruments; j++)
        s += plan->cost[j] * (int64_t)plan->allocation[j];
    return down(s);
}

static uint8_t word_of(int64_t amount, int64_t bound)
{
    return amount >= 0 ? 1 : amount + bound <= 0 ? 2 : 3;
}

/* ---- the verdict */

/* The fund of a flow over n years, with what is left at the horizon inside; check 11. */
static uint8_t fund(const int64_t *flow, const int64_t *r, const int64_t *w, const int64_t *i, size_t n, size_t q, int64_t left,
                    int64_t *out)
{
    int64_t cells[30];
    for (size_t j = 0; j < n; j++) {
        int64_t s = flow[j];
        for (size_t l = j < q ? 0 : j - q; l < j; l++) {
            size_t d = j - l - 1;
            s += share(cells[l], r[d]) + share(share(cells[l], w[d]), i[l]);
        }
        if (s > LIMIT || s < -LIMIT)
            return 11;
        cells[j] = s;
    }
    int64_t s = left;
    for (size_t k = n < q ? 0 : n - q; k < n; k++)
        s += share(cells[k], w[n - k - 1]);
    if (s > LIMIT || s < -LIMIT)
        return 11;
    *out = s;
    return 0;
}

/* B, with one more where the plan has a cost. */
static int64_t bound(const int64_t *i, size_t n, int64_t costed)
{
    int64_t h = 0, g = 1;
    for (size_t l = 0; l + 1 < n; l++)
        if (i[l] > h)
            h = i[l];
    for (size_t k = 3; k < n + 2; k++)
        g += down(g * h + 999999) + (int64_t)(3 * k - 5);
    return g + (int64_t)n + costed;
}

/* What one pattern comes to; `left` is what the allocation has left at the horizon, `net` the opening less the outflows. */
static uint8_t reckon(const struct plan *plan, const int64_t *flow, int64_t left, const int64_t *net, const int64_t *r, const int64_t *w,
                      const int64_t *i, struct row *row)
{
    size_t N = plan->years, n = plan->instruments, q = plan->terms;
    if (fund(flow, r, w, i, N, q, left, &row->fund))
        return 11;
    for (size_t j = 0; j < n; j++)
        if (fund(plan->payments[j], r, w, i, N, q, plan->cost[j], &row->coefficients[j]))
            return 11;
    if (fund(net, r, w, i, N, q, 0, &row->constant))
        return 11;
    row->bound = bound(i, N, plan->costed);
    row->word = word_of(row->fund, row->bound);
    return 0;
}

/* r and w of q terms. */
static void terms(const uint32_t *rollover, size_t q, int64_t *r, int64_t *w)
{
    int64_t left = MILLION;
    for (size_t d = 0; d < q; d++) {
        r[d] = rollover[d];
        w[d] = left;
        left -= r[d];
    }
}

static uint8_t refused(uint8_t number, uint8_t *words, uint64_t *shorts, uint8_t *word)
{
    memset(words, 0, 64);
    *shorts = 0;
    *word = 0;
    return number;
}

uint8_t c_verdict(const uint8_t *file, size_t length, uint8_t words[static 64], uint64_t *shorts, uint8_t *word)
{
    struct plan plan;
    struct row rows[64];
    uint8_t no = read_plan(file, length, &plan);
    if (!no)
        no = check_plan(&plan);
    if (!no)
        no = check_allocation(&plan);
    if (no)
        return refused(no, words, shorts, word);
    size_t N = plan.years, q = plan.terms, m = plan.patterns;
    int64_t r[30] = {0}, w[30] = {0}, flow[30], net[30], left = left_of(&plan);
    terms(plan.rollover, q, r, w);
    for (size_t k = 0; k < N; k++) {
        net[k] = net_at(&plan, k);
        flow[k] = flow_at(&plan, k);
    }
    for (size_t t = 0; t < m; t++)
        if (reckon(&plan, flow, left, net, r, w, plan.rates[t], &rows[t]))
            return refused(11, words, shorts, word);
    bool solvent = true;
    memset(words, 0, 64);
    *shorts = 0;
    for (size_t t = 0; t < m; t++) {
        words[t] = rows[t].word;
        if (words[t] == 2)
            *shorts |= UINT64_C(1) << t;
        solvent = solvent && words[t] == 1;
    }
    *word = *shorts ? 2 : solvent ? 1 : 3;
    return 0;
}

/* ---- the cash account, which does not count the cost */

/* Checks 8 and 14 of two lists of n rates. */
static uint8_t check_lists(const int32_t *lending, const int32_t *borrowing, size_t n)
{
    for (size_t l = 0; l < n; l++)
        if (lending[l] < 0 || lending[l] > 200000 || borrowing[l] < 0 || borrowing[l] > 200000)
            return 8;
    for (size_t l = 0; l < n; l++)
        if (borrowing[l] < lending[l])
            return 14;
    return 0;
}

/* V of the last year; check 11, which no first year can fail. */
static uint8_t account_of(const struct plan *plan, const int32_t *lending, const int32_t *borrowing, int64_t *out)
{
    int64_t v = flow_at(plan, 0);
    for (size_t t = 1; t < plan->years; t++) {
        v += share(v, v >= 0 ? lending[t - 1] : borrowing[t - 1]) + flow_at(plan, t);
        if (v > LIMIT || v < -LIMIT)
            return 11;
    }
    *out = v;
    return 0;
}

/* g of the last year, for lists of n rates. */
static int64_t account_bound(const int32_t *lending, const int32_t *borrowing, size_t n)
{
    int64_t h = 0, g = 1;
    for (size_t l = 0; l < n; l++) {
        h = lending[l] > h ? lending[l] : h;
        h = borrowing[l] > h ? borrowing[l] : h;
    }
    for (size_t l = 0; l < n; l++)
        g += down(g * h + 999999) + 2;
    return g;
}

uint8_t c_cash(const uint8_t *file, size_t length, const int32_t *lending, size_t lending_length, const int32_t *borrowing,
               size_t borrowing_length, int64_t *account, int64_t *bound, uint8_t *word)
{
    struct plan plan;
    *account = *bound = *word = 0;
    uint8_t no = read_plan(file, length, &plan);
    if (no)
        return no;
    size_t n = plan.years - 1;
    if (lending_length != n || borrowing_length != n)
        return 5;
    no = check_plan(&plan);
    if (!no)
        no = check_lists(lending, borrowing, n);
    if (!no)
        no = check_allocation(&plan);
    if (!no)
        no = account_of(&plan, lending, borrowing, account);
    if (no)
        return no;
    *bound = account_bound(lending, borrowing, n);
    *word = word_of(*account, *bound);
    return 0;
}

/* ---- the search for an allocation */

#define CHOICES 4 /* the most instruments of a plan that is searched */

/* K, 0 past the plan's instruments, and 10^6 (Q + 2 B). An allocation p is ruled out where K_1 p_1 + ... + K_n p_n + `constant` is
 * below 0. */
struct line {
    int64_t coefficients[CHOICES], constant;
};

struct search {
    struct plan plan; /* its allocation is the one that is tried */
    int64_t r[30], w[30];
    struct line lines[64];
};

/* Check 15. */
static uint8_t check_parts(const struct plan *plan, size_t parts)
{
    const uint64_t known = 1 << 1 | 1 << 2 | 1 << 4 | 1 << 5 | 1 << 8 | 1 << 10 | 1 << 16 | 1 << 20 | 1 << 25 | UINT64_C(1) << 40;
    return parts >= 64 || !(known >> parts & 1) || plan->instruments > CHOICES ? 15 : 0;
}

/* The line of one pattern; check 11, which no allocation passes then. */
static uint8_t draw(const struct search *s, const int64_t *net, const int64_t *i, struct line *line)
{
    size_t N = s->plan.years, n = s->plan.instruments, q = s->plan.terms;
    int64_t constant;
    for (size_t j = 0; j < CHOICES; j++)
        line->coefficients[j] = 0;
    for (size_t j = 0; j < n; j++)
        if (fund(s->plan.payments[j], s->r, s->w, i, N, q, s->plan.cost[j], &line->coefficients[j]))
            return 11;
    if (fund(net, s->r, s->w, i, N, q, 0, &constant))
        return 11;
    line->constant = MILLION * (constant + 2 * bound(i, N, s->plan.costed));
    return 0;
}

/* The lines of all patterns. */
static uint8_t draw_lines(struct search *s)
{
    int64_t net[30];
    for (size_t k = 0; k < s->plan.years; k++)
        net[k] = net_at(&s->plan, k);
    for (size_t t = 0; t < s->plan.patterns; t++)
        if (draw(s, net, s->plan.rates[t], &s->lines[t]))
            return 11;
    return 0;
}

static bool ruled_out(const struct search *s)
{
    const uint32_t *p = s->plan.allocation;
    for (const struct line *line = s->lines, *end = line + s->plan.patterns; line < end; line++) {
        int64_t z = line->constant;
        for (size_t j = 0; j < CHOICES; j++)
            z += line->coefficients[j] * (int64_t)p[j];
        if (z < 0)
            return true;
    }
    return false;
}

static bool is_solvent(const struct search *s)
{
    const struct plan *plan = &s->plan;
    int64_t flow[30], left = left_of(plan), z;
    for (size_t k = 0; k < plan->years; k++)
        flow[k] = flow_at(plan, k);
    for (size_t t = 0; t < plan->patterns; t++)
        if (fund(flow, s->r, s->w, plan->rates[t], plan->years, plan->terms, left, &z) || z < 0)
            return false;
    return true;
}

/* Gives instrument j and those after it `left` in all, in units of `unit`, the most to the first; whether one way is solvent. */
static bool place(struct search *s, size_t j, uint32_t left, uint32_t unit)
{
    uint32_t *p = &s->plan.allocation[j];
    *p = left;
    if (j + 1 == s->plan.instruments)
        return !ruled_out(s) && is_solvent(s);
    while (!place(s, j + 1, left - *p, unit)) {
        if (*p == 0)
            return false;
        *p -= unit;
    }
    return true;
}

uint8_t c_find(const uint8_t *file, size_t length, size_t parts, uint8_t *found, uint32_t shares[static 16])
{
    struct search s;
    *found = 0;
    memset(shares, 0, 16 * sizeof *shares);
    uint8_t no = read_plan(file, length, &s.plan);
    if (!no)
        no = check_plan(&s.plan);
    if (!no)
        no = check_allocation(&s.plan);
    if (!no)
        no = check_parts(&s.plan, parts);
    if (no)
        return no;
    terms(s.plan.rollover, s.plan.terms, s.r, s.w);
    for (size_t j = s.plan.instruments; j < CHOICES; j++)
        s.plan.allocation[j] = 0;
    *found = !draw_lines(&s) && place(&s, 0, MILLION, (uint32_t)(MILLION / parts));
    if (*found)
        memcpy(shares, s.plan.allocation, s.plan.instruments * sizeof *shares);
    return 0;
}

"""Document 01, with the money already invested, the rising and falling rates, the cash account, the search for an allocation and the cost
left at the horizon of document 02, in unbounded whole numbers: what a plan file is read as, what each call answers, what the program
prints. The exact account of the cash is in fractions, and so is the closed form of the exact fund where all rates of a pattern are equal.

Written from the papers alone. It is slow and plain on purpose: every sum is the paper's sum, and nothing is cut short but a search over many
allocations (`solvents`).
"""
import collections
import copy
import itertools
import struct
from fractions import Fraction

MILLION = 10 ** 6
LIMIT = 10 ** 12
SMALL = 4_000  # years, terms, patterns and allocations of a search, multiplied
WORDS = {1: "solvent", 2: "short", 3: "close"}


class Refused(Exception):
    """A refusal, with its number."""

    def __init__(self, number):
        super().__init__(number)
        self.number = number


# Rates that rise or fall: i_0, the step d, and the T from which they are level.
Slope = collections.namedtuple("Slope", "start step until")


def meant(pattern, N):
    """i_2 to i_N of a pattern, which lists them or is a slope."""
    if isinstance(pattern, Slope):
        return [pattern.start + (min(k, pattern.until) - 1) * pattern.step for k in range(2, N + 1)]
    return pattern


class Plan:
    """N, n, q, m, and a_kj, o_k, b_k, c_j, r_j, i_k of pattern t, p_j by the paper's indices, from 1; i_k from 2. b_k is what the
    money already invested pays: a_k0 of equation 2' in document 004. c_j is what is left of instrument j at the horizon, at cost."""

    def __init__(self, payments, outflows, rollover, patterns, allocation, opening=None, cost=None):
        self.payments = payments      # a list for each instrument
        self.outflows = outflows
        self.opening = opening        # begins with b_1; None where the record is not held
        self.cost = cost              # begins with c_1; None where the record is not held
        self.rollover = rollover
        self.patterns = patterns      # each a list that begins with i_2, or a slope
        self.allocation = allocation
        self.N = len(outflows)
        self.n = len(payments)
        self.q = len(rollover)
        self.m = len(patterns)
        self.left = [MILLION - sum(rollover[:d]) for d in range(self.q + 1)]

    def a(self, k, j):
        return self.payments[j - 1][k - 1]

    def o(self, k):
        return self.outflows[k - 1]

    def b(self, k):
        return 0 if self.opening is None else self.opening[k - 1]

    def c(self, j):
        return 0 if self.cost is None else self.cost[j - 1]

    def r(self, j):
        return self.rollover[j - 1] if j <= self.q else 0

    def i(self, t):
        """The rates of pattern t, by their years 2 to N."""
        return dict(enumerate(meant(self.patterns[t - 1], self.N), 2))

    def p(self, j):
        return self.allocation[j - 1]


class Values:
    """A plan held as values: N, n, q, m and whether it holds an opening and a cost and which patterns are slopes, any numbers, and arrays
    of the largest sizes."""

    def __init__(self, head, payments, outflows, rollover, rates, allocation, opened, opening, sloped, slopes, costed, cost):
        self.head = head
        self.opened = opened          # 0 where it holds none
        self.payments = payments      # 16 rows of 30
        self.outflows = outflows      # 30
        self.opening = opening        # 30
        self.costed = costed          # 0 where it holds none
        self.cost = cost              # 16
        self.rollover = rollover      # 30
        self.rates = rates            # 64 rows of 30
        self.sloped = sloped          # 64, each 0 where the pattern lists its rates
        self.slopes = slopes          # 64
        self.allocation = allocation  # 16


# ---- the plan file


def records(data):
    """The records taken off from the front, as (kind, body); check 2."""
    found, at = [], 0
    while at < len(data):
        if len(data) - at < 4:
            raise Refused(2)
        size, kind = struct.unpack_from("<HH", data, at)
        if len(data) - at - 4 < size:
            raise Refused(2)
        found.append((kind, data[at + 4:at + 4 + size]))
        at += 4 + size
    return found


def record(kind, body):
    return struct.pack("<HH", len(body), kind) + body


def numbers(body, width, signed=False):
    return [int.from_bytes(body[k:k + width], "little", signed=signed) for k in range(0, len(body), width)]


def numbers_of(data):
    """The plan that a file holds, whatever its numbers; checks 1 to 5, each over all records before the next begins."""
    if len(data) > 16384:
        raise Refused(1)
    found = records(data)
    if not found or found[0][0] != 1 or len(found[0][1]) != 4:
        raise Refused(3)
    N, n, q, m = found[0][1]
    head(N, n, q, m)
    kinds = [kind for kind, _ in found]
    opened, costed = 7 in kinds, 9 in kinds
    if [5 if kind == 8 else kind for kind in kinds] != [1] + [2] * n + [3] + [7] * opened + [9] * costed + [4] + [5] * m + [6]:
        raise Refused(4)
    size = {1: 4, 2: 8 * N, 3: 8 * N, 4: 4 * q, 5: 4 * (N - 1), 6: 4 * n, 7: 8 * N, 8: 9, 9: 8 * n}
    if any(len(body) != size[kind] for kind, body in found):
        raise Refused(5)
    bodies = {kind: [body for other, body in found if other == kind] for kind in size}
    return Plan(
        [numbers(body, 8, True) for body in bodies[2]],
        numbers(bodies[3][0], 8, True),
        numbers(bodies[4][0], 4),
        [slope(body) if kind == 8 else numbers(body, 4) for kind, body in found if kind in (5, 8)],
        numbers(bodies[6][0], 4),
        numbers(bodies[7][0], 8, True) if opened else None,
        numbers(bodies[9][0], 8, True) if costed else None,
    )


def slope(body):
    return Slope(*numbers(body[:8], 4, True), body[8])


def read(data):
    """The plan of a file; checks 1 to 9, and 13 right before 8."""
    plan = numbers_of(data)
    check(plan)
    return plan


def head(N, n, q, m):
    """Check 3, the ranges."""
    if not (1 <= N <= 30 and 1 <= n <= 16 and 1 <= q <= 30 and 1 <= m <= 64):
        raise Refused(3)


def read_with_lists(data, lending, borrowing):
    """The plan of a file that comes with the two lists of a cash account, each of the rates for years 2 to N; checks 1 to 9, with 5 on
    the lists right after 5 on the records, 13 right before 8 and 14 right after 8."""
    plan = numbers_of(data)
    if len(lending) != plan.N - 1 or len(borrowing) != plan.N - 1:
        raise Refused(5)
    check(plan, lending, borrowing)
    return plan


def check(plan, lending=(), borrowing=()):
    """Checks 6, 7, 13, 8, 14 and 9. Where a call has lists of rates, 8 covers these too; 14 is on them alone."""
    most = 20 * 10 ** 9
    if any(not 0 <= x <= most for row in plan.payments for x in row) or any(not -most <= x <= most for x in plan.outflows):
        raise Refused(6)
    if any(not 0 <= plan.b(k) <= most for k in years(plan)) or any(not 0 <= plan.c(j) <= most for j in instruments(plan)):
        raise Refused(6)
    if sum(plan.rollover) != MILLION:
        raise Refused(7)
    if any(isinstance(one, Slope) and not 1 <= one.until <= 30 for one in plan.patterns):
        raise Refused(13)
    if any(not 0 <= rate <= 200000 for one in [*plan.patterns, lending, borrowing] for rate in meant(one, plan.N)):
        raise Refused(8)
    if any(owed < earned for earned, owed in zip(lending, borrowing)):
        raise Refused(14)
    if sum(plan.allocation) != MILLION:
        raise Refused(9)


def write(plan):
    """The one file that is read as the plan."""

    def packed(kind, code, values):
        return record(kind, struct.pack(f"<{len(values)}{code}", *values))

    out = packed(1, "B", [plan.N, plan.n, plan.q, plan.m])
    for row in plan.payments:
        out += packed(2, "q", row)
    out += packed(3, "q", plan.outflows)
    if plan.opening is not None:
        out += packed(7, "q", plan.opening)
    if plan.cost is not None:
        out += packed(9, "q", plan.cost)
    out += packed(4, "I", plan.rollover)
    for one in plan.patterns:
        out += record(8, struct.pack("<iiB", *one)) if isinstance(one, Slope) else packed(5, "I", one)
    return out + packed(6, "I", plan.allocation)


def numbers_held(values):
    """The plan that values hold, whatever its numbers; check 3. What stands past its N, n, q and m plays no part, nor what stands for an
    opening or a cost that it does not hold, for the rates of a slope, or for the slope of a pattern that lists its rates."""
    head(*values.head)
    N, n, q, m = values.head
    return Plan(
        [row[:N] for row in values.payments[:n]],
        values.outflows[:N],
        values.rollover[:q],
        [values.slopes[t] if values.sloped[t] else values.rates[t][:N - 1] for t in range(m)],
        values.allocation[:n],
        values.opening[:N] if values.opened else None,
        values.cost[:n] if values.costed else None,
    )


def held(values):
    """The plan of values; checks 3, 6, 7, 13, 8 and 9."""
    plan = numbers_held(values)
    check(plan)
    return plan


def put(values, room):
    """The file of values, into a buffer of `room` bytes; check 12."""
    data = write(held(values))
    if room < len(data):
        raise Refused(12)
    return data


# ---- the yearly reckoning


def share(x, f):
    return x * f // MILLION


def w(plan, d):
    """What is left after d terms: 1,000,000 - r_1 - ... - r_d."""
    return plan.left[min(d, plan.q)]


def taken(x):
    """Check 11."""
    if not -LIMIT <= x <= LIMIT:
        raise Refused(11)
    return x


def flow(plan):
    """The allocation's flow, years 1 to N."""
    return {k: sum(plan.a(k, j) * plan.p(j) for j in instruments(plan)) // MILLION + plan.b(k) - plan.o(k) for k in years(plan)}


def years(plan):
    return range(1, plan.N + 1)


def instruments(plan):
    return range(1, plan.n + 1)


def uncut_cost(plan):
    """1,000,000 times what the allocation has left at the horizon, at cost, nothing cut off."""
    return sum(plan.c(j) * plan.p(j) for j in instruments(plan))


def cost_of(plan):
    """What the allocation has left at the horizon, at cost."""
    return uncut_cost(plan) // MILLION


def cells(plan, t, flow):
    """alpha_2 to alpha_(N+1)."""
    alpha, i = {}, plan.i(t)
    for k in range(2, plan.N + 2):
        alpha[k] = flow[k - 1] + sum(
            share(alpha[l], plan.r(k - l)) + share(share(alpha[l], w(plan, k - l - 1)), i[l]) for l in range(2, k))
    return alpha


def left_of(plan, alpha):
    """The fund of cells alone, whatever they come to."""
    return sum(share(alpha[k], w(plan, plan.N + 1 - k)) for k in range(2, plan.N + 2))


def fund(plan, t, flow, cost):
    """The fund of a flow in pattern t, with the cost that is left at the horizon inside. Check 11 is on its cells and on itself."""
    alpha = cells(plan, t, flow)
    for x in alpha.values():
        taken(x)
    return taken(left_of(plan, alpha) + cost)


def fund_of(plan, t):
    """The fund of the plan's allocation."""
    return fund(plan, t, flow(plan), cost_of(plan))


# ---- Tilley's exact fund


def uncut(plan):
    """x_1 to x_N: 1,000,000 times the flow, nothing cut off."""
    return {k: sum(plan.a(k, j) * plan.p(j) for j in instruments(plan)) + MILLION * (plan.b(k) - plan.o(k)) for k in years(plan)}


def exact_cells(plan, t):
    """E_2 to E_(N+1)."""
    x = uncut(plan)
    E, i = {}, plan.i(t)
    for k in range(2, plan.N + 2):
        E[k] = x[k - 1] * 10 ** (12 * (k - 2)) + sum(
            E[l] * (MILLION * plan.r(k - l) + i[l] * w(plan, k - l - 1)) * 10 ** (12 * (k - l - 1)) for l in range(2, k))
    return E


def exact_left(plan, E):
    """H of cells, with the cost inside: the exact fund is H / 10^(12 N)."""
    H = sum(E[k] * w(plan, plan.N + 1 - k) * 10 ** (12 * (plan.N + 1 - k)) for k in range(2, plan.N + 2))
    return H + uncut_cost(plan) * 10 ** (12 * plan.N - 6)


def exact(plan, t):
    """H."""
    return exact_left(plan, exact_cells(plan, t))


def exact_fund(plan, E):
    """H / 10^(12 N), of cells."""
    return Fraction(exact_left(plan, E), 10 ** (12 * plan.N))


# ---- level rates


def level(plan, t):
    """Whether all rates of a pattern are equal: those that it lists, or those that it means if it is a slope. With N = 1 there are none,
    and it is level."""
    return len(set(plan.i(t).values())) <= 1


def level_fund(plan, t):
    """The exact fund in a level pattern, by the closed form: every net flow grows to the horizon at the one rate, nothing is cut off, and
    the cost is inside. The rollover has no part in it."""
    x, grown = uncut(plan), 1 + Fraction(plan.i(t).get(2, 0), MILLION)
    return sum(Fraction(x[k], MILLION) * grown ** (plan.N - k) for k in years(plan)) + Fraction(uncut_cost(plan), MILLION)


def rolled(plan, rollover):
    """The plan with another rollover."""
    return Plan(plan.payments, plan.outflows, rollover, plan.patterns, plan.allocation, plan.opening, plan.cost)


# ---- bound, form, gammas, verdict


def bound(plan, t):
    """B; one more where the plan holds a cost, whatever it is."""
    h = max(plan.i(t).values(), default=0)
    G = 1
    for k in range(3, plan.N + 2):
        G = G + -(-G * h // MILLION) + 3 * k - 5
    return G + plan.N + (plan.cost is not None)


def pattern(plan, t):
    """Check 10."""
    if not 1 <= t <= plan.m:
        raise Refused(10)


def form(plan, t):
    """K_1 to K_n, Q, and the value at the plan's allocation."""
    K = [fund(plan, t, {k: plan.a(k, j) for k in years(plan)}, plan.c(j)) for j in instruments(plan)]
    Q = fund(plan, t, {k: plan.b(k) - plan.o(k) for k in years(plan)}, 0)
    return K, Q, sum(x * p for x, p in zip(K, plan.allocation)) // MILLION + Q


def gammas(plan, t):
    """A row for each k = 2 to N + 1: entry l is alpha_k of 1,000,000,000 in year l."""
    columns = [cells(plan, t, {k: 10 ** 9 if k == l else 0 for k in years(plan)}) for l in years(plan)]
    return [[taken(column[k]) for column in columns] for k in range(2, plan.N + 2)]


def word(z, b):
    return 1 if z >= 0 else 2 if z + b <= 0 else 3


def verdict(plan):
    """Each pattern's (word, fund, B, K, Q), the word of bits, the plan's word."""
    rows = []
    x, cost = flow(plan), cost_of(plan)
    for t in range(1, plan.m + 1):
        z, b = fund(plan, t, x, cost), bound(plan, t)
        K, Q, _ = form(plan, t)
        rows.append((word(z, b), z, b, K, Q))
    bits = sum(1 << t for t, row in enumerate(rows) if row[0] == 2)
    return rows, bits, 2 if bits else 1 if all(row[0] == 1 for row in rows) else 3


def printed(rows, plan_word):
    """The lines of a verdict."""
    short = [t for t, row in enumerate(rows, 1) if row[0] == 2]
    lines = [f"{t} {WORDS[row[0]]} " + " ".join(map(str, [row[1], row[2], *row[3], row[4]])) for t, row in enumerate(rows, 1)]
    lines.append(f"{WORDS[plan_word]} {len(short)} {short[0] if short else 0}")
    return "\n".join(lines) + "\n"


def listing(data):
    """What the program prints for a file."""
    try:
        rows, _, plan_word = verdict(read(data))
    except Refused as refusal:
        return f"refused {refusal.number}\n"
    return printed(rows, plan_word)


# ---- the cash account, which does not count the cost


def rate_of(before, t, lending, borrowing):
    """The rate of year t, by the account of the year before; the lists begin with year 2."""
    return lending[t - 2] if before >= 0 else borrowing[t - 2]


def account(plan, lending, borrowing):
    """V(1) to V(N), whatever they come to."""
    x, V = flow(plan), {}
    for t in years(plan):
        V[t] = x[t] if t == 1 else V[t - 1] + share(V[t - 1], rate_of(V[t - 1], t, lending, borrowing)) + x[t]
    return V


def exact_account(plan, lending, borrowing):
    """Equation 2.2 of document 000 from the uncut flows, with its rate by its own sign."""
    x, X = uncut(plan), {}
    for t in years(plan):
        X[t] = Fraction(x[t], MILLION)
        if t > 1:
            X[t] += X[t - 1] * (1 + Fraction(rate_of(X[t - 1], t, lending, borrowing), MILLION))
    return X


def account_bounds(N, lending, borrowing):
    """g_1 to g_N."""
    h = max([*lending, *borrowing], default=0)
    g = {1: 1}
    for t in range(2, N + 1):
        g[t] = g[t - 1] + -(-g[t - 1] * h // MILLION) + 2
    return g


def cash(data, lending, borrowing):
    """V(N), g_N and the word, with check 11 on every V."""
    plan = read_with_lists(data, lending, borrowing)
    V = {t: taken(x) for t, x in account(plan, lending, borrowing).items()}
    g = account_bounds(plan.N, lending, borrowing)
    return V[plan.N], g[plan.N], word(V[plan.N], g[plan.N])


def untrue_account(plan, lending, borrowing, V, g, word):
    """What document 02 says of an accepted answer, against the exact account: the first that is not so, or nothing."""
    X = exact_account(plan, lending, borrowing)[plan.N]
    if not V <= X < V + g:
        return "the account"
    if word == 1 and X < 0 or word == 2 and X >= 0:
        return "the word of the account"
    return None


def crossings(account):
    """How often an account is on another side of zero than the year before."""
    sides = [x >= 0 for x in account.values()]
    return sum(one != other for one, other in zip(sides, sides[1:]))


def apart(V, X):
    """Whether, in some year, the found account is below zero and the exact one is not."""
    return any(V[t] < 0 <= X[t] for t in V)


# ---- the search for an allocation


PARTS = [1, 2, 4, 5, 8, 10, 16, 20, 25, 40]


def grid(n, parts):
    """Every allocation among n instruments whose shares are multiples of 1,000,000 / D: the larger share of instrument 1 first, then of
    2, and so on."""
    for counts in itertools.product(range(parts, -1, -1), repeat=n - 1):
        if sum(counts) <= parts:
            yield [MILLION // parts * count for count in (*counts, parts - sum(counts))]


def allocated(plan, shares):
    """The plan with another allocation."""
    other = copy.copy(plan)
    other.allocation = shares
    return other


def form_refused(plan):
    """Whether K_1 to K_n and Q are refused 11 in some pattern: so is then every verdict, whatever the allocation."""
    return any(refusal(form, plan, t) for t in range(1, plan.m + 1))


def against(plan, order):
    """The first pattern, as they are ordered, whose fund is below 0 or refused 11; None if there is none."""
    x, cost = flow(plan), cost_of(plan)
    for t in order:
        try:
            if fund(plan, t, x, cost) < 0:
                return t
        except Refused:
            return t
    return None


def solvents(plan, parts):
    """The allocations of the grid whose plan verdict is solvent, in their order. K_1 to K_n and Q are reckoned once, and an allocation is
    put first to the pattern that was against the one before it."""
    if form_refused(plan):
        return
    order = list(range(1, plan.m + 1))
    for shares in grid(plan.n, parts):
        t = against(allocated(plan, shares), order)
        if t is None:
            yield shares
        else:
            order.remove(t)
            order.insert(0, t)


def funds(plan):
    """The fund of each pattern, None where it is refused 11."""
    x, cost, found = flow(plan), cost_of(plan), []
    for t in range(1, plan.m + 1):
        try:
            found.append(fund(plan, t, x, cost))
        except Refused:
            found.append(None)
    return found


def solvents_plainly(plan, parts):
    """The same, by the verdict on the plan with each of them."""
    for shares in grid(plan.n, parts):
        try:
            if verdict(allocated(plan, shares))[2] == 1:
                yield shares
        except Refused:
            pass


def find(data, parts):
    """Whether an allocation of the grid is solvent, and the first that is; zero shares where none is. Check 15 comes after 9, and the call
    is never refused 11. A small search asks for the verdict on every allocation up to the one that is found."""
    plan = read(data)
    if parts not in PARTS or plan.n > 4:
        raise Refused(15)
    small = plan.N * plan.q * plan.m * sum(1 for _ in grid(plan.n, parts)) <= SMALL
    shares = next((solvents_plainly if small else solvents)(plan, parts), None)
    return (0, [0] * plan.n) if shares is None else (1, shares)


def untrue_found(plan, parts, shares):
    """What document 02 says of an allocation that was found: the first that is not so, or nothing."""
    if any(share % (MILLION // parts) for share in shares) or sum(shares) != MILLION:
        return "on the grid"
    other = allocated(plan, shares)
    if verdict(other)[2] != 1:
        return "solvent"
    if any(exact(other, t) < 0 for t in range(1, plan.m + 1)):
        return "zero or more in every pattern"
    return None


# ---- what is refused through the opening, the cost, slopes or lists


def refusal(call, *given):
    """The number of the refusal that a call comes to; 0 if it is accepted."""
    try:
        call(*given)
    except Refused as refused:
        return refused.number
    return 0


def through(data, unwanted):
    """4, 5 or 6 where a file is refused so for its records of one kind alone: without them it gets none of these three. Else 0."""
    number = refusal(read, data)
    if number not in (4, 5, 6):
        return 0
    left = b"".join(record(kind, body) for kind, body in records(data) if kind != unwanted)
    return 0 if refusal(read, left) in (4, 5, 6) else number


def through_opening(data):
    return through(data, 7)


THROUGH_COST = ["4, before the outflows", "4, before the opening", "4, after kind 4", "4, at the end", "4, twice",
                "5, too short", "5, too long", "5, N amounts", "6, the first is -1", "6, the last is -1",
                "6, the first is 20000000001", "6, the last is 20000000001"]


def through_cost(data):
    """Why a file is refused 4, 5 or 6 for its records of kind 9 alone, of THROUGH_COST where it is one of these."""
    number = through(data, 9)
    if number == 0:
        return
    found = records(data)
    at = [kind for kind, _ in found].index(9)
    N, n, body = data[4], data[5], found[at][1]
    if number == 4:
        twice = [kind for kind, _ in found].count(9) > 1
        before, after = found[at - 1][0], found[at + 1][0] if at + 1 < len(found) else None
        place = {3: "before the outflows", 7: "before the opening", None: "at the end"}.get(after, f"after kind {before}")
        yield f"4, {'twice' if twice else place}"
    elif number == 5:
        yield "5, too short" if len(body) < 8 * n else "5, too long"
        yield from ["5, N amounts"] * (len(body) == 8 * N)
    else:
        cost = numbers(body, 8, True)
        yield from (f"6, the {which} is {one}" for which, one in (("first", cost[0]), ("last", cost[-1])) if n > 1)


def without_cost(plan):
    """The plan as if it held no cost."""
    other = copy.copy(plan)
    other.cost = None
    return other


LIMIT_BY_COST = ["the fund", "the fund by one", "K", "K by one"]


def limit_by_cost(plan):
    """What is past the limit, of LIMIT_BY_COST, where the verdict is refused 11 and would not be without the cost."""
    if refusal(verdict, plan) != 11 or refusal(verdict, without_cost(plan)):
        return
    for t in range(1, plan.m + 1):
        z, K = fund_of(without_cost(plan), t) + cost_of(plan), form(without_cost(plan), t)[0]
        for what, each in ("the fund", [z]), ("K", [x + plan.c(j) for j, x in enumerate(K, 1)]):
            yield from [what] * (max(each) > LIMIT)
            yield from [f"{what} by one"] * (max(each) == LIMIT + 1)


BY_COST = ["the fund at the limit", "K at the limit", "the last cell at the limit", "a word", "a word by a cost of 0"]


def by_cost(plan, rows):
    """What the cost has its part in, of BY_COST, where the verdict is taken: a word is another without it. A last cell at the limit is that
    of the allocation; the cost is not in it, and the fund is not past the limit with it."""
    cost, none = cost_of(plan), plan.cost is None or not any(plan.cost)
    for t, (said, z, b, K, _) in enumerate(rows, 1):
        if plan.cost is not None and word(z - cost, b - 1) != said:
            yield "a word by a cost of 0" if none else "a word"
        if not none and LIMIT in [x for x, c in zip(K, plan.cost) if c]:
            yield "K at the limit"
        if cost and z == LIMIT:
            yield "the fund at the limit"
        if cost and z > LIMIT / 2 and cells(plan, t, flow(plan))[plan.N + 1] == LIMIT:
            yield "the last cell at the limit"


def slope_reasons(plan):
    """What check 13 finds in the slopes of a plan, or else check 8."""
    slopes = [one for one in plan.patterns if isinstance(one, Slope)]
    wrong = [one for one in slopes if not 1 <= one.until <= 30]
    if wrong:
        before = plan.patterns[:plan.patterns.index(wrong[0])]
        yield from {"13, too low" if one.until < 1 else "13, too high" for one in wrong}
        yield from {"13, an 8 before it" for one in before for rate in meant(one, plan.N) if not 0 <= rate <= 200000}
    else:
        rates = [rate for one in slopes for rate in meant(one, plan.N)]
        yield from {"8, too low" for rate in rates if rate < 0} | {"8, too high" for rate in rates if rate > 200000}


THROUGH_SLOPES = ["4", "5", "13, too low", "13, too high", "13, an 8 before it", "8, too low", "8, too high"]


def through_slopes(data):
    """Why a file is refused 4, 5, 13 or 8 for its records of kind 8 alone, of THROUGH_SLOPES: it is not refused so without one of them
    (4), or with the slope 0 0 1 in the place of each (5, 13, 8). Else nothing."""
    number = refusal(read, data)
    if number not in (4, 5, 13, 8):
        return []
    found = records(data)
    others = [[(kind, struct.pack("<iiB", 0, 0, 1) if kind == 8 else body) for kind, body in found]]
    if number == 4:
        others = [found[:at] + found[at + 1:] for at, (kind, _) in enumerate(found) if kind == 8]
    if all(refusal(read, b"".join(record(*one) for one in other)) == number for other in others):
        return []
    return [str(number)] if number in (4, 5) else list(slope_reasons(numbers_of(data)))


def wrong_in_lists(N, lending, borrowing):
    """The checks that two lists fail beside a plan of N years, of 5, 8 and 14, each by itself."""
    if {len(lending), len(borrowing)} != {N - 1}:
        yield 5
    if any(not 0 <= rate <= 200000 for rate in [*lending, *borrowing]):
        yield 8
    if any(owed < earned for earned, owed in zip(lending, borrowing)):
        yield 14


def list_reasons(number, N, lending, borrowing):
    """What check 5, 8 or 14 finds in two lists, of LIST_REASONS."""
    lists = ("lending", lending), ("borrowing", borrowing)
    if number == 5:
        wrong = [(name, len(rates)) for name, rates in lists if len(rates) != N - 1]
        yield "5, both lists" if len(wrong) == 2 else f"5, {wrong[0][0]}"
        yield from {"5, too few rates" if length < N - 1 else "5, too many rates" for _, length in wrong}
        if len(lending) == len(borrowing) == N:
            yield "5, N rates in both" + {1: ", N = 1", 30: ", N = 30"}.get(N, "")
    elif number == 8:
        wrong = [(name, rate) for name, rates in lists for rate in rates if not 0 <= rate <= 200000]
        yield from {f"8, {name} " + ("too low" if rate < 0 else "too high") for name, rate in wrong}
    else:
        wrong = [t for t in range(2, N + 1) if borrowing[t - 2] < lending[t - 2]]
        if len(wrong) == 1 and N > 2:
            yield "14, " + {2: "the first year", N: "the last year"}.get(wrong[0], "a year between")


LIST_REASONS = ["5, lending", "5, borrowing", "5, both lists", "5, too few rates", "5, too many rates",
                "5, N rates in both, N = 1", "5, N rates in both", "5, N rates in both, N = 30",
                "8, lending too low", "8, lending too high", "8, borrowing too low", "8, borrowing too high",
                "14, the first year", "14, a year between", "14, the last year"]
ORDER = [4, 5, 6, 7, 13, 8, 14, 9, 11]
# The one that is answered and another that fails too, where the lists or the account can have a part in it.
BEFORE = [f"{one} before {other}" for at, one in enumerate(ORDER) for other in ORDER[at + 1:]
          if {one, other} & {5, 8, 14, 11} and not (one < 6 and other == 11)]


def through_lists(data, lending, borrowing):
    """Why the call for the cash account is refused where it is for its lists alone, of LIST_REASONS; and, of BEFORE, which other checks
    fail, on the file, the lists or the account, beside the one that is answered."""
    number, of_file = refusal(cash, data, lending, borrowing), refusal(read, data)
    if number < 4:
        return
    N = data[4]
    fail = set(wrong_in_lists(N, lending, borrowing))
    if number in fail and number != of_file:
        yield from list_reasons(number, N, lending, borrowing)
    if number > 5 and any(abs(x) > LIMIT for x in account(numbers_of(data), lending, borrowing).values()):
        fail.add(11)
    yield from (f"{number} before {other}" for other in fail | {of_file} if other not in (0, number))


def spelled_out(plan):
    """The plan with the rates of its slopes as lists."""
    other = copy.copy(plan)
    other.patterns = [meant(one, plan.N) for one in plan.patterns]
    return other


# ---- demand 3


def untrue(plan, answers, plan_word=None):
    """What demand 3 says of answers, against H: the first that is not so, or nothing. `answers` has the word, fund, bound and form's
    value of each pattern; a word, fund or value that was not answered is None. A plan's word goes with those of all patterns."""
    unit = 10 ** (12 * plan.N)
    below = []
    for t, (word, fund, bound, value) in answers.items():
        H = exact(plan, t)
        below.append(H < 0)
        if fund is not None and not 0 <= H - fund * unit < bound * unit:
            return f"the fund of pattern {t}"
        if value is not None and not 0 <= H - value * unit < (2 * bound + 1) * unit:
            return f"the form of pattern {t}"
        if word == 1 and H < 0 or word == 2 and H >= 0:
            return f"the word of pattern {t}"
    if plan_word == 1 and any(below) or plan_word == 2 and not any(below):
        return "the word of the plan"
    return None

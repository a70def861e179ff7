"""Plans from a seed, damaged files, lists of rates and plans for cash accounts, plans to find an allocation for, and plans with level patterns
and rollovers for them.

Sizes go over all of N, n, q and m; notes are plain or odd; half of the plans hold an opening, and half a cost; outflows are matched to
the flow and to what is left at the horizon, so that funds lie within a few units of zero and loans roll into loans to the last year; rates
are level, rising or wild, and are listed, meant by slopes, or some the one and some the other; amounts, and the rates that a slope means,
lie at the ends of their ranges, its start and step at those of 32 bits, and cells and funds at 10^12 and one past it, on both sides of
zero, some by the cost alone. Lists are right, or fail one check or more; accounts lie near zero in the last year or in most years, change
sides often, and come to 10^12 and one past it. Of the allocations that a search goes through one is good, by nothing or by little, or some,
all or none are; and some, or all, are refused 11. A pattern is level in every way that one can be, and the fund in it is refused 11 at one
rollover and taken at another, or lies as far apart at two rollovers as the cuts can bring it.
"""
import math
import struct

import oracle

MOST = 20 * 10 ** 9
TOP = 200000
LEAST_32, MOST_32 = -2 ** 31, 2 ** 31 - 1


def size(rng, top):
    """Small as a rule, now and then the largest."""
    return top if rng.random() < 0.04 else rng.randint(1, rng.choice([2, 4, 8, top]))


def parts(rng, n):
    """n shares that sum to 1,000,000."""
    if rng.random() < 0.3:
        whole = [0] * n
        whole[rng.randrange(n)] = oracle.MILLION
        return whole
    cuts = sorted(rng.randint(0, oracle.MILLION) for _ in range(n - 1))
    return [b - a for a, b in zip([0] + cuts, cuts + [oracle.MILLION])]


def note(rng, N):
    """The payments of one instrument: a plain note with coupons, or any amounts."""
    kind = rng.random()
    if kind < 0.5:
        face, coupon, end = rng.randint(1, 10 ** 9), rng.randint(0, TOP), rng.randint(1, N)
        return [oracle.share(face, coupon) + (face if k == end else 0) if k <= end else 0 for k in range(1, N + 1)]
    top = rng.choice([1, 10, 10 ** 6, 10 ** 9, MOST])
    return [rng.choice([0, top, rng.randint(0, top)]) for _ in range(N)]


def opening(rng, N):
    """What older notes still pay, or as often None: like a note, now and then with the most in one year, or zeros."""
    if rng.random() < 0.5:
        return None
    kind = rng.random()
    amounts = [0] * N if kind < 0.1 else note(rng, N)
    if kind > 0.8:
        amounts[rng.randrange(N)] = MOST
    return amounts


def cost(rng, n):
    """What is left of each instrument at the horizon, at cost, or as often None: the same for all, or of each nothing, the most or any
    amount; now and then with the most for one of them, or zeros."""
    if rng.random() < 0.5:
        return None
    kind = rng.random()
    if kind < 0.15:
        return [0] * n
    top = rng.choice([1, 10, 10 ** 6, 10 ** 9, MOST])
    amounts = [rng.randint(1, top)] * n if kind < 0.3 else [rng.choice([0, top, rng.randint(0, top)]) for _ in range(n)]
    if kind > 0.9:
        amounts[rng.randrange(n)] = MOST
    return amounts


def pattern(rng, N):
    kind = rng.random()
    if kind < 0.3:
        return [rng.choice([0, 1, 60000, TOP, rng.randint(0, TOP)])] * (N - 1)
    if kind < 0.6:
        low, step = rng.randint(0, TOP // 2), rng.randint(0, 5000)
        return [min(TOP, low + step * k) for k in range(N - 1)]
    return [rng.choice([0, TOP, rng.randint(0, TOP)]) for _ in range(N - 1)]


def any_32(rng):
    return rng.choice([LEAST_32, MOST_32, 0, 1, -1, TOP + 1, rng.randint(LEAST_32, MOST_32)])


def slope(rng, N, past=0):
    """A slope that rises, falls or is level, often with a rate of year 2 or N just at an end of the range; with `past`, for N above 1,
    one that is so much past an end. i_0 may be outside the range, and start and step are as far out as they can be where one rate is
    all that the slope means, or none."""
    until = rng.choice([1, 2, N, min(30, N + 1), 30, rng.randint(1, 30)])
    steps = min(N, until) - 2  # from i_2 to i_N
    if N == 1:
        return oracle.Slope(any_32(rng), any_32(rng), until)
    if steps <= 0:
        rate = rng.choice([-past, TOP + past] if past else [0, TOP, rng.randint(0, TOP)])
        if until == 1:
            return oracle.Slope(rate, any_32(rng), until)
        low, high = max(LEAST_32, rate - MOST_32), min(MOST_32, rate - LEAST_32)
        start = rng.choice([low, high, rate, rng.randint(low, high)])
        return oracle.Slope(start, rate - start, until)
    step = rng.choice([0, 1, TOP // steps, rng.randint(0, TOP // steps), rng.randint(0, TOP // 10 // steps)])
    room = TOP - steps * step
    low = room + past if past else rng.choice([0, room, rng.randint(0, room)])
    first, step = rng.choice([(low, step), (low + steps * step, -step)])
    if rng.random() < 0.5:
        first, step = TOP - first, -step
    return oracle.Slope(first - step, step, until)


def wrapped(rng, N):
    """A slope with a rate outside the range, in years 2 and N in the range if they are reckoned in 32 bits."""
    until = rng.randint(2, 30)
    steps = min(N, until) - 2
    if steps < 3:
        return oracle.Slope(LEAST_32 + rng.randint(0, TOP // 2), LEAST_32 + rng.randint(0, TOP // 2), 2)
    first, step = rng.randint(50, TOP - 50), rng.choice([1, -1]) * (2 ** 32 // steps)
    return oracle.Slope(first - step, step, until)


def steep(rng, N):
    """A slope with a rate outside the range, where N is above 1: by one, or by more, up to what 32 bits can mean."""
    kind = rng.random()
    if kind < 0.5:
        return slope(rng, N, 1)
    if kind < 0.7:
        return slope(rng, N, rng.randint(1, 10 ** 9))
    if kind < 0.85:
        return wrapped(rng, N)
    return oracle.Slope(rng.choice([LEAST_32, MOST_32]), rng.choice([LEAST_32, MOST_32]), rng.randint(1, 30))


def as_slope(rng, rates):
    """A slope that means these rates; the list if they are not level and do not rise or fall evenly."""
    if rates[1:] == rates[:-1]:
        return rng.choice([oracle.Slope(rates[0], any_32(rng), 1), oracle.Slope(rates[0], 0, rng.randint(1, 30))])
    step = rates[1] - rates[0]
    one = oracle.Slope(rates[0] - step, step, rng.randint(len(rates) + 1, 30))
    return one if oracle.meant(one, len(rates) + 1) == rates else rates


def patterns(rng, N, m):
    """Lists, slopes, or both; and then now and then a slope beside the list of its rates."""
    odds = rng.choice([0, 0.5, 1])
    found = [slope(rng, N) if rng.random() < odds else pattern(rng, N) for _ in range(m)]
    if m > 1 and odds == 0.5 and rng.random() < 0.5:
        one, other = rng.sample(range(m), 2)
        found[one] = slope(rng, N)
        found[other] = oracle.meant(found[one], N)
    return found


def matched(rng, plan):
    """The last outflow moved such that the fund of one pattern is within a few units of zero, if it stays in its range."""
    t = rng.randint(1, plan.m)
    try:
        z, b = oracle.fund_of(plan, t), oracle.bound(plan, t)
    except oracle.Refused:
        return plan
    last = plan.outflows[-1] + z + rng.choice([0, 1, -1, b, b - 1, b + 1, rng.randint(-3, b + 3)])
    if -MOST <= last <= MOST:
        plan.outflows[-1] = last
    return plan


def plain(rng):
    N, n, q, m = size(rng, 30), size(rng, 16), size(rng, 30), size(rng, 64)
    top = rng.choice([10, 10 ** 6, 10 ** 9, MOST])
    loans = rng.random()
    if loans < 0.4:
        outflows = [rng.randint(0, top) for _ in range(N)]
    elif loans < 0.8:
        outflows = [rng.randint(-top, top) for _ in range(N)]
    else:
        outflows = [top] + [0] * (N - 1)
    plan = oracle.Plan([note(rng, N) for _ in range(n)], outflows, parts(rng, q), patterns(rng, N, m), parts(rng, n), opening(rng, N),
                       cost(rng, n))
    return matched(rng, plan) if rng.random() < 0.7 else plan


def largest(rng):
    """As many of everything as there can be, with amounts that stay within the limit."""
    N, n, q, m = 30, 16, 30, 64
    outflows = [rng.randint(-10 ** 8, 10 ** 8) for _ in range(N)]
    payments = [[rng.randint(0, 10 ** 8) for _ in range(N)] for _ in range(n)]
    older = rng.choice([None, [rng.randint(0, 10 ** 8) for _ in range(N)]])
    left = rng.choice([None, [rng.randint(0, 10 ** 8) for _ in range(n)]])
    return matched(rng, oracle.Plan(payments, outflows, parts(rng, q), patterns(rng, N, m), parts(rng, n), older, left))


def at_the_limit(rng):
    """In one of the patterns one flow, that of the allocation, an instrument or Q, comes to 10^12 or -10^12, or past it: its fund
    and its last cell (all is rolled over every year), its fund and no cell (nothing is before the horizon), or its last cell but one
    and not its fund. In half of the plans an opening has its part in the flow, and in half rates are meant by slopes; in most a cost has its
    part in the fund, from 1 on: without it the fund is on the other side of the limit, or so is the last cell, which it has no part in."""
    if rng.random() < 0.1:
        return last_cell_at_the_limit(rng)
    N, m = rng.randint(24, 30), rng.choice([1, 1, 2, 3])
    whose = rng.choice(["allocation", "allocation", "instrument", "Q"])
    where = rng.choice(["cell and fund", "cell and fund", "fund", "fund"] + ["cell"] * (whose != "instrument"))
    sign = {"allocation": rng.choice([1, -1, -1]), "instrument": 1, "Q": rng.choice([1, -1])}[whose]
    rates = [[0] * (N - 1) for _ in range(m)]
    t = rng.randint(1, m)
    middle, step = rng.randint(150000, 170000), rng.choice([0, rng.randint(-1000, 1000)])
    rates[t - 1] = [middle + step * k for k in range(N - 1)]
    plan = oracle.Plan([[0] * N, [0] * N], [0] * N, [0] * 29 * (where == "fund") + [oracle.MILLION], rates, [0, oracle.MILLION])
    if rng.random() < 0.8:
        plan.cost = some_left(rng, whose, 10 ** 9 if where == "cell" else MOST)
    inside = 0 if whose == "Q" or where == "cell" else plan.c(1) if whose == "instrument" else plan.c(2)
    end = N
    if where == "cell":
        end, rates[t - 1][-1] = N - 1, 0

    def flow(step, last):
        return {k: step if k < end else last if k == end else -sign * 10 ** 9 for k in range(1, N + 1)}

    def reached(flow):
        alpha = oracle.cells(plan, t, flow)
        return alpha[N] if where == "cell" else oracle.left_of(plan, alpha)

    wanted = sign * (oracle.LIMIT + rng.choice([0, 0, 0, 1, 1, 10 ** 6])) - inside
    step = wanted * 10 ** 9 // reached(flow(10 ** 9, 10 ** 9))
    x = list(flow(step, step + wanted - reached(flow(step, step))).values())
    if whose == "instrument":
        plan.payments[0] = x
    else:
        # where payments can see to it, the other flows stay away from the limit
        near = whose, sign
        paid = step // 2 if near == ("allocation", 1) else -step if near == ("Q", -1) else 0
        plan.payments[1] = [paid] * N
        plan.outflows = [-y for y in x] if whose == "Q" else [paid - y for y in x]
    if rng.random() < 0.5:
        # all that comes in, or any amounts; the outflows rise by as much, and no flow changes
        plan.opening = rng.choice([[max(0, -o) for o in plan.outflows], [rng.randint(0, 10 ** 10) for _ in range(N)]])
        plan.outflows = [o + b for o, b in zip(plan.outflows, plan.opening)]
    if rng.random() < 0.5:
        plan.patterns = [as_slope(rng, row) for row in plan.patterns]
    return plan


def some_left(rng, whose, most):
    """The cost of two instruments, the second of which has all the allocation: from 1 on for the one that matters, any for the other."""
    amounts = [rng.choice([1, 2, rng.randint(1, most), most]) for _ in range(2)]
    if whose == "Q" or rng.random() < 0.2:
        amounts[1 if whose == "Q" else rng.choice([0, 1])] = 0
    return amounts


def last_cell_at_the_limit(rng):
    """The last cell of the allocation comes to the limit, or one past it, and its fund does not, with the cost inside neither: what comes in
    in even years is rolled over to even years, what is owed in odd years to odd years."""
    N, rate = 30, rng.randint(16500, 18000)
    rates = [rate if k % 2 == 1 else 0 for k in range(2, N + 1)]
    even = [MOST if k % 2 == 0 else 0 for k in range(1, N + 1)]
    left = [rng.choice([1, rng.randint(1, MOST), MOST])]
    plan = oracle.Plan([even], [0] * N, [0, oracle.MILLION], [rates], [oracle.MILLION], list(even), left)

    def cell(step, last):
        return oracle.cells(plan, 1, {k: last if k == N else step if k % 2 == 0 else -MOST for k in oracle.years(plan)})[N + 1]

    wanted = oracle.LIMIT + rng.choice([0, 0, 0, 1])
    step = wanted * 10 ** 9 // cell(10 ** 9, 10 ** 9)
    last = step + wanted - cell(step, step)
    plan.outflows = [2 * MOST - last if k == N else 2 * MOST - step if k % 2 == 0 else MOST for k in oracle.years(plan)]
    return plan


def to_fail(rng):
    """Checks on numbers that are to fail: one or two of them; 6, 8, and 8 with 13, more often than others."""
    checks = [6, 7, 13, 8, 9]
    return rng.choice([rng.sample(checks, 1), rng.sample(checks, 1), rng.sample(checks, 2), [6], [8], [8, 13]])


def spoil(rng, plan, check):
    """One number of the plan, or one slope, is changed such that check 6, 7, 13, 8 or 9 fails. A plan without a slope gets one for 13."""

    def shares(of):
        j = rng.randrange(len(of))
        kind = rng.randint(1, 4)
        if kind == 1 and of[j] > 0:
            of[j] -= 1
        elif kind == 2 and len(of) > 1:
            # the sum is 1,000,000 again in 32 bits
            for at in (j, j - 1):
                of[at] = (of[at] + 2 ** 31) % 2 ** 32
        else:
            of[j] += rng.choice([1, oracle.MILLION])

    if check == 6:
        row = rng.choice([rng.choice(plan.payments), plan.outflows, plan.opening, plan.cost, plan.cost]) or plan.outflows
        low = -MOST if row is plan.outflows else 0
        row[rng.choice([0, -1, rng.randrange(len(row))])] = rng.choice([low - 1, low - 1, MOST + 1, MOST + 1, 2 ** 63 - 1, -2 ** 63])
    elif check == 7:
        shares(plan.rollover)
    elif check == 13:
        t = rng.choice([plan.m - 1, rng.randrange(plan.m)])
        one = plan.patterns[t] if isinstance(plan.patterns[t], oracle.Slope) else slope(rng, plan.N)
        plan.patterns[t] = one._replace(until=rng.choice([0, 31, 255, rng.randint(31, 255)]))
    elif check == 8 and plan.N > 1:
        t = rng.choice([0, rng.randrange(plan.m)])
        if isinstance(plan.patterns[t], oracle.Slope):
            plan.patterns[t] = steep(rng, plan.N)
        else:
            plan.patterns[t][rng.randrange(plan.N - 1)] = rng.choice([TOP + 1, 2 ** 31 - 1, 2 ** 31, 2 ** 32 - 1])
    else:
        shares(plan.allocation)


def outside(rng):
    """A plan with a number or two past their ranges: refused 6 to 9 or 13."""
    plan = plain(rng)
    for check in to_fail(rng):
        spoil(rng, plan, check)
    return plan


def values(rng, plan):
    """The plan held as values, with anything past its N, n, q and m, for an opening or a cost that it does not hold, for the rates of its
    slopes and for the slopes of its lists; now and then one number of the head is outside its range. A T outside its range becomes, as
    often as not, one that no byte holds."""
    kind = rng.randint(1, 4)

    def rest(amount):
        low, high = (-2 ** 63, 2 ** 63 - 1) if amount else (0, 2 ** 32 - 1)
        if kind == 1:
            return 0
        if kind == 2:
            return rng.randint(0, 1000)
        if kind == 3:
            return rng.choice([low, high, -1, MOST + 1] if amount else [high, 2 ** 31, TOP + 1, oracle.MILLION])
        return rng.randint(low, high)

    def count():
        return 0 if kind == 1 else rng.choice([0, 1, 31, 2 ** 8 + 5, 2 ** 32 + 5, 2 ** 64 - 1, rng.randint(0, 2 ** 64 - 1)])

    def held_slope(one):
        if not isinstance(one, oracle.Slope):
            return oracle.Slope(0, 0, 0) if kind == 1 else oracle.Slope(any_32(rng), any_32(rng), rng.choice([count(), 30]))
        if 1 <= one.until <= 30 or rng.random() < 0.5:
            return one
        return one._replace(until=rng.choice([2 ** 8 + 5, 2 ** 32 + 5, 2 ** 32, 2 ** 64 - 1, 2 ** 63 + 30]))

    def filled(row, count, amount=False):
        return row + [rest(amount) for _ in range(count - len(row))]

    def rows(of, count, amount=False):
        return [filled(row, 30, amount) for row in of + [[]] * (count - len(of))]

    head = [plan.N, plan.n, plan.q, plan.m]
    if rng.random() < 0.2:
        at = rng.randrange(4)
        top = [30, 16, 30, 64][at]
        head[at] = rng.choice([0, top + 1, 2 ** 8 + head[at], 2 ** 32 + head[at], 2 ** 40, 2 ** 64 - 1])

    def flag(holds):
        return rng.choice([1, 2, 2 ** 8, 2 ** 32, 2 ** 64 - 1]) if holds else 0

    slopes = [isinstance(one, oracle.Slope) for one in plan.patterns]
    lists = [[] if sloped else one for one, sloped in zip(plan.patterns, slopes)]
    past = 64 - plan.m
    return oracle.Values(head, rows(plan.payments, 16, True), filled(plan.outflows, 30, True), filled(plan.rollover, 30),
                         rows(lists, 64), filled(plan.allocation, 16), flag(plan.opening is not None),
                         filled(plan.opening or [], 30, True), [flag(sloped) for sloped in slopes] + [count() for _ in range(past)],
                         [held_slope(one) for one in plan.patterns + [None] * past],
                         flag(plan.cost is not None), filled(plan.cost or [], 16, True))


def place(found, kind):
    """Where the first record of a kind stands; the end if there is none."""
    return next((at for at, (other, _) in enumerate(found) if other == kind), len(found))


def misplaced_slope(rng, found, N):
    """One slope more, or in the place of another record: where none may stand, unless it takes the place of a pattern."""
    at = rng.choice([place(found, kind) for kind in (1, 2, 3, 7, 9, 4, 5, 6)] + [len(found)])
    one = 8, struct.pack("<iiB", *slope(rng, N))
    return found[:at] + [one] + found[at + rng.choice([0, 1]):]


def misplaced(rng, found, kind, size):
    """The opening (7) or the cost (9), or another if there is none, where none may stand: at the front, before the outflows, the cost before
    the opening or the opening after the cost, after the rollover, at the end; or twice."""
    body = dict(found).get(kind, bytes(size))
    found = [one for one in found if one[0] != kind]
    right = min(place(found, 9), place(found, 4))
    wrong = {0, place(found, 3), place(found, 7), place(found, 4), place(found, 4) + 1, len(found)} - {right}
    places = [rng.choice(sorted(wrong) + [right])]
    if places == [right] or rng.random() < 0.3:
        places.append(right)
    for at in sorted(places, reverse=True):
        found.insert(at, (kind, body))
    return found


RECORDS = [6, 7, 8, 8, 8, 9, 9, 9, 10, 11, 12]  # the kinds of damage to records; those of another length or place come more often


def damaged(rng, data):
    """A file cut, padded, with a byte changed, or with records swapped, dropped, doubled, of another length or of another kind, with
    a byte of a slope changed, or with an opening, a cost or a slope at a wrong place."""
    kind = rng.choice([1, 2, 3, 4, 5, *RECORDS])
    if kind == 1:
        return data[:rng.randrange(len(data))]
    if kind == 2:
        return data + bytes(rng.randrange(256) for _ in range(rng.choice([1, 2, 3, 4, 5, 20])))
    if kind == 3:
        return data + bytes(rng.choice([16384, 16385, 20000, 70000]) - len(data))
    if kind == 4:
        at = rng.randrange(len(data))
        return data[:at] + bytes([rng.randrange(256)]) + data[at + 1:]
    if kind == 5:
        return data[:4] + bytes([rng.choice([0, 1, 17, 31, 65, 255]) if k == 0 else x for k, x in enumerate(data[4:8])]) + data[8:]
    found, N, n = oracle.records(data), *data[4:6]
    for kind in [kind] + rng.choice([[], rng.sample(RECORDS, 1)]):
        i, j = rng.randrange(len(found)), rng.randrange(len(found))
        # mostly an opening, a cost or a slope, if there is one
        wanted = rng.choice([7, 7, 8, 8, 9, 9, None])
        i = rng.choice([at for at, (one, _) in enumerate(found) if one == wanted] or [i])
        kind_i, body = found[i]
        if kind == 6:
            found[i], found[j] = found[j], found[i]
        elif kind == 7:
            found[i:i + 1] = rng.choice([[], [found[i]] * 2])
        elif kind == 8:
            other = [bytes(8 * (n if kind_i == 7 else N))] * (3 if kind_i == 9 else 1)
            found[i] = (kind_i, rng.choice([body[:-1], body + b"\0", body[:-4], body + bytes(4), body[:-8], body + bytes(8), *other]))
        elif kind == 9:
            found = misplaced(rng, found, *rng.choice([(7, 8 * N), (9, 8 * n), (9, 8 * n)]))
        elif kind == 10:
            found = misplaced_slope(rng, found, N)
        elif kind == 11 and kind_i == 8 and body:
            at = rng.choice([len(body) - 1, rng.randrange(len(body))])
            found[i] = (8, body[:at] + bytes([rng.randrange(256)]) + body[at + 1:])
        else:
            others = {7: [8, 9, 0, 3, 263], 9: [7, 8, 10, 0, 265], 8: [5, 5, 7, 9, 0, 264], 5: [8, 8, 7, 9]}
            found[i] = (rng.choice(others.get(kind_i, [7, 8, 9])), body)
    return b"".join(oracle.record(kind, body) for kind, body in found)


def file(rng):
    """Any of these."""
    kind = rng.random()
    if kind < 0.45:
        return oracle.write(plain(rng))
    if kind < 0.55:
        return oracle.write(at_the_limit(rng))
    if kind < 0.70:
        return oracle.write(outside(rng))
    if kind < 0.72:
        return bytes(rng.randrange(256) for _ in range(rng.randrange(40)))
    return damaged(rng, oracle.write(plain(rng) if rng.random() < 0.8 else outside(rng)))


# ---- cash accounts


def lists(rng, N):
    """A lending and a borrowing list that nothing is wrong with: level, rising or wild; the same, one apart, or farther."""
    kind = rng.random()
    if kind < 0.1:
        return [0] * (N - 1), [TOP] * (N - 1)
    lending = pattern(rng, N)
    if kind < 0.25:
        return lending, list(lending)
    if kind < 0.5:
        margin = rng.choice([1, 20000, rng.randint(0, TOP)])
        return lending, [min(TOP, rate + margin) for rate in lending]
    return lending, [rng.choice([rate, TOP, rng.randint(rate, TOP)]) for rate in lending]


def spoil_lists(rng, N, lending, borrowing, check):
    """The lists are changed such that check 14, 8 or 5 fails, for N = 1 check 5: a borrowing rate that is too low, a rate outside the
    range, in the first year, the last or another; or another number of rates, in one list or in both, often N in both."""
    at = rng.choice([0, N - 2, rng.randrange(max(1, N - 1))])
    if check == 14 and N > 1:
        lending[at] = max(1, lending[at])
        borrowing[at] = lending[at] - rng.choice([1, 1, lending[at]])
    elif check == 8 and N > 1:
        rng.choice([lending, borrowing])[at] = rng.choice([-1, TOP + 1, LEAST_32, MOST_32])
    else:
        lengths = [length for length in (0, N - 2, N, 29, 30, 31, N - 1 + 2 ** 8, rng.randint(32, 500)) if length not in (-1, N - 1)]
        one = rng.choice(lengths)
        for rates, length in rng.choice([[(lending, one)], [(borrowing, one)], [(lending, one), (borrowing, rng.choice(lengths))],
                                         [(lending, N), (borrowing, N)]]):
            more = rng.choice([[rates[-1] if rates else 0], [0, TOP], [any_32(rng)]])
            rates[:] = (rates + [rng.choice(more) for _ in range(length)])[:length]


def lists_to_fail(rng):
    """Checks on lists that are to fail; 5 comes last, and leaves what it does not cut off."""
    return rng.choice([[5], [8], [14], [14], [14, 8], rng.choice([[14, 5], [8, 5], [14, 8, 5]])])


def any_lists(rng, data):
    """Lists to go with a file, right or, as often, wrong."""
    N = data[4] if len(data) > 4 and 1 <= data[4] <= 30 else rng.randint(1, 30)
    lending, borrowing = lists(rng, N)
    for check in rng.choice([[], lists_to_fail(rng)]):
        spoil_lists(rng, N, lending, borrowing, check)
    return lending, borrowing


def some_years(rng):
    """More than one, any number up to the largest, and that more often."""
    return rng.choice([30] * 4 + list(range(2, 31)))


def few(rng, N, payments=None, allocation=None):
    """A plan of N years with few instruments, terms and patterns; its outflows are 0."""
    payments = payments or [note(rng, N) for _ in range(rng.randint(1, 3))]
    n = len(payments)
    return oracle.Plan(payments, [0] * N, parts(rng, rng.randint(1, 3)), patterns(rng, N, rng.randint(1, 2)), allocation or parts(rng, n),
                       opening(rng, N), cost(rng, n))


def steered(plan, lending, borrowing, wanted):
    """The outflows such that the account of each year that has a wanted one is that, or as near as their range allows."""
    x, V = oracle.flow(plan), 0
    for t in oracle.years(plan):
        V += x[t] + (oracle.share(V, oracle.rate_of(V, t, lending, borrowing)) if t > 1 else 0)
        if t in wanted:
            moved = max(-MOST, min(MOST, plan.o(t) + V - wanted[t]))
            V -= moved - plan.o(t)
            plan.outflows[t - 1] = moved
    return plan, lending, borrowing


def near(rng, g):
    """An account near zero, or near the end of what is close."""
    return rng.choice([0, -1, 1, -g, 1 - g, -1 - g, rng.randint(-3, 3), rng.randint(-g, 0)])


def plain_account(rng):
    plan = plain(rng)
    return plan, *lists(rng, plan.N)


def ends_near_zero(rng):
    plan, *both = plain_account(rng)
    return steered(plan, *both, {plan.N: near(rng, oracle.account_bounds(plan.N, *both)[plan.N])})


def stays_near_zero(rng):
    """In most years, and in the last."""
    N = some_years(rng)
    both = lists(rng, N)
    wanted = {t: near(rng, g) for t, g in oracle.account_bounds(N, *both).items() if t == N or rng.random() < 0.9}
    return steered(few(rng, N), *both, wanted)


def swings(rng):
    """From one side of zero to the other, in turn or by chance, by any amounts."""
    N = some_years(rng)
    both = lists(rng, N)
    top, odds = rng.choice([10, 10 ** 6, 10 ** 9, MOST]), rng.choice([0.5, 1])
    sign, wanted = 1, {}
    for t in range(1, N + 1):
        sign = -sign if rng.random() < odds else sign
        wanted[t] = sign * rng.randint(0, top)
    if rng.random() < 0.5:
        wanted[N] = near(rng, oracle.account_bounds(N, *both)[N])
    return steered(few(rng, N), *both, wanted)


def cuts_most(rng):
    """Near zero, and the cuts take off as much as they can: 999,999 millionths of every flow and, in most years, of the interest."""
    N = some_years(rng)
    earned, owed = sorted(rng.choice([1, TOP - 1, rng.randrange(1, TOP, 10)]) for _ in range(2))
    both = [earned] * (N - 1), [owed] * (N - 1)
    # times its rate, each of these is 999,999 past a whole
    above, below = pow(-earned, -1, oracle.MILLION), pow(-owed, -1, oracle.MILLION) - oracle.MILLION
    wanted = {t: near(rng, g) if t == N or rng.random() < 0.3 else rng.choice([above, below])
              for t, g in oracle.account_bounds(N, *both).items()}
    row = [rng.randint(0, 10 ** 9) for _ in range(N)]
    return steered(few(rng, N, [[amount + 999999 for amount in row], row], [1, 999999]), *both, wanted)


# The first year in which the account can pass the limit, above zero and below: a flow is at most 3 * MOST and at least -MOST.
FIRST = {1: 9, -1: 14}


def comes_to_the_limit(rng):
    """The account comes to 10^12 or -10^12, or past it, as early as it can, in a year between or in the last, and falls back after that.
    In some plans it stays away from it, and the fund, at other rates, may pass it."""
    sign = rng.choice([1, -1])
    at = rng.choice([FIRST[sign], rng.randint(FIRST[sign], 30)])
    N = rng.choice([at, rng.randint(at, 30)])
    rate = rng.randint(150000, TOP) if at > FIRST[sign] + 1 else TOP
    rates = [rate] * (at - 1) + [rng.randint(0, 10000) for _ in range(N - at)]
    both = (rates, [rng.choice([one, TOP]) for one in rates]) if sign > 0 else ([rng.choice([0, one]) for one in rates], rates)
    grown = [1]
    while len(grown) < at:
        grown.append(grown[-1] * (1 + rate / oracle.MILLION) + 1)
    end = sign * (oracle.LIMIT + rng.choice([0, 0, 1, 1, rng.randint(2, 10 ** 9)]))
    wanted = {t: int(end * so_far / grown[-1]) for t, so_far in enumerate(grown, 1)}
    wanted[at] = end
    wanted.update((t, end - sign * (rng.randint(1, 10) + 10 ** 9 * (t - at))) for t in range(at + 1, N + 1))
    # what comes in each year until then is such that the outflows stay in their range
    flow, room = int(end / grown[-1]), MOST - 10 ** 6
    low, high = max(0, flow - room), min(2 * room, flow + room)
    income = rng.choice([low, high, rng.randint(low, high)])
    older = 0 if income <= MOST and rng.random() < 0.5 else rng.randint(max(0, income - MOST), min(MOST, income))

    def until(amount):
        return [amount] * at + [0] * (N - at)

    plan = few(rng, N)
    plan.payments = [until(max(0, income - older - rng.randint(0, 1000))) for _ in plan.payments]
    plan.opening = until(older) if older else None
    plan.patterns = rng.choice([plan.patterns, [[0] * (N - 1) for _ in plan.patterns]])
    steered(plan, *both, wanted)
    if rng.random() < 0.2:
        plan.patterns, both = [[TOP] * (N - 1) for _ in plan.patterns], ([0] * (N - 1), [0] * (N - 1))
    return plan, *both


# The kinds of accounts, and how many there are of each.
ACCOUNTS = {plain_account: 2, ends_near_zero: 2, stays_near_zero: 3, swings: 2, cuts_most: 1, comes_to_the_limit: 2}


def account(rng):
    """A kind, and a plan and two lists of that kind."""
    kind = rng.choices(list(ACCOUNTS), ACCOUNTS.values())[0]
    return kind, *kind(rng)


# ---- searches for an allocation


WRONG_PARTS = [0, 3, 6, 7, 9, 11, 15, 32, 39, 41, 50, 80, 100, 1000, oracle.MILLION, 2 ** 64 - 1]
WORK = 15000  # the most that the oracle is to reckon for one search, in steps of a fund


def work(plan, parts):
    """The steps of all funds of a search, of every allocation in every pattern."""
    return math.comb(parts + plan.n - 1, plan.n - 1) * plan.m * (plan.N * plan.N + 8)


def few_parts(rng, plan):
    """A number of parts with which the oracle is soon done, where there is one."""
    return rng.choice([parts for parts in oracle.PARTS if work(plan, parts) <= WORK] or [1])


def wrong_parts(rng):
    right = rng.choice(oracle.PARTS)
    past = [2 ** 8 + right, 2 ** 32 + right, 2 ** 63 + right, rng.randint(41, 2 ** 64 - 1)]
    return rng.choice([rng.choice(WRONG_PARTS), rng.choice(past)])


def with_more(rng, plan):
    """The plan with more than four instruments; five as often as not."""
    n = rng.choice([5, rng.randint(5, 16)])
    more = [note(rng, plan.N) for _ in range(n - plan.n)]
    zeros = [0] * len(more)
    return oracle.Plan(plan.payments + more, plan.outflows, plan.rollover, plan.patterns, plan.allocation + zeros, plan.opening,
                       None if plan.cost is None else plan.cost + zeros)


def rivals(rng, N, n):
    """Notes for the same money with coupons that are near one another: which of them is the best one goes by the rates."""
    coupon, found = rng.randint(0, TOP - 20000), []
    for _ in range(n):
        end, paid = rng.randint(1, N), 1000 * (coupon + rng.randint(0, 20000))
        found.append([paid + (10 ** 9 if k == end else 0) if k <= end else 0 for k in range(1, N + 1)])
    return found


def twins(rng, N, n):
    """Notes that pay the same but for a few units."""
    row, most = note(rng, N), rng.choice([1, 3, 20])
    return [[min(MOST, amount + rng.randint(0, most)) for amount in row] for _ in range(n)]


def to_search(rng, notes):
    """A plan of few years with such notes, and a number of parts; now and then the largest number of allocations, or of patterns."""
    kind = rng.random()
    N, n, m = rng.choice([1, 2, 2, 3, 3, 3, 4, 5, 6]), rng.choice([1, 2, 2, 2, 2, 3, 3, 3, 4, 4]), rng.choice([1, 2, 2, 3, 4])
    if kind < 0.008:
        N, n, m = rng.randint(1, 2), 4, 1
    elif kind < 0.05:
        N, n, m = rng.randint(2, 3), 2, 64
    outflows = [rng.randint(0, 5 * 10 ** 8) for _ in range(N)]
    plan = oracle.Plan(notes(rng, N, n), outflows, parts(rng, rng.randint(1, N)), patterns(rng, N, m), parts(rng, n), opening(rng, N),
                       cost(rng, n))
    return plan, 40 if kind < 0.008 else few_parts(rng, plan)


def torn(rng):
    """A plan whose instruments are worth the same, but each is worth less in one of the patterns: the best allocation has some of each.
    What is left of them at the horizon, if anything, is the same."""
    n = rng.randint(2, 4)
    rates = [[100000] * n for _ in range(n)]
    for j, row in enumerate(rates):
        # what instrument j pays grows less after its year, and what was paid before grows more in the year before
        row[j] = rng.randint(40000, 90000)
        if j:
            row[j - 1] = 1210000 * oracle.MILLION // (oracle.MILLION + row[j]) - oracle.MILLION
    payments = [[11 ** j * 10 ** (9 - j) if k == j else 0 for k in range(n + 1)] for j in range(n)]
    rng.shuffle(rates)
    left = rng.choice([None, [rng.choice([0, 1, rng.randint(0, 10 ** 9)])] * n])
    plan = oracle.Plan(payments, [0] * (n + 1), [oracle.MILLION], rates, parts(rng, n), cost=left)
    return plan, few_parts(rng, plan)


def by_worth(plan, parts):
    """The allocations of the grid, the one with the largest least fund first, as the forms have it."""
    forms = [oracle.form(plan, t)[:2] for t in range(1, plan.m + 1)]

    def worth(shares):
        return min(sum(k * p for k, p in zip(K, shares)) // oracle.MILLION + Q for K, Q in forms)

    return sorted(oracle.grid(plan.n, parts), key=worth, reverse=True)


def moved(plan, shares, wanted):
    """The last outflow moved such that with these shares the least fund of all patterns is `wanted`, if it stays in its range."""
    other = oracle.allocated(plan, shares)
    last = plan.outflows[-1] - wanted + min(oracle.fund_of(other, t) for t in range(1, plan.m + 1))
    if -MOST <= last <= MOST:
        plan.outflows[-1] = last


def ranked(rng, plan, parts):
    """Of all allocations the best one, one of any rank or one of the worst comes to a least fund of 0, or just about 0. The plan's own
    allocation is that one, the worst one, another of the grid, or any. Now and then it is the best one, and fewer parts are asked for."""
    order = by_worth(plan, parts)
    if rng.random() < 0.1:
        plan.allocation = order[0]
        moved(plan, order[0], 0)
        return plan, rng.choice([one for one in oracle.PARTS if one <= parts])
    shares = rng.choice([order[0]] * 4 + [order[-1], order[max(0, len(order) - 2)], rng.choice(order), rng.choice(order)])
    plan.allocation = rng.choice([shares, order[-1], rng.choice(order), plan.allocation])
    moved(plan, shares, rng.choice([0, 0, 0, 1, -1, rng.randint(-5, 5)]))
    return plan, parts


def among_rivals(rng):
    return ranked(rng, *to_search(rng, rivals))


def among_twins(rng):
    return ranked(rng, *to_search(rng, twins))


def among_any(rng):
    return ranked(rng, *to_search(rng, lambda rng, N, n: [note(rng, N) for _ in range(n)]))


def some_of_each(rng):
    return ranked(rng, *torn(rng))


def cuts_in_flows(rng):
    """Nothing is cut but the flow of each year and the cost. Where that takes off most the fund is -1, and the form's value 0 or more."""
    N, n = rng.randint(2, 6), rng.randint(2, 4)
    plan = oracle.Plan(twins(rng, N, n), [0] * N, [oracle.MILLION], [[0] * (N - 1)], parts(rng, n), opening(rng, N), cost(rng, n))
    asked = few_parts(rng, plan)

    def cut(shares):
        other = oracle.allocated(plan, shares)
        return sum(x % oracle.MILLION for x in [*oracle.uncut(other).values(), oracle.uncut_cost(other)])

    moved(plan, max(oracle.grid(n, asked), key=cut), -1)
    return plan, asked


def cuts_apart(rng):
    """With one part of the second instrument and the others of the first every flow is 0, and so is the fund. The cuts take off K_1 and Q
    as much as they can, K_2 hardly counts, and the form's value is below the fund by about as much as it can be: by more than B, and where
    rates are the highest by more than twice the B of a pattern whose rates are 0."""
    parts, terms, rate = rng.choice([16, 20, 25, 40]), rng.choice([40, 50, 100]), rng.choice([10000, 20000, 25000, TOP, TOP])
    N = rng.randint(14, 16) if rate == TOP else rng.choice([30, rng.randint(8, 12)])
    each, level, none = oracle.MILLION // terms, [rate] * (N - 1), [0] * (N - 1)
    rates = rng.choice([[level], [level, none], [none, level], [pattern(rng, N), level]])
    plan = oracle.Plan([[0] * N, [0] * N], [0] * N, [each] * (N - 1) + [oracle.MILLION - each * (N - 1)], rates, [0, oracle.MILLION])
    t = rates.index(level) + 1
    # one below a multiple of this is cut by nearly 1 in each share, of what is rolled over and of the interest
    period = terms * oracle.MILLION // rate

    def above(flow, k):
        """How far the cell of year k lies above one below a multiple."""
        return (oracle.cells(plan, t, flow)[k + 1] + 1) % period

    for k in range(1, N + 1):
        paid = dict(enumerate(plan.payments[0], 1))
        paid[k] = rng.randint(10 ** 6, 10 ** 8)
        paid[k] -= above(paid, k)
        owed = {year: -amount for year, amount in enumerate(plan.outflows, 1)}
        owed[k] = -paid[k]
        more = above(owed, k) + period * rng.randint(0, 5)
        plan.payments[0][k - 1], plan.payments[1][k - 1], plan.outflows[k - 1] = paid[k], paid[k] + parts * more, paid[k] + more
    plan.outflows[-1] -= rng.choice([0, 0, 0, 1, 5, -1])
    return plan, parts


def reaching(plan, t, end, wanted, beside):
    """Amounts that are level up to the year `end`, and then 0, which with those beside them bring the cell of that year to `wanted`."""

    def cell(step):
        return oracle.cells(plan, t, {k: beside[k] + (step if k <= end else 0) for k in oracle.years(plan)})[end + 1]

    step = (wanted - cell(0)) * 10 ** 9 // (cell(10 ** 9) - cell(0))
    return [step] * (end - 1) + [step + wanted - cell(step)] + [0] * (plan.N - end)


def passes_the_limit(rng):
    """In one of the patterns one K_j, Q or the fund of one allocation comes to the limit or past it; or the last cell but one of Q or of
    one allocation does, and its fund does not. Where it is a K_j or Q, some allocations, or all, have funds that are taken and above 0. In
    half of the plans a cost has its part in K_j and in the fund."""
    N, n, m = rng.randint(16, 18), rng.choice([2, 2, 2, 3]), rng.randint(1, 3)
    whose, past = rng.choice(["K", "Q", "fund", "cell"]), oracle.LIMIT + rng.choice([0, 0, 1, 1, 10 ** 6])
    t, end = rng.randint(1, m), N if whose in ("K", "fund") else N - 1
    rates = [[rng.randint(0, 20000)] * (N - 1) for _ in range(m)]
    rates[t - 1] = [rng.randint(190000, TOP)] * (end - 1) + [0] * (N - end)
    plan = oracle.Plan([[0] * N] * n, [0] * N, [oracle.MILLION], rates, parts(rng, n))
    asked, nothing = few_parts(rng, plan), dict.fromkeys(oracle.years(plan), 0)
    K = [rng.randint(10 ** 9, 9 * 10 ** 11) for _ in range(n)]
    if whose == "K":
        K[rng.randrange(n)] = past
    elif whose == "Q":
        K = [oracle.LIMIT - rng.randint(1, 10 ** 10) for _ in range(n)]
    if rng.random() < 0.5:
        plan.cost = [rng.choice([1, rng.randint(0, 10 ** 9)]) for _ in range(n)]
    plan.payments = [reaching(plan, t, end, one - plan.c(j), nothing) for j, one in enumerate(K, 1)]
    if whose in ("K", "Q"):
        owed = reaching(plan, t, end, -rng.randint(1, max(K)) if whose == "K" else -past, nothing)
    else:
        other = oracle.allocated(plan, rng.choice(list(oracle.grid(n, asked))))
        owed = reaching(plan, t, end, past - (oracle.cost_of(other) if whose == "fund" else 0), oracle.flow(other))
    plan.outflows = [-x for x in owed]
    if whose in ("Q", "cell"):
        plan.outflows[-1] = -MOST if whose == "Q" else rng.randint(1, 10 ** 10)
    if rng.random() < 0.5:
        plan.opening = [max(0, -o) for o in plan.outflows]
        plan.outflows = [max(0, o) for o in plan.outflows]
    return plan, asked


# The kinds of searches, and how many there are of each.
SEARCHES = {among_rivals: 4, among_twins: 2, among_any: 2, some_of_each: 2, cuts_in_flows: 1, cuts_apart: 1, passes_the_limit: 2}


def search(rng):
    """A plan and a number of parts of one of these kinds."""
    return rng.choices(list(SEARCHES), SEARCHES.values())[0](rng)


# ---- level patterns, and rollovers


def level_rate(rng):
    return rng.choice([0, 0, 1, rng.randint(1, 100), 50000, TOP - 1, TOP, TOP, rng.randint(0, TOP), rng.randint(0, TOP)])


def level_pattern(rng, N, rate):
    """A pattern whose rates are all this one: it lists them, or is a slope of step 0, or one of another step whose T is 1 or 2. Of one year
    there are no rates, and of two there is one, of which any slope is level."""
    kind = rng.randint(1, 4)
    if kind == 1:
        return [rate] * (N - 1)
    if N == 1:
        return slope(rng, N)
    if kind == 2:
        return oracle.Slope(rate, 0, rng.randint(1, 30))
    if kind == 3:
        return oracle.Slope(rate, any_32(rng) or 1, 1)
    step = rng.choice([1, -1, rng.randint(-TOP, TOP), MOST_32]) or 1
    return oracle.Slope(rate - step, step, rng.randint(2, 30) if N == 2 else 2)


def beside_level(rng, N, rate):
    """Patterns of which one is level at this rate; others are level too, or not."""
    found = [rng.choice([pattern(rng, N), slope(rng, N), level_pattern(rng, N, level_rate(rng))]) for _ in range(rng.choice([0, 1, 1, 2]))]
    found.insert(rng.randint(0, len(found)), level_pattern(rng, N, rate))
    return found


def rollover(rng, N):
    """Shares of 1 to 30 terms, of as many as the plan has years or of more: one year only, all at the end, equal parts, any parts, or any
    parts with zeros between."""
    q = rng.choice([N, min(30, N + 1), 30, rng.randint(1, 30), rng.randint(1, N)])
    kind = rng.randint(1, 5)
    if kind == 1:
        return [oracle.MILLION] + [0] * rng.choice([0, q - 1])
    if kind == 2:
        return [0] * (q - 1) + [oracle.MILLION]
    if kind == 3:
        each = oracle.MILLION // q
        shares = [each] * (q - 1) + [oracle.MILLION - each * (q - 1)]
        return rng.choice([shares, shares[::-1]])
    if kind == 4:
        return parts(rng, q)
    places = sorted({q - 1, *(rng.randrange(q) for _ in range(rng.randint(1, 4)))})
    shares = dict(zip(places, parts(rng, len(places))))
    return [shares.get(at, 0) for at in range(q)]


def rollovers(rng, plan, count):
    """So many different rollovers for a plan: its own, one year only, all after thirty years, and others."""
    found = [plan.rollover]
    for one in [oracle.MILLION], [0] * 29 + [oracle.MILLION]:
        if one not in found:
            found.append(one)
    while len(found) < count:
        one = rollover(rng, plan.N)
        if one not in found:
            found.append(one)
    return found


def any_level(rng):
    """Any amounts, in one year, in two or in more; now and then nothing in the first years."""
    N = rng.choice([1, 2, 30, size(rng, 30), size(rng, 30), rng.randint(3, 30)])
    top, n = rng.choice([1, 10, 10 ** 6, 10 ** 9, MOST]), rng.randint(1, 4)
    outflows = [rng.choice([0, rng.randint(-top, top)]) for _ in range(N)]
    plan = oracle.Plan([note(rng, N) for _ in range(n)], outflows, rollover(rng, N), beside_level(rng, N, level_rate(rng)), parts(rng, n),
                       opening(rng, N), cost(rng, n))
    first = rng.randint(0, N) if rng.random() < 0.15 else 0
    for row in [*plan.payments, plan.outflows, plan.opening or []]:
        row[:first] = [0] * min(first, len(row))
    return plan


def bare(rng, shares, rates, N):
    """A plan of N years with one to three instruments that pay nothing."""
    n = rng.randint(1, 3)
    return oracle.Plan([[0] * N] * n, [0] * N, shares, rates, parts(rng, n), cost=cost(rng, n))


def paying(rng, plan, flow):
    """The plan with payments and outflows of which its flow is this one, whatever is cut off it. What comes in beside the outflows is as
    little or as much as their range allows, or anything between; a part of it is an opening where instruments cannot pay it all, or as often
    as not."""
    room, kind = MOST - 1000, rng.randint(1, 3)
    income = []
    for x in flow:
        low, high = max(0, x - room), min(2 * room, x + room)
        income.append(low if kind == 1 else high if kind == 2 else rng.randint(low, high))
    older = [rng.randint(max(0, one - MOST), min(MOST, one)) for one in income]
    if max(income) <= MOST and rng.random() < 0.5:
        older = [0] * plan.N
    plan.opening = older if any(older) else None
    plan.payments = [[max(0, one - old - rng.randint(0, 1000)) for one, old in zip(income, older)] for _ in plan.payments]
    plan.outflows = [came - x for came, x in zip(oracle.flow(plan).values(), flow)]
    return plan


def cuts_apart_when_level(rng):
    """With its own rollover the cuts take off as much as they can, and with that of one year little. Every cell is the same small debt. In
    each later year but the next the three cuts, of what is rolled over, of what is left and of the interest on that, take off nearly 1 each:
    next to nothing is rolled over, what is left is just above debt - 1, and the interest on `debt` just above `owed`."""
    N, owed = rng.choice([30, 30, some_years(rng)]), rng.choice([1, 1, 2, 3])
    debt = rng.randint(5 * owed + 1, 60)
    rate, left = oracle.MILLION * owed // debt + 1, oracle.MILLION * (debt - 1) // debt + N
    shares = [oracle.MILLION - left] + [1] * (N - 2) + [left - (N - 2)]
    flow, remains = [-debt], oracle.MILLION
    for share in shares[:-1]:
        flow.append(flow[-1] - oracle.share(-debt, share) - oracle.share(oracle.share(-debt, remains), rate))
        remains -= share
    return paying(rng, bare(rng, shares, beside_level(rng, N, rate), N), flow)


def grown(rate, N):
    """What 1 in each year comes to in year N."""
    return sum((1 + rate / oracle.MILLION) ** k for k in range(N))


def ends_at_the_limit(rng):
    """The fund in a level pattern is so near to the limit, above zero or below, that it is within it or past it by the rollover."""
    sign, N, rate = rng.choice([1, -1]), 0, 0
    while grown(rate, N) < {1: 18, -1: 52}[sign]:
        N, rate = rng.randint(9, 30), level_rate(rng)
    plan = bare(rng, rollover(rng, N), beside_level(rng, N, rate), N)
    level = oracle.Plan(plan.payments, plan.outflows, plan.rollover, [[rate] * (N - 1)], plan.allocation, cost=plan.cost)
    wanted = sign * oracle.LIMIT + rng.randint(0, oracle.bound(level, 1) // 2)
    step = int((wanted - oracle.cost_of(plan)) / grown(rate, N))
    level.outflows = [-step] * N
    last = step + math.ceil(wanted - oracle.level_fund(level, 1))
    return paying(rng, plan, [step] * (N - 1) + [last])


def passes_the_limit_between(rng):
    """All that is held together passes the limit in a year between, above zero or below, and is within it again at the end: with a rollover
    of one year a cell passes it, and with a longer one as a rule none does."""
    sign = rng.choice([1, -1])
    rate, enough, back = (rng.randint(0, 15000), 18, 19 * 10 ** 9) if sign > 0 else (rng.randint(42000, 55000), 51, -59 * 10 ** 9)
    first = next(year for year in range(1, 30) if grown(rate, year) >= enough)
    at = rng.randint(first, 29)
    N = rng.randint(at + 1, 30)
    step = int(sign * (oracle.LIMIT + rng.choice([10, 10 ** 6, rng.randint(1, 3 * 10 ** 9)])) / grown(rate, at)) + sign
    return paying(rng, bare(rng, rollover(rng, N), beside_level(rng, N, rate), N), [step] * at + [-back] * (N - at))


# The kinds of plans with a level pattern, and how many there are of each.
LEVELS = {any_level: 5, cuts_apart_when_level: 2, ends_at_the_limit: 2, passes_the_limit_between: 1}


def level_plan(rng):
    """A kind, and a plan of that kind; one of its patterns is level, or more are."""
    kind = rng.choices(list(LEVELS), LEVELS.values())[0]
    return kind, kind(rng)

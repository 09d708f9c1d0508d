#!/usr/bin/env python3
"""Whole jobs, each from its card to the text that is shown, by an independent writing of the rules.

  tools/sheets.py DIR        writes DIR/stdin (the cards) and DIR/stdout (what is to be printed); counts go to standard error

The seed is fixed, so the files can be made again. A card of stdin is its length in two bytes, the low one first, and its bytes.
Rules as in docs/CARD.md, PLAN.md, EXCHANGE.md, WALK.md, DUALITY.md and TEXT.md; nothing here is shared with the crates.
After the sheet of a job that opens comes a line with the 64 bits of its smallest pivot."""
import collections
import itertools
import math
import os
import random
import struct
import sys

sys.path.insert(0, os.path.dirname(os.path.abspath(__file__)))
import card as cards
import solver
from damage import damage, mend
from solver import LEAST, MOST, SIZES, Job, cost, dot, exchange, held, solve_system, step_lines, walk

STEPS, MOVES = 1000, 100000
LIMITS = {"G": 4096, "A": 1024, "c": 2**28, "bounds": 32768, "rows": 2**29, "slip": 131072}

# ---------------------------------------------------------------- from a card to a job


def numbers_on(data):
    """The sizes of a sound card, and the numbers of each section."""
    n, m = struct.unpack("<ii", data[4:12])
    sections, number = {}, 0
    for letter, count in cards.counts(n, m).items():
        numbers = []
        while len(numbers) < count:
            numbers += struct.unpack("<126i", data[number * 512 + 4 : number * 512 + 508])
            number += 1
        sections[letter] = numbers[:count]
    return n, m, sections


def beyond(numbers, limit):
    return any(abs(x) > limit for x in numbers)


def opening_fault(n, m, s):
    """(number, first place) of what opening refuses, or None."""
    g, a = s["G"], s["A"]
    for table, height, limit in ((g, n, LIMITS["G"]), (a, m, LIMITS["A"])):
        for i in range(height):
            if beyond(table[i * n : (i + 1) * n], limit):
                return (11, i)
    for i in range(n):
        for j in range(n):
            if g[i * n + j] != g[j * n + i]:
                return (12, i)
    l, u, lo, hi = s["B"][:n], s["B"][n:], s["R"][:m], s["R"][m:]
    limits = [LIMITS["c"], LIMITS["bounds"], LIMITS["bounds"], LIMITS["rows"], LIMITS["rows"], LIMITS["slip"]]
    for at, (numbers, limit) in enumerate(zip((s["C"], l, u, lo, hi, s["L"]), limits)):
        if beyond(numbers, limit):
            return (14, at)
    if any(x > y for x, y in zip(l, u)):
        return (14, 1)
    if any(x > y for x, y in zip(lo, hi)):
        return (14, 3)
    row = slip_fault(n, g, s["L"])
    return None if row is None else (15, row)


def slip_fault(n, g, slip):
    """The first row of 1,048,576 G - LᵀL whose diagonal is outweighed, or None."""
    for i in range(n):
        rest = [1048576 * g[i * n + j] - sum(slip[k * n + i] * slip[k * n + j] for k in range(n)) for j in range(n)]
        if rest[i] < sum(abs(x) for j, x in enumerate(rest) if j != i):
            return i
    return None


def job_on(n, m, s):
    rows = lambda table, height: [table[i * n : (i + 1) * n] for i in range(height)]
    return Job(n, m, rows(s["G"], n), s["C"], rows(s["A"], m), s["R"][:m], s["R"][m:], s["B"][:n], s["B"][n:])


# ---------------------------------------------------------------- the plan


def lawful(job, z):
    inside = all(low <= x <= high for low, x, high in zip(job.l, z, job.u))
    return inside and all(low <= dot(row, z) <= high for low, row, high in zip(job.lo, job.a, job.hi))


def floor(job, p, y):
    slack = 0
    for j in range(job.n):
        r = 256 * (dot(job.g[j], p) + job.c[j]) - sum(y[i] * job.a[i][j] for i in range(job.m))
        slack += max(r * (p[j] - job.l[j]), r * (p[j] - job.u[j]))
    for i in range(job.m):
        s = dot(job.a[i], p)
        slack += max(y[i] * (s - job.lo[i]), y[i] * (s - job.hi[i]))
    return 256 * cost(job, p) - 2 * slack


def ticks(job, sums):
    return sum(max(low - s, s - high, 0) for low, s, high in zip(job.lo, sums, job.hi))


def long_walk(job, z, budget):
    """What `walk` of the solver answers, with sums that are kept running, since walks of whole jobs are long."""
    z = list(z)
    columns = [[row[j] for row in job.a] for j in range(job.n)]
    sums = [dot(row, z) for row in job.a]
    slope = [2 * (dot(job.g[j], z) + job.c[j]) for j in range(job.n)]
    out = ticks(job, sums)
    moves = 0
    while True:
        move = None
        for j in range(job.n):
            low, high = job.l[j] - z[j], job.u[j] - z[j]
            for size in SIZES:
                for d in (size, -size):
                    if low <= d <= high:
                        cheaper = d * (slope[j] + job.g[j][j] * d) < 0
                        if out or cheaper:
                            after = ticks(job, [s + w * d for s, w in zip(sums, columns[j])])
                            if after < out or (after == out and cheaper):
                                move = (j, d, after)
                                break
                if move:
                    break
            if move:
                break
        if move is None:
            return moves, "settled", z
        if moves == budget:
            return moves, "spent", z
        j, d, out = move
        z[j] += d
        moves += 1
        sums = [s + w * d for s, w in zip(sums, columns[j])]
        slope = [x + 2 * job.g[k][j] * d for k, x in enumerate(slope)]


class Plan:
    def __init__(self, job):
        self.job, self.point, self.floor = job, None, floor(job, job.l, [0] * job.m)

    def offer_point(self, z):
        if lawful(self.job, z) and (self.point is None or cost(self.job, z) < cost(self.job, self.point)):
            self.point = z

    def offer_pair(self, p, y):
        self.floor = max(self.floor, floor(self.job, p, y))

    def solve(self):
        offers, steps, end, smallest = exchange(self.job, STEPS)
        for x, y in offers:
            self.offer_point(x)
            self.offer_pair(x, y)
        start = self.point or (offers[-1][0] if offers else self.job.l)
        moves, walked, last = long_walk(self.job, start, MOVES)
        if moves * self.job.n < 40:  # afresh at each use takes long
            assert (moves, walked, last) == walk(self.job, start, MOVES)
        self.offer_point(last)
        return steps, end, moves, walked, smallest if smallest < MOST else 0.0


def try_all(job, plan, counts):
    """Where the bounds leave few points, tries each of them against what is said."""
    if math.prod(high - low + 1 for low, high in zip(job.l, job.u)) > 20000:
        return
    points = itertools.product(*[range(low, high + 1) for low, high in zip(job.l, job.u)])
    best = min((cost(job, z) for z in points if lawful(job, z)), default=None)
    counts["tried out"] += 1
    if best is None:
        assert plan.point is None
        counts["tried out: no point exists"] += 1
    else:
        assert plan.floor <= 256 * best and (plan.point is None or best <= cost(job, plan.point))
        held_best = plan.point is not None and best == cost(job, plan.point)
        assert held_best or plan.point is None or 256 * cost(job, plan.point) - plan.floor >= 256
        counts["tried out: " + ("the cheapest is held" if held_best else "a cheaper one exists" if plan.point else "none is held, one exists")] += 1


def shown(data, counts):
    """The lines for a card."""
    fault = cards.first_fault(data) or opening_fault(*numbers_on(data))
    if fault is not None:
        counts["refused %d" % fault[0]] += 1
        return ["refused %d at %d" % fault[:2]]
    job = job_on(*numbers_on(data))
    plan = Plan(job)
    steps, end, moves, walked, smallest = plan.solve()
    lines = [f"exchange {steps} {end}", f"moves {moves} {walked}"]
    if plan.point is None:
        lines += ["no point", f"floor {plan.floor}"]
    else:
        q = cost(job, plan.point)
        gap = 256 * q - plan.floor
        assert gap >= 0 and lawful(job, plan.point)
        lines += [f"cost {q}", f"floor {plan.floor}", f"gap {gap}", "point " + " ".join(map(str, plan.point))]
        counts["point, gap " + ("below" if gap < 256 else "from") + " 256"] += 1
    try_all(job, plan, counts)
    counts["sound"] += 1
    counts["no point"] += plan.point is None
    counts["exchange " + end] += 1
    counts["walk " + walked] += 1
    counts["walk with moves"] += moves > 0
    counts["more than 1,000 moves"] += moves > 1000
    counts["stuck at once" if end == "stuck" and steps == 1 else "8 steps or more" if steps >= 8 else "fewer steps"] += 1
    return lines + ["pivot " + str(struct.unpack("<Q", struct.pack("<d", smallest))[0])]


# ---------------------------------------------------------------- making jobs


def between(rng, size):
    return rng.randrange(-size, size + 1)


def dominant(rng, n, size):
    """Symmetric, with diagonals that just or amply outweigh their rows."""
    g = [[0] * n for _ in range(n)]
    for i in range(n):
        for j in range(i):
            g[i][j] = g[j][i] = between(rng, size) if rng.random() < 0.6 else 0
    extra = rng.choice([0, 1, 1, 5, 50])
    for i in range(n):
        g[i][i] = sum(map(abs, g[i])) + extra
    return g


def gram(n, f):
    return [[sum(f[k][i] * f[k][j] for k in range(n)) for j in range(n)] for i in range(n)]


def factor(n, g):
    """An upper triangle whose gram is nearly g, if g is positive enough."""
    f = [[0.0] * n for _ in range(n)]
    for i in range(n):
        d = g[i][i] - sum(f[k][i] ** 2 for k in range(i))
        if d <= 1e-6:
            return None
        f[i][i] = math.sqrt(d)
        for j in range(i + 1, n):
            f[i][j] = (g[i][j] - sum(f[k][i] * f[k][j] for k in range(i))) / f[i][i]
    return f


def curvature(rng, n, kind):
    """(G, slip) with a slip that holds."""
    none = [[0] * n for _ in range(n)]
    if kind == "dominant":
        return dominant(rng, n, rng.choice([1, 4, 30, 200])), none
    if kind == "squares":  # the slip leaves no rest at all
        most = rng.choice([1, 2, 4, 15])
        f = [[between(rng, most) for _ in range(n)] for _ in range(n)]
        return gram(n, f), [[1024 * x for x in row] for row in f]
    if kind == "mixed":
        f = [[between(rng, 3) for _ in range(n)] for _ in range(n)]
        rest = dominant(rng, n, rng.choice([1, 9]))
        return [[x + y for x, y in zip(p, q)] for p, q in zip(gram(n, f), rest)], [[1024 * x for x in row] for row in f]
    if kind == "factored":  # a rounded factor of G less 1 on the diagonal
        f = [[between(rng, 3) for _ in range(n)] for _ in range(n)]
        g = gram(n, f)
        for i in range(n):
            g[i][i] += 2
        t = factor(n, [[x - (i == j) for j, x in enumerate(row)] for i, row in enumerate(g)])
        return g, [[round(1024 * x) for x in row] for row in t]
    if kind == "flat":  # few squares for many ropes: directions without curvature
        f = [[between(rng, 9) if k < rng.choice([0, 1, 1, 2]) else 0 for _ in range(n)] for k in range(n)]
        return gram(n, f), [[1024 * x for x in row] for row in f]
    if kind == "chain":  # neighbours hold each other, and nothing holds the whole
        w = rng.choice([1, 10, 1000])
        g = [[0] * n for _ in range(n)]
        for i in range(n - 1):
            for p, q in ((i, i + 1), (i + 1, i)):
                g[p][p] += w
                g[p][q] -= w
        return g, none
    assert kind == "narrow"  # one square that is large, and small ones beside it: nearly flat
    f = [[int(i == j) for j in range(n)] for i in range(n)]
    f[0] = [rng.choice([-1, 1]) * rng.randrange(55, 63) for _ in range(n)]
    return gram(n, f), [[1024 * x for x in row] for row in f]


def restrict(rng, job, z):
    """Limits for the rows of a job, around the point z or not."""
    job.lo, job.hi = [], []
    kind = rng.choice(["loose", "tight", "equal", "against", "wild", "free", "one side", "tight"])
    for i in range(job.m):
        s = dot(job.a[i], z)
        if kind == "loose":
            low, high = s - rng.randrange(2000), s + rng.randrange(2000)
        elif kind == "tight":
            low, high = s - rng.choice([0, 0, 1, 9]), s + rng.choice([0, 1, 3, 40])
        elif kind == "equal" and i <= job.n // 2:
            low, high = s, s
        elif kind == "against" and i % 2 and rng.random() < 0.5:
            job.a[i] = list(job.a[i - 1])
            low = job.hi[i - 1] + rng.choice([1, 2, 30])
            high = low + 5
        elif kind == "wild":
            low = s + between(rng, 300)
            high = low + rng.choice([0, 2, 100])
        elif kind == "one side":
            low, high = (s - rng.randrange(30), 2**29) if rng.random() < 0.5 else (-(2**29), s + rng.randrange(30))
        else:
            low, high = rng.choice([(-(2**29), 2**29), (s - 5000, s + 5000)])
        low = held(-(2**29), low, 2**29)
        job.lo.append(low)
        job.hi.append(held(low, high, 2**29))


def make(rng, n, m, kind):
    """A sound job and its slip."""
    g, slip = curvature(rng, n, kind)
    size = rng.choice([1, 3, 10, 100, 1000, 32768])
    l = [between(rng, size) for _ in range(n)]
    u = [rng.choice([x] + [held(x, x + rng.randrange(2 * size + 1), 32768)] * 9) for x in l]
    z = [rng.randrange(x, y + 1) for x, y in zip(l, u)]
    most = rng.choice([1, 1, 4, 30, 1024])
    a = [[between(rng, most) if rng.random() < 0.7 else 0 for _ in range(n)] for _ in range(m)]
    target = [between(rng, 2 * size) for _ in range(n)]
    c = rng.choice(
        [
            [between(rng, 9) for _ in range(n)],
            [between(rng, 1000) for _ in range(n)],
            [held(-(2**28), -dot(g[j], target), 2**28) for j in range(n)],
            [held(-(2**28), -dot(g[j], target) + between(rng, 50), 2**28) for j in range(n)],
            [held(-(2**28), -dot(g[j], z) + between(rng, 3), 2**28) for j in range(n)],
        ]
    )
    if rng.random() < 0.04:
        c = [between(rng, 2**28) for _ in range(n)]
    job = Job(n, m, g, c, a, [], [], l, u)
    restrict(rng, job, z)
    return job, slip


def sections_of(job, slip):
    flat = lambda rows: [x for row in rows for x in row]
    return {"G": flat(job.g), "A": flat(job.a), "C": job.c, "B": job.l + job.u, "R": job.lo + job.hi, "L": flat(slip)}


def valley(n, m, rng, pull):
    """Each pair of ropes climbs a narrow valley in turns, a few ticks at a time."""
    f = [[0] * n for _ in range(n)]
    for k in range(n // 2):
        f[k][2 * k], f[k][2 * k + 1] = 64, -63
    slip = [[1024 * x for x in row] for row in f]
    c = [-64 * pull if j % 2 == 0 else 0 for j in range(n)]
    a = [[rng.randrange(-2, 3) for _ in range(n)] for _ in range(m)]
    return Job(n, m, gram(n, f), c, a, [-(2**29)] * m, [2**29] * m, [-32768] * n, [32768 - k for k in range(n)]), slip


def chain(n, m, rng):
    """A long chain that is pulled at its first rope, and a last rope without curvature, on which the exchange is stuck."""
    g = [[0] * n for _ in range(n)]
    for i in range(n - 1):
        g[i][i] = 2002 if 0 < i < n - 2 else 1001
    for i in range(n - 2):
        g[i][i + 1] = g[i + 1][i] = -1000
    a = [[rng.randrange(-3, 4) for _ in range(n)] for _ in range(m)]
    c = [-900000] + [0] * (n - 1)
    return Job(n, m, g, c, a, [-(2**29)] * m, [2**29] * m, [-32768] * n, [32767] * n), [[0] * n for _ in range(n)]


KINDS = ["dominant", "squares", "mixed", "factored", "dominant", "flat", "mixed", "chain", "narrow", "factored"]


def opened(rng, n, m):
    """A job that opens, of any kind, and the sections of its card."""
    while True:
        job, slip = make(rng, n, m, rng.choice(KINDS))
        s = sections_of(job, slip)
        if opening_fault(n, m, s) is None:
            return job, s


def steep(rng, n):
    """A job of determinant 1 and large numbers, so that its last pivot is small, and its unknowns are large."""
    while True:
        f = [[int(i == j) for j in range(n)] for i in range(n)]
        for _ in range(3 * n):
            p, q = rng.sample(range(n), 2)
            k = rng.choice([-3, -2, -1, 1, 2, 3])
            f[p] = [x + k * y for x, y in zip(f[p], f[q])]
        g = gram(n, f)
        if max(map(max, g)) <= 4096 and min(map(min, g)) >= -4096:
            break
    most = 2 ** rng.randrange(1, 29)
    job = Job(n, 0, g, [between(rng, most) for _ in range(n)], [], [], [], [-32768] * n, [32768] * n)
    return job, [[1024 * x for x in row] for row in f]


def last_pivot(job):
    """The smallest pivot of the first step, however small."""
    solver.LEAST = 0.0
    smallest, _ = solve_system(step_lines(job, []), MOST)
    solver.LEAST = LEAST
    return smallest


def steep_cards(rng):
    """Smallest pivots on both sides of their limit, and others that are small."""
    wanted = {"above": 5, "below": 5, "small": 24}
    while any(wanted.values()):
        job, slip = steep(rng, rng.randrange(3, 7))
        size = last_pivot(job) / LEAST
        kind = "above" if 1 < size < 2 else "below" if 0.5 < size <= 1 else "small" if 1 < size < 4096 else None
        if kind and wanted[kind]:
            wanted[kind] -= 1
            yield job, slip


def leaving_last(members, y):
    """The place of the last member whose multiplier is most wrong."""
    wrong = [-v if side == "lower" else v for (_, _, side), v in zip(members, y)]
    most = max(wrong, default=0)
    return max((k for k, w in enumerate(wrong) if w == most), default=None) if most > 0 else None


def leaving_draw(job):
    """Whether it matters to the exchange that the first of equals leaves."""
    plain, first = exchange(job, 40), solver.leaving
    solver.leaving = leaving_last
    other = exchange(job, 40)
    solver.leaving = first
    return plain != other


def cost_draw(job):
    """Whether two points of the exchange are lawful and the cheapest."""
    offered = {tuple(x) for x, _ in exchange(job, 40)[0] if lawful(job, x)}
    costs = sorted(cost(job, z) for z in offered)
    return len(costs) > 1 and costs[0] == costs[1]


def even(rng):
    """A small job in which ropes and rows are much alike."""
    n, m = rng.randrange(2, 6), rng.randrange(1, 7)
    b = rng.randrange(0, 3)
    g = [[b + (i == j) * rng.choice([1, 1, 2]) for j in range(n)] for i in range(n)]
    slip = [[1024 if k < b else 0] * n for k in range(n)]
    a = [[rng.choice([-1, 0, 0, 1, 1]) for _ in range(n)] for _ in range(m)]
    c = [rng.choice([-6, -6, 4, 9]) for _ in range(n)]
    size = rng.choice([2, 5, 9])
    return Job(n, m, g, c, a, [rng.choice([-3, 1, 4]) for _ in range(m)], [5] * m, [-size] * n, [size] * n), slip


def twins(rng):
    """Two ropes that may trade places run against their upper bounds, and leave them again, both at once, when a row enters."""
    n, k, far = rng.randrange(3, 7), rng.randrange(4, 90), rng.randrange(20, 3000)
    g = [[k * 5 * (i == j) for j in range(n)] for i in range(n)]
    for i, row in enumerate([[10, 9, 12], [9, 10, 12], [12, 12, 16]]):
        g[i][:3] = [k * x for x in row]
    least = factor(n, [[x - (i == j) for j, x in enumerate(row)] for i, row in enumerate(g)])
    u = rng.randrange(-9, 9)
    best = [u + far, u + far, far * 9 // 10 - 2 * (u + far)] + [between(rng, 9) for _ in range(n - 3)]
    c = [-dot(row, best) for row in g]
    a = [[1, 1, 1] + [0] * (n - 3), [0, 0, 0] + [1] * (n - 3)]
    job = Job(n, 2, g, c, a, [-(2**29), -99], [0, 99], [-32768] * n, [u, u, 32768] + [20] * (n - 3))
    return job, [[round(1024 * x) for x in row] for row in least]


def drawn_cards(rng):
    """Jobs in which it matters who is the first of equals."""
    for test, kind in ((leaving_draw, twins), (cost_draw, even)):
        for _ in range(8):
            job, slip = kind(rng)
            while not test(job):
                job, slip = kind(rng)
            yield job, slip


def sound_cards(rng):
    yield cards.two_ropes()
    long = [valley(2, 0, rng, 100), valley(4, 0, rng, 66), valley(4, 3, rng, 70), valley(5, 2, rng, 66), valley(8, 1, rng, 100)]
    long += [chain(16, 32, rng), chain(7, 3, rng)]
    for job, slip in long + list(steep_cards(rng)) + list(drawn_cards(rng)):
        yield cards.card(job.n, job.m, sections_of(job, slip))
    for k in range(384):
        n, m = (1 + k % 16, k % 33) if k < 264 else (rng.randrange(1, 6), rng.randrange(0, 9))
        yield cards.card(n, m, opened(rng, n, m)[1])
    found = 0
    while found < 8:  # exchanges that turn in a circle
        n, m = rng.randrange(2, 9), rng.randrange(2, 14)
        job, s = opened(rng, n, m)
        if exchange(job, 60)[2] == "spent":
            found += 1
            yield cards.card(n, m, s)


def spoil(rng, kind, n, m, s):
    """One fault of a job that opening refuses, in place."""
    pick = lambda: (rng.randrange(n), rng.randrange(n))
    past = lambda limit: rng.choice([-1, 1]) * rng.choice([limit + 1, limit + 1, 1048576, 1048577, 2**31 - 1] if limit < 1048576 else [limit + 1, 2**31 - 1])
    i, j = pick()
    if kind == "G beyond":
        s["G"][i * n + j] = s["G"][j * n + i] = past(4096)
    elif kind == "A beyond":
        s["A"][rng.randrange(m * n)] = past(1024)
    elif kind == "asymmetric":
        s["G"][i * n + (j if i != j else (j + 1) % n)] += rng.choice([-1, 1])
    elif kind == "c beyond":
        s["C"][i] = past(2**28)
    elif kind == "l beyond":
        s["B"][i] = past(32768)
    elif kind == "u beyond":
        s["B"][n + i] = past(32768)
    elif kind == "lo beyond":
        s["R"][rng.randrange(m)] = past(2**29)
    elif kind == "hi beyond":
        s["R"][m + rng.randrange(m)] = past(2**29)
    elif kind == "slip beyond":
        s["L"][i * n + j] = past(131072)
    elif kind == "bounds crossed":
        s["B"][i], s["B"][n + i] = 7, 6
    elif kind == "limits crossed":
        q = rng.randrange(m)
        s["R"][q], s["R"][m + q] = -7, -8
    else:
        assert kind == "slip fails"
        s["L"][i * n + i] += rng.choice([-1, 1]) * 100000


SPOILS = ["G beyond", "A beyond", "asymmetric", "c beyond", "l beyond", "u beyond", "lo beyond", "hi beyond"]
SPOILS += ["slip beyond", "bounds crossed", "limits crossed", "slip fails", "slip fails", "asymmetric", "slip fails"]


def edge_cards(rng):
    """Numbers at their limits, and one past them."""
    for slip in (1773, 1774, -1773, -1774):
        yield cards.card(1, 0, {"G": [3], "A": [], "C": [5], "B": [-9, 9], "R": [], "L": [slip]})
    for slip in (131072, 131073, -131072, -131073):
        yield cards.card(1, 0, {"G": [4096], "A": [], "C": [5], "B": [-9, 9], "R": [], "L": [slip]})
    for slip in (65536, 65537):
        yield cards.card(1, 0, {"G": [4096], "A": [], "C": [4096], "B": [-9, 9], "R": [], "L": [slip]})
    for diagonal in (7, 6):
        yield cards.card(2, 0, {"G": [7, -7, -7, diagonal], "A": [], "C": [3, -5], "B": [-9, -9, 9, 9], "R": [], "L": [0] * 4})
    for past in (0, 1):
        for at in range(7):
            top = [x + (at == k) * past for k, x in enumerate((4096, 1024, 2**28, 32768, 32768, 2**29, 2**29))]
            g, a, c, l, u, lo, hi = top
            yield cards.card(2, 1, {"G": [g, 0, 0, 4096], "A": [a, -a], "C": [-c, c], "B": [-l, -9, 9, u], "R": [-lo, hi], "L": [0] * 4})


def sized_cards():
    """Cards of another length than n and m ask for, or with an n or m out of range."""
    plain = cards.two_ropes()
    for length in (0, 1, 511, 512, 513, len(plain) - 512, len(plain) - 1):
        yield plain[:length]
    for more in (1, 512, 7680 - len(plain), 7681 - len(plain), 8192 - len(plain)):
        yield plain + bytes(more)
    for n, m in ((0, 1), (17, 1), (2, 33), (2, -1), (-1, 1), (256 + 2, 1), (2**31 - 1, -(2**31)), (3, 1), (2, 0)):
        data = bytearray(plain)
        data[4:12] = struct.pack("<ii", n, m)
        mend(data, 0)
        yield bytes(data)


def refused_cards(rng):
    """Cards with a fault of the bytes or of the job; a few of the damaged ones are sound still."""
    yield from sized_cards()
    for k in range(70):
        n, m = rng.randrange(2, 6), rng.randrange(1, 6)
        data = bytearray(cards.card(n, m, opened(rng, n, m)[1]))
        for _ in range(rng.choice([1, 1, 2])):
            damage(rng, data)
        yield bytes(data)
    for k in range(50):
        n, m = rng.randrange(2, 9), rng.randrange(1, 9)
        s = opened(rng, n, m)[1]
        spoil(rng, SPOILS[k % len(SPOILS)], n, m, s)
        if k >= 30:  # a second fault: only the first is named
            spoil(rng, rng.choice(SPOILS), n, m, s)
        yield cards.card(n, m, s)


def main(folder):
    rng = random.Random(41)
    made = list(sound_cards(rng)) + list(edge_cards(rng)) + list(refused_cards(rng))
    order = list(range(len(made)))
    rng.shuffle(order)
    counts = collections.Counter(cards=len(made))
    stdin, stdout = b"", []
    for k in order:
        stdin += struct.pack("<H", len(made[k])) + made[k]
        stdout += shown(made[k], counts)
    open(os.path.join(folder, "stdin"), "wb").write(stdin)
    open(os.path.join(folder, "stdout"), "w").write("\n".join(stdout) + "\n")
    for name in sorted(counts):
        print(f"{counts[name]:5} {name}", file=sys.stderr)


if __name__ == "__main__":
    main(*sys.argv[1:])

#!/usr/bin/env python3
"""Walks, systems of equations and exchanges, and what the independent solver in tools/solver.py does with each.

  tools/vectors.py DIR       writes DIR/stdin, a case to a line, and DIR/stdout, an answer to a line; counts what comes out on standard error

The seeds are fixed, so the files can be made again. A line of whole numbers begins with 0 for a walk, 1 for a system or 2 for an exchange.
A walk has the number of ropes, rows and moves, and then G row by row, c, A rope by rope, the limits lo and hi, the bounds l and u, and, to the end of
the line, the point that it starts from, which may have a wrong length. It answers its moves and end, or that it is refused, and in either case the point.
A system has the number of unknowns and the smallest pivot so far, and then line by line its coefficients and the right side. Each float stands as m
and e for m times 2 to the e, which may be an infinity; m = 0 with an e above 0 is no number. It answers whether it is solved, the smallest pivot, and
the unknowns, each with the whole number next to it, and a sum over the lines that are left. One of 33 unknowns has no right sides.
An exchange is written as a walk is, with steps in the place of moves and no point; it answers steps, end, smallest pivot and every offer.
A walk or an exchange whose numbers make no job answers that. Floats are answered by their 64 bits, and one that is no number by 0.

Every answer is found from the line alone, so that tools/turned_vectors.py can find it again under another rule."""
import collections
import math
import os
import random
import struct
import sys

sys.path.insert(0, os.path.dirname(os.path.abspath(__file__)))
import sheets
from solver import MOST, Job, dot, exchange, nearest, solve_in_place, walk

WALK, SYSTEM, EXCHANGE = 0, 1, 2

PLACES = 33  # of a line: 32 coefficients and the right side


# Lines and answers.


def words(kind, job, budget, point=()):
    flat = [x for row in job.g for x in row]
    by_rope = [job.a[i][j] for j in range(job.n) for i in range(job.m)]
    return [kind, job.n, job.m, budget, *flat, *job.c, *by_rope, *job.lo, *job.hi, *job.l, *job.u, *point]


def system_words(lines, smallest=(1, 60)):
    """The words of a system whose floats are pairs m, e."""
    return [SYSTEM, len(lines), *smallest, *[x for line in lines for pair in line for x in pair]]


def float_of(m, e):
    if m == 0 and e > 0:
        return math.nan
    try:
        return math.ldexp(m, e)
    except OverflowError:
        return math.copysign(math.inf, m)


def pair(x):
    """A float as m and e, with the least m."""
    if math.isnan(x):
        return 0, 1
    if math.isinf(x):
        return int(math.copysign(1, x)), 1024
    m, whole = x.as_integer_ratio()
    e = 1 - whole.bit_length()
    while m and m % 2 == 0:
        m, e = m // 2, e + 1
    return (m, e) if m else (0, 0)


def bits(x):
    return 0 if math.isnan(x) else struct.unpack("<Q", struct.pack("<d", x))[0]


def read_job(left):
    """A job and its budget, and what is left of the line; no job where the numbers make none."""
    n, m, budget = left[:3]
    at = 3

    def run(count):
        nonlocal at
        at += count
        return left[at - count : at]

    g, c, a = run(n * n), run(n), run(n * m)
    lo, hi, l, u = run(m), run(m), run(n), run(n)
    within = [(g, 2**20), (a, 2**20), (c, 2**28), (lo + hi, 2**29), (l + u, 2**15)]
    fits = 1 <= n <= 16 and m <= 32 and all(abs(x) <= most for numbers, most in within for x in numbers)
    if not fits or any(x > y for x, y in zip(lo + l, hi + u)):
        return None, budget, left[at:]
    return Job(n, m, [g[i * n : i * n + n] for i in range(n)], c, [a[i::m] for i in range(m)], lo, hi, l, u), budget, left[at:]


def walked(job, budget, point):
    if len(point) != job.n or any(not low <= z <= high for low, z, high in zip(job.l, point, job.u)):
        return " ".join(map(str, ["refused", *point]))
    moves, end, point = walk(job, point, budget)
    return " ".join(map(str, ["walk", moves, end, *point]))


def sum_of(lines):
    """A sum over the bits of all numbers, which tells them apart by where they stand."""
    total = 0
    for line in lines:
        for x in line:
            total = (total * 1000003 + bits(x)) % 2**64
    return total


def solved(n, left):
    floats = [float_of(m, e) for m, e in zip(left[::2], left[1::2])]
    smallest, unknowns, width = floats[0], None, min(n + 1, PLACES)
    lines = [floats[1 + i * width : 1 + i * width + width] for i in range(n)]
    if n < PLACES - 1:  # one more place, by which it shows where the line goes
        lines = [line + [float(i)] for i, line in enumerate(lines)]
    if n < PLACES:
        smallest, unknowns = solve_in_place(lines, smallest)
    shown = ["stuck", bits(smallest)] if unknowns is None else ["solved", bits(smallest), *[y for x in unknowns for y in (bits(x), nearest(x))]]
    return " ".join(map(str, [*shown, "left", sum_of(lines)]))


def exchanged(job, budget):
    offers, steps, end, smallest = exchange(job, budget)
    text = f"exchange {steps} {end} {bits(smallest if smallest < MOST else 0.0)}"
    for point, multipliers in offers:
        text += " ; " + " ".join(map(str, point + multipliers))
    return text


def answer(line):
    kind, *left = line
    if kind == SYSTEM:
        return solved(left[0], left[1:])
    job, budget, point = read_job(left)
    if job is None:
        return "no job"
    return walked(job, budget, point) if kind == WALK else exchanged(job, budget)


# Jobs and walks.


def between(rng, size):
    return rng.randrange(-size, size + 1)


def convex(rng, n, size=4):
    """A sum of squares, as a plan's has to be."""
    v = [[between(rng, size) for _ in range(n)] for _ in range(n)]
    return [[sum(v[k][i] * v[k][j] for k in range(n)) for j in range(n)] for i in range(n)]


def diagonal(numbers):
    return [[x if i == j else 0 for j in range(len(numbers))] for i, x in enumerate(numbers)]


def curvature(rng, n, kind):
    if kind == 0:
        return convex(rng, n)
    if kind == 1:
        return [[rng.randrange(0, 9) if i == j else 0 for j in range(n)] for i in range(n)]
    if kind == 4:  # a narrow valley, in which a walk is long
        v = [between(rng, 40) for _ in range(n)]
        return [[v[i] * v[j] + (1 if i == j else 0) for j in range(n)] for i in range(n)]
    return [[between(rng, 4096 if kind == 2 else 1048576) for _ in range(n)] for _ in range(n)]  # neither symmetric nor convex


def any_job(rng, k):
    n = rng.choice([1, 2, 2, 3, 4, 5, 8]) if k % 20 else 16
    m = rng.choice([0, 1, 2, 3, 6]) if k % 20 else 32
    size = rng.choice([1, 10, 1000, 32768])
    l = [between(rng, size) for _ in range(n)]
    u = [rng.choice([x, min(32768, x + rng.randrange(0, 4)), min(32768, x + rng.randrange(0, 2 * size + 1))]) for x in l]
    a = [[between(rng, rng.choice([1, 9, 1024, 1048576])) for _ in range(n)] for _ in range(m)]
    z = [rng.randrange(x, y + 1) for x, y in zip(l, u)]
    lo, hi = [], []
    for i in range(m):
        s = dot(a[i], z) + rng.choice([0, 0, 5, -7, 400, -30000])
        low = max(-536870912, min(536870912, s - rng.choice([0, 1, 50])))
        lo.append(low)
        hi.append(min(536870912, low + rng.choice([0, 1, 3, 100])))
    c = [between(rng, rng.choice([9, 1000, 268435456])) for _ in range(n)]
    start = [rng.choice([x, y, rng.randrange(x, y + 1)]) for x, y in zip(l, u)]
    return Job(n, m, curvature(rng, n, rng.randrange(5)), c, a, lo, hi, l, u), start


def walks(rng):
    for k in range(400):
        job, start = any_job(rng, k)
        budget = rng.choice([0, 1, 2, 3, 7, 30, 200, 5000]) if job.n < 16 else rng.choice([0, 1, 5, 12])
        yield words(WALK, job, budget, start)


def last_moves(rng):
    """Walks of some moves, with one move too few, just enough, and one to spare."""
    made = 0
    while made < 40:
        job, start = any_job(rng, rng.randrange(1, 20))
        moves, end, _ = walk(job, start, 60)
        if end == "settled" and moves > 1:
            made += 1
            yield from (words(WALK, job, budget, start) for budget in (moves - 1, moves, moves + 1))


def two_ways(rng):
    """Walks of a cost that falls both ways, so that plus comes before minus, and by larger sizes too."""
    for _ in range(30):
        n = rng.randrange(1, 6)
        g = diagonal([-rng.randrange(1, 9) for _ in range(n)])
        for i in range(1, n):
            g[i][i - 1] = rng.randrange(-1, 2)
        reach = 2 ** rng.randrange(1, 15)
        l, u = [-reach - rng.randrange(3) for _ in range(n)], [reach + rng.randrange(3) for _ in range(n)]
        m = rng.randrange(3)
        a = [[between(rng, 3) for _ in range(n)] for _ in range(m)]
        job = Job(n, m, g, [between(rng, 9) for _ in range(n)], a, [-(2**29)] * m, [2**29] * m, l, u)
        yield words(WALK, job, rng.choice([1, 3, 40]), [between(rng, 2) for _ in range(n)])


def equal_costs(rng):
    """Walks with moves that leave the cost as it is."""
    for _ in range(40):
        n = rng.randrange(1, 6)
        start = [rng.choice([-1, 1]) * rng.choice([0, 1, 2, 4, 8, 64]) for _ in range(n)]
        g = diagonal([rng.choice([0, 1, 1, 2, 5]) for _ in range(n)])
        m = rng.randrange(3)
        a = [[rng.choice([0, 0, 1, -1]) for _ in range(n)] for _ in range(m)]
        limits = [rng.choice([0, 5, 200]) for _ in range(m)]
        c = [0 if rng.random() < 0.7 else g[j][j] * rng.randrange(-2, 3) for j in range(n)]
        job = Job(n, m, g, c, a, [-x for x in limits], limits, [-100] * n, [100] * n)
        yield words(WALK, job, rng.choice([1, 3, 40]), start)


def refused_walks(rng):
    """Starts of a wrong length or outside their bounds, of which some lie just outside at one rope alone."""
    for k in range(100):
        job, start = any_job(rng, k)
        j = rng.randrange(job.n)
        start[j] = rng.choice([job.l[j] - 1, job.u[j] + 1])
        kind = k % 10
        if kind in (1, 2):  # as the rest of the line, a wrong length can be 0 too
            start = [*job.l, job.u[-1]] if kind == 1 else job.l[:-1]
        elif kind == 3:
            start[j] = rng.choice([-1, 1]) * rng.choice([32769, 2**31, 2**40, 2**63 - 1])
        elif kind == 4:
            start = [x - 1 for x in job.l]
        elif kind == 5:
            start = start[: rng.randrange(job.n + 1)] + [0] * rng.randrange(3, 20)
        yield words(WALK, job, rng.choice([0, 1, 50]), start)


def limits(rng):
    """Walks and exchanges of jobs with a number at its limit, or one past it, or with crossed limits, or of too many ropes or rows."""
    fields = ["g", "c", "a", "lo", "hi", "l", "u"]
    most = {"g": 2**20, "a": 2**20, "c": 2**28, "lo": 2**29, "hi": 2**29, "l": 2**15, "u": 2**15}
    for name in fields:
        for past in (0, 0, 1):
            for sign in (-1, 1):
                n, m = rng.randrange(1, 6), rng.randrange(1, 5)
                job = loose_job(rng, n, m, diagonal([2] * n))
                rows = getattr(job, name)
                numbers = rng.choice(rows) if name in "ga" else rows
                i = rng.randrange(len(numbers))
                numbers[i] = sign * (most[name] + past)
                pairs = {"lo": job.hi, "hi": job.lo, "l": job.u, "u": job.l}
                if name in pairs and (sign > 0) == (name in ("lo", "l")):  # the other one goes along, or the two are crossed
                    pairs[name][i] = numbers[i]
                yield words(WALK, job, 5, job.l) if rng.random() < 0.5 else words(EXCHANGE, job, 5)
    for _ in range(10):
        n, m = rng.randrange(1, 6), rng.randrange(1, 5)
        job = loose_job(rng, n, m, diagonal([2] * n))
        low, high = rng.choice([(job.l, job.u), (job.lo, job.hi)])
        i = rng.randrange(len(low))
        high[i] = low[i] - rng.choice([0, 1])
        yield words(EXCHANGE, job, 5)
    for n, m in [(0, 0), (0, 2), (17, 0), (17, 33), (16, 33), (1, 33), (18, 1)]:
        yield words(WALK, loose_job(rng, n, m, diagonal([2] * n)), 1, [0] * n)


# Systems.


def number(rng, kind):
    """A float as m and e."""
    if kind == 0:
        return between(rng, 9), 0
    if kind == 1:
        return between(rng, 4096), 0
    if kind == 2:
        return between(rng, 2**53 - 1), rng.randrange(-60, 10)
    return between(rng, 2**53 - 1), rng.choice([-300, -80, -73, -72, -53, 0, 6, 7, 8, 200, 900])


def any_system(rng, k):
    n = rng.choice([1, 2, 3, 4, 5, 8, 12]) if k % 40 else rng.choice([16, 31, 32])
    kind = rng.randrange(4)
    lines = [[number(rng, kind) for _ in range(n + 1)] for _ in range(n)]
    shape = rng.randrange(6)
    if shape == 0 and n > 1:  # singular: two lines alike
        lines[n - 1] = list(lines[0])
    elif shape == 1 and n > 1:  # nearly so: the last bit of one entry apart
        lines[n - 1] = list(lines[0])
        m, e = lines[0][0]
        lines[n - 1][0] = (m + 1, e)
    elif shape == 2:  # a column of zeros but for one entry at a limit of pivots
        for line in lines:
            line[0] = (0, 0)
        lines[n - 1][0] = rng.choice([(1, -20), (1, -21), (2**53 - 1, -73), (2**52 + 1, -72), (1, 60), (2**53 - 1, 7), (3, -21)])
    elif shape == 3:  # equal sizes in the first column
        for line in lines:
            line[0] = (rng.choice([-1, 1]) * 6, 0)
    return lines


def systems(rng):
    return (system_words(any_system(rng, k)) for k in range(400))


def pairs(lines):
    return [[pair(x) for x in line] for line in lines]


def integers(rng, n, size=9):
    return [[float(between(rng, size)) for _ in range(n + 1)] for _ in range(n)]


def step_like(rng, n):
    """A system as a step of an exchange has it: curvature, and rows beside and below it."""
    members = rng.randrange(max(0, n - 16), n // 2 + 1)
    ropes = n - members
    g = convex(rng, ropes, 3)
    rows = [[between(rng, 9) for _ in range(ropes)] for _ in range(members)]
    lines = [[*g[r], *[-row[r] for row in rows], between(rng, 1000)] for r in range(ropes)]
    lines += [[*row, *[0] * members, between(rng, 1000)] for row in rows]
    return [[float(x) for x in line] for line in lines]


def large_systems(rng):
    """Systems of 16 to 32 unknowns, of which most are solved."""
    for n in range(16, 33):
        yield system_words(pairs(integers(rng, n)))
        yield system_words(pairs(integers(rng, n, 1)))  # many entries of equal size, and some zeros
        yield system_words(pairs(step_like(rng, n)))
        lines = integers(rng, n, 4096)
        scales = [2.0 ** rng.randrange(-10, 11) for _ in lines]
        yield system_words(pairs([[s * x for x in line] for s, line in zip(scales, lines)]))
    for n in (16, 24, 32):
        yield system_words(pairs([[rng.uniform(-1, 1) for _ in range(n + 1)] for _ in range(n)]))


def unit_upper(rng, n):
    return [[0.0] * i + [1.0] + [float(between(rng, 3)) for _ in range(i + 1, n)] for i in range(n)]


PIVOT_EDGES = [2.0**-20, math.nextafter(2.0**-20, 0), math.nextafter(2.0**-20, 1), 2.0**60, math.nextafter(2.0**60, 0), math.nextafter(2.0**60, math.inf)]


def pivot_edges(rng):
    """Systems with a pivot exactly at a limit or next to it, in any column, and smaller or equal entries below it."""
    for edge in PIVOT_EDGES:
        for sign in (1, -1):
            for n, k in [(1, 0), (2, 0), (2, 1), (4, 0), (4, 2), (4, 3)]:
                lines = unit_upper(rng, n)
                unknowns = [float(between(rng, 9)) for _ in range(n)]
                for i in range(n):
                    scale = sign * edge if i == k else 1.0
                    lines[i] = [scale * x for x in [*lines[i], dot(lines[i], unknowns)]]
                for i in range(k + 1, n):
                    f = rng.choice([0, 1, -1, 0.5])
                    lines[i] = [x + f * y for x, y in zip(lines[i], lines[k])]
                if n > 2 and edge < 1:  # what comes before is eliminated without rounding
                    f = rng.choice([0, 1, -1])
                    lines[-1] = [x + f * y for x, y in zip(lines[-1], lines[0])]
                yield system_words(pairs(lines), rng.choice([(1, 60), (1, 0), (1, -19)]))


def beside(x):
    return [x, math.nextafter(x, 0), math.nextafter(x, 2 * x)]


def placed_unknown(rng, x, n, k):
    """A system of which unknown k is x without rounding, and the others are small."""
    lines = unit_upper(rng, n)
    others = [float(between(rng, 9)) for _ in range(n)]
    others[k] = 0.0
    lines[k] = [1.0 if j == k else 0.0 for j in range(n)]
    lines = [[*line, dot(line, others)] for line in lines]
    for i in range(k):
        lines[i][k] = 0.0
    scale = rng.choice([1.0, 2.0, -0.5, -4.0])
    lines[k] = [scale * y for y in [*lines[k][:n], x]]
    rng.shuffle(lines)
    return lines


def unknown_edges(rng):
    """Systems with an unknown exactly at its limit or next to it."""
    for x in beside(2.0**30):
        for sign in (1, -1):
            for n, k in [(1, 0), (2, 0), (2, 1), (5, 0), (5, 2), (5, 4)]:
                yield system_words(pairs(placed_unknown(rng, sign * x, n, k)))


def halves(rng):
    """Systems with an unknown half way between two whole numbers, or next to that."""
    for half in [0.5, 1.5, 2.5, 3.5, 1000.5, 2.0**22 + 0.5, 2.0**29 + 0.5, 2.0**30 - 0.5]:
        for x in beside(half):
            for sign in (1, -1):
                yield system_words(pairs(placed_unknown(rng, sign * x, *rng.choice([(1, 0), (2, 0), (3, 1)]))))


def falling(lines):
    """The lines with column k divided by 2^k, so that the smallest pivot tells how many columns were cleared."""
    return [[*[x * 2.0**-k for k, x in enumerate(line[:-1])], line[-1]] for line in lines]


def huge_systems(rng):
    """Systems that are cleared for some columns, and then meet what has overflowed there, or on the right side alone."""
    for k in range(80):
        n = rng.choice([2, 3, 4, 6, 9])
        lines = falling(integers(rng, n))
        far = rng.randrange(1, n + 1) if k % 4 else n
        for line in lines:
            line[far] = between(rng, 2**53 - 1) * 2.0**971
        if k % 3 == 0:  # one more column that overflows
            for line in lines:
                line[rng.randrange(far, n + 1)] = rng.choice([-1, 1]) * 1.5 * 2.0**1023
        yield system_words(pairs(lines))
    for _ in range(40):  # unknowns that are small, with coefficients that are huge, or that overflow on their way
        n = rng.choice([2, 3, 4])
        lines = unit_upper(rng, n)
        for i in range(n):
            for j in range(i + 1, n):
                lines[i][j] = rng.choice([0.0, 1.0, 2.0**40, 2.0**300, 1.5 * 2.0**1023])
            lines[i].append(float(between(rng, 9)) if i < n - 1 or rng.random() < 0.5 else rng.choice([2.0**-1022, 2.0**-300, 0.0]))
        rng.shuffle(lines)
        yield system_words(pairs(lines))


def tiny_systems(rng):
    """Systems whose unknowns or entries lie below the least normal float."""
    for k in range(60):
        n = rng.choice([1, 2, 3, 5, 8])
        lines = integers(rng, n)
        for line in lines:
            line[n] = between(rng, 2**rng.randrange(1, 53)) * 2.0**-1074
            if k % 3 == 0:
                line[rng.randrange(n)] = between(rng, 2**20) * 2.0**-1074
        yield system_words(pairs(lines))


def not_numbers(rng):
    """Systems in which some entries are infinite or no numbers, in the first line's place too."""
    for k in range(120):
        n = rng.choice([1, 2, 3, 4, 6])
        lines = falling(integers(rng, n))
        for _ in range(rng.choice([1, 1, 2, 3])):
            x = math.nan if k % 3 else rng.choice([math.inf, -math.inf])
            lines[rng.choice([0, rng.randrange(n)])][rng.choice([0, n, rng.randrange(n + 1)])] = x
        yield system_words(pairs(lines))


def earlier_pivots(rng):
    """Systems with a smaller pivot before them, or an equal one."""
    for n in (0, 33):  # a system of more than 32 unknowns is stuck, and its lines stay
        yield system_words(pairs([line[:33] for line in integers(rng, n, 3)]), (5, 0))
    for k in range(40):
        n = rng.choice([1, 2, 3, 5])
        lines = falling(integers(rng, n))
        yield system_words(pairs(lines), rng.choice([(0, 0), (1, -30), (1, -2), (3, -2), (1, 0), (5, 0), (9, 0), (1, 60)]))


# Exchanges.


def exchanges(rng):
    for k in range(400):
        job, _ = any_job(rng, k)
        budget = rng.choice([0, 1, 2, 5, 1000]) if job.n < 16 else rng.choice([3, 9, 1000])
        yield words(EXCHANGE, job, budget)


def loose_job(rng, n, m, g, size=9, costs=1000, wide=20):
    """A job whose bounds and limits lie around some point."""
    z = [between(rng, 40) for _ in range(n)]
    l = [x - rng.randrange(wide) for x in z]
    u = [x + rng.randrange(wide) for x in z]
    a = [[between(rng, size) for _ in range(n)] for _ in range(m)]
    lo = [dot(row, z) - rng.randrange(wide) for row in a]
    hi = [dot(row, z) + rng.randrange(wide) for row in a]
    return Job(n, m, g, [between(rng, costs) for _ in range(n)], a, lo, hi, l, u)


def rounded_job(rng, n, m):
    return loose_job(rng, n, m, convex(rng, n))


def drawn_job(rng, n, m):
    """Ropes and rows that are as good as each other, so that most choices are draws."""
    reach = rng.randrange(1, 5)
    cost = rng.choice([-1, 1]) * rng.randrange(1, 60)
    a = [[rng.choice([0, 1, rng.choice([-1, 1])]) for _ in range(n)] for _ in range(m)]
    return Job(n, m, diagonal([2] * n), [cost] * n, a, [-reach] * m, [reach] * m, [-reach] * n, [reach] * n)


def flat_job(rng, n, m):
    """Directions without curvature, which rows and bounds may hold or not."""
    v = [[between(rng, 3) for _ in range(n)] for _ in range((n + 1) // 2)]
    g = [[sum(x[i] * x[j] for x in v) + (i == j and i >= 2) for j in range(n)] for i in range(n)]
    return loose_job(rng, n, m, g)


def leaning_job(rng, n, m):
    """Rows that are sums of others, or nearly so."""
    job = loose_job(rng, n, m, convex(rng, n), wide=6)
    for i in range(2, m):
        p, q = rng.randrange(i), rng.randrange(i)
        job.a[i] = [x + rng.choice([-1, 1]) * y for x, y in zip(job.a[p], job.a[q])] if rng.random() < 0.7 else list(job.a[p])
        if rng.random() < 0.3:
            job.a[i][rng.randrange(n)] += 1
        shift = rng.choice([0, 3, 40])
        job.lo[i], job.hi[i] = job.lo[p] + shift, job.hi[p] + shift
    return job


def big_job(rng, n, m):
    """Numbers of all sizes up to their limits, so that unknowns go beyond theirs and multipliers are held."""
    most = rng.choice([2**10, 2**15, 2**20])
    g = [[between(rng, most // (2 * n)) for _ in range(n)] for _ in range(n)]
    for i in range(n):
        g[i][i] = most - rng.randrange(most // 4)
    job = loose_job(rng, n, m, g, size=rng.choice([9, 1000, 2**20 // n]), costs=rng.choice([2**15, 2**28]), wide=1000)
    job.lo, job.hi = ([max(-(2**29), min(2**29, x)) for x in limits] for limits in (job.lo, job.hi))
    return job


def halved_job(rng, n, m):
    """Unknowns that lie half way between two whole numbers, and multipliers half way between two 256ths."""
    job = loose_job(rng, n, m, diagonal([rng.choice([2, 2, 4]) for _ in range(n)]), costs=99)
    for row in job.a:
        for j in range(n):
            row[j] = rng.choice([0, 0, 16, -32, 32])
    z = [rng.randrange(x, y + 1) for x, y in zip(job.l, job.u)]
    for i, row in enumerate(job.a):
        job.lo[i] = dot(row, z) - rng.randrange(30)
        job.hi[i] = dot(row, z) + rng.randrange(30)
    return job


def slanted_job(rng, n, m):
    """A curvature that is not symmetric."""
    g = [[between(rng, 4) for _ in range(n)] for _ in range(n)]
    for i in range(n):
        g[i][i] += 3 * n
    return loose_job(rng, n, m, g)


MAKERS = [rounded_job, drawn_job, flat_job, leaning_job, big_job, halved_job, slanted_job]

# How many are wanted with each end, and with how many steps at least.
WANTED = [("done", 10, 60), ("done", 5, 50), ("done", 3, 60), ("full", 6, 50), ("full", 3, 40), ("stuck", 6, 40), ("stuck", 2, 50), ("stuck", 1, 10)]


def sizes(rng):
    if rng.random() < 0.1:
        return 16, 32
    return rng.randrange(1, 17), rng.choice([0, 1, 2, 3, 5, 8, 16])


def ended_exchanges(rng):
    """Exchanges that end by themselves, some with just the steps that they need."""
    left = [list(w) for w in WANTED]
    while any(count for _, _, count in left):
        n, m = sizes(rng)
        job = rng.choice(MAKERS)(rng, n, m)
        _, steps, end, _ = exchange(job, 100)
        place = next((w for w in left if w[0] == end and steps >= w[1] and w[2]), None)
        if place is not None:
            place[2] -= 1
            yield words(EXCHANGE, job, rng.choice([1000, 1000, steps + 1, steps]))


def cut_exchanges(rng):
    """Exchanges that lack a single step, and some that turn in a circle."""
    short, circles = 30, 10
    while short or circles:
        n, m = sizes(rng)
        job = rng.choice(MAKERS)(rng, n, m)
        _, steps, end, _ = exchange(job, 300)
        if end != "spent" and steps > 2 and short:
            short -= 1
            yield words(EXCHANGE, job, steps - 1)
        elif end == "spent" and circles and n + m < 16:
            circles -= 1
            yield words(EXCHANGE, job, rng.randrange(20, 60))


def faint_job(rng, n, m):
    """Rows that the best point keeps, or breaks by little, and that its rounding breaks: their multipliers lie close to 0."""
    job = loose_job(rng, n, 0, diagonal([rng.choice([2, 3, 4, 7]) for _ in range(n)]), costs=99, wide=100)
    best = [-c / job.g[j][j] for j, c in enumerate(job.c)]
    job.m, job.a = m, [[between(rng, 1000) for _ in range(n)] for _ in range(m)]
    for row in job.a:
        near = int(dot(row, best)) + rng.randrange(-99, 300)
        low, high = rng.choice([(near - 20000, near), (-near, 20000 - near)])
        if low < 0 and low != near - 20000:
            row[:] = [-x for x in row]
        job.lo.append(low)
        job.hi.append(high)
    return job


def faint_exchanges(rng):
    """Exchanges with multipliers that are close to 0."""
    for _ in range(60):
        yield words(EXCHANGE, faint_job(rng, rng.randrange(1, 6), rng.randrange(1, 8)), 40)


def drawn_exchanges(rng):
    """Exchanges in which it matters who is the first of equals to leave."""
    for _ in range(30):
        job, _ = sheets.twins(rng)
        while not sheets.leaving_draw(job):
            job, _ = sheets.twins(rng)
        yield words(EXCHANGE, job, 1000)


# What is written, and what is told of it.

FAMILIES = [last_moves, refused_walks, limits, large_systems, pivot_edges, unknown_edges, halves, huge_systems, tiny_systems, not_numbers, earlier_pivots, ended_exchanges, cut_exchanges, two_ways, equal_costs, faint_exchanges, drawn_exchanges]


def families():
    """Each family's name and lines. The first three take from one row of random numbers, in turns."""
    rng = random.Random(7)
    for make in (walks, systems, exchanges):
        yield make.__name__, list(make(rng))
    for seed, make in enumerate(FAMILIES):
        yield make.__name__, list(make(random.Random(100 + seed)))


def tell(name, lines, answers):
    """Counts of what came out, on standard error."""
    ends, notes = collections.Counter(), collections.Counter()
    for line, text in zip(lines, answers):
        answered = text.split()
        kind = answered[0]
        ends[f"{answered[2]}" if kind in ("walk", "exchange") else text if kind == "no" else kind] += 1
        if kind == "exchange":
            notes["steps"] += int(answered[1])
            notes["most steps"] = max(notes["most steps"], int(answered[1]))
            notes[f"stuck at the first step"] += answered[1:3] == ["1", "stuck"]
            notes["with 10 steps or more"] += int(answered[1]) >= 10
        if kind in ("solved", "stuck") and line[1] >= 16:
            notes[f"{kind}, 16 unknowns or more"] += 1
    told = ", ".join(f"{end} {count}" for end, count in sorted(ends.items()))
    more = "; ".join(f"{note} {count}" for note, count in notes.items() if count)
    print(f"{name}: {len(lines)}: {told}" + (f" ({more})" if more else ""), file=sys.stderr)


def main(folder):
    lines, answers = [], []
    for name, made in families():
        told = [answer(line) for line in made]
        tell(name, made, told)
        lines += made
        answers += told
    open(os.path.join(folder, "stdin"), "w").write("".join(" ".join(map(str, line)) + "\n" for line in lines))
    open(os.path.join(folder, "stdout"), "w").write("".join(text + "\n" for text in answers))


if __name__ == "__main__":
    main(*sys.argv[1:])

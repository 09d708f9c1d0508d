#!/usr/bin/env python3
"""The two halves of the solver, written independently of the Rattle code: the exchange in Python's floats, which are IEEE doubles, and the walk.

Rules as in docs/WALK.md and docs/EXCHANGE.md. Everything is evaluated afresh at each use; nothing is kept running."""
from dataclasses import dataclass


@dataclass
class Job:
    n: int
    m: int
    g: list  # rows of the curvature
    c: list
    a: list  # rows of coefficients
    lo: list
    hi: list
    l: list
    u: list


def dot(x, y):
    return sum(p * q for p, q in zip(x, y))


def cost(job, z):
    return sum(z[i] * dot(job.g[i], z) for i in range(job.n)) + 2 * dot(job.c, z)


def outside(job, z):
    total = 0
    for i in range(job.m):
        s = dot(job.a[i], z)
        total += max(job.lo[i] - s, s - job.hi[i], 0)
    return total


SIZES = [2**k for k in range(14, -1, -1)]


def lowering(job, z):
    """The first move that lowers, as the point after it, or None."""
    was = (outside(job, z), cost(job, z))
    for j in range(job.n):
        for size in SIZES:
            for d in (size, -size):
                if job.l[j] <= z[j] + d <= job.u[j]:
                    w = z[:j] + [z[j] + d] + z[j + 1 :]
                    if (outside(job, w), cost(job, w)) < was:
                        return w
    return None


def walk(job, z, budget):
    """(moves, end, point)"""
    moves = 0
    while True:
        w = lowering(job, z)
        if w is None:
            return moves, "settled", z
        if moves == budget:
            return moves, "spent", z
        z, moves = w, moves + 1


LEAST, MOST = 2.0**-20, 2.0**60
BOUND = float(2**30)


def solve_in_place(lines, smallest):
    """(smallest pivot size, unknowns or None) of lines of n coefficients and a right side. What a line has beyond that goes with it."""
    n = len(lines)
    for k in range(n):
        size, place = 0.0, k
        for i in range(k, n):
            if abs(lines[i][k]) > size:
                size, place = abs(lines[i][k]), i
        if not LEAST < size < MOST:
            return smallest, None
        smallest = min(smallest, size)
        lines[k], lines[place] = lines[place], lines[k]
        for i in range(k + 1, n):
            f = lines[i][k] / lines[k][k]
            for j in range(k + 1, n + 1):
                lines[i][j] = lines[i][j] - f * lines[k][j]
    unknowns = [0.0] * n
    for k in range(n - 1, -1, -1):
        right = lines[k][n]
        for j in range(k + 1, n):
            right = right - lines[k][j] * unknowns[j]
        unknowns[k] = right / lines[k][k]
        if not abs(unknowns[k]) < BOUND:
            return smallest, None
    return smallest, unknowns


def solve_system(lines, smallest):
    """The same of lines that stay."""
    return solve_in_place([list(line) for line in lines], smallest)


def nearest(x):
    """To the nearest whole number, halves away from zero; exact, since x times 2 is."""
    whole = int(abs(x))
    if abs(x) - whole >= 0.5:
        whole += 1
    return whole if x >= 0 else -whole


def held(low, x, high):
    return max(low, min(high, x))


def step_lines(job, members):
    """The lines of a step: a line for each rope, and one for each member of the working set as they entered."""

    def weight(member, r):
        kind, index, _ = member
        return job.a[index][r] if kind == "row" else int(index == r)

    def limit(member):
        kind, index, side = member
        low, high = (job.lo, job.hi) if kind == "row" else (job.l, job.u)
        return low[index] if side == "lower" else high[index]

    lines = []
    for r in range(job.n):
        lines.append([*job.g[r], *[-weight(w, r) for w in members], -job.c[r]])
    for w in members:
        lines.append([*[weight(w, r) for r in range(job.n)], *[0] * len(members), limit(w)])
    return [[float(x) for x in line] for line in lines]


def entering(job, members, x):
    """The row or bound that x breaks by most ticks, among those that are not in the set on either side."""
    most, who = 0, None
    taken = {(kind, index) for kind, index, _ in members}
    checks = [("row", i, job.lo[i], dot(job.a[i], x), job.hi[i]) for i in range(job.m)]
    checks += [("bound", j, job.l[j], x[j], job.u[j]) for j in range(job.n)]
    for kind, index, low, s, high in checks:
        if (kind, index) not in taken:
            if low - s > most:
                most, who = low - s, (kind, index, "lower")
            if s - high > most:
                most, who = s - high, (kind, index, "upper")
    return who


def leaving(members, y):
    """The place of the member whose multiplier is most wrong."""
    most, who = 0, None
    for place, (_, _, side) in enumerate(members):
        wrong = -y[place] if side == "lower" else y[place]
        if wrong > most:
            most, who = wrong, place
    return who


def exchange(job, budget):
    """(offers, steps, end, smallest pivot size); an offer is a point and a multiplier for each row."""
    members, offers, smallest, steps = [], [], MOST, 0
    while steps < budget:
        steps += 1
        smallest, unknowns = solve_system(step_lines(job, members), smallest)
        if unknowns is None:
            return offers, steps, "stuck", smallest
        x = [nearest(v) for v in unknowns[: job.n]]
        y = [nearest(v * 256.0) for v in unknowns[job.n :]]
        multipliers = [0] * job.m
        for (kind, index, _), value in zip(members, y):
            if kind == "row":
                multipliers[index] = held(-16777216, value, 16777216)
        offers.append(([held(low, v, high) for low, v, high in zip(job.l, x, job.u)], multipliers))
        who = entering(job, members, x)
        if who is not None:
            if len(members) == job.n:
                return offers, steps, "full", smallest
            members.append(who)
            continue
        place = leaving(members, y)
        if place is None:
            return offers, steps, "done", smallest
        del members[place]
    return offers, steps, "spent", smallest

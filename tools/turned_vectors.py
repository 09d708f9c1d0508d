#!/usr/bin/env python3
"""How many cases of the program `vectors` notice that a rule is another: each edit turns one rule of tools/solver.py, and the cases are answered again.

  tools/turned_vectors.py DIR [LABEL..]       for the cases that tools/vectors.py wrote into DIR

Prints how many cases are answered otherwise under each edit. Cases that take Python long, walks of more than 60 moves among them, are left out."""
import os
import sys
import types

HERE = os.path.dirname(os.path.abspath(__file__))
sys.path.insert(0, HERE)
import turned

EDITS = [edit for edit in turned.EDITS if edit[1] == "solver"] + [
    # label, file, old, new
    ("pivot: 2^-20 is taken", "solver", "if not LEAST < size < MOST:", "if not LEAST <= size < MOST:"),
    ("pivot: 2^60 is taken", "solver", "if not LEAST < size < MOST:", "if not LEAST < size <= MOST:"),
    ("pivot: no least", "solver", "if not LEAST < size < MOST:", "if not 0 < size < MOST:"),
    ("pivot: no most", "solver", "if not LEAST < size < MOST:", "if not LEAST < size:"),
    ("pivot: most 2^59", "solver", "MOST = 2.0**-20, 2.0**60", "MOST = 2.0**-20, 2.0**59"),
    ("pivot: what is no number is larger", "solver", "if abs(lines[i][k]) > size:", "if not abs(lines[i][k]) <= size:"),
    ("pivot: begins with line k's entry", "solver", "size, place = 0.0, k", "size, place = abs(lines[k][k]), k"),
    ("pivot: signs count", "solver", "if abs(lines[i][k]) > size:", "if lines[i][k] > size:"),
    ("pivot: the last two lines are not looked at", "solver", "for i in range(k, n):", "for i in range(k, max(k + 1, n - 2)):"),
    ("pivot: the largest so far is kept", "solver", "smallest = min(smallest, size)", "smallest = max(smallest, size) if smallest < MOST else size"),
    ("pivot: the last one counts", "solver", "smallest = min(smallest, size)", "smallest = size"),
    ("pivot: one not taken counts", "solver", "        if not LEAST < size < MOST:", "        smallest = min(smallest, size)\n        if not LEAST < size < MOST:"),
    ("elimination: the lines do not trade places", "solver", "lines[k], lines[place] = lines[place], lines[k]", "lines[k] = list(lines[place])"),
    ("elimination: the lines between move down", "solver", "lines[k], lines[place] = lines[place], lines[k]", "lines.insert(k, lines.pop(place))"),
    ("elimination: the right side stays", "solver", "for j in range(k + 1, n + 1):", "for j in range(k + 1, n):"),
    ("elimination: the pivot's column is cleared", "solver", "for j in range(k + 1, n + 1):", "for j in range(k, n + 1):"),
    ("elimination: lines of factor 0 stay", "solver", "            for j in range(k + 1, n + 1):", "            for j in range(k + 1, n + 1 if f else 0):"),
    ("elimination: the place beyond stays", "solver", "lines[k], lines[place] = lines[place], lines[k]", "lines[k][:n + 1], lines[place][:n + 1] = lines[place][:n + 1], lines[k][:n + 1]"),
    ("elimination: product not rounded", "solver", "lines[i][j] - f * lines[k][j]", "once(lines[i][j], f, lines[k][j])"),
    ("unknowns: product not rounded", "solver", "right = right - lines[k][j] * unknowns[j]", "right = once(right, lines[k][j], unknowns[j])"),
    ("unknowns: products summed first", "solver", "right = right - lines[k][j] * unknowns[j]", "right = right - lines[k][j] * unknowns[j] if j < n - 1 else lines[k][n] - sum(lines[k][i] * unknowns[i] for i in range(k + 1, n))"),
    ("unknowns: ±2^30 is inside", "solver", "if not abs(unknowns[k]) < BOUND:", "if not abs(unknowns[k]) <= BOUND:"),
    ("unknowns: -2^30 is inside", "solver", "if not abs(unknowns[k]) < BOUND:", "if not -BOUND <= unknowns[k] < BOUND:"),
    ("unknowns: what is no number is inside", "solver", "if not abs(unknowns[k]) < BOUND:", "if abs(unknowns[k]) >= BOUND:"),
    ("unknowns: no limit", "solver", "if not abs(unknowns[k]) < BOUND:", "if unknowns[k] != unknowns[k]:"),
    ("unknowns: the first is not looked at", "solver", "if not abs(unknowns[k]) < BOUND:", "if k and not abs(unknowns[k]) < BOUND:"),
    ("rounding: halves to even", "solver", "if abs(x) - whole >= 0.5:", "if abs(x) - whole > 0.5 or (abs(x) - whole == 0.5 and whole % 2):"),
    ("rounding: half added and cut", "solver", "whole = int(abs(x))", "return int(x + 0.5) if x >= 0 else int(x - 0.5)"),
    ("rounding: halves up", "solver", "if abs(x) - whole >= 0.5:", "if abs(x) - whole > 0.5 or (abs(x) - whole == 0.5 and x > 0):"),
    ("offer: multipliers within 2^24 - 1", "solver", "held(-16777216, value, 16777216)", "held(-16777215, value, 16777215)"),
    ("offer: bounds held by x", "solver", "job.l[j], x[j], job.u[j]) for j", "job.l[j], held(job.l[j] - 1, x[j], job.u[j] + 1), job.u[j]) for j"),
    ("offer: y rounded and then times 256", "solver", "nearest(v * 256.0)", "nearest(v) * 256"),
    ("choice: the other side of a member may enter", "solver", "if (kind, index) not in taken:", "if (kind, index, 'lower' if low > s else 'upper') not in members:"),
    ("choice: the most by half", "solver", "if s - high > most:", "if s - high > 2 * most:"),
    ("choice: the last wrong one leaves", "solver", "if wrong > most:", "if wrong > 0:"),
    ("choice: bounds never leave", "solver", "        if wrong > most:", "        if wrong > most and members[place][0] == 'row':"),
    ("choice: full with one member less", "solver", "if len(members) == job.n:", "if len(members) >= max(1, job.n - 1):"),
    ("choice: the last one leaves", "solver", "        del members[place]", "        del members[-1]"),
    ("choice: y before rounding", "solver", "place = leaving(members, y)", "place = leaving(members, unknowns[job.n :])"),
    ("choice: x before rounding", "solver", "x = [nearest(v) for v in unknowns[: job.n]]", "x = [int(v) if v >= 0 else -int(-v) for v in unknowns[: job.n]]"),
    ("system: rows' weights are added", "solver", "*[-weight(w, r) for w in members]", "*[weight(w, r) for w in members]"),
    ("system: costs are added", "solver", "-job.c[r]]", "job.c[r]]"),
    ("system: G transposed", "solver", "[*job.g[r], *[", "[*[line[r] for line in job.g], *["),
    ("system: always the lower limit", "solver", 'return low[index] if side == "lower" else high[index]', "return low[index]"),
    ("end: a spent exchange is done", "solver", 'return offers, steps, "spent", smallest', 'return offers, steps, "done", smallest'),
    ("end: one step more", "solver", "while steps < budget:", "while steps <= budget:"),
    ("end: a stuck step does not count", "solver", 'return offers, steps, "stuck", smallest', 'return offers, steps - 1, "stuck", smallest'),
    ("walk: minus first", "solver", "for d in (size, -size):", "for d in (-size, size):"),
    ("walk: small sizes first", "solver", "for size in SIZES:", "for size in SIZES[::-1]:"),
    ("walk: no 16,384", "solver", "for size in SIZES:", "for size in SIZES[1:]:"),
    ("walk: no 1", "solver", "for size in SIZES:", "for size in SIZES[:-1]:"),
    ("walk: ropes down the list", "solver", "    for j in range(job.n):\n        for size", "    for j in range(job.n)[::-1]:\n        for size"),
    ("walk: an equal cost lowers", "solver", "if (outside(job, w), cost(job, w)) < was:", "if w != z and (outside(job, w), cost(job, w)) <= was:"),
    ("walk: cost alone", "solver", "if (outside(job, w), cost(job, w)) < was:", "if cost(job, w) < was[1]:"),
    ("walk: rows alone", "solver", "if (outside(job, w), cost(job, w)) < was:", "if outside(job, w) < was[0]:"),
    ("walk: cost first", "solver", "if (outside(job, w), cost(job, w)) < was:", "if (cost(job, w), outside(job, w)) < was[::-1]:"),
    ("walk: the most ticks of a row", "solver", "        total += max(job.lo[i] - s, s - job.hi[i], 0)", "        total = max(total, job.lo[i] - s, s - job.hi[i])"),
    ("walk: bounds left out", "solver", "if job.l[j] <= z[j] + d <= job.u[j]:", "if job.l[j] < z[j] + d < job.u[j]:"),
    ("walk: linear costs count once", "solver", "+ 2 * dot(job.c, z)", "+ dot(job.c, z)"),
    ("walk: spent before it is looked", "solver", "        w = lowering(job, z)\n        if w is None:", "        w = lowering(job, z) if moves < budget else z\n        if w is None:"),
    ("walk: one move more", "solver", "if moves == budget:", "if moves == budget + 1:"),
    ("walk: one move less", "solver", "if moves == budget:", "if moves >= max(1, budget) - 1:"),
    ("walk: the move that was due is left", "solver", 'return moves, "spent", z', 'return moves, "spent", w'),
    ("walk: a refused point is held inside", "vectors", '["refused", *point]', '["refused", *[max(low, min(high, z)) for low, z, high in zip(job.l, point, job.u)]]'),
    ("walk: any length will do", "vectors", "if len(point) != job.n or any(", "if any("),
    ("walk: below l will do", "vectors", "any(not low <= z <= high for", "any(not z <= high for"),
    ("walk: above u will do", "vectors", "any(not low <= z <= high for", "any(not low <= z for"),
    ("job: limit of G one more", "vectors", "(g, 2**20)", "(g, 2**20 + 1)"),
    ("job: limit of A one more", "vectors", "(a, 2**20)", "(a, 2**20 + 1)"),
    ("job: limit of c one more", "vectors", "(c, 2**28)", "(c, 2**28 + 1)"),
    ("job: limit of rows one more", "vectors", "(lo + hi, 2**29)", "(lo + hi, 2**29 + 1)"),
    ("job: limit of bounds one more", "vectors", "(l + u, 2**15)", "(l + u, 2**15 + 1)"),
    ("job: limit of G one less", "vectors", "(g, 2**20)", "(g, 2**20 - 1)"),
    ("job: limit of A one less", "vectors", "(a, 2**20)", "(a, 2**20 - 1)"),
    ("job: limit of c one less", "vectors", "(c, 2**28)", "(c, 2**28 - 1)"),
    ("job: limit of rows one less", "vectors", "(lo + hi, 2**29)", "(lo + hi, 2**29 - 1)"),
    ("job: limit of bounds one less", "vectors", "(l + u, 2**15)", "(l + u, 2**15 - 1)"),
    ("job: 17 ropes", "vectors", "1 <= n <= 16", "1 <= n <= 17"),
    ("job: 15 ropes", "vectors", "1 <= n <= 16", "1 <= n <= 15"),
    ("job: no rope", "vectors", "1 <= n <= 16", "n <= 16"),
    ("job: 33 rows", "vectors", "m <= 32", "m <= 33"),
    ("job: 31 rows", "vectors", "m <= 32", "m <= 31"),
    ("job: crossed limits pass", "vectors", "if not fits or any(x > y for x, y in zip(lo + l, hi + u)):", "if not fits:"),
    ("job: equal limits are crossed", "vectors", "any(x > y for x", "any(x >= y for x"),
]


def once(right, x, y):
    """What is left of the right side without x times y, rounded once."""
    from fractions import Fraction

    try:
        return float(Fraction(right) - Fraction(x) * Fraction(y)) or right - x * y
    except (ValueError, OverflowError):
        return right - x * y


def read(name, edit):
    """The module of this name with the edit made."""
    text = turned.source(name)
    if name == "solver":  # for the edit that forgets a stuck step's pivots
        text = text.replace("        steps += 1\n        smallest,", "        steps, before = steps + 1, smallest\n        smallest,")
    if edit is not None and edit[1] == name:
        assert text.count(edit[2]) == 1, edit
        text = text.replace(*edit[2:])
    module = types.ModuleType(name)
    module.__file__ = os.path.join(HERE, name + ".py")
    module.once = once
    sys.modules[name] = module
    exec(compile(text, name + ".py", "exec"), module.__dict__)
    return module


def answers(edit, lines):
    read("solver", edit)
    answer = read("vectors", edit).answer

    def told(line):
        try:
            return answer(line)
        except (IndexError, ValueError, OverflowError, ZeroDivisionError) as fault:
            return repr(fault)

    return [told(line) for line in lines]


def quick(line, text):
    """Whether the case is answered soon, whatever the rule."""
    words = text.split()
    return not (words[0] in ("walk", "exchange") and (int(words[1]) > 60 or line[0] == 0 and line[3] > 60 and words[2] == "spent"))


def main(folder, *labels):
    lines = [list(map(int, text.split())) for text in open(os.path.join(folder, "stdin"))]
    texts = open(os.path.join(folder, "stdout")).read().splitlines()
    kept = [(line, text) for line, text in zip(lines, texts) if quick(line, text)]
    for line, _ in kept:
        if line[0] != 1:
            line[3] = min(line[3], 200)
    lines = [line for line, _ in kept]
    plain = answers(None, lines)
    print(f"{len(lines)} cases", flush=True)
    for edit in EDITS:
        if not labels or any(edit[0].startswith(label) for label in labels):
            noticed = sum(p != q for p, q in zip(plain, answers(edit, lines)))
            print(f"{noticed:5} {edit[0]}", flush=True)


if __name__ == "__main__":
    main(*sys.argv[1:])

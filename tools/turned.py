#!/usr/bin/env python3
"""How many whole jobs notice that a rule is another: each edit turns one rule of tools/solver.py, card.py or sheets.py, and the cards are run again.

  tools/turned.py DIR [LABEL..]       for the cards and texts that tools/sheets.py wrote into DIR

Prints how many cards come out with another text under each edit. Cards whose walk has more than 200 moves are left out, and under an edit a walk is cut at 400."""
import collections
import os
import struct
import sys
import types

HERE = os.path.dirname(os.path.abspath(__file__))

EDITS = [
    # label, file, old, new
    ("pivot: the last of equals", "solver", "if abs(lines[i][k]) > size:", "if abs(lines[i][k]) >= size:"),
    ("pivot: no search", "solver", "for i in range(k, n):", "for i in range(k, k + 1):"),
    ("pivot: least 2^-19", "solver", "LEAST, MOST = 2.0**-20", "LEAST, MOST = 2.0**-19"),
    ("pivot: least 2^-10", "solver", "LEAST, MOST = 2.0**-20", "LEAST, MOST = 2.0**-10"),
    ("pivot: least 2^-21", "solver", "LEAST, MOST = 2.0**-20", "LEAST, MOST = 2.0**-21"),
    ("elimination: by the reciprocal", "solver", "f = lines[i][k] / lines[k][k]", "f = lines[i][k] * (1.0 / lines[k][k])"),
    ("elimination: product rounded otherwise", "solver", "lines[i][j] - f * lines[k][j]", "lines[i][j] - lines[i][k] * lines[k][j] / lines[k][k]"),
    ("unknowns: falling columns", "solver", "for j in range(k + 1, n):\n            right", "for j in range(n - 1, k, -1):\n            right"),
    ("unknowns: within 2^29", "solver", "BOUND = float(2**30)", "BOUND = float(2**29)"),
    ("unknowns: within 2^31", "solver", "BOUND = float(2**30)", "BOUND = float(2**31)"),
    ("unknowns: a stuck step's pivots forgotten", "solver", 'return offers, steps, "stuck", smallest', 'return offers, steps, "stuck", before'),
    ("rounding: halves towards zero", "solver", "if abs(x) - whole >= 0.5:", "if abs(x) - whole > 0.5:"),
    ("rounding: down", "solver", "if abs(x) - whole >= 0.5:", "if False:"),
    ("offer: not held inside the bounds", "solver", "[held(low, v, high) for low, v, high in zip(job.l, x, job.u)]", "x"),
    ("offer: multipliers times 128", "solver", "nearest(v * 256.0)", "nearest(v * 128.0)"),
    ("offer: multipliers of the other sign", "solver", "= held(-16777216, value, 16777216)", "= held(-16777216, -value, 16777216)"),
    ("offer: multipliers not held", "solver", "held(-16777216, value, 16777216)", "value"),
    ("choice: the last of equals enters", "solver", "if low - s > most:", "if low - s >= most and low > s:"),
    ("choice: bounds first", "solver", "for kind, index, low, s, high in checks:", "for kind, index, low, s, high in checks[job.m :] + checks[: job.m]:"),
    ("choice: the last of equals leaves", "solver", "if wrong > most:", "if wrong >= most and wrong > 0:"),
    ("choice: the first wrong one leaves", "solver", "if wrong > most:", "if wrong > 0 and who is None:"),
    ("choice: both sides may enter", "solver", "if (kind, index) not in taken:", "if True:"),
    ("choice: x held inside first", "solver", "who = entering(job, members, x)", "who = entering(job, members, offers[-1][0])"),
    ("choice: upper sides with the wrong sign", "solver", 'if side == "lower" else y[place]', 'if side == "lower" else -y[place]'),
    ("choice: full with one member more", "solver", "if len(members) == job.n:", "if len(members) == job.n + 1:"),
    ("choice: who enters comes first", "solver", "members.append(who)", "members.insert(0, who)"),
    ("budget: 999 steps", "sheets", "STEPS, MOVES = 1000,", "STEPS, MOVES = 999,"),
    ("plan: an equal cost is taken", "sheets", "cost(self.job, z) < cost(self.job, self.point)", "cost(self.job, z) <= cost(self.job, self.point)"),
    ("plan: the last point is taken", "sheets", "(self.point is None or cost(self.job, z) < cost(self.job, self.point))", "True"),
    ("plan: points that break rows are taken", "sheets", "return inside and all(", "return inside and True or all("),
    ("plan: no pair at opening", "sheets", "None, floor(job, job.l, [0] * job.m)", "None, -(10**40)"),
    ("plan: no pairs taken", "sheets", "self.offer_pair(x, y)", "pass"),
    ("plan: the last pair is taken", "sheets", "self.floor = max(self.floor, floor(self.job, p, y))", "self.floor = floor(self.job, p, y)"),
    ("plan: slack counts once", "sheets", "- 2 * slack", "- slack"),
    ("plan: lower limits alone", "sheets", "max(y[i] * (s - job.lo[i]), y[i] * (s - job.hi[i]))", "y[i] * (s - job.lo[i])"),
    ("plan: upper bounds alone", "sheets", "max(r * (p[j] - job.l[j]), r * (p[j] - job.u[j]))", "r * (p[j] - job.u[j])"),
    ("walk: from the lower bounds", "sheets", "start = self.point or (offers[-1][0] if offers else self.job.l)", "start = self.job.l"),
    ("walk: from l where no point is held", "sheets", "(offers[-1][0] if offers else self.job.l)", "self.job.l"),
    ("walk: from the last offer", "sheets", "start = self.point or (offers", "start = (offers"),
    ("walk: its end is not offered", "sheets", "self.offer_point(last)", "pass"),
    ("walk: minus first", "sheets", "for d in (size, -size):", "for d in (-size, size):"),
    ("walk: small sizes first", "sheets", "for size in SIZES:", "for size in SIZES[::-1]:"),
    ("walk: no 16,384", "sheets", "for size in SIZES:", "for size in SIZES[1:]:"),
    ("walk: no 1", "sheets", "for size in SIZES:", "for size in SIZES[:-1]:"),
    ("walk: ropes down the list", "sheets", "move = None\n        for j in range(job.n):", "move = None\n        for j in range(job.n)[::-1]:"),
    ("walk: cost alone", "sheets", "after < out or (after == out and cheaper)", "cheaper"),
    ("walk: rows alone", "sheets", "after < out or (after == out and cheaper)", "after < out"),
    ("walk: bounds left out", "sheets", "if low <= d <= high:", "if low < d < high:"),
    ("card: check sum without weights", "card", "(k + 1) * b", "b"),
    ("card: check sum modulo 65,536", "card", "% 65521", "% 65536"),
    ("card: letters before check sums", "card", "!= check_sum(b):\n            return (2, number, 0)", "== -1:\n            return (2, number, 0)"),
    ("card: spare bytes not looked at", "card", "if b[at]:", "if False:"),
    ("opening: limit of G one more", "sheets", '"G": 4096', '"G": 4097'),
    ("opening: limit of A one more", "sheets", '"A": 1024', '"A": 1025'),
    ("opening: limit of c one more", "sheets", '"c": 2**28', '"c": 2**28 + 1'),
    ("opening: limit of bounds one more", "sheets", '"bounds": 32768', '"bounds": 32769'),
    ("opening: limit of rows one more", "sheets", '"rows": 2**29', '"rows": 2**29 + 1'),
    ("opening: limit of the slip one more", "sheets", '"slip": 131072', '"slip": 131073'),
    ("opening: limits of G one less", "sheets", '"G": 4096', '"G": 4095'),
    ("opening: limits of A one less", "sheets", '"A": 1024', '"A": 1023'),
    ("opening: limit of the slip one less", "sheets", '"slip": 131072', '"slip": 131071'),
    ("opening: symmetry not asked for", "sheets", "if g[i * n + j] != g[j * n + i]:", "if False:"),
    ("opening: crossed bounds pass", "sheets", "if any(x > y for x, y in zip(l, u)):", "if False:"),
    ("opening: crossed limits pass", "sheets", "if any(x > y for x, y in zip(lo, hi)):", "if False:"),
    ("opening: equal bounds are crossed", "sheets", "if any(x > y for x, y in zip(l, u)):", "if any(x >= y for x, y in zip(l, u)):"),
    ("opening: equal limits are crossed", "sheets", "if any(x > y for x, y in zip(lo, hi)):", "if any(x >= y for x, y in zip(lo, hi)):"),
    ("opening: slip strictly", "sheets", "if rest[i] < sum(", "if rest[i] <= sum("),
    ("opening: slip transposed", "sheets", "slip[k * n + i] * slip[k * n + j]", "slip[i * n + k] * slip[j * n + k]"),
    ("opening: slip not asked for", "sheets", "row = slip_fault(n, g, s[\"L\"])", "row = None"),
]


def source(name):
    return open(os.path.join(HERE, name + ".py")).read()


def turned(edit):
    """The module `sheets` as it is with the edit made."""
    for name in ("card", "damage", "solver", "sheets"):
        text = source(name)
        if name == "solver":  # for the edit that forgets a stuck step's pivots
            text = text.replace("        steps += 1\n        smallest,", "        steps, before = steps + 1, smallest\n        smallest,")
        if edit is not None and edit[1] == name:
            assert text.count(edit[2]) == 1, edit
            text = text.replace(*edit[2:])
        if name == "sheets":
            text = text.replace("if moves * self.job.n < 40:", "if False:").replace("assert gap >= 0 and lawful(job, plan.point)", "pass")
            text = text.replace("    try_all(job, plan, counts)\n", "")
            text = text.replace("1000, 100000", "1000, 400").replace("999, 100000", "999, 400")
        module = types.ModuleType(name)
        module.__file__ = os.path.join(HERE, name + ".py")
        sys.modules[name] = module
        exec(compile(text, name + ".py", "exec"), module.__dict__)
    return sys.modules["sheets"]


def texts(sheets, cards):
    out = []
    for data in cards:
        try:
            out.append(sheets.shown(data, collections.Counter()))
        except (IndexError, AssertionError, OverflowError) as fault:
            out.append([repr(fault)])
    return out


def main(folder, *labels):
    stdin, cards, at = open(os.path.join(folder, "stdin"), "rb").read(), [], 0
    while at < len(stdin):
        (length,) = struct.unpack("<H", stdin[at : at + 2])
        cards.append(stdin[at + 2 : at + 2 + length])
        at += 2 + length
    plain = texts(turned(None), cards)
    slow = {k for k, text in enumerate(plain) if len(text) > 1 and int(text[1].split()[1]) > 200}
    cards = [data for k, data in enumerate(cards) if k not in slow]
    plain = [text for k, text in enumerate(plain) if k not in slow]
    print(f"{len(cards)} cards", flush=True)
    for edit in EDITS:
        if not labels or any(edit[0].startswith(label) for label in labels):
            noticed = sum(p != q for p, q in zip(plain, texts(turned(edit), cards)))
            print(f"{noticed:5} {edit[0]}", flush=True)


if __name__ == "__main__":
    main(*sys.argv[1:])

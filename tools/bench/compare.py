#!/usr/bin/env python3
"""The proved code of the static library `solver_c` beside the independent program of tools/bench, over the same cards.

  python3 tools/bench/compare.py [NAME..]     every set of cards, or those that are named

docs/BENCH.md has the commands that build both. This makes the cards (fixed seeds, so they can be made again), and target/both runs them."""
import os
import random
import struct
import subprocess
import sys

HERE = os.path.dirname(os.path.abspath(__file__))
ROOT = os.path.dirname(os.path.dirname(HERE))
sys.path.insert(0, os.path.dirname(HERE))
import card as cards
import sheets

OTHER = os.path.join(ROOT, "target/bench")
BOTH = os.path.join(ROOT, "target/both")


def packed(made):
    return b"".join(struct.pack("<H", len(data)) + data for data in made)


def card_of(job, slip):
    return cards.card(job.n, job.m, sheets.sections_of(job, slip))


def stored():
    """What the program `sheets` is tested on: sound and refused cards of every kind."""
    return open(os.path.join(ROOT, "crates/sheets/stdin"), "rb").read()


def small():
    """Many jobs of 1 to 5 ropes and up to 8 rows."""
    rng, made = random.Random(5), []
    for _ in range(5000):
        n, m = rng.randrange(1, 6), rng.randrange(0, 9)
        made.append(cards.card(n, m, sheets.opened(rng, n, m)[1]))
    return packed(made * 2)


def large():
    """Jobs of 16 ropes and 32 rows of any kind whose walks are short: reading and opening weigh most."""
    rng, made = random.Random(6), []
    while len(made) < 300:
        data = cards.card(16, 32, sheets.opened(rng, 16, 32)[1])
        if ends(data)[1] < 20:
            made.append(data)
    return packed(made * 4)


def walks():
    """Jobs of 16 ropes and 32 rows with walks of 100,000 moves, all rows met."""
    rng = random.Random(7)
    return packed(card_of(*sheets.chain(16, 32, rng)) for _ in range(4))


def outside():
    """Walks of 16 ropes and 32 rows that cannot all be met, so that every try looks at the rows."""
    rng, made = random.Random(8), []
    while len(made) < 4:
        job, slip = sheets.chain(16, 32, rng)
        job.lo[0], job.hi[0] = 400000, 400001
        job.a[1], job.lo[1], job.hi[1] = [-x for x in job.a[0]], -200000, -199999
        for i in range(2, 32):
            low = rng.randrange(-90000, 90000)
            job.lo[i], job.hi[i] = low, low + rng.randrange(2000)
        made.append(card_of(job, slip))
    return packed(made)


def ends(data):
    """Steps and moves of one job, by the other program."""
    text = subprocess.run([OTHER], input=packed([data]), capture_output=True, check=True).stdout.decode().split()
    return int(text[1]), int(text[4])


def exchanges():
    """Jobs of 8 to 16 ropes and 16 to 32 rows whose exchanges take 12 steps or more, and whose walks are short."""
    rng, made = random.Random(9), []
    while len(made) < 100:
        n, m = rng.randrange(8, 17), rng.randrange(16, 33)
        data = cards.card(n, m, sheets.opened(rng, n, m)[1])
        steps, moves = ends(data)
        if 12 <= steps < 1000 and moves < 20:
            made.append(data)
    return packed(made * 10)


def circles():
    """Jobs whose exchanges turn in a circle for all of their 1,000 steps."""
    rng, made = random.Random(10), []
    while len(made) < 20:
        n, m = rng.randrange(2, 13), rng.randrange(2, 25)
        data = cards.card(n, m, sheets.opened(rng, n, m)[1])
        steps, moves = ends(data)
        if steps == 1000 and moves < 1000:
            made.append(data)
    return packed(made * 2)


SETS = [stored, small, large, walks, outside, exchanges, circles]


def main(names):
    folder = os.path.join(ROOT, "target/bench_cards")
    os.makedirs(folder, exist_ok=True)
    sets = []
    for make in SETS:
        name = make.__name__
        if names and name not in names:
            continue
        path = os.path.join(folder, name)
        if not os.path.exists(path) or make is stored:
            with open(path, "wb") as file:
                file.write(make())
        sets.append(f"{name}={path}")
    sys.exit(subprocess.run([BOTH, *sets]).returncode)


if __name__ == "__main__":
    main(sys.argv[1:])

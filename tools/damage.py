#!/usr/bin/env python3
"""Cards, sound and damaged, with what the independent reader in tools/card.py says of each.

  tools/damage.py DIR        writes DIR/stdin (the cards) and DIR/stdout (one line for each)

The seed is fixed, so the files can be made again. The form of stdin stands at the top of crates/card_vectors/src/main.rt."""
import os
import random
import struct
import sys

sys.path.insert(0, os.path.dirname(os.path.abspath(__file__)))
import card as cards

BLOCK = cards.BLOCK
SHAPES = [(2, 1), (1, 0), (3, 2), (16, 32), (12, 11), (16, 0), (11, 23), (1, 32), (8, 4), (16, 1)]


def base(rng, n, m):
    number = lambda: rng.choice([0, 1, -1, rng.randrange(-300, 300), rng.randrange(-(2**31), 2**31)])
    sections = {letter: [number() for _ in range(count)] for letter, count in cards.counts(n, m).items()}
    return cards.card(n, m, sections)


def mend(data, number):
    """Gives the block its check sum again."""
    b = data[number * BLOCK : (number + 1) * BLOCK]
    data[number * BLOCK + 510 : (number + 1) * BLOCK] = struct.pack("<H", cards.check_sum(b))


def damage(rng, data):
    """One random change of the card, in place; its length may change too."""
    blocks = max(1, len(data) // BLOCK)
    k = rng.randrange(blocks)
    kind = rng.randrange(9)
    if len(data) < BLOCK:
        return
    if kind == 0:
        data[rng.randrange(len(data))] ^= 1 << rng.randrange(8)
    elif kind == 1:
        data[k * BLOCK + 1] = rng.randrange(256)
        mend(data, k)
    elif kind == 2:
        data[k * BLOCK] = ord(rng.choice("HGACBRLXhg"))
        mend(data, k)
    elif kind == 3:
        data[k * BLOCK + 2 : k * BLOCK + 4] = struct.pack("<H", rng.choice([0, k + 1, 256, 65535, k]))
        mend(data, k)
    elif kind == 4:
        at = rng.choice([4, 8])
        data[at : at + 4] = struct.pack("<i", rng.choice([-1, 0, 1, 2, 16, 17, 32, 33, -(2**31), 2**31 - 1, 256]))
        mend(data, 0)
    elif kind == 5:
        data[k * BLOCK + rng.randrange(400, 510)] = rng.randrange(1, 256)
        mend(data, k)
    elif kind == 6:
        data[k * BLOCK + rng.randrange(4, 508)] = rng.randrange(256)
        mend(data, k)
    elif kind == 7:
        n = rng.choice([0, 1, 511, 512, 513, 700, len(data) - 512, len(data) + 512, 7680, 7681, 8192])
        if n < len(data):
            del data[max(0, n) :]
        else:
            data += bytes(min(n, 8192) - len(data))
    else:
        data[k * BLOCK + rng.choice([508, 509, 510, 511])] ^= rng.randrange(1, 256)


def verdict(data):
    fault = cards.first_fault(bytes(data))
    if fault is None:
        n, m = struct.unpack("<ii", data[4:12])
        return f"sound {n} {m}"
    return "refused %d at %d %d" % fault


def main(folder):
    rng = random.Random(20)
    bases = [base(rng, n, m) for n, m in SHAPES]
    bases[0] = cards.two_ropes()
    out = bytes([len(bases)]) + b"".join(struct.pack("<H", len(b)) + b for b in bases)
    lines = []
    for k in range(600):
        at = k % len(bases)
        data = bytearray(bases[at])
        for _ in range(rng.choice([0, 1, 1, 1, 1, 2, 3]) if k >= len(bases) else 0):
            damage(rng, data)
        was = bases[at] + bytes(8192)
        changes = [(i, b) for i, b in enumerate(data) if b != was[i]]
        assert len(changes) < 256
        out += bytes([at]) + struct.pack("<HB", len(data), len(changes)) + b"".join(struct.pack("<HB", i, b) for i, b in changes)
        lines.append(verdict(data))
    open(os.path.join(folder, "stdin"), "wb").write(out)
    open(os.path.join(folder, "stdout"), "w").write("\n".join(lines) + "\n")


if __name__ == "__main__":
    main(*sys.argv[1:])

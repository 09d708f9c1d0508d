#!/usr/bin/env python3
"""Job cards, written and read independently of the Rattle code.

  tools/card.py two-ropes > FILE       the card of the two-rope job
  tools/card.py read < FILE            what a reader says of a card

The layout is that of docs/CARD.md; nothing here is shared with the crates."""
import struct
import sys

BLOCK = 512
LETTERS = "HGACBRL"


def check_sum(block):
    return sum((k + 1) * b for k, b in enumerate(block[:510])) % 65521


def block(letter, number, numbers):
    body = bytes([ord(letter), 0]) + struct.pack("<H", number)
    body += b"".join(struct.pack("<i", z) for z in numbers) + bytes(4 * (126 - len(numbers))) + bytes(2)
    return body + struct.pack("<H", check_sum(body))


def counts(n, m):
    return {"H": 2, "G": n * n, "A": m * n, "C": n, "B": 2 * n, "R": 2 * m, "L": n * n}


def card(n, m, sections):
    """The card of n ropes and m rows; sections maps a letter to its numbers."""
    sections = {**sections, "H": [n, m]}
    out = b""
    for letter in LETTERS:
        numbers = sections[letter]
        assert len(numbers) == counts(n, m)[letter]
        for at in range(0, len(numbers), 126):
            out += block(letter, len(out) // BLOCK, numbers[at : at + 126])
    return out


def two_ropes():
    """G = (2, 0; 0, 2), c = (-4, -6), bounds 0 to 10, one row (1, 1) from 0 to 3, slip 0."""
    return card(2, 1, {"G": [2, 0, 0, 2], "A": [1, 1], "C": [-4, -6], "B": [0, 0, 10, 10], "R": [0, 3], "L": [0, 0, 0, 0]})


def first_fault(data):
    """(number, first place, second place) of the first fault, or None."""
    if len(data) % BLOCK or not 1 <= len(data) // BLOCK <= 15:
        return (1, len(data), 0)
    n, m = struct.unpack("<ii", data[4:12])
    layout = [("H", 2)]
    number = 0
    while number < len(data) // BLOCK or number == 0:
        b = data[number * BLOCK : (number + 1) * BLOCK]
        letter, used = layout[number]
        if struct.unpack("<H", b[510:512])[0] != check_sum(b):
            return (2, number, 0)
        if b[0] != ord(letter) or struct.unpack("<H", b[2:4])[0] != number:
            return (3, number, 0)
        if number == 0 and not (1 <= n <= 16 and 0 <= m <= 32):
            return (4, 0, 0)
        for at in [1] + list(range(4 + 4 * used, 510)):
            if b[at]:
                return (5, number, at)
        if number == 0:
            for letter in LETTERS[1:]:
                left = counts(n, m)[letter]
                while left > 0:
                    layout.append((letter, min(left, 126)))
                    left -= 126
            if len(data) != BLOCK * len(layout):
                return (1, len(data), 0)
        number += 1
    return None


def main(words):
    if words == ["two-ropes"]:
        sys.stdout.buffer.write(two_ropes())
    elif words == ["read"]:
        fault = first_fault(sys.stdin.buffer.read(7681))
        print("sound" if fault is None else f"refused {fault[0]} at {fault[1]}")
    else:
        sys.exit(__doc__)


if __name__ == "__main__":
    main(sys.argv[1:])

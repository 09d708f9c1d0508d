#!/usr/bin/env python3
"""Hands cards one by one to the programs that `rt ci` built, sound cards and damaged ones, and compares what they print, on standard
output and on standard error, and their status; and runs the static library from C over whole jobs. To be run at the top.

  tools/programs.py

The texts that are wanted are those stored in crates/, which outside programs made. A program reads at most 7,681 bytes, so a longer card
is to be refused as one of that length. It prints a line for each that came out otherwise, and how many did, in the end."""
import os
import struct
import subprocess
import sys
import tempfile

MOST = 7681
COMPLAINT = b"Error: the card is refused\n"


def words(data, at):
    return struct.unpack_from("<H", data, at)[0], at + 2


def jobs():
    """The cards of whole jobs, each with its sheet or its refusal, and whether it is a sheet."""
    data, at = open("crates/sheets/stdin", "rb").read(), 0
    lines = iter(open("crates/sheets/stdout"))
    while at < len(data):
        length, at = words(data, at)
        card, at = data[at : at + length], at + length
        text = next(lines)
        solved = not text.startswith("refused")
        while solved and not (line := next(lines)).startswith("pivot"):
            text += line
        yield card, text, solved


def damaged():
    """Sound and damaged cards, each with what is said of it: its sizes, or its first fault."""
    data, at = open("crates/card_vectors/stdin", "rb").read(), 1
    bases = []
    for _ in range(data[0]):
        length, at = words(data, at)
        bases.append(data[at : at + length])
        at += length
    for line in open("crates/card_vectors/stdout"):
        card = bytearray(bases[data[at]].ljust(8192, b"\0"))
        length, after = words(data, at + 1)
        changes, at = data[after], after + 1
        for _ in range(changes):
            place, at = words(data, at)
            if place < len(card):
                card[place] = data[at]
            at += 1
        yield bytes(card[: min(length, 8192)]), line.split()


def refused(card, number, place):
    return f"refused {'1' if len(card) > MOST else number} at {MOST if len(card) > MOST else place}\n"


def run(program, card):
    ran = subprocess.run([program], input=card, capture_output=True)
    return ran.stdout.decode(), ran.stderr, ran.returncode


def try_hang(say):
    for card, text, solved in jobs():
        if not solved:
            text = refused(card, *text.split()[1::2])
        wanted = (text, b"", 0) if solved else (text, COMPLAINT, 1)
        say("hang", card, run("crates/hang/out/hang", card), wanted)


def try_contents(say):
    for card, told in damaged():
        out, err, status = run("crates/contents/out/contents", card)
        if told[0] == "sound":
            wanted = (f"ropes {told[1]} rows {told[2]}\n", b"", 0)
            out = out.split("\n")[0] + "\n"
        else:
            wanted = (refused(card, told[1], told[3]), COMPLAINT, 1)
        say("contents", card, (out, err, status), wanted)


def try_library(say):
    kit = os.path.dirname(subprocess.run(["rt", "doc"], capture_output=True, check=True, text=True).stdout.strip())
    # rt ci proves a static library and builds none.
    subprocess.run(["rt", "lib"], cwd="crates/solver_c", stdout=subprocess.DEVNULL, check=True)
    with tempfile.TemporaryDirectory() as room:
        made = f"{room}/solver_c"
        library = "crates/solver_c/out/libsolver_c.a"
        subprocess.run(["cc", "-std=c11", "-O2", "-Wall", "-Wextra", "-Werror", "-o", made, "tools/solver_c.c", library, f"{kit}/c/liblibc_c.a"], check=True)
        with open("crates/sheets/stdin", "rb") as cards:
            ran = subprocess.run([made], stdin=cards, capture_output=True)
        wanted = (open("crates/sheets/stdout").read(), b"", 0)
        say("solver_c", b"", (ran.stdout.decode(), ran.stderr, ran.returncode), wanted)


def main():
    counts = {True: 0, False: 0}

    def say(what, card, came, wanted):
        counts[came == wanted] += 1
        if came != wanted:
            print(what, card.hex(), came, wanted)

    for check in (try_hang, try_contents, try_library):
        check(say)
    print(f"programs: {counts[True]} as wanted, {counts[False]} otherwise")
    sys.exit(counts[False] > 0)


if __name__ == "__main__":
    main()

#!/usr/bin/env python3
"""Brings the definitions and lemmas of this repository to one spelling: words in snake case, types and facts in camel case.

usage: python3 tools/spelling.py        at the top of the repository, once, after the kit's own script

It goes by text. Renamed are the names that specs/ and proofs/ define (fields, constructors and local lemmas too), in every
.antt file, in the clauses and imports of every .rt file, and in must-fail edits. Functions of src/, names of std and names that
Rattle makes (goals and steps of a proof) stay. Names that fall together are listed, and nothing is written then.
"""
import os
import re
import sys

TOKEN = re.compile(r"[^\s(){}\[\];,.«»\"⌜⌝]+")
RESERVED = set(
    "data record deriving module where use mod pub package open as unfoldable abbrev axiom unfold unfolding ruleset mutual infix infixl "
    "infixr elim let in do Type com search simp rw grind cc omega ground assumption hlevel result rules".split()
)
# A name that a plain turn would give to something else.
CHOSEN = {
    "after-all": "after_all_lem",
    "amend-answer": "amend_answer_lem",
    "inBounds": "is_in_bounds",
    "is-of": "is_of_lem",
    "point-shown": "point_shown_lem",
    "section-at": "section_at_lem",
}


def files(*ends):
    for top, dirs, names in os.walk("crates"):
        dirs[:] = sorted(d for d in dirs if d != "out")
        for n in sorted(names):
            if n.endswith(ends):
                yield os.path.join(top, n)


def text(path):
    with open(path, encoding="utf-8") as f:
        return f.read()


def snake(name):
    name = name.replace("′", "'").replace("-", "_")
    name = re.sub(r"([a-z0-9'])([A-Z])", r"\1_\2", name)
    return name.lower()


def camel(name):
    parts = name.replace("′", "'").split("-")
    return "".join(p[:1].upper() + p[1:] for p in parts)


def turned(name):
    if name in CHOSEN:
        return CHOSEN[name]
    if name[:1].isupper():
        return camel(name)
    return snake(name) if name[:1].isalpha() else name


SIG = re.compile(r"^(?:  )*(?:(?:abbrev|unfoldable|pub|record|data|ruleset) )*([^\s(){};,.:=]+)(?: [({:]| :|:)", re.M)


def defined():
    """The names that each .antt file defines."""
    found = {}
    for p in files(".antt"):
        names = set()
        for line in text(p).split("\n"):
            if line.lstrip().startswith(("--", "use ", "mod ", "pub mod", "module ")):
                continue
            m = SIG.match(line)
            if not m:
                continue
            name = m.group(1)
            if re.search(r": *goal\.", line):
                continue
            names.add(name)
        found[p] = names
    return found


def main():
    found = defined()
    ours = set().union(*found.values())
    for p in files(".antt", ".rt"):
        for m in re.finditer(r"^(?:ghost )?use [^{;]*\{([^}]*)\}", text(p), re.M):
            ours |= set(re.findall(r" as ([\w'-]+)", m.group(1)))
    std = set()
    for p in files(".antt", ".rt"):
        for m in re.finditer(r"^(?:ghost )?use ((?!Rattle\.(?:%s)\.)\S+?)\.\{([^}]*)\}" % "|".join(os.listdir("crates")), text(p), re.M):
            std |= {n.split(" as ")[0].strip() for n in m.group(2).split(",")}
    turn = {}
    for n in sorted(ours):
        if n in std or n in RESERVED or not re.fullmatch(r"[A-Za-z0-9_'′-]+", n) or not re.search(r"[a-z0-9'][A-Z]|-|′", n):
            continue
        new = turned(n)
        if new != n:
            turn[n] = new
    clash = []
    for n, new in turn.items():
        if new in RESERVED:
            clash.append(f"{n} would be the reserved {new}")
    for p in files(".antt", ".rt"):
        here = set(TOKEN.findall(text(p)))
        by = {}
        for n in here:
            by.setdefault(turn.get(n, n), set()).add(n)
        for new, olds in by.items():
            if len(olds & ours) > 1:
                clash.append(f"{p}: {new} from {sorted(olds)}")
    if "--dry" in sys.argv:
        for n, new in turn.items():
            print(n, new)
    for c in clash:
        print("clash:", c)
    if clash or "--dry" in sys.argv:
        print(f"{len(turn)} names, {len(clash)} clashes")
        raise SystemExit(1 if clash else 0)
    for p in list(files(".antt", ".rt", ".edit")):
        old = text(p)
        new = turn_text(p, old, turn)
        if new != old:
            with open(p, "w", encoding="utf-8") as f:
                f.write(new)


def turn_text(p, old, turn):
    out = []
    at = 0
    for m in TOKEN.finditer(old):
        word = m.group(0)
        if word not in turn:
            continue
        before = old[max(0, m.start() - 6):m.start()]
        if re.search(r"(?<![\w'])(?:c|goal|l|w)\.$", before):
            continue
        out.append(old[at:m.start()])
        out.append(turn[word])
        at = m.end()
    out.append(old[at:])
    return "".join(out)


if __name__ == "__main__":
    main()

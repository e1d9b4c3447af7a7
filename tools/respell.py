#!/usr/bin/env python3
"""Brings the repository's own definitions and lemmas to today's spelling: words in snake case, types and modules in camel case.

usage: python3 tools/respell.py      at the top of the repository, once, right after port.py

A name is respelled where specs/ or proofs/ or a trait define it with a capital inside (lastTick) or a dash (left-of), and wherever a file cites it.
Types keep their capitals. What the prover makes (loop-m-preserved, returns-in_None) is no definition of the repository's and stays, and so
does all code of src/. A name that would fall together with another one stops the script, and nothing is written.
"""

import os
import re
import sys

# Names that would fall together with something else: these lemmas have the name of a function, so they say that they are lemmas.
BY_HAND = {"ready-times": "ready_times_lem", "points-from": "points_from_lem"}

HEAD = re.compile(r"^(?:abbrev |unfoldable )?(?:pub )?(?:record |data )?(?:pub )?([^\s:(]+)\s*(?:[(:{]|$)")
FIELD = re.compile(r"^\s+(?:pub )?([^\s:(]+)\s*: ")
MEMBER = re.compile(r"^\s+ghost ([^\s:={]+):", re.M)
MADE = re.compile(r"^(returns|loop|invariant|decreases|overflow|in|if|c)-|-requires$")
WORDS = {"use", "mod", "--", "pub", "abbrev", "unfoldable", "record", "data", "where", "unfolding"}
OLD = re.compile(r"[a-z][A-Z]|[\w']-[\w']")
TOKEN = re.compile(r"[\w'\-]+")


def files(kinds):
    for folder, dirs, names in os.walk("crates"):
        dirs[:] = sorted(d for d in dirs if d != "out")
        for name in sorted(names):
            if name.endswith(kinds):
                yield os.path.join(folder, name)


def read(path):
    with open(path, encoding="utf-8") as f:
        return f.read()


def defined():
    """Every name that a file of specs/ or proofs/ defines, but for the answers to what the prover makes; and the ghost members of traits."""
    found = set()
    for path in files((".antt",)):
        for line in read(path).split("\n"):
            for form in (HEAD, FIELD):
                m = form.match(line)
                if m and m.group(1) not in WORDS and ": goal." not in line:
                    found.add(m.group(1))
    for path in files((".rt",)):
        found.update(MEMBER.findall(read(path)))
    return found


def respelled(name):
    if name in BY_HAND:
        return BY_HAND[name]
    if name[0].isupper() or not OLD.search(name) or (MADE.search(name) and not name.startswith("in-range-")):
        return name
    return re.sub(r"(?<=[a-z])([A-Z])", lambda m: "_" + m.group(1).lower(), name).replace("-", "_")


def main():
    names = defined()
    table = {n: respelled(n) for n in names if respelled(n) != n}
    back = {}
    for old, new in table.items():
        if new in names or new in back:
            sys.exit(f"{old} and {back.get(new, new)} would both be {new}")
        back[new] = old
    for path in files((".antt", ".rt", ".edit")):
        text = read(path)
        turned = TOKEN.sub(lambda m: table.get(m.group(0), m.group(0)), text)
        if turned != text:
            with open(path, "w", encoding="utf-8") as f:
                f.write(turned)
    for old in sorted(table):
        print(f"{old} {table[old]}")


if __name__ == "__main__":
    main()

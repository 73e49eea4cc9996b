#!/usr/bin/env python3
"""Respells this repository's own definitions and lemmas: words in snake case, types in camel case.

usage: python3 tools/respell.py      at the top, after the kit's own respelling

A name counts as own where a file of specs/, or a file of lemmas right in proofs/, defines it. Names that the checker makes
(goals, steps of a function) and names of the library keep their spelling, and so do functions of src/ and strings.
What comes to stand beside a word of the same spelling is printed, to be looked at.
"""

import os
import re

WORD = r"[A-Za-z_Α-ωℕℤ⊎≤₀-₉][A-Za-z0-9_'Α-ω₀-₉\-]*"
HEAD = re.compile(r"^\s*(?:(?:abbrev|pub|record|data|unfoldable|opaque)\s+)*(" + WORD + r")(?:\s*[({][^)}]*[)}])*\s*:(?:\s|$)")
OTHERS = re.compile(r"use (?:Rattle\.std|Rattle\.core|lib|mathlib|native|Prim)[\w.·'-]*\.\{([^}]*)\}")
# a step of a function's proof, which the checker names after the code
STEP = re.compile(r"(^|[^A-Za-z0-9_.])[cgl]\.$")


def files(top):
    for folder, dirs, names in os.walk(os.path.join(top, "crates")):
        dirs[:] = sorted(d for d in dirs if d != "out")
        for name in sorted(names):
            if name.endswith((".antt", ".rt")):
                yield os.path.join(folder, name)


def defines(path):
    parts = path.split(os.sep)
    return parts[-2] in ("specs", "proofs") and path.endswith(".antt")


def respelled(name):
    if name[0].isupper():
        first, *more = name.split("-")
        return first + "".join(m[:1].upper() + m[1:] for m in more)
    return name.replace("-", "_")


def main():
    top = os.path.join(os.path.dirname(os.path.abspath(__file__)), "..")
    texts = {p: open(p, encoding="utf-8").read() for p in files(top)}
    own = set()
    for path, text in texts.items():
        if defines(path):
            own |= {m.group(1) for m in map(HEAD.match, text.split("\n")) if m and "-" in m.group(1)}
    words = {w for p, t in texts.items() if p.endswith(".antt") for w in re.findall(WORD, t)}
    for name in sorted(own):
        if respelled(name) in words:
            print("look: %s becomes %s, which stands in a file too" % (name, respelled(name)))
    count = 0
    for path, text in texts.items():
        library = {w for group in OTHERS.findall(text) for item in group.split(",") for w in item.strip().split(" as ")}

        def turned(m):
            nonlocal count
            name = m.group(0)
            if name not in own or name in library or not defines(path) and STEP.search(text[: m.start()][-3:]):
                return name
            count += 1
            return respelled(name)

        new = re.sub(WORD, turned, text)
        if new != text:
            with open(path, "w", encoding="utf-8") as f:
                f.write(new)
    print("%d names respelled, in %d places" % (len(own), count))


if __name__ == "__main__":
    main()

#!/usr/bin/env python3
"""Turns the dashed names of this repository's own definitions, lemmas, fields and constructors into snake case, its
types into camel case.

usage: python3 tools/snake_names.py [--list]      at the top of the repository, once, after port.py

Own names are those that a file of specs/ or proofs/ declares, but for the answers and invariants whose names Rattle gives
(`loop-i-preserved : goal.loop-i-preserved`). Names stand in .antt files, in the ghost text of .rt files and in .edit
files; comments, strings and Rust identifiers stay. With --list nothing is written: it prints each name with its new
spelling, and the names that would fall together with another.
"""

import os
import re
import sys

LETTER = r"[\w'\-≡≢≤≥<>+*ℕℓ]"
DASHED = re.compile(r"(?<!" + LETTER + r")([A-Za-z_][\w'≡≢≤≥<>+*]*(?:-[\w'≡≢≤≥<>+*]+)+)(?!" + LETTER + ")")
DECLARES = re.compile(r"^\s*(?:(?:abbrev|unfoldable|pub|data|record|ruleset|postulate)\s+)*([A-Za-z_][\w'\-≡≢≤≥<>+*]*)\s*(?:[:=(]|$)")
GIVEN = re.compile(r":\s*(?:goal|need|given)\.")
ALIAS = re.compile(r"\bas ([a-z][\w']*(?:-[\w']+)+)")
TYPES = {"Law-of-runs": "LawOfRuns", "Switch-law": "SwitchLaw"}


def files(*endings):
    for folder, dirs, names in os.walk("crates"):
        dirs[:] = sorted(d for d in dirs if d not in ("out", "data"))
        for name in sorted(names):
            if name.endswith(endings):
                yield os.path.join(folder, name)


def read(path):
    with open(path, encoding="utf-8") as f:
        return f.read()


def spelled(name):
    return TYPES.get(name, name.replace("-", "_"))


def own_names():
    found = set()
    for path in files(".antt", ".rt"):
        text = read(path)
        found |= set(ALIAS.findall(text))
        for line in text.splitlines() if path.endswith(".antt") else []:
            m = DECLARES.match(line)
            if m and "-" in m[1] and not GIVEN.search(line) and (":" in line or line.strip().startswith("ruleset")):
                found.add(m[1])
    return found


def pieces(text, comment):
    """The text in pieces: (is code, piece). Comments and strings are no code."""
    out, start, i = [], 0, 0
    while i < len(text):
        if text.startswith(comment, i) and not (comment == "--" and i and re.match(LETTER, text[i - 1])):
            end = text.find("\n", i)
            end = len(text) if end < 0 else end
        elif text[i] == '"':
            end = i + 1
            while end < len(text) and text[end] != '"':
                end += 2 if text[end] == "\\" else 1
            end = min(end + 1, len(text))
        else:
            i += 1
            continue
        out += [(True, text[start:i]), (False, text[i:end])]
        start = i = end
    return out + [(True, text[start:])]


def turned(text, names, comment):
    swap = lambda m: spelled(m[1]) if m[1] in names else m[0]
    return "".join(DASHED.sub(swap, p) if code else p for code, p in pieces(text, comment))


def main():
    names = own_names()
    if "--list" in sys.argv[1:]:
        known = set()
        for path in files(".antt", ".rt"):
            known |= set(re.findall(r"[A-Za-z_][\w']*", read(path)))
        for name in sorted(names):
            new = spelled(name)
            print(name, new, "FALLS TOGETHER" if new in known else "")
        return
    for path in files(".antt", ".rt", ".edit"):
        text = read(path)
        new = turned(text, names, "--" if path.endswith(".antt") else "//")
        if new != text:
            with open(path, "w", encoding="utf-8") as f:
                f.write(new)


main()

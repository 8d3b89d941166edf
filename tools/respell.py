#!/usr/bin/env python3
"""Brings the names of the crates' definitions and lemmas to one spelling: words in snake case, types in camel case.

usage: python3 tools/respell.py            in the repository, once, behind the scripts that turn an older repository

It goes over specs/, proofs/ and the clauses of src/. Left as they are: names of the libraries, names that the check
makes (they stand behind a point, as in `c.loop-test`, or are declared as `goal.NAME`), strings, and comments but for
names in backquotes. Code has no names with dashes, and rt fmt sets blanks around its operators.
It refuses to run where two of the names would fall together, and lists each that becomes a word which stands already.
"""

import os
import re
import sys

NAME = r"[A-Za-z0-9_'ℕℤ-]+"
HYPHENED = re.compile(rf"(\.|(?<![A-Za-z0-9_'ℕℤ.-]))({NAME})(?![A-Za-z0-9_'ℕℤ-])")
# strings, which may go over several lines, the character of a quote, and comments
QUIET = re.compile(r'''"(?:[^"\\]|\\.)*"|'"'|(?:--|//)[^\n]*''', re.DOTALL)
MADE = re.compile(rf"(?m)^\s*(?:abbrev )?(?:pub )?({NAME}) : goal\.\1\b|goal\.({NAME})")
USED = re.compile(r"(?ms)^(?:pub )?(?:ghost )?use (\w+)\.(\w+)[^;{\n]*\{([^}]*)\}")
FIELD = re.compile(rf"(?m)^\s+pub ({NAME}) :")


def respelled(name):
    if name[0].isupper():
        return "".join(part[:1].upper() + part[1:] for part in name.split("-"))
    return name.replace("-", "_")


def own(name):
    return "-" in name.strip("-") and name[0].isalpha()


def answers_goals(path):
    """Whether the file names goals and loops of one function, and not lemmas of its own."""
    return os.path.basename(path) in ("Answers.antt", "Invariants.antt", "Proof.antt")


def files():
    for folder, below, names in os.walk("crates"):
        below[:] = sorted(b for b in below if b not in ("out", "must-fail", "data"))
        for name in sorted(names):
            if name.endswith((".antt", ".rt")):
                yield os.path.join(folder, name)


def loud(text):
    """The text without strings and comments, at the same length and in the same lines."""
    return QUIET.sub(lambda m: re.sub(r"[^\n]", " ", m.group()), text)


def of_the_library(text, crates):
    names = set()
    for m in USED.finditer(text):
        if m.group(1) != "Rattle" or m.group(2) not in crates:
            names |= set(re.split(r"[,\s]+", m.group(3)))
    return names


def names_of(text, crates):
    """The hyphened names that a file has of its own: not of the library, and not made by the check."""
    made = {n for m in MADE.finditer(text) for n in m.groups() if n}
    kept = made | of_the_library(text, crates)
    found = {m.group(2) for m in HYPHENED.finditer(loud(text)) if not m.group(1) and own(m.group(2))}
    return found - kept


def turned(path, text, names, fields, crates):
    mine = names_of(text, crates)

    def turn(m):
        point, name = m.group(1), m.group(2)
        if not own(name):
            return m.group()
        if point:
            return point + (respelled(name) if name in fields else name)
        return respelled(name) if name in mine and (path.endswith(".antt") or name in names) else name

    def quoted(m):
        part = m.group()
        if part[0] in "\"'":
            return part
        return re.sub(rf"`({NAME})`", lambda q: f"`{respelled(q.group(1))}`" if q.group(1) in names else q.group(), part)

    out, last = [], 0
    for m in QUIET.finditer(text):
        out += [HYPHENED.sub(turn, text[last : m.start()]), quoted(m)]
        last = m.end()
    return "".join(out) + HYPHENED.sub(turn, text[last:])


def main():
    crates = set(os.listdir("crates"))
    texts = {}
    for path in files():
        with open(path, encoding="utf-8") as f:
            texts[path] = f.read()
    names, fields = set(), set()
    for path, text in texts.items():
        if path.endswith(".antt"):
            names |= names_of(text, crates)
            if not answers_goals(path):
                fields |= {n for n in FIELD.findall(loud(text)) if own(n)}
    plain = {m.group(2) for p, t in texts.items() if p.endswith(".antt") for m in HYPHENED.finditer(loud(t))}
    together = {}
    for name in sorted(names):
        together.setdefault(respelled(name), []).append(name)
    for new, olds in together.items():
        if len(olds) > 1:
            sys.exit(f"respell: {olds} would all be {new}")
        if new in plain:
            print(f"look: {olds[0]} is {new} now, which already stood somewhere")
    turned_files = 0
    for path, text in texts.items():
        new = turned(path, text, names, fields, crates)
        if new != text:
            turned_files += 1
            with open(path, "w", encoding="utf-8") as f:
                f.write(new)
    print(f"respell: {len(names)} names, {turned_files} files")


if __name__ == "__main__":
    main()

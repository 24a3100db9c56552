#!/usr/bin/env python3
"""Turns this repository's own names in specs/, proofs/, clauses and must-fail edits to snake case.

usage: python3 tools/snake_names.py        at the top, once, after /opt/rattle/port/port.py

The names of definitions, lemmas, fields, constructors and variables that were spelled with dashes are spelled with
underscores, a function into Type in upper camel case. Names of Rattle's library, and the names that Rattle makes for
goals and steps (loop-i-preserved, returns-in_err-value), keep theirs. Comments and strings stay as they are.
"""

import glob
import os
import re

WORD = re.compile(r"[^\W\d][\w'?]*(?:-[\w'?]+)*")
TYPES = {"Lower-by": "LowerBy"}
# names that a file's own text gives by 'as', or by a signature other than a goal's
SIGNED = re.compile(r"^(?:abbrev |pub |unfoldable |pattern )*([^\W\d][\w'?-]*) : (?!goal\.|need\.)")


def code(line, comment):
    """The line's parts, each with whether it is code: strings and what follows the comment mark are not."""
    parts, at, n = [], 0, len(line)
    while at < n:
        if line[at] == '"':
            end = at + 1
            while end < n and line[end] != '"':
                end += 2 if line[end] == "\\" else 1
            end = min(end + 1, n)
            parts.append((line[at:end], False))
            at = end
        elif line.startswith(comment, at) and (at == 0 or line[at - 1].isspace()) and (comment == "//" or line[at + 2 : at + 3] in ("", " ", "\n")):
            parts.append((line[at:], False))
            break
        else:
            end = at + 1
            while end < n and line[end] != '"' and not line.startswith(comment, end):
                end += 1
            parts.append((line[at:end], True))
            at = end
    return parts


def lines(path):
    with open(path, encoding="utf-8") as f:
        return f.read().split("\n")


def words(path):
    for line in lines(path):
        for part, is_code in code(line, "--"):
            if is_code:
                for m in WORD.finditer(part):
                    yield m.group()


def own_crates():
    return [os.path.basename(c) for c in glob.glob("crates/*") if os.path.isdir(c)]


def own_names():
    """The names with a dash that this repository's specs/ and lemma files have, but for the library's."""
    crates, found, library = own_crates(), set(), set()
    free = glob.glob("crates/*/specs/**/*.antt", recursive=True) + glob.glob("crates/*/proofs/*.antt")
    for path in free:
        found.update(w for w in words(path) if "-" in w)
    for path in glob.glob("crates/**/*.antt", recursive=True) + glob.glob("crates/*/src/**/*.rt", recursive=True):
        for line in lines(path):
            m = re.match(r"(?:ghost |pub )*use (?:Rattle\.)?(\w+)\S*\.\{(.*)\}", line)
            if m:
                for name in m.group(2).split(","):
                    first, _, second = name.strip().partition(" as ")
                    if m.group(1) not in crates:
                        library.add(first)
                    if "-" in second:
                        found.add(second)
            m = SIGNED.match(line)
            if m and "-" in m.group(1):
                found.add(m.group(1))
    return {n for n in found if "-" in n and n not in library}


def turned(name, names):
    if name in TYPES:
        return TYPES[name]
    return name.replace("-", "_") if name in names else name


def turn(text, names, comment):
    out = []
    for line in text.split("\n"):
        out.append("".join(WORD.sub(lambda m: turned(m.group(), names), part) if is_code else part for part, is_code in code(line, comment)))
    return "\n".join(out)


def main():
    names = own_names()
    paths = glob.glob("crates/**/*.antt", recursive=True) + glob.glob("crates/*/src/**/*.rt", recursive=True) + glob.glob("crates/*/must-fail/*.edit")
    for path in sorted(paths):
        if "/out/" in path:
            continue
        with open(path, encoding="utf-8") as f:
            old = f.read()
        new = turn(old, names, "//" if path.endswith(".rt") else "--")
        if new != old:
            with open(path, "w", encoding="utf-8") as f:
                f.write(new)
    print(len(names), "names turned")


if __name__ == "__main__":
    main()

#!/usr/bin/env python3
"""Brings this repository's own names of specs/ and proofs/ to one spelling: snake case, as the library has it.

usage: python3 tools/respell.py        at the top, once, right after /opt/rattle/port/port.py

A name of ours is one that some .antt file declares or binds. A dash in it becomes `_`, and so does a hump (`asNegative` is `as_negative`).
Names of the library, and names that the checker makes (goals, and steps under them), are left. Prose in comments is left, but for the
names in the index at a file's head and between backticks. A name that would fall together with one of the code, as a definition that
mirrors a function, gets `_lem`.
"""

import os
import re
import sys

NAME = r"[A-Za-z0-9_'\u2080-\u209f\u03b1-\u03ba\u03bc-\u03c9\u2100-\u214f-]"
TOKEN = re.compile(r"(?<!%s)[a-z]%s*(?<!-)" % (NAME, NAME))
USE = re.compile(r"^\s*(?:pub )?(?:ghost )?use (\S+?)\.\{([^}]*)\}", re.M)
DECLARED = re.compile(r"^\s*(?:(?:abbrev|unfoldable|pub|let|axiom)\s+)*([a-z]%s*)\s*(?:[({].*?[)}]\s*)*:(?!:)" % NAME, re.M)
BOUND = re.compile(r"[({]((?:[a-z]%s*\s+)*[a-z]%s*)\s+:\s" % (NAME, NAME))
LAMBDA = re.compile(r"λ\s+((?:[a-z]%s*\s+)*[a-z]%s*)\s*\." % (NAME, NAME))
GOAL = re.compile(r"\b(?:goal|need|given)\.([a-z]%s*)" % NAME)
INDEX = re.compile(r"^(\s*--\s{2,})([a-z]%s*)(\s{2,}.*)$" % NAME)


def files(kinds):
    for folder, dirs, names in os.walk("crates"):
        dirs[:] = sorted(d for d in dirs if d not in ("out", "target"))
        for name in sorted(names):
            if name.endswith(kinds):
                yield os.path.join(folder, name)


def read(path):
    with open(path, encoding="utf-8") as f:
        return f.read()


def plain(text):
    """The text without its comments."""
    return re.sub(r"--(?=\s|$).*", "", text)


def snake(name):
    return re.sub(r"(?<=[a-z])([A-Z])", lambda m: "_" + m.group(1).lower(), name).replace("-", "_")


def main():
    ours, library, made, seen = set(), set(), set(), set()
    for path in files((".antt", ".rt")):
        text = plain(read(path))
        for where, words in USE.findall(text):
            root = where.split(".")[0:2]
            if root[0] != "Rattle" or (len(root) > 1 and not os.path.isdir(os.path.join("crates", root[1]))):
                library.update(w.split(" as ")[0].strip() for w in words.split(","))
        made.update(GOAL.findall(text))
        seen.update(TOKEN.findall(text))
        if path.endswith(".antt"):
            ours.update(DECLARED.findall(text))
            for group in BOUND.findall(text) + LAMBDA.findall(text):
                ours.update(group.split())
    turn = {}
    for name in sorted(ours):
        new = snake(name)
        if new == name or name in made:
            continue
        if name in library:
            print(f"left, a name of the library too: {name}")
            continue
        if new in seen or new in turn.values():
            print(f"falls together with a name of the code or of ours: {name} is {new}_lem")
            new += "_lem"
        if new in seen or new in turn.values():
            raise SystemExit(f"{name} and {new} fall together")
        turn[name] = new

    def swap(text):
        return TOKEN.sub(lambda m: turn.get(m.group(0), m.group(0)), text)

    def line_of(line, mark):
        head = INDEX.match(line)
        if head:
            return head.group(1) + swap(head.group(2)) + ticked(head.group(3))
        at = re.search(mark + r"(?=\s|$)", line)
        cut = at.start() if at else len(line)
        return swap(line[:cut]) + ticked(line[cut:])

    def ticked(text):
        return re.sub(r"`[^`\n]*`", lambda m: swap(m.group(0)), text)

    count = 0
    for path in files((".antt", ".rt", ".edit")):
        old = read(path)
        mark = "--" if path.endswith(".antt") else "//"
        new = "\n".join(line_of(line, mark) for line in old.split("\n"))
        if new != old:
            count += 1
            with open(path, "w", encoding="utf-8") as f:
                f.write(new)
    for folder in ("docs",):
        for name in sorted(os.listdir(folder)):
            if name.endswith(".md"):
                path = os.path.join(folder, name)
                old = read(path)
                new = ticked(old)
                if new != old:
                    count += 1
                    with open(path, "w", encoding="utf-8") as f:
                        f.write(new)
    print(f"{len(turn)} names turned, in {count} files")


if __name__ == "__main__":
    sys.exit(main())

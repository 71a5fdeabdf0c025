#!/usr/bin/env python3
"""Turns the repository's own definitions and lemmas to snake case: `read-written` to `read_written`, `T-cnf` to `t_cnf`.

usage: tools/snake_names.py [--dry] [FOLDER]      once, at the top of the repository, right after the kit's port.py

Only names that a file of specs/ or proofs/ declares are turned, wherever they stand: in .antt and .rt files, in must-fail edits, and between
backticks in README.md, docs/ and other pages. A name that a file takes from the library keeps its spelling there. Two names that would become one
stop the run.
"""

import os
import re
import sys

DECLARES = re.compile(r"^(\s*)((?:(?:pub|abbrev|unfoldable)\s+)*)([^\s(){}\[\],;.:]+(?:\s+[^\s(){}\[\],;.:]+)*)\s+:(?:\s|$)")
TOKEN = re.compile(r"[^\s(){}\[\],;.:«»\"`]+")
IMPORTS = re.compile(r"^\s*(?:ghost )?use ([^\s{;]+)(?:\{([^}]*)\})?", re.M)
# Where lower case would make two names one, or take a name that is in use, the name says more.
TAKEN = {}


def turned(name):
    if name in TAKEN:
        return TAKEN[name]
    return name.replace("getD", "get_or").replace("-", "_").lower()


def files(root, endings, below=None):
    for folder, dirs, names in os.walk(os.path.join(root, below) if below else root):
        dirs[:] = sorted(d for d in dirs if d not in ("out", ".git", "target"))
        for name in sorted(names):
            if name.endswith(endings):
                yield os.path.join(folder, name)


def read(path):
    with open(path, encoding="utf-8") as f:
        return f.read()


def declared(root):
    found = {}
    for path in files(root, ".antt", "crates"):
        for line in read(path).splitlines():
            if line.lstrip().startswith("--"):
                continue
            m = DECLARES.match(line)
            for name in m.group(3).split() if m else []:
                found.setdefault(name, set()).add(path)
    return found


def from_library(text):
    """The names that a file takes from outside the repository, by its use lines."""
    taken = set()
    for path, names in IMPORTS.findall(text):
        if not path.startswith("Rattle.") or path.startswith("Rattle.std."):
            taken.update(n.strip().split(" ")[0] for n in (names or "").replace("\n", " ").split(","))
    return taken


def turn(text, names):
    return TOKEN.sub(lambda m: turned(m.group(0)) if m.group(0) in names else m.group(0), text)


def turn_ticked(text, names):
    return re.sub(r"`[^`\n]*`", lambda m: turn(m.group(0)[1:-1], names).join("``"), text)


def main(argv):
    dry = "--dry" in argv
    rest = [a for a in argv if a != "--dry"]
    root = rest[0] if rest else "."
    found = declared(root)
    names = {n for n in found if "-" in n}
    became = {}
    for n in sorted(found):
        became.setdefault(turned(n) if n in names else n, []).append(n)
    falls = [old for old in became.values() if len(old) > 1]
    for old in falls:
        print("fall together: " + " ".join(old))
    if falls:
        return 1
    changed = 0
    for path in files(root, (".antt", ".rt", ".edit", ".rt.in", ".md")):
        text = read(path)
        here = names - from_library(text)
        new = turn_ticked(text, here) if path.endswith(".md") else turn(text, here)
        if path.endswith(".rt"):
            words = set(re.findall(r"[A-Za-z_][A-Za-z0-9_]*", text))
            for n in sorted(here):
                if re.search(r"(?<![\w'-])" + re.escape(n) + r"(?![\w'-])", text) and turned(n) in words:
                    print(f"look: {path}: {n} becomes a word that stands there: {turned(n)}")
        if new != text:
            changed += 1
            if not dry:
                with open(path, "w", encoding="utf-8") as f:
                    f.write(new)
    print(f"{len(names)} names, {changed} files")
    return 0


if __name__ == "__main__":
    raise SystemExit(main(sys.argv[1:]))

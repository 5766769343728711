#!/usr/bin/env python3
"""Brings this repository's own names to Rattle's spelling: words in snake case, facts and types in upper camel case.

Run once at the top, after the kit's own script for older repositories. A name counts where it stands as a whole part of a word,
between dashes, dots or spaces, in .antt and .rt files, must-fail edits, README.md and docs/.
"""
import pathlib
import re
import sys

# Names that fall together with another one in snake case, lemmas that are renamed for that, and facts: old name, new name, and where.
SPECIAL = [
    ("in_order", "order-topological", ["crates/graph/proofs/Demand3.antt"]),
    ("is_digit", "digit-range", ["crates/decimal/proofs", "crates/text/proofs"]),
    ("same_key", "same_key-is", ["crates/second/proofs"]),
    ("written_as", "decimal-written", ["crates/decimal/proofs"]),
    ("written_at", "written-digit", ["crates/decimal/proofs", "crates/text/proofs"]),
    ("both_ways", "reaches-both", ["crates/ancestors/proofs"]),
    ("bothWays", "BothWays", ["crates/text", "edits/text"]),
    ("allWrong", "AllWrong", ["crates/text", "edits/text"]),
    ("Key.Lock", "Key.lock", ["crates/second"]),
    ("Key.Thread", "Key.thread", ["crates/second"]),
    ("Key.Writer", "Key.writer", ["crates/second"]),
    ("Key.Reader", "Key.reader", ["crates/second"]),
]

# In the file that declares them, constructors stand alone.
CONSTRUCTORS = ("crates/second/specs/Cells.antt", ["Lock", "Thread", "Writer", "Reader"])

# Names of the logic's library that keep their spelling.
KEPT = {"not_T"}

CAMEL = re.compile(r"(?<![A-Za-z0-9_'])([a-z][a-z0-9_]*[A-Z][A-Za-z0-9_]*)(?![A-Za-z0-9_])")


def snake(name):
    return re.sub(r"(?<=[a-z0-9])([A-Z])", lambda m: "_" + m.group(1).lower(), name)


def whole(name):
    return re.compile(r"(?<![A-Za-z0-9_'.-])" + re.escape(name) + r"(?![A-Za-z0-9_'-])")


def declared(root):
    """The camel-case names that the .antt files hold: only these are turned, wherever they stand."""
    names = set()
    for path in root.glob("crates/**/*.antt"):
        for line in path.read_text(encoding="utf-8").splitlines():
            code = re.sub(r"--(?= |$).*", "", line)
            names.update(CAMEL.findall(code))
    return names - KEPT


def main():
    root = pathlib.Path(sys.argv[1] if len(sys.argv) > 1 else ".")
    files = [p for kind in ("crates/**/*.antt", "crates/**/*.rt", "crates/**/*.edit", "edits/**/*.edit", "docs/*.md") for p in root.glob(kind) if "out" not in p.parts]
    files.append(root / "README.md")
    names = declared(root)
    changed = 0
    for path in files:
        old = text = path.read_text(encoding="utf-8")
        place = path.relative_to(root).as_posix()
        for name, new, where in SPECIAL:
            if any(place.startswith(w) for w in where):
                text = whole(name).sub(new, text)
        if place == CONSTRUCTORS[0]:
            for name in CONSTRUCTORS[1]:
                text = re.sub(r"(?m)^  " + name + r" :", "  " + name.lower() + " :", text)
        turn = names
        text = CAMEL.sub(lambda m: snake(m.group(1)) if m.group(1) in turn else m.group(1), text)
        if text != old:
            path.write_text(text, encoding="utf-8")
            changed += 1
    print(f"{len(names)} names, {changed} files")


main()

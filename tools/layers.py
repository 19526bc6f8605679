#!/usr/bin/env python3
"""Compares the crates that the pages name with those of crates.txt: tools/layers.py

The tables of docs/ARCHITECTURE.md, 'Layers', have the headings of crates.txt and a row for each crate, in the same order.
What README.md or a page of docs/ names like a crate is one. Prints each fault, and last how many there are. The status is 1
if there is one.
"""

import re
import sys
from itertools import zip_longest
from pathlib import Path

TOP = Path(__file__).resolve().parent.parent
TABLE = TOP / "crates.txt"
PAGE = TOP / "docs/ARCHITECTURE.md"

# How the name of a crate of the repository begins.
NAME = re.compile(r"\b(?:qx|test|demo|bench)_\w+")


def listed(text, heading, crate):
    """The crates below each heading of a text, by what its lines begin with."""
    found, layer = {}, ""
    for line in text.split("\n"):
        if it := re.match(heading, line):
            layer = it[1]
            found[layer] = []
        elif it := re.match(crate, line):
            found.setdefault(layer, []).append(it[1])
    return found


def layers():
    """The crates of each layer, by its heading, lowest first."""
    return listed(TABLE.read_text(), r"# (\d+\. .+)", r"(\w+):")


def rows():
    """The same as the page has it."""
    section = PAGE.read_text().split("\n## Layers\n")[1].split("\n## ")[0]
    return listed(section, r"### (\d+\. .+)", r"\| `(\w+)` \|")


def lines(found):
    return [line for heading, crates in found.items() for line in [heading, *crates]]


def main():
    pairs = zip_longest(lines(layers()), lines(rows()), fillvalue="nothing")
    faults = [f"docs/ARCHITECTURE.md has {row} where crates.txt has {line}" for line, row in pairs if line != row][:1]
    for page in [TOP / "README.md", *sorted(TOP.glob("docs/*.md"))]:
        names = sorted({*NAME.findall(page.read_text())} - {*lines(layers())})
        faults += [f"{page.relative_to(TOP)}: {name} is no crate" for name in names]
    print(*faults, f"{len(faults)} faults", sep="\n")
    return 1 if faults else 0


if __name__ == "__main__":
    sys.exit(main())

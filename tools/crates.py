#!/usr/bin/env python3
"""The crates by the floors of crates.txt: draws them, or lists the files of their definitions.

`drawing` prints the drawing of docs/architecture.md: the floors from the top down, and in each floor rows, of which a crate
stands on crates of lower rows alone. `definitions` prints docs/definitions-by-crate.md: of each crate the files of `specs/`, each
with the first sentence of its heading. check.py compares both pages with this.

Status: 0; 2 at other words.
usage: crates.py drawing | definitions
"""

import collections
import re

import packaged  # noqa: F401  (where tulgexar is)
import shipped
from tulgexar.words import BadWords, run

# A floor: its name, and its crates, lowest first, each with those of the repository that it stands on.
Floor = collections.namedtuple("Floor", "name crates")

WIDTH, GAP, INDENT = 110, "   ", "    "

HEADING = """\
# Definitions by crate

Made by `tools/crates.py definitions` from the sources, in the order of `crates.txt`: the files of each crate's `specs/`, with what each
says of itself. [definitions.md](definitions.md) says which rule stands where, and how the longer ones read; how definitions and code stand
beside each other is told in the heading of the crate's `lib.rt`. A name is found by `grep -rnw NAME crates/*/specs`.
"""


def floors():
    """The floors of crates.txt, lowest first."""
    lines = [line for line in shipped.read(shipped.ROOT / "crates.txt").splitlines()[1:] if line]
    names = {re.match("[a-z_]+", line)[0] for line in lines if line[0] != "#"}
    found = []
    for line in lines:
        if line[0] == "#":
            found.append(Floor(line[2:], {}))
        else:
            crate, below = line.split(":")
            found[-1].crates[crate.split()[0]] = [name for name in below.split() if name in names]
    return found


def rows(floor):
    """The rows of a floor, lowest first: a crate stands in the lowest one below which all stand that it stands on."""
    row_of = {}
    for crate, below in floor.crates.items():
        row_of[crate] = 1 + max((row_of[name] for name in below if name in row_of), default=-1)
    return [[crate for crate in floor.crates if row_of[crate] == row] for row in range(1 + max(row_of.values()))]


def lines_of(row):
    """The lines of a row, which has more than one where it is too long."""
    lines = [[]]
    for crate in row:
        if lines[-1] and len(GAP.join([*lines[-1], crate])) > WIDTH - len(INDENT):
            lines.append([])
        lines[-1].append(crate)
    return [INDENT + GAP.join(line) for line in lines]


def drawing():
    lines = []
    for floor in reversed(floors()):
        lines.append(floor.name)
        for row in reversed(rows(floor)):
            lines += lines_of(row)
    return "".join(f"{line}\n" for line in lines)


def heading_of(path):
    """The first sentence of the heading of a file of definitions."""
    heading = re.match("(?:-- .*\n)*", shipped.read(path))[0]
    text = " ".join(line[3:] for line in heading.splitlines())
    return re.split(r"(?<=\.)\s+(?=[A-Z`])", text)[0].replace("|", "\\|")


def definitions():
    lines = [HEADING]
    for floor in floors():
        lines.append(f"\n## {floor.name}\n")
        for crate in floor.crates:
            files = sorted(path for path in (shipped.CRATES / crate / "specs").glob("*.antt") if path.stem != "Lib")
            if files:
                lines.append(f"\n**`{crate}`**\n\n")
                lines += [f"- `{path.stem}`: {heading_of(path)}\n" for path in files]
    return "".join(lines)


def main(words):
    made = {("drawing",): drawing, ("definitions",): definitions}.get(tuple(words))
    if not made:
        raise BadWords()
    print(made(), end="")


if __name__ == "__main__":
    run(main, __doc__)

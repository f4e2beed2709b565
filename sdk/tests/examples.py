#!/usr/bin/env python3
"""Builds the examples anew, and compares images, texts and maps with those that are shipped; plays their scripts by the program,
which has to make the same image of each text.

Status: 0 where all is the same and as wanted, 1 where something isn't, 2 at other words.
usage: examples.py [program=FILE]
"""

import pathlib
import sys
import tempfile

import bench
from tulgexar import program
from tulgexar.words import BadWords, run

ENDS = (".hex", ".s", ".map")


def check(report, example, file):
    name = example.name
    sources = sorted(example.glob("*.c"), key=lambda source: source.name != f"{name}_ta.c")
    with tempfile.TemporaryDirectory() as folder:
        done = bench.built("-o", pathlib.Path(folder, name), *sources)
        report.check(done.returncode == 0, f"{name} is built", done.stderr)
        for end in ENDS:
            made, shipped = pathlib.Path(folder, f"{name}{end}"), example / f"{name}{end}"
            is_same = made.is_file() and made.read_text() == shipped.read_text()
            report.check(is_same, f"{name}{end} is what `make -C sdk {name}` makes")
    lines, is_as_wanted = bench.played(example / f"{name}.client", file)
    report.check(is_as_wanted, f"{name}.client", "\n".join(lines))
    digits = bench.assembled((example / f"{name}.s").read_text(), file)
    report.check(digits == (example / f"{name}.hex").read_text(), f"`asm` of {name}.s is {name}.hex")


def main(words):
    words = list(words)
    file = program.taken_from(words)
    if words:
        raise BadWords()
    program.found("optee_run", file)
    report = bench.Report("examples.py")
    for example in sorted((bench.SDK / "examples").iterdir()):
        check(report, example, file)
    return report.end()


if __name__ == "__main__":
    sys.exit(run(main, __doc__))

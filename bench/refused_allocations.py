#!/usr/bin/env python3
"""Refuses each allocation of some traces in turn, and tests that the core is then as it was.

Plays five cases of crates/core_cases: an open and an invoke with values, a register over two page lists, two waiting
calls and a wake, and an object with a tag that is created, also beside an area. Each is played once for each of its
allocations, which is refused. Where that was in serving a list, the program prints `memory` and serves what is left of it
once more, and all other lines have to be the same as ever: the exits, the bytes that are shown, and the events, bytes
read, slots and pages at the end. A refusal elsewhere, as in reading the trace or in printing, has to end the program
before its first line. Prints how many there were of both. Build the program first, by `rt run` in crates/core_cases.
Usage: bench/refused_allocations.py
"""

import os
import pathlib
import subprocess
import sys
import tempfile

HERE = pathlib.Path(__file__).resolve().parent
CRATE = HERE.parent / "crates/core_cases"
PROGRAM = CRATE / "out/core_cases"
CASES = [
    "open-invoke-close",
    "register-over-two-lists-and-again",
    "two-waiting-calls-and-a-wake",
    "create-object-with-a-tag",
    "create-object-beside-an-area",
]


def cases(path):
    """The cases of a file that are served by lists, by their names, each with its line `case lists NAME`."""
    parts = path.read_text().split("case lists ")[1:]
    return {part.split("\n", 1)[0]: "case lists " + part.split("case ")[0] for part in parts}


def played(library, case, number):
    """A play at which the allocation of this number is refused."""
    variables = os.environ | {"LD_PRELOAD": library, "REFUSE": str(number)}
    return subprocess.run([PROGRAM], input=case.encode(), capture_output=True, env=variables)


def refused(library, name, case, wanted):
    """How many refusals were in serving, and how many elsewhere. Ends the script at one with another outcome."""
    serving = others = 0
    while True:
        run = played(library, case, serving + others + 1)
        lines = run.stdout.decode().splitlines(keepends=True)
        told = "".join(line for line in lines if line != "memory\n")
        if b"refused\n" not in run.stderr:
            if run.returncode != 0 or run.stdout.decode() != wanted:
                sys.exit(f"{name}: without a refusal it is\n{run.stdout.decode()}{run.stderr.decode()}")
            return serving, others
        if run.returncode == 0 and told == wanted and len(lines) == wanted.count("\n") + 1:
            serving += 1
        elif run.returncode == 1 and not lines:
            others += 1
        else:
            sys.exit(f"{name}: refusal {serving + others + 1} ends with {run.returncode}\n{run.stdout.decode()}")


def main():
    given, wanted = cases(CRATE / "stdin"), cases(CRATE / "stdout")
    with tempfile.TemporaryDirectory() as folder:
        library = f"{folder}/refuse_allocation.so"
        subprocess.run(["cc", "-O2", "-shared", "-fPIC", "-o", library, HERE / "refuse_allocation.c"], check=True)
        for name in CASES:
            serving, others = refused(library, name, given[name], wanted[name])
            print(f"{name}: {serving} in serving, the core as it was; {others} elsewhere")


if __name__ == "__main__":
    main()

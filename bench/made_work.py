#!/usr/bin/env python3
"""Computes the line of `work 7 65536` from what `optee_run run` prints, and compares it with the one that the gate wants.

Makes the trace of seed 7 with 65,536 calls that docs/formats.md defines, as text, has `optee_run run` play it, and sums up
what that prints: the digest is `sha256sum`'s, and the counts are of the first registers of the `ret` lines. No call of
the trace names the application that is built in, so the text is the same as without it. Build the program first, by
`rt run` in crates/optee_run.
Usage: bench/made_work.py [COUNT]
"""

import pathlib
import subprocess
import sys

from playing import PROGRAM, SEED, trace

CASES = pathlib.Path(__file__).resolve().parent.parent / "crates/cases/stdin"
MOST_CALLS = 65_536
KINDS = {
    "ok": lambda a0: a0 == 0,
    "limit": lambda a0: a0 == 1,
    "resume": lambda a0: a0 == 3,
    "rpc": lambda a0: a0 >> 16 == 0xFFFF and a0 != 0xFFFFFFFF,
}


def summary(count):
    """The line of so many calls."""
    printed = subprocess.run([PROGRAM, "run"], input=trace(count).encode(), capture_output=True, check=True).stdout
    digest = subprocess.run(["sha256sum"], input=printed, capture_output=True, check=True).stdout.split()[0].decode()
    answers = [int(line.split()[2], 16) for line in printed.splitlines() if line.startswith(b"ret ")]
    assert len(answers) == count, len(answers)
    kinds = " ".join(f"{kind} {sum(map(is_one, answers))}" for kind, is_one in KINDS.items())
    return f"work {SEED} {count} {kinds} sha256 {digest}\n"


def main():
    count = int(sys.argv[1]) if len(sys.argv) > 1 else MOST_CALLS
    line = summary(count)
    print(line, end="")
    if count == MOST_CALLS:
        assert f"\noutput\n|{line}" in CASES.read_text(), "the gate wants another line"


if __name__ == "__main__":
    main()

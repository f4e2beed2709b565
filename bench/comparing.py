#!/usr/bin/env python3
"""Counts what `compare` of two journals costs, beside `audit` of one of them.

Makes two traces of N and of 2N calls: that of seed 7 which docs/formats.md defines, of which few calls are session 1's, and one whose
calls are all invokes in session 1. Records their journals by `optee_run record`, and gives each twice, one right behind the other, to
`compare 1`, which has to answer `same`. Prints the instructions under callgrind and the most bytes on the heap at once, and what they come
to in audits of the one journal. Blocks are counted as in playing.py. Build the program first, by `rt run` in crates/optee_run.
Usage: bench/comparing.py [N..]
"""

import os
import subprocess
import sys

from callgrind import counted, most_heap
from playing import ADD, BY_VECTORS, OPEN, PROGRAM, UUID, head, parameter, trace

CALL = "smc 0 64 32000004 0 40000000 0 0 0 0 0\n"


def of_one_session(calls):
    """The text of a trace that opens session 1 and invokes its application in all calls behind that."""
    invoke = head(1, 1, 1) + parameter(3, 5, 7, 0)
    invokes = f"write 0 40000000 {invoke.hex()}\n{CALL}" * (calls - 1)
    return f"boot 4 4 256\nta {UUID} {ADD.hex()}\nwrite 0 40000000 {OPEN.hex()}\n{CALL}{invokes}"


def measured(name, text):
    """Prints what both words cost on the journal of a trace."""
    journal = subprocess.run([PROGRAM, "record"], input=text.encode(), capture_output=True, check=True).stdout
    audit, verdict = counted(PROGRAM, "audit", given=journal)
    compare, told = counted(PROGRAM, "compare", "1", given=journal + journal)
    assert verdict.startswith(b"legal ") and told.startswith(b"same "), (verdict, told)
    heaps = most_heap(PROGRAM, "audit", given=journal), most_heap(PROGRAM, "compare", "1", given=journal + journal)
    print(f"{name}, {len(journal)} bytes: audit {audit} instructions and {heaps[0]} bytes; compare {compare} and {heaps[1]}, {compare / audit:.2f} audits")


def main():
    os.environ["GLIBC_TUNABLES"] = BY_VECTORS
    for calls in [int(word) for word in sys.argv[1:]] or [4_000]:
        for count in (calls, 2 * calls):
            measured(f"{count} calls of seed 7", trace(count))
            measured(f"{count} calls of one session", of_one_session(count))


if __name__ == "__main__":
    main()

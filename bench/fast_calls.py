#!/usr/bin/env python3
"""Counts the instructions that the program needs for a fast call, and whether they grow in a line.

Makes plain scripts of N and 2N calls, runs the built program on both under callgrind, and prints the
instructions for each call, those for a further call, and the ratio of the two runs. Blocks are counted as in playing.py.
Build the program first, by `rt run` in crates/optee_run. Usage: bench/fast_calls.py [N]
"""

import os
import random
import sys

from callgrind import counted
from playing import BY_VECTORS, PROGRAM

IDS = [
    "bf00ff01", "bf00ff03", "b2000000", "b2000001", "b2000007", "b2000009",
    "b200000a", "b200000b", "b200000f", "32000003", "12345678",
]


def script(calls):
    """A plain script of so many calls, the same each time."""
    numbers = random.Random(1)
    lines = ["boot 1 4 16"]
    for _ in range(calls):
        registers = [numbers.choice(IDS)]
        registers += ["%x" % numbers.getrandbits(numbers.choice([1, 8, 16, 32])) for _ in range(7)]
        lines.append("smc 0 %d %s" % (numbers.randint(1, 1_000_000), " ".join(registers)))
    return "".join(line + "\n" for line in lines).encode()


def instructions(calls):
    """How many instructions the program needs for a script of so many calls."""
    count, printed = counted(PROGRAM, "run", given=script(calls))
    assert printed.count(b"\n") == calls, "a line for each call"
    return count


def main():
    os.environ["GLIBC_TUNABLES"] = BY_VECTORS
    calls = int(sys.argv[1]) if len(sys.argv) > 1 else 30_000
    once, twice = instructions(calls), instructions(2 * calls)
    print(f"{calls} calls: {once / calls:.0f} instructions a call")
    print(f"{2 * calls} calls: {twice / (2 * calls):.0f} instructions a call")
    print(f"a further call: {(twice - once) / calls:.0f}")
    print(f"ratio {twice / once:.3f}")


if __name__ == "__main__":
    main()

#!/usr/bin/env python3
"""Counts the instructions that a further call of a made trace costs by the word `work`, and the most memory.

Runs `optee_run work 7 N` and `optee_run work 7 2N` under callgrind: a further call costs the difference of both by N. Serving
is an entry and an exit of the core, printing is what tells the registers of an exit, digesting is SHA-256 over the
lines, and making is the rest: the items and what goes over them. Blocks are counted as in playing.py. Then it prints the
most bytes that stand on the heap at once while `work 7 65536` runs (massif), the lanes taken off. Build the program
first, by `rt run` in crates/optee_run.
Usage: bench/working.py [N..]
"""

import os
import sys

from callgrind import SERVING, cost_of, costs, most_heap
from playing import BY_VECTORS, LANE, PROGRAM, SEED

MOST_CALLS = 65_536
LANES = 4


def measured(count):
    """What the program needs for so many calls: in all, and for each part of it."""
    whole, functions, printed = costs(PROGRAM, "work", str(SEED), str(count))
    assert printed.startswith(f"work {SEED} {count} ".encode()), printed
    serving, printing, digesting = cost_of(functions, *SERVING), cost_of(functions, "Player::tell"), cost_of(functions, "Core256::update")
    making = whole - serving - printing - digesting
    return {"in all": whole, "making": making, "serving": serving, "printing": printing, "digesting": digesting}


def main():
    os.environ["GLIBC_TUNABLES"] = BY_VECTORS
    for count in [int(word) for word in sys.argv[1:]] or [1000, 32_000]:
        once, twice = measured(count), measured(2 * count)
        further = ", ".join(f"{name} {(twice[name] - once[name]) / count:.0f}" for name in once)
        print(f"{count} calls more behind {count}, for each: {further}", flush=True)
    most = most_heap(PROGRAM, "work", str(SEED), str(MOST_CALLS))
    print(f"{MOST_CALLS} calls: at most {most} bytes on the heap, {most - LANES * LANE} of them beside the lanes", flush=True)


if __name__ == "__main__":
    main()

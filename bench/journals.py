#!/usr/bin/env python3
"""Counts what `record` and `audit` of a whole trace cost, beside its play by `run`.

Makes the trace of seed 7 that docs/formats.md defines, with N and with 2N calls, as text. Gives it to `optee_run` by `run` and by
`record`, and by `audit` the journal that was recorded, which has to be legal. For each prints what a further call costs under callgrind,
how the second run grows beside the first, and what `audit` takes beside `run`; then the seconds without callgrind, and the most bytes on
the heap at once, beside those of the text and of the journal. Blocks are counted as in playing.py. Build the program first, by `rt run`
in crates/optee_run.
Usage: bench/journals.py [N..]
"""

import os
import subprocess
import sys
import time

from callgrind import SERVING, cost_of, costs, most_heap
from playing import BY_VECTORS, PROGRAM, trace


def said(given, word):
    """What the program writes for a word, and its seconds."""
    begun = time.monotonic()
    run = subprocess.run([PROGRAM, word], input=given, capture_output=True, check=True)
    return run.stdout, time.monotonic() - begun


def counted(word, given, calls):
    """How many instructions the program needs, in all, and to serve the entries and exits and their steps."""
    whole, functions, printed = costs(PROGRAM, word, given=given)
    assert word != "audit" or printed == b"legal %d\n" % (2 * calls), printed
    return {"in all": whole, "serving": cost_of(functions, *SERVING)}


def inputs(calls):
    """The text of a trace with so many calls, and its journal."""
    text = trace(calls).encode()
    return {"run": text, "record": text, "audit": said(text, "record")[0]}


def main():
    os.environ["GLIBC_TUNABLES"] = BY_VECTORS
    for calls in [int(word) for word in sys.argv[1:]] or [8_000]:
        few, many = inputs(calls), inputs(2 * calls)
        found = {}
        for word in few:
            once, twice = counted(word, few[word], calls), counted(word, many[word], 2 * calls)
            found[word] = once["in all"], twice["in all"]
            further = ", ".join(f"{part} {(twice[part] - once[part]) / calls:.0f}" for part in once)
            print(f"{word}, {calls} calls more behind {calls}, for each: {further}; ratio {twice['in all'] / once['in all']:.3f}", flush=True)
        for at, times in enumerate((calls, 2 * calls)):
            print(f"{times} calls: audit takes {found['audit'][at] / found['run'][at]:.3f} of run", flush=True)
        for times, given in ((calls, few), (2 * calls, many)):
            taken = [f"{word} {said(given[word], word)[1]:.2f} s and {most_heap(PROGRAM, word, given=given[word])} bytes" for word in given]
            print(f"{times} calls, a text of {len(given['run'])} bytes and a journal of {len(given['audit'])}: {', '.join(taken)}", flush=True)


if __name__ == "__main__":
    main()

#!/usr/bin/env python3
"""Counts the instructions that a further call of a whole trace costs, with reading, serving and printing told apart.

Makes the trace of seed 7 that docs/formats.md defines, with N and with 2N calls, as text, and gives it to `optee_run
run` under callgrind: a further call costs the difference of both by N. Serving is an entry and an exit of the core,
printing is what tells the registers of an exit, and reading is the rest. Blocks are moved and cleared by vectors
here: by `rep` instructions, which is the C library's way with long ones, callgrind counts each byte. Then it prints
the most memory that the program takes for each of the traces, beside the bytes of the text and of the lanes. Build
the program first, by `rt run` in crates/optee_run.
Usage: bench/playing.py [N..]
"""

import os
import pathlib
import struct
import subprocess
import sys
import tempfile

from callgrind import SERVING, cost_of, costs

PROGRAM = pathlib.Path(__file__).resolve().parent.parent / "crates/optee_run/out/optee_run"
SEED = 7
UUID = "11111111-2222-3333-4444-555555555555"
CODE = [
    (0x18, 0, 0, 0, 0),  # sys 0
    (0x01, 0, 0, 0, 0),  # const r0 0
    (0x18, 0, 0, 0, 3),  # sys 3
    (0x03, 1, 0, 1, 0),  # add r1 r0 r1
    (0x01, 0, 0, 0, 0),  # const r0 0
    (0x18, 0, 0, 0, 4),  # sys 4
    (0x18, 0, 0, 0, 0),  # sys 0
]
ADD = b"OTTA" + struct.pack("<8I", 0, 1, len(CODE), 0, 0, 1, 0, 0)
ADD += b"".join(struct.pack("<4BI", *line) for line in CODE)
LANE = 1 << 22
BY_VECTORS = "glibc.cpu.x86_rep_stosb_threshold=100000000:glibc.cpu.x86_rep_movsb_threshold=100000000"


def head(cmd, session, count):
    """The head of an argument."""
    return struct.pack("<8I", cmd, 0, session, 0, 0, 0, 0, count)


def parameter(attr, p, q, s):
    """A parameter of an argument."""
    return struct.pack("<4Q", attr, p, q, s)


NAMED = struct.pack("<Q", 0x101) + bytes.fromhex(UUID.replace("-", "")) + bytes(8)
OPEN = head(0, 0, 2) + NAMED + parameter(0x101, 0, 0, 0)


def items(x):
    """The lines of a call, which the number x decides."""
    cpu, steps, kind, rest = x >> 32 & 3, 1 + (x >> 40 & 7), x >> 48 & 3, x >> 56 & 63
    call = f"smc {cpu} {steps} 32000004 0 40000000 0 0 0 0 0\n"
    invoke = head(1, rest + 1, 1) + parameter(3, 5, 7, 0)
    return [
        f"smc {cpu} {steps} bf00ff01 0 0 0 0 0 0 0\n",
        f"write {cpu} 40000000 {OPEN.hex()}\n{call}",
        f"write {cpu} 40000000 {invoke.hex()}\n{call}",
        f"smc {cpu} {steps} 32000003 0 0 {rest % 4:x} 0 0 0 0\n",
    ][kind]


def trace(count):
    """The text of the trace with so many calls."""
    lines, x = ["boot 4 4 256\n", f"ta {UUID} {ADD.hex()}\n"], SEED
    for _ in range(count):
        x = (x * 6364136223846793005 + 1442695040888963407) % (1 << 64)
        lines.append(items(x))
    return "".join(lines)


def measured(count):
    """What the program needs for so many calls: in all, and for each part of it."""
    whole, functions, printed = costs(PROGRAM, "run", given=trace(count).encode())
    assert printed.count(b"ret ") == count, printed
    serving, printing = cost_of(functions, *SERVING), cost_of(functions, "Player::tell")
    return {"in all": whole, "reading": whole - serving - printing, "serving": serving, "printing": printing}


def most_memory(count):
    """The most bytes that the program takes for so many calls."""
    with tempfile.TemporaryFile() as given:
        given.write(trace(count).encode())
        given.seek(0)
        run = subprocess.Popen([PROGRAM, "run"], stdin=given, stdout=subprocess.DEVNULL)
        _, status, usage = os.wait4(run.pid, 0)
        assert status == 0
        return usage.ru_maxrss << 10


def main():
    os.environ["GLIBC_TUNABLES"] = BY_VECTORS
    for count in [int(word) for word in sys.argv[1:]] or [1000, 8000]:
        once, twice = measured(count), measured(2 * count)
        further = ", ".join(f"{name} {(twice[name] - once[name]) / count:.0f}" for name in once)
        print(f"{count} calls more behind {count}, for each: {further}", flush=True)
        for calls in (count, 2 * count):
            text, most = len(trace(calls)), most_memory(calls)
            print(f"{calls} calls: at most {most} bytes, for a text of {text} and lanes of {4 * LANE}", flush=True)


if __name__ == "__main__":
    main()

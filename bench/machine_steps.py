#!/usr/bin/env python3
"""Counts the host's instructions for a step of the application machine.

Runs a loop of arithmetic and a loop of loads and stores for N and for 2N steps under callgrind, and prints the
instructions for each further step. Build the program first, by `rt run` in crates/parts.
Usage: bench/machine_steps.py [N]
"""

import pathlib
import struct
import sys

from callgrind import counted

PROGRAM = pathlib.Path(__file__).resolve().parent.parent / "crates/parts/out/parts"

# op, d, a, b, imm; each loop's last instruction goes back to instruction 1
LOOPS = {
    "arithmetic": [
        (0x01, 1, 0, 0, 1),  # const r1 1
        (0x03, 0, 0, 1, 0),  # add r0 r0 r1
        (0x0A, 2, 2, 0, 0),  # xor r2 r2 r0
        (0x05, 3, 0, 1, 0),  # mul r3 r0 r1
        (0x15, 0, 0, 0, 1),  # jump 1
    ],
    "loads and stores": [
        (0x01, 1, 0, 0, 100),  # const r1 100
        (0x10, 0, 0, 1, 8),  # storew r0 r1 8
        (0x0E, 2, 0, 0, 8),  # loadw r2 r0 8
        (0x0F, 0, 0, 2, 4),  # storeb r0 r2 4
        (0x0D, 3, 0, 0, 4),  # loadb r3 r0 4
        (0x15, 0, 0, 0, 1),  # jump 1
    ],
}


def image(code):
    """An image of one page whose entry points all begin at instruction 0."""
    header = b"OTTA" + struct.pack("<8I", 0, 1, len(code), 0, 0, 0, 0, 0)
    return header + b"".join(struct.pack("<4BI", *instruction) for instruction in code)


def instructions(code, steps):
    """How many instructions the program needs for so many steps."""
    count, printed = counted(PROGRAM, "invoke", image(code).hex(), str(steps))
    assert printed == b"Interrupted after %d\n" % steps
    return count


def main():
    steps = int(sys.argv[1]) if len(sys.argv) > 1 else 100_000
    for name, code in LOOPS.items():
        further = instructions(code, 2 * steps) - instructions(code, steps)
        print(f"{name}: {further / steps:.1f} instructions a step")


if __name__ == "__main__":
    main()

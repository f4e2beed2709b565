#!/usr/bin/env python3
"""Counts the instructions that assembling a text costs for each byte, and whether they grow in a line.

Makes texts of applications of 4,096 and of 8,192 instructions, each with its labels, runs `parts` on them under
callgrind, and prints the instructions for each byte: of the text, which is also disassembled and printed as bytes, and of the
text with a fault in one more line, which is assembled to its end alone. Then it gives 16 MiB of comments, of labels, and of
comments before a fault, within a stack of 8 MiB, and prints the most memory that the program took. Build the program first, by
`rt run` in crates/parts.
Usage: bench/assembling.py
"""

import os
import pathlib
import random
import resource
import subprocess
import tempfile

from callgrind import counted

PROGRAM = pathlib.Path(__file__).resolve().parent.parent / "crates/parts/out/parts"
ENTRIES = ["create", "open", "invoke", "close", "destroy"]
HEADER = ".flags 0\n.pages 64\n" + "".join(f".entry {name} L0\n" for name in ENTRIES)
WHOLE = 1 << 24
FAULT = "sys 20\n"


def instruction(numbers, last):
    """One line, of any kind of operands."""
    register = lambda: f"r{numbers.randrange(16)}"
    number = lambda: numbers.getrandbits(numbers.choice([1, 8, 16, 32]))
    label = lambda: f"L{numbers.randrange(last // 4) * 4}"
    return numbers.choice([
        lambda: f"const {register()} {number()}",
        lambda: f"add {register()} {register()} {register()}",
        lambda: f"loadw {register()} {register()} {number()}",
        lambda: f"storeb {register()} {register()} {number()}",
        lambda: f"bltu {register()} {register()} {label()}",
        lambda: f"call {label()}",
        lambda: f"sys {numbers.randrange(20)}",
    ])()


def program(count):
    """The text of so many instructions, the same each time, with a label at each fourth."""
    numbers = random.Random(1)
    lines = []
    for place in range(count):
        if place % 4 == 0:
            lines.append(f"L{place}:\n")
        lines.append(instruction(numbers, count) + "\n")
    return HEADER + "".join(lines)


def instructions(text):
    """How many instructions the program needs for this text, and what it prints."""
    return counted(PROGRAM, "asm", given=text.encode())


def filled(line, size):
    """As many such lines as these bytes hold; a line is made of its number."""
    lines, length = [], 0
    for number in range(size):
        lines.append(line(number))
        length += len(lines[-1])
        if length > size:
            return "".join(lines[:-1])


def small_stack():
    """Leaves the program a stack of 8 MiB."""
    resource.setrlimit(resource.RLIMIT_STACK, (8 << 20, 8 << 20))


def whole(text):
    """What the program says of this text within that stack, and the most memory that it took."""
    with tempfile.TemporaryFile() as given, tempfile.TemporaryFile() as printed:
        given.write(text.encode())
        given.seek(0)
        run = subprocess.Popen([PROGRAM, "asm"], stdin=given, stdout=printed, preexec_fn=small_stack)
        _, status, usage = os.wait4(run.pid, 0)
        assert status == 0
        printed.seek(0)
        said = printed.read().decode().strip()
        return f"at most {usage.ru_maxrss >> 10} MiB: {said.split()[0] if len(said) > 40 else said}"


def main():
    for count in (4096, 8192):
        text = program(count)
        for name, given, wanted in [("whole", text, b"other "), ("a fault at its end", text + FAULT, b"bad asm")]:
            cost, printed = instructions(given)
            print(f"{count} instructions, {name}: {cost / len(given):.1f} a byte of {len(given)}: {printed.split()[0].decode()}")
    start, end = HEADER + "L0:\nret\n", "ret\n"
    room = WHOLE - len(start) - len(end) - len(FAULT)
    comments = filled(lambda number: "# " + "x" * 69 + "\n", room)
    labels = filled(lambda number: f"M{number}:\n", room)
    for name, text in [
        ("comments", start + comments + end),
        ("labels", start + labels + end),
        ("a fault behind comments", start + comments + FAULT),
    ]:
        print(f"{name}: {len(text)} bytes in a stack of 8 MiB, {whole(text)}")


if __name__ == "__main__":
    main()

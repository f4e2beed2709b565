#!/usr/bin/env python3
"""Counts the instructions that reading a text trace costs for each byte, and whether they grow in a line.

Makes texts of `write` lines, of comments and of `smc` lines, of N and of 2N bytes, runs `parts` on them under
callgrind, and prints the instructions for each byte. Then it reads 16 MiB of each within a stack of 8 MiB, and prints
the most memory that the program took. Build the program first, by `rt run` in crates/parts.
Usage: bench/reading.py [N]
"""

import os
import pathlib
import random
import resource
import subprocess
import sys
import tempfile

from callgrind import counted

PROGRAM = pathlib.Path(__file__).resolve().parent.parent / "crates/parts/out/parts"
BOOT = b"boot 4 4 256\n"


def write_line(numbers):
    """2000 bytes for some lane."""
    data = numbers.getrandbits(8 * 2000).to_bytes(2000, "big").hex()
    return "write %d %x %s\n" % (numbers.randrange(4), 0x40000000 + numbers.randrange(0x3F0000), data)


def comment(numbers):
    """A comment of 72 bytes."""
    return "# %s\n" % "".join(chr(numbers.randrange(0x20, 0x7F)) for _ in range(70))


def smc_line(numbers):
    """A call whose registers have from 1 to 8 digits."""
    registers = ("%x" % numbers.getrandbits(numbers.choice([1, 8, 16, 32])) for _ in range(8))
    return "smc %d %d %s\n" % (numbers.randrange(4), numbers.randint(1, 1_000_000), " ".join(registers))


def text(line, size):
    """A text of such lines, of at most so many bytes, the same each time."""
    numbers = random.Random(1)
    lines, length = [BOOT], len(BOOT)
    while True:
        more = line(numbers).encode()
        if length + len(more) > size:
            return b"".join(lines)
        lines.append(more)
        length += len(more)


def instructions(content):
    """How many instructions the program needs for this text."""
    count, printed = counted(PROGRAM, "text", given=content)
    assert printed.startswith(b"0 applications"), printed
    return count


def small_stack():
    """Leaves the program a stack of 8 MiB."""
    resource.setrlimit(resource.RLIMIT_STACK, (8 << 20, 8 << 20))


def whole(content):
    """What the program says of this text within that stack, and the most memory that it took."""
    with tempfile.TemporaryFile() as given, tempfile.TemporaryFile() as printed:
        given.write(content)
        given.seek(0)
        run = subprocess.Popen([PROGRAM, "text"], stdin=given, stdout=printed, preexec_fn=small_stack)
        _, status, usage = os.wait4(run.pid, 0)
        assert status == 0
        printed.seek(0)
        return f"at most {usage.ru_maxrss >> 10} MiB: {printed.read().decode().strip()}"


def main():
    size = int(sys.argv[1]) if len(sys.argv) > 1 else 500_000
    for name, line in [("write", write_line), ("comments", comment), ("smc", smc_line)]:
        for count in (size, 2 * size):
            content = text(line, count)
            print(f"{name}: {instructions(content) / len(content):.1f} instructions a byte at {len(content)} bytes")
        content = text(line, 1 << 24)
        print(f"{name}: {len(content)} bytes in a stack of 8 MiB, {whole(content)}")


if __name__ == "__main__":
    main()

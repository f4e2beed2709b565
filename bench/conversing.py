#!/usr/bin/env python3
"""Counts how many fast calls a second a conversation answers over pipes, each line written when the last is answered.

Runs the program for N and for 2N calls, and `cat`, which gives back each line: what pipes and this side cost by themselves. Of
each it prints turns a second by the clock, and the processor time of the other side for a turn, in its own code and in the system's; and
last the instructions of a further call, and the bytes that it keeps; with `off`, of a core that keeps no history, and with `watch`, where
each exit is watched. Build the program first, by `rt run` in crates/optee_live.
Usage: bench/conversing.py [N [PROGRAM [off] [watch]]]
"""

import os
import pathlib
import sys
import time

from callgrind import counted
from playing import BY_VECTORS

PROGRAM = pathlib.Path(__file__).resolve().parent.parent / "crates/optee_live/out/optee_live"
BOOT, OFF, WATCH, CALL = b"boot 1 1 1\n", b"history off\n", b"watch on\n", b"smc 0 1 bf00ff01 0 0 0 0 0 0 0\n"


def turns(program, count, front):
    """The seconds of so many turns behind some lines by the clock, and what the system says of the other side."""
    to, heard = os.pipe()
    said, back = os.pipe()
    child = os.posix_spawn(program, [program], os.environ, file_actions=[
        (os.POSIX_SPAWN_DUP2, to, 0), (os.POSIX_SPAWN_DUP2, back, 1),
        *[(os.POSIX_SPAWN_CLOSE, stream) for stream in (to, heard, said, back)],
    ])
    os.close(to), os.close(back)
    for line in front.splitlines(keepends=True):
        os.write(heard, line), os.read(said, 4096)
    began = time.monotonic()
    for _ in range(count):
        os.write(heard, CALL)
        os.read(said, 4096)
    seconds = time.monotonic() - began
    os.close(heard), os.close(said)
    _, status, used = os.wait4(child, 0)
    assert status == 0, "the conversation ends well"
    return seconds, used


def main():
    count = int(sys.argv[1]) if len(sys.argv) > 1 else 200_000
    program = sys.argv[2] if len(sys.argv) > 2 else str(PROGRAM)
    front = OFF * ("off" in sys.argv[3:]) + BOOT + WATCH * ("watch" in sys.argv[3:])
    print(f"processes that wait for a processor, of {os.cpu_count()}: {os.getloadavg()[0]:.0f}")
    kept = []
    for name, number in (("cat", count), (program, count), (program, 2 * count)):
        seconds, used = turns("/bin/cat" if name == "cat" else name, number, front)
        own, system = used.ru_utime / number * 1e6, used.ru_stime / number * 1e6
        kept.append(used.ru_maxrss)
        print(f"{pathlib.Path(name).name}, {number} turns: {number / seconds:.0f} a second; {own:.2f} us and {system:.2f} us a turn")
    os.environ["GLIBC_TUNABLES"] = BY_VECTORS
    once, twice = (counted(program, given=front + number * CALL)[0] for number in (10_000, 20_000))
    print(f"a further call: {(twice - once) / 10_000:.0f} instructions, {(kept[2] - kept[1]) * 1024 / count:.0f} bytes resident")


if __name__ == "__main__":
    main()

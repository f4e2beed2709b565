#!/usr/bin/env python3
"""Compares the programs of two states of this repository side by side, in one run: what a further call costs by `run`, `notify`,
`client` and in a conversation, what a boot costs, and the memory that is resident at most. It prints rows of tables.

Instructions are counted by callgrind over N and over 2N of the same, 1,000 where N isn't given, and blocks as in playing.py; by `client`
it is 100, as a script has at most 512 calls. Times are the shortest of 21. Memory is told by GNU time (Debian's package `time`). The
second state's conversations are measured with `history off`, too. The programs are what `rt run` has built in crates/optee_run and
crates/optee_live of either state.
Usage: bench/side_by_side.py RUN_BEFORE RUN_AFTER LIVE_BEFORE LIVE_AFTER [N]
"""

import os
import struct
import subprocess
import sys
import tempfile

from callgrind import counted
from playing import BY_VECTORS
from smc_costs import ADDS, CALL, INVOKE, LOOPS, RETURNS, UUID, argument, image, invoking, param, text_of, trace

BOOTS = 21  # of which the fewest seconds are told
CLIENT_CALLS = 100
RAM, PAGE, PAGES, LISTED = 0x40000000, 4096, 1024, 511
REGISTER, UNREGISTER, LIST_OUT, PART_IN, MEMREF_IN, COOKIE = 4, 5, 0x20A, 5, 9, 0x33
MOST_MEMORY = 65_536


def page_list(at, pages):
    """The lines that write the list of so many pages: 511 addresses, and the address of the next list."""
    addresses = [RAM + PAGE * page for page in range(pages)]
    lists = [addresses[first : first + LISTED] for first in range(0, pages, LISTED)]
    for number, some in enumerate(lists):
        link = [at + PAGE * (number + 1)] if number + 1 < len(lists) else []
        yield f"write 0 {at + PAGE * number:x} {struct.pack(f'<{len(some + link)}Q', *some, *link).hex()}"


LISTS = 0x40300000
REGISTERS = f"write 0 40000000 {argument(REGISTER, param(LIST_OUT, LISTS, PAGES * PAGE)[:24] + struct.pack('<Q', COOKIE))}"
UNREGISTERS = f"write 0 40000000 {argument(UNREGISTER, param(PART_IN, 0, 0)[:24] + struct.pack('<Q', COOKIE))}"
MUCH = invoking(*(param(MEMREF_IN, RAM + MOST_MEMORY, MOST_MEMORY) for _ in range(4)))
FAST = "smc 0 1 bf00ff01 0 0 0 0 0 0 0"

# What comes once behind an open, and what comes again and again.
ALL = {
    **LOOPS,
    "1,024 pages registered and unregistered": (image(RETURNS), list(page_list(LISTS, PAGES)), [REGISTERS, CALL, UNREGISTERS, CALL]),
    "a write of 8 bytes": (image(RETURNS), [], ["write 0 40002000 0102030405060708"]),
}
ENABLE, VALUE = (f"smc 0 1 b20000{number} 0 0 0 0 0 0 0" for number in (10, 11))
SIGNALLED = {"a signal and a call for its value": (image(RETURNS), [ENABLE], ["signal 5", VALUE])}
SCRIPTED = {"an invoke with values (ADD)": (image(ADDS), "vio:5:7"), "an invoke with 4,096 bytes in": (image(RETURNS), f"mi:{4096 * '5a'}")}
FEW = ("a fast call", "an invoke with values (ADD)", "a suspend with its resume")


def script(app, parameter, times):
    """A client's script with so many invokes."""
    return text_of(["boot 1 2 16", f"ta {UUID} {app}", f"open it {UUID}", *[f"invoke it 0 {parameter}"] * times])


def further(program, words, text, times):
    """The instructions of a further one."""
    once, twice = (counted(program, *words, given=text(number))[0] for number in (times, 2 * times))
    return f"{(twice - once) / times:,.0f}"


def resident(program, words, given):
    """The most memory that was resident, in KiB."""
    with tempfile.TemporaryFile() as read:
        read.write(given)
        read.seek(0)
        told = subprocess.run(
            ["/usr/bin/time", "-f", "%M", program, *words], stdin=read, stdout=subprocess.DEVNULL, stderr=subprocess.PIPE, check=True
        )
    return f"{int(told.stderr.split()[-1]):,}"


def row(what, measure, columns):
    print("|", what, "|", " | ".join(measure(*column) for column in columns), "|", flush=True)


def count_plays(runs, times):
    for word, loops in (("run", ALL), ("notify", {name: ALL[name] for name in FEW} | SIGNALLED)):
        for name, loop in loops.items():
            row(f"`{word}`: {name}", lambda program: further(program, [word], lambda number: text_of(trace(*loop, number)), times), runs)
    for name, (app, parameter) in SCRIPTED.items():
        text = lambda number: script(app, parameter, number)
        row(f"`client`: {name}", lambda program: further(program, ["client"], text, CLIENT_CALLS), runs)


def count_conversations(lives, times):
    for name, loop in ALL.items():
        text = lambda front, number: front + text_of(trace(*loop, number))
        row(f"conversation: {name}", lambda program, front: further(program, [], lambda number: text(front, number), times), lives)


def count_boots(runs):
    for boot in ("boot 1 1 1", "boot 8 16 1024"):
        text = text_of([boot])
        row(f"`{boot}`, instructions", lambda program: f"{counted(program, 'run', given=text)[0]:,}", runs)
        row(f"`{boot}`, milliseconds of a processor", lambda program: f"{1000 * processor_time(program, text):.2f}", runs)
        row(f"`{boot}`, KiB", lambda program: resident(program, ["run"], text), runs)


def processor_time(program, text):
    """The seconds of a processor from a start to its end, the fewest of some."""
    times = []
    for _ in range(BOOTS):
        with tempfile.TemporaryFile() as read:
            read.write(text)
            read.seek(0)
            process = subprocess.Popen([program, "run"], stdin=read, stdout=subprocess.DEVNULL)
            used = os.wait4(process.pid, 0)[2]
        times.append(used.ru_utime + used.ru_stime)
    return min(times)


def told_memory(runs, lives):
    fast, adds, much = (image(RETURNS), [], [FAST]), LOOPS["an invoke with values (ADD)"], (image(RETURNS), [MUCH], [CALL])
    plays = {"60,000 fast calls": (fast, 60_000), "40,000 invokes (ADD)": (adds, 40_000), "400 invokes with 256 KiB in": (much, 400)}
    for word in ("run", "notify"):
        for name, (loop, times) in plays.items():
            row(f"`{word}`: {name}", lambda program: resident(program, [word], text_of(trace(*loop, times))), runs)
    text = script(image(RETURNS), f"mi:{8192 * '5a'}", 500)
    row("`client`: 500 invokes with 8,192 bytes in", lambda program: resident(program, ["client"], text), runs)
    longer = {"200,000 fast calls": (fast, 200_000), "400,000 fast calls": (fast, 400_000), "100,000 invokes (ADD)": (adds, 100_000)}
    longer |= {"200,000 invokes (ADD)": (adds, 200_000), "400 invokes with 256 KiB in": (much, 400)}
    for name, (loop, times) in longer.items():
        lines = text_of(trace(*loop, times))
        row(f"conversation: {name}", lambda program, front: resident(program, [], front + lines), lives)


def main():
    os.environ["GLIBC_TUNABLES"] = BY_VECTORS
    *programs, times = [*sys.argv[1:], "1000"][:5]
    runs, (before, after) = [(program,) for program in programs[:2]], programs[2:]
    lives = [(before, b""), (after, b""), (after, b"history off\n")]
    print("instructions of a further one: before, after; in a conversation besides with history off")
    count_plays(runs, int(times))
    count_conversations(lives, int(times))
    print("a boot and the end: before, after")
    count_boots(runs)
    print("KiB that are resident at most: before, after; in a conversation besides with history off")
    told_memory(runs, lives)


if __name__ == "__main__":
    main()

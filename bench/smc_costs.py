#!/usr/bin/env python3
"""Counts the host's instructions for an entry and an exit of the core.

Plays traces that do the same N and 2N times, as cases of `cases`, under callgrind, and prints what `enter` and `leave` take for
each further time, with all that these call; where the compiler has dissolved one into its caller, it counts none. A row whose trace
would have too many entries is left out. Blocks are moved and cleared by vectors here: by `rep` instructions, which is the C library's
way with long ones, callgrind counts each byte. Build the program first, by `rt run` in crates/cases.

With `whole` it runs `optee_run` on these traces, and prints what it takes for each further time in all: reading, serving and printing.
With `objects` it does so with traces that read and write an object of 32,256 bytes, which ask for one thing at each of their SMCs, and
tells SHA-256's own instructions from the rest. The trace brings the tags. That each time ends with SUCCESS is tested by the result that is
printed at the end.
Usage: bench/smc_costs.py [whole | objects] [N..]
"""

import os
import pathlib
import struct
import sys

from callgrind import costs, counted
from object_files import tag_of
from playing import PROGRAM as OPTEE_RUN

PROGRAM = pathlib.Path(__file__).resolve().parent.parent / "crates/cases/out/cases"
TIMES = [1_000, 32_000]
MOST_ENTRIES = 65_536
BY_VECTORS = "glibc.cpu.x86_rep_stosb_threshold=100000000:glibc.cpu.x86_rep_movsb_threshold=100000000"

UUID = "11111111-2222-3333-4444-555555555555"
OPEN, INVOKE = 0, 1
VALUE_INOUT, MEMREF_OUT, META = 3, 10, 0x101

CALL = "smc 0 1000 32000004 0 40000000 0 0 0 0 0"
BRIEF_CALL = "smc 0 1 32000004 0 40000000 0 0 0 0 0"
RESUME = "smc 0 1000 32000003 0 0 0 0 0 0 0"
BRIEF_RESUME = "smc 0 1 32000003 0 0 0 0 0 0 0"
LENDS = "smc 0 1000 32000003 0 40010000 0 0 77 0 0"
REPLIES = "write 0 40010014 00000000"
HAS_FILE = "write 0 40010068 0300000000000000"
OPENS, CLOSES = "write 0 40000000 00000000", "write 0 40000000 02000000"

# op, d, a, b, imm. At each image's instruction 0 its entry points begin, but for the invoke's at 1
RETURN = (0x18, 0, 0, 0, 0)
RETURNS = [RETURN, RETURN]
JUMPS = [RETURN, (0x15, 0, 0, 0, 1)]  # jump 1
ADDS = [
    RETURN,
    (0x01, 0, 0, 0, 0),  # const r0 0
    (0x18, 0, 0, 0, 3),  # value
    (0x03, 1, 0, 1, 0),  # add r1 r0 r1
    (0x01, 0, 0, 0, 0),  # const r0 0
    (0x18, 0, 0, 0, 4),  # set value
    RETURN,
]
WAITS = [RETURN, (0x01, 0, 0, 0, 5), (0x18, 0, 0, 0, 12), RETURN]  # const r0 5, wait
OBJECT_BYTES, OBJECT_AT, OBJECT_PAGES = 32_256, 4096, 9
PIECES = OBJECT_BYTES // 3584
NAMES = [(0x01, 0, 0, 0, 0), (0x01, 1, 0, 0, 1)]  # the id is the byte at 0
TO_START = [(0x01, 0, 0, 0, 0), (0x01, 1, 0, 0, 0), (0x18, 0, 0, 0, 17)]  # seek to 0 in handle 0
ALL_BYTES = [(0x01, 0, 0, 0, 0), (0x01, 1, 0, 0, OBJECT_AT), (0x01, 2, 0, 0, OBJECT_BYTES)]
UNLESS_DONE = (0x12, 0, 0, 15, 0)  # with another result than 0 to the return at 0
CREATE, OPEN_FILE, READ, WRITE = [[(0x18, 0, 0, 0, call), UNLESS_DONE] for call in (13, 14, 15, 16)]
CLOSE = [(0x01, 0, 0, 0, 0), (0x18, 0, 0, 0, 18), UNLESS_DONE]


def over_and_over(once, again):
    """The code that does something once, and then something else again and again."""
    return [RETURN, *once, *again, (0x15, 0, 0, 0, 1 + len(once))]


READS = over_and_over([*NAMES, *OPEN_FILE], [*TO_START, *ALL_BYTES, *READ])
WRITES = over_and_over([*NAMES, *CREATE], [*TO_START, *ALL_BYTES, *WRITE])
REOPENS = over_and_over([], [*NAMES, *OPEN_FILE, *CLOSE])
REOPENS_AND_WRITES = over_and_over([], [*NAMES, *OPEN_FILE, *ALL_BYTES, *WRITE, *CLOSE])


def image(code, pages=1):
    """An image of so many pages."""
    header = b"OTTA" + struct.pack("<8I", 0, pages, len(code), 0, 0, 1, 0, 0)
    return (header + b"".join(struct.pack("<4BI", *instruction) for instruction in code)).hex()


def argument(command, *params):
    """A message argument of a command on session 1."""
    header = struct.pack("<8I", command, 0, 1, 0, 0, 0, 0, len(params))
    return (header + b"".join(params)).hex()


def param(attribute, a, b):
    return struct.pack("<4Q", attribute, a, b, 0)


def invoking(*params):
    return f"write 0 40000000 {argument(INVOKE, *params)}"


CLIENT = param(META, *struct.unpack("<2Q", bytes.fromhex(UUID.replace("-", ""))))
VALUES = invoking(param(VALUE_INOUT, 5, 7))
MEMREFS = invoking(param(MEMREF_OUT, 0x40001000, 4096), param(MEMREF_OUT, 0x40002000, 4096))

NAME = UUID.replace("-", "") + "/00"
BEGINS = [invoking(), CALL, LENDS]
DONE = [REPLIES, RESUME]
FILE = [HAS_FILE, *DONE]


def brings(content):
    """A reply with these bytes. Behind them the payload is as it was."""
    return [f"write 0 40010200 {content.hex()}", *DONE]


def header(magic):
    """The reply that brings an object's header."""
    return brings(magic + struct.pack("<I", OBJECT_BYTES))


def tag(length):
    """The reply that brings the tag of so many zeros, under a key of zeros."""
    return brings(tag_of(bytes(32), NAME.encode(), bytes(length)))


# all data are zeros: with the first piece that goes which a name, a header or a tag has left in the payload
DATA = brings(bytes(len(NAME))) + DONE * (PIECES - 1)
PUT = DONE * PIECES
# a new object is written: its tag is that of no data, and behind its new one a new header is put
CREATED = BEGINS + FILE + DONE + tag(0) + PUT + DONE + DONE
# At the end nothing is found of what is asked for. With this result, as with the first one that isn't SUCCESS, the application returns
ENDS = ["write 0 40010014 0800ffff", RESUME, RESUME, "show 0 40000014 8"]
ENDED = b"\nmem 0 40000014 0800ffff04000000\n"

# an image, what comes once behind an open, and what comes again and again
LOOPS = {
    "a fast call": (image(RETURNS), [], ["smc 0 1 bf00ff01 0 0 0 0 0 0 0"]),
    "an open with its close": (image(RETURNS), [CLOSES, CALL], [OPENS, CALL, CLOSES, CALL]),
    "an invoke with values (ADD)": (image(ADDS), [VALUES], [CALL]),
    "an invoke with two memrefs of 4,096 bytes": (image(RETURNS), [MEMREFS], [CALL]),
    "a suspend with its resume": (image(JUMPS), [invoking(), BRIEF_CALL], [BRIEF_RESUME]),
    "a wait with its four SMCs": (image(WAITS), [invoking()], [CALL, LENDS, REPLIES, RESUME, RESUME]),
}
# the same for an object
OBJECT_LOOPS = {
    "read of format 1": (image(READS, OBJECT_PAGES), BEGINS + FILE + header(b"OTO1"), DATA),
    "read of format 2": (image(READS, OBJECT_PAGES), BEGINS + FILE + header(b"OTO2"), DATA + tag(OBJECT_BYTES)),
    "written in format 2": (image(WRITES, OBJECT_PAGES), CREATED, DATA + tag(OBJECT_BYTES) + PUT + DONE),
    "opened and closed": (image(REOPENS, OBJECT_PAGES), BEGINS, FILE + header(b"OTO1") + DONE),
    "opened, first written and closed": (
        image(REOPENS_AND_WRITES, OBJECT_PAGES), BEGINS, FILE + header(b"OTO1") + DATA + PUT + DONE + DONE + DONE,
    ),
}


def trace(app, once, again, times):
    """The lines of a trace."""
    head = ["boot 1 1 16", f"ta {UUID} {app}", f"mem 40000000 {argument(OPEN, CLIENT, param(META, 0, 0))}", CALL]
    return head + once + again * times


def text_of(lines):
    return "".join(line + "\n" for line in lines).encode()


def case(loop, times):
    """The case of a trace. It names a wrong status, so that one line is printed."""
    return text_of(["case loop", "words run", "input", *("|" + line for line in trace(*loop, times)), "output", "status 1"])


def fits(loop, times):
    """A trace that does it so many times isn't too long."""
    _, once, again = loop
    return sum(line.startswith("smc ") for line in [CALL, *once, *again * times]) <= MOST_ENTRIES


def taken(loop, times):
    """How many instructions `enter` and `leave` take in a whole trace."""
    _, found, printed = costs(PROGRAM, given=case(loop, times))
    assert printed == b"loop at cut 4294967295 ended with 0, and not with 1\n", printed
    return [sum(cost for name, cost in found.items() if name.endswith(end)) for end in ("entering::enter", "Machine::leave")]


def taken_in_all(loop, times):
    """How many instructions `optee_run` takes for a whole trace."""
    count, _ = counted(OPTEE_RUN, "run", given=text_of(trace(*loop, times)))
    return count


def taken_by_object(loop, times):
    """How many instructions `optee_run` takes for a whole trace of an object: in all, and for SHA-256."""
    count, found, printed = costs(OPTEE_RUN, "run", given=text_of(trace(*loop, times) + ENDS))
    assert printed.endswith(ENDED), printed[-200:]
    return count, sum(cost for name, cost in found.items() if name.endswith("Core256::update"))


def count_objects(times):
    """Prints the counts of an object's loops."""
    for name, loop in OBJECT_LOOPS.items():
        if not fits(loop, 2 * times):
            continue
        once, twice = taken_by_object(loop, times), taken_by_object(loop, 2 * times)
        in_all, hashing = [(more - less) / times for less, more in zip(once, twice)]
        rest, requests = in_all - hashing, loop[2].count(RESUME)
        shares = f"SHA-256 {hashing:.0f}, the rest {rest:.0f}, for each of {requests} requests {rest / requests:.0f}"
        print(f"{times:,} times, {name}: {in_all:.0f} in all, {shares}", flush=True)


def main():
    os.environ["GLIBC_TUNABLES"] = BY_VECTORS
    mode = sys.argv[1] if sys.argv[1:2] in (["whole"], ["objects"]) else None
    for times in [int(word) for word in sys.argv[1 + bool(mode) :]] or TIMES:
        if mode == "objects":
            count_objects(times)
            continue
        for name, loop in LOOPS.items():
            if not fits(loop, 2 * times):
                continue
            if mode == "whole":
                further = (taken_in_all(loop, 2 * times) - taken_in_all(loop, times)) / times
                print(f"{times:,} times, {name}: {further:.0f} in all", flush=True)
                continue
            enter, leave = [(twice - once) / times for once, twice in zip(taken(loop, times), taken(loop, 2 * times))]
            print(f"{times:,} times, {name}: enter {enter:.0f}, leave {leave:.0f}, together {enter + leave:.0f}", flush=True)


if __name__ == "__main__":
    main()

"""Which registers are read later, of code at any level. Sets of registers are masks of bits."""

import collections
import functools

# What a step of code reads and writes, and the numbers of those that may follow it. A call may have the first step of the function that
# it calls; its successor is the step behind it.
Step = collections.namedtuple("Step", "reads writes successors kind callee", defaults=("", None))
CALL, RETURN = "call", "return"


@functools.cache
def mask(*registers):
    return sum(1 << register for register in set(registers))


def live_before(steps):
    """The registers whose values are read later, in front of each step. A function may leave any register as it was, and its caller
    may know that: so what is read behind some call is read behind each return."""
    live, behind_calls = [0] * len(steps), 0
    is_changed = True
    while is_changed:
        is_changed = False
        for number in range(len(steps) - 1, -1, -1):
            step = steps[number]
            behind = live_behind(step, live)
            if step.kind == CALL:
                behind_calls |= behind
            elif step.kind == RETURN:
                behind |= behind_calls
            found = behind & ~step.writes | step.reads
            if found != live[number]:
                live[number], is_changed = found, True
    return live


def live_behind(step, live):
    """The registers that are read behind a step, or by the function that it calls."""
    behind = 0 if step.callee is None else live[step.callee]
    for successor in step.successors:
        behind |= live[successor]
    return behind

"""How deep the calls of an image may go, and how much stack they need, by the graph of its calls."""

import collections

from .code import instructions_of
from .riscv import SP, WORD

MOST_CALLS = 64

# How many calls stand on the machine's stack at most, and the bytes of the program's own; None where a cycle of calls, which is
# named in `cycle`, sets no limit. `unsized` has the functions whose frames have no fixed size.
Depth = collections.namedtuple("Depth", "calls stack cycle unsized")


class Cycle(Exception):
    """Calls that come back to where they began."""


class CallGraph:
    """What each function calls, as addresses of functions, each with whether it is a call or a jump; and the size of its frame."""

    def __init__(self, program, items, frameless):
        self.program = program
        self.calls = collections.defaultdict(set)
        for one in instructions_of(items):
            if one.op in ("call", "jump") and isinstance(one.source, int):
                self.add(program.function_at(one.source), one)
        self.frames, self.unsized = frames_of(program, frameless)
        self.found, self.path = {}, []

    def add(self, function, one):
        is_call = int(one.op == "call")
        if one.callee == "helper":
            self.calls[function].add((None, 1))
        elif one.callee == "pointer":
            reached = [to for to in self.program.taken if is_call or to in self.program.functions]
            self.calls[function] |= {(self.program.function_at(to), is_call) for to in reached}
        else:
            to = self.program.function_at(self.program.start + 4 * int(one.imm[1:]))
            if is_call or to != function:
                self.calls[function].add((to, is_call))

    def deepest(self, function):
        """The calls and the stack below a function."""
        if function is None:
            return 0, 0
        if function in self.path:
            raise Cycle(" > ".join(self.program.functions[one] for one in [*self.path[self.path.index(function) :], function]))
        if function not in self.found:
            self.path.append(function)
            below = [(self.deepest(to), is_call) for to, is_call in sorted(self.calls[function], key=lambda call: call[0] or 0)]
            self.path.pop()
            calls = max((calls + is_call for (calls, _), is_call in below), default=0)
            self.found[function] = calls, self.frames[function] + max((stack for (_, stack), _ in below), default=0)
        return self.found[function]


def depth_of(program, items, frameless, entries):
    """The depth of an image whose entry points are these functions."""
    graph = CallGraph(program, items, frameless)
    unsized = sorted(program.functions[function] for function in graph.unsized)
    try:
        found = [graph.deepest(entry) for entry in entries]
    except Cycle as cycle:
        return Depth(None, None, str(cycle), unsized)
    return Depth(max(1, *(calls for calls, _ in found)), max(stack for _, stack in found), None, unsized)


def frames_of(program, frameless):
    """The size of each function's frame, and the functions in which it isn't fixed."""
    frames, unsized, numbers = collections.defaultdict(int), set(), {}
    for address, one in program.code.items():
        if address in program.targets:
            numbers = {}
        function = program.function_at(address)
        if one.rd == SP and function not in frameless:
            change = one.imm if one.name == "addi" and one.rs1 == SP else change_by(one, numbers)
            if change is None:
                unsized.add(function)
            elif change < 0:
                frames[function] -= change
        numbers[one.rd] = number_of(one, numbers)
    return frames, unsized


def number_of(one, numbers):
    """The number that an instruction puts into its register, or None."""
    if one.name == "li":
        return one.imm
    if one.name == "addi" and (one.rs1 == 0 or numbers.get(one.rs1) is not None):
        return (numbers.get(one.rs1, 0) if one.rs1 else 0) + one.imm & WORD
    return None


def change_by(one, numbers):
    """By how much the stack's pointer is changed by a register's number, or None where that isn't known."""
    number = numbers.get(one.rs2)
    if one.name not in ("add", "sub") or one.rs1 != SP or number is None:
        return None
    number = number - (1 << 32) if number >> 31 else number
    return number if one.name == "add" else -number

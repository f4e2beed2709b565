"""Instructions of RISC-V (RV32EM), and a linked program of them."""

import bisect
import collections
import struct

from . import Refused
from .elf import FUNCTION
from .flow import CALL, RETURN, Step, live_before, mask

RA, SP = 1, 2
ARGUMENTS, RESULTS = range(10, 16), (10, 11)
KEPT = mask(SP, 8, 9)  # what a function leaves as it was: sp, s0, s1
ALL, WORD = 0xFFFF, 0xFFFFFFFF

Instruction = collections.namedtuple("Instruction", "name rd rs1 rs2 imm", defaults=(0, 0, 0, 0))

BRANCHES = {0: "beq", 1: "bne", 4: "blt", 5: "bge", 6: "bltu", 7: "bgeu"}
LOADS = {0: "lb", 1: "lh", 2: "lw", 4: "lbu", 5: "lhu"}
STORES = {0: "sb", 1: "sh", 2: "sw"}
WITH_NUMBER = {0: "addi", 2: "slti", 3: "sltiu", 4: "xori", 6: "ori", 7: "andi"}
SHIFTS = {(1, 0): "slli", (5, 0): "srli", (5, 32): "srai"}
OPERATIONS = {
    0: ("add", "sll", "slt", "sltu", "xor", "srl", "or", "and"),
    1: ("mul", "mulh", "mulhsu", "mulhu", "div", "divu", "rem", "remu"),
    32: ("sub", None, None, None, None, "sra", None, None),
}
NAMES_OF_BRANCHES = frozenset(BRANCHES.values())

# How many of a0 to a2 a system call of the machine takes, and how many it gives; the runtime has them as instructions of the custom
# space.
SYSTEM_CALLS = {
    0: (2, 0), 1: (1, 0), 2: (0, 1), 3: (1, 2), 4: (3, 0), 5: (1, 1), 6: (2, 0), 7: (1, 1), 8: (0, 1), 9: (0, 1), 10: (0, 1),
    11: (0, 3), 12: (1, 1), 13: (2, 2), 14: (2, 2), 15: (3, 2), 16: (3, 1), 17: (2, 1), 18: (1, 1), 19: (1, 1),
}  # fmt: skip
ENDING_CALLS = (0, 1)


def signed(value, bits):
    """The number with a sign that is in the lowest bits of a value."""
    sign = 1 << (bits - 1)
    return ((value & (2 * sign - 1)) ^ sign) - sign


def decoded(word, address):
    """The instruction of a word of code, or None. Branches and jumps have their target in imm."""
    op, rd, kind, rs1, rs2, upper = word & 127, word >> 7 & 31, word >> 12 & 7, word >> 15 & 31, word >> 20 & 31, word >> 25
    number = signed(word >> 20, 12)
    if op == 0x37:
        return Instruction("li", rd, imm=word & 0xFFFFF000)
    if op == 0x17:
        return Instruction("li", rd, imm=(word & 0xFFFFF000) + address & WORD)
    if op == 0x6F:
        offset = (word >> 31) << 20 | (word >> 12 & 255) << 12 | (word >> 20 & 1) << 11 | (word >> 21 & 1023) << 1
        return Instruction("jal", rd, imm=address + signed(offset, 21) & WORD)
    if op == 0x67 and kind == 0:
        return Instruction("jalr", rd, rs1, imm=number)
    if op == 0x63 and kind in BRANCHES:
        offset = (word >> 31) << 12 | (word >> 7 & 1) << 11 | (word >> 25 & 63) << 5 | (word >> 8 & 15) << 1
        return Instruction(BRANCHES[kind], 0, rs1, rs2, address + signed(offset, 13) & WORD)
    if op == 0x03 and kind in LOADS:
        return Instruction(LOADS[kind], rd, rs1, imm=number)
    if op == 0x23 and kind in STORES:
        return Instruction(STORES[kind], 0, rs1, rs2, signed(upper << 5 | rd, 12))
    if op == 0x13:
        return with_number(rd, kind, rs1, rs2, upper, number)
    if op == 0x33 and upper in OPERATIONS and OPERATIONS[upper][kind]:
        return Instruction(OPERATIONS[upper][kind], rd, rs1, rs2)
    if op == 0x0B and number in SYSTEM_CALLS:
        return Instruction("sys", imm=number)
    if word == 0x00100073:
        return Instruction("trap")
    return Instruction("nop") if op == 0x0F else None


def with_number(rd, kind, rs1, amount, upper, number):
    """An operation of a register and a number."""
    if kind in WITH_NUMBER:
        return Instruction(WITH_NUMBER[kind], rd, rs1, imm=number)
    shift = SHIFTS.get((kind, upper))
    return Instruction(shift, rd, rs1, imm=amount) if shift else None


class Program:
    """A linked program: its code by addresses, its functions, and the places that are reached other than from the one before."""

    def __init__(self, elf):
        self.elf = elf
        self.start, text = elf.section(".text")
        self.end = self.start + len(text)
        self.names = {symbol.name: symbol.value for symbol in elf.symbols if symbol.name}
        functions = [symbol for symbol in elf.symbols if symbol.kind == FUNCTION and self.is_code(symbol.value)]
        self.functions = {symbol.value: symbol.name for symbol in sorted(functions, key=lambda symbol: symbol.name, reverse=True)}
        self.starts = sorted(self.functions)
        self.code = self.read(text)
        self.taken = sorted(address for address in elf.addresses_taken() if self.is_code(address))
        self.targets = set(self.functions) | set(self.taken) | {one.imm for one in self.code.values() if is_direct(one)}
        self.uses_ra = self.has_use_of_ra()

    def read(self, text):
        words = struct.unpack(f"<{len(text) // 4}I", text)
        code = {}
        for address, word in zip(range(self.start, self.end, 4), words):
            one = decoded(word, address)
            if one is None or max(one.rd, one.rs1, one.rs2) > 15 or {3, 4} & {one.rd, one.rs1, one.rs2}:
                raise Refused(f"{self.where(address)}: the instruction {word:08x} isn't served")
            code[address] = one
        return code

    def is_code(self, address):
        return self.start <= address < self.end

    def function_at(self, address):
        """The first address of the function in which an address lies."""
        number = bisect.bisect_right(self.starts, address)
        return self.starts[number - 1] if number else self.start

    def where(self, address):
        start = self.function_at(address)
        return f"{self.functions.get(start, 'code')}+{address - start:#x}"

    # ra is the address to return to, which the machine has on a stack of its own. Where a program does more with ra than to keep it
    # and to bring it back, ra is a register as others are.

    def has_use_of_ra(self):
        loads = []
        for address, one in self.code.items():
            if one.name == "lw" and one.rd == RA and one.rs1 == SP:
                loads.append(address)
            elif not self.is_keeping_of_ra(one) and not self.is_far_call(address, one) and self.touches_ra(one):
                return True
        return any(self.reaches_a_store_of_ra(address) for address in loads)

    @staticmethod
    def is_keeping_of_ra(one):
        is_store = one.name == "sw" and one.rs2 == RA and one.rs1 == SP
        is_call_or_return = one.name == "jal" or one.name == "jalr" and (one.rs1 != RA or (one.rd == 0 and one.imm == 0))
        return is_store or is_call_or_return

    def is_far_call(self, address, one):
        """Whether this is a part of `auipc ra, UPPER; jalr ra, LOWER(ra)`."""
        first, second = (one, self.code.get(address + 4)) if one.name == "li" else (self.code.get(address - 4), one)
        return bool(first and second) and first[:2] == ("li", RA) and second[:3] == ("jalr", RA, RA)

    @staticmethod
    def touches_ra(one):
        return RA in (one.rd, one.rs1, one.rs2)

    def reaches_a_store_of_ra(self, address):
        """Whether a value of ra that was brought back may be stored again, so that it may be another value than ra's."""
        seen, ahead = set(), [address + 4]
        while ahead:
            place = ahead.pop()
            one = self.code.get(place)
            if place in seen or one is None:
                continue
            seen.add(place)
            if one.name == "sw" and one.rs2 == RA:
                return True
            if not (self.touches_ra(one) and one.name in ("jal", "jalr", "lw")):
                ahead += self.following(place, one)
        return False

    def following(self, address, one):
        """The addresses that may follow an instruction within its function."""
        if one.name in NAMES_OF_BRANCHES:
            return [address + 4, one.imm]
        if one.name == "jal" and one.rd == 0:
            return [one.imm]
        if one.name == "trap" or one.name == "jalr" and one.rd == 0 or one.name == "sys" and one.imm in ENDING_CALLS:
            return []
        return [address + 4]

    # Registers.

    def live(self):
        """The registers that are read later, in front of each address."""
        number = {address: place for place, address in enumerate(self.code)}
        steps = [self.step(address, one, number) for address, one in self.code.items()]
        return dict(zip(self.code, live_before(steps)))

    def step(self, address, one, number):
        successors = [number[to] for to in self.following(address, one) if to in number]
        if one.name == "sys":
            takes, gives = SYSTEM_CALLS[one.imm]
            return Step(mask(*ARGUMENTS[:takes]), mask(*ARGUMENTS[:gives]), successors)
        if one.name == "jal" and one.rd == RA:
            return Step(0, 0, successors, CALL, number[one.imm])
        if one.name == "jalr":
            return self.indirect_step(address, one, successors, number)
        writes = mask(one.rd) & ~1 if one.rd else 0
        return Step(mask(one.rs1, one.rs2) & ~1, writes, successors)

    def indirect_step(self, address, one, successors, number):
        if one.rd == 0 and one.rs1 == RA:
            return Step(mask(*RESULTS) | KEPT, 0, [], RETURN)
        target = self.far_target(address, one)
        if target is not None:
            return Step(0, 0, successors, CALL, number[target]) if one.rd else Step(0, 0, [number[target]])
        if one.rd == 0:  # a function, or a place of this one
            return Step(ALL, 0, [])
        return Step(mask(one.rs1, *ARGUMENTS) | KEPT, mask(*ARGUMENTS, 5, 6, 7), successors, CALL)

    def far_target(self, address, one):
        """The target of a jalr whose register the instruction before it loads, or None."""
        before = self.code.get(address - 4)
        if before and before.name == "li" and before.rd == one.rs1 and address not in self.targets:
            target = before.imm + one.imm & WORD
            return target if target in self.functions else None
        return None


def is_direct(one):
    return one.name == "jal" or one.name in NAMES_OF_BRANCHES

"""Instructions of the machine (docs/formats.md, "Image"), their registers, and how a list of them is written."""

import collections
import struct

from tulgexar import formats

from . import flow
from .flow import Step, mask
from .riscv import ENDING_CALLS, SYSTEM_CALLS

NUMBERS = {name: number for number, (name, _, _) in formats.OPERATIONS.items()}
FIELDS = {name: fields for name, fields, _ in formats.OPERATIONS.values()}
OPERANDS = {name: operand for name, _, operand in formats.OPERATIONS.values()}
OPPOSITES = {"beq": "bne", "bne": "beq", "bltu": "bgeu", "bgeu": "bltu"}
FAULTING = ("loadb", "loadw", "div", "rem")  # they have a result, and may panic

# Which registers of the machine stand for which of RISC-V. r0 to r5 are a0 to a5, as entry points and system calls have r0 to r2;
# r6 to r8 are t0 to t2, r9 and r10 s0 and s1, r11 is sp. r12 is always 0. r13 and r14 are spare, and so is r15 where ra is none.
STACK, ZERO, FIRST_SPARE, SECOND_SPARE, RETURN = 11, 12, 13, 14, 15
REGISTER_OF = {0: ZERO, 1: RETURN, 2: STACK, 5: 6, 6: 7, 7: 8, 8: 9, 9: 10} | {10 + k: k for k in range(6)}
ALL, SPARES = 0xFFFF, mask(FIRST_SPARE, SECOND_SPARE)
ARGUMENTS = mask(*range(6))
CHANGED_BY_CALLS = mask(*range(9), RETURN) | SPARES
KEPT = 0xFFFF & ~CHANGED_BY_CALLS

# An instruction; imm is a number or a label. `source` is the address of RISC-V that it is made of, or the name of a part that has
# none. `callee` says what a call or a jump goes to: "" for code of the program, "setup", "helper", or "pointer", whose address
# r13 has.
Instruction = collections.namedtuple("Instruction", "op d a b imm source callee", defaults=(0, 0, 0, 0, "", ""))


def is_label(item):
    return isinstance(item, str)


def instructions_of(items):
    return [item for item in items if not is_label(item)]


def places_of(items):
    """The place of each label, which is that of the next instruction."""
    places, place = {}, 0
    for item in items:
        if is_label(item):
            places[item] = place
        else:
            place += 1
    return places


def has_target(one):
    return OPERANDS[one.op] == "target"


def reads(one):
    """The registers that an instruction reads itself."""
    if one.op == "sys":
        return mask(*range(SYSTEM_CALLS[one.imm][0]))
    return mask(*(getattr(one, field) for field in FIELDS[one.op] if field != "d"))


def writes(one):
    """The registers that an instruction writes itself."""
    if one.op == "sys":
        return mask(*range(SYSTEM_CALLS[one.imm][1]))
    return mask(one.d) if "d" in FIELDS[one.op] else 0


def changes(one):
    """The registers that may have another value behind an instruction, also by what it calls."""
    if one.op == "call":
        return {"helper": SPARES, "setup": 0}.get(one.callee, CHANGED_BY_CALLS)
    return writes(one)


def successors(number, one, places):
    """The places that may follow, within a function."""
    if one.op == "jump":
        return [] if one.callee else [places[one.imm]]
    if one.op == "ret" or one.op == "sys" and one.imm in ENDING_CALLS:
        return []
    return [number + 1, places[one.imm]] if one.op in OPPOSITES else [number + 1]


def steps_of(items):
    """The steps of a list of instructions, for flow."""
    places, code = places_of(items), instructions_of(items)
    return [step_of(number, one, places, len(code)) for number, one in enumerate(code)]


def step_of(number, one, places, count):
    following = [place for place in successors(number, one, places) if place < count]
    if one.op == "ret":
        return Step(mask(0, 1) | KEPT | mask(FIRST_SPARE), 0, [], flow.RETURN)
    if one.op not in ("call", "jump") or one.callee == "setup":
        return Step(reads(one), writes(one), following)
    if one.callee == "helper":
        return Step(SPARES, SPARES, following)
    if one.callee == "pointer" and one.op == "jump":
        return Step(ALL, 0, [])
    if one.callee == "pointer":
        return Step(ARGUMENTS | KEPT | mask(FIRST_SPARE), changes(one), following, flow.CALL)
    return Step(0, 0, following, flow.CALL, places[one.imm]) if one.op == "call" else Step(0, 0, following)


def text_of(items, head, comments=None):
    """The assembler text: the lines of the head, and behind it the instructions, with the labels that are named."""
    used = {one.imm for one in instructions_of(items) if has_target(one)}
    lines, place = list(head), 0
    for item in items:
        if is_label(item):
            if item in used or item.startswith("entry_"):
                lines.append(f"{item}:")
            continue
        if comments and comments.get(place):
            lines.append(f"# {comments[place]}")
        registers = [f"r{getattr(item, field)}" for field in FIELDS[item.op]]
        lines.append(" ".join([item.op, *registers, *([str(item.imm)] if OPERANDS[item.op] else [])]))
        place += 1
    return "".join(f"{line}\n" for line in lines)


def image_of(items, flags, pages):
    """The image's bytes."""
    places, code = places_of(items), instructions_of(items)
    entries = [places[f"entry_{name}"] for name in formats.ENTRIES]
    data = formats.IMAGE_MAGIC + struct.pack("<8I", flags, pages, len(code), *entries)
    for one in code:
        imm = places[one.imm] if has_target(one) else one.imm
        data += struct.pack("<4BI", NUMBERS[one.op], one.d, one.a, one.b, imm)
    return data

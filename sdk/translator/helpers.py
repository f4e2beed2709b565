"""Operations that are too long to stand wherever they are used, as text of the machine with labels of their own.

A helper takes its operands in r13 and r14 (X and Y here), and gives its result in X. It changes no other register: those that it
needs are put aside in six words of memory. Z is the register that is always 0.
"""

from .code import FIELDS, FIRST_SPARE, OPERANDS, SECOND_SPARE, ZERO, Instruction, has_target

NAMES = {"X": FIRST_SPARE, "Y": SECOND_SPARE, "Z": ZERO}
SCRATCH_BYTES = 24

# Signed: by absolute values, and the sign of the result from r0, which is that of X xor Y for a quotient and of X for a remainder.
DIVISION = """
    storew Z 0 0
    storew Z 1 4
    const 1 0x80000000
    {sign}
    bltu X 1 dividend
    sub X Z X
dividend:
    bltu Y 1 divisor
    sub Y Z Y
divisor:
    {operation} X X Y
    bltu 0 1 result
    sub X Z X
result:
    loadw 0 Z 0
    loadw 1 Z 4
    ret
"""

# The upper half of X times Y without signs, by products of halfwords.
HIGH = """
    const 3 16
    const 2 0xffff
    and 0 X 2
    and 1 Y 2
    shr X X 3
    shr Y Y 3
    mul 2 0 1
    shr 2 2 3
    mul 1 X 1
    add 1 1 2
    mul 0 0 Y
    mul X X Y
    shr 2 1 3
    add X X 2
    const 2 0xffff
    and 1 1 2
    add 0 0 1
    shr 0 0 3
    add X X 0
"""
ASIDE = """
    storew Z 0 0
    storew Z 1 4
    storew Z 2 8
    storew Z 3 12
"""
BACK = """
    loadw 0 Z 0
    loadw 1 Z 4
    loadw 2 Z 8
    loadw 3 Z 12
    ret
"""

# A factor below 0 is 2^32 less than it is without its sign, so the other one is taken from the upper half.
OPERANDS_ASIDE = "storew Z X 16\nstorew Z Y 20\n"
FIRST_SIGN = "loadw 0 Z 16\nloadw 1 Z 20\nconst 2 0x80000000\nbltu 0 2 first\nsub X X 1\nfirst:\n"
SECOND_SIGN = "bltu 1 2 second\nsub X X 0\nsecond:\n"

TEXTS = {
    "div": DIVISION.format(sign="xor 0 X Y", operation="div"),
    "rem": DIVISION.format(sign="move 0 X", operation="rem"),
    "mulhu": ASIDE + HIGH + BACK,
    "mulhsu": ASIDE + OPERANDS_ASIDE + HIGH + FIRST_SIGN + BACK,
    "mulh": ASIDE + OPERANDS_ASIDE + HIGH + FIRST_SIGN + SECOND_SIGN + BACK,
}


def items_of(name, scratch):
    """A helper's label and instructions, over six words at an address."""
    items = [label_of(name)]
    for words in (line.split() for line in TEXTS[name].splitlines()):
        if words and words[0].endswith(":"):
            items.append(f"{label_of(name)}_{words[0][:-1]}")
        elif words:
            items.append(instruction(name, words, scratch))
    return items


def label_of(name):
    return f"helper_{name}"


def instruction(name, words, scratch):
    op, *operands = words
    registers = {field: NAMES.get(word) or int(word) for field, word in zip(FIELDS[op], operands)}
    one = Instruction(op, **registers, source=f"helper {name}")
    if has_target(one):
        return one._replace(imm=f"{label_of(name)}_{operands[-1]}")
    number = int(operands[-1], 0) if OPERANDS[op] else 0
    return one._replace(imm=scratch + number if op in ("loadw", "storew") else number)

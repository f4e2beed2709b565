"""Says which refusal an image has, or disassembles it.

Reads the image's hexadecimal digits, as `asm` prints them or as a line `ta` has them, from standard input. Of a bad image
it prints the refusal by its name in docs/formats.md, and why: `BadOp(3): the system call 20 is above 19`. Of a good one it
prints the canonical text, which `asm` takes; with the word `comments` a comment line names each system call, and with a map FILE, as
sdk/ta_cc.py writes it, one names each function, file and line of the source.

Status: 0 for a good image, 1 for a bad one, 2 at other words or at input that isn't hexadecimal digits.
usage: image.py [comments] [map=FILE] < IMAGE
"""

import collections
import re
import struct

from tulgexar import formats, places, program
from tulgexar.words import BadWords, run, text_of

Image = collections.namedtuple("Image", "flags pages entries code")
Instruction = collections.namedtuple("Instruction", "op d a b imm")


def head_refusal(data):
    """The first refusal for which the head suffices, with its reason, or None."""
    if len(data) < formats.IMAGE_HEAD_BYTES:
        return "BadHeader(0)", f"{len(data)} bytes are fewer than {formats.IMAGE_HEAD_BYTES}"
    if data[:4] != formats.IMAGE_MAGIC:
        return "BadHeader(0)", "the first four bytes aren't OTTA"
    flags, pages, count = struct.unpack_from("<3I", data, 4)
    length = formats.IMAGE_HEAD_BYTES + formats.INSTRUCTION_BYTES * count
    if flags & ~formats.FLAGS:
        return "BadHeader(1)", f"the flags are {flags:x} (hexadecimal), with a bit other than 2, 3 and 4"
    if not 1 <= pages <= formats.MOST_PAGES:
        return "BadHeader(2)", f"{pages} pages aren't 1 to {formats.MOST_PAGES}"
    if count > formats.MOST_INSTRUCTIONS:
        return "TooLarge", f"{count} instructions are more than {formats.MOST_INSTRUCTIONS}"
    if count == 0:
        return "BadHeader(3)", "the count is 0"
    if len(data) != length:
        return "BadHeader(3)", f"{len(data)} bytes, and {count} instructions make {length}"
    return None


def refusal(data):
    """The first refusal of an image's bytes, with its reason, or None."""
    in_head = head_refusal(data)
    if in_head:
        return in_head
    image = decode(data)
    for number, entry in enumerate(image.entries):
        if entry >= len(image.code):
            return f"BadEntry({number})", f"{formats.ENTRIES[number]} is {entry}, of {len(image.code)} instructions"
    for number, instruction in enumerate(image.code):
        reason = bad_instruction(instruction, len(image.code))
        if reason:
            return f"BadOp({number})", reason
    return None


def bad_instruction(instruction, count):
    """Why an instruction is bad, or None."""
    if instruction.op not in formats.OPERATIONS:
        return f"there is no op {instruction.op:02x}"
    name, registers, operand = formats.OPERATIONS[instruction.op]
    for field in "dab":
        register = getattr(instruction, field)
        if register >= formats.REGISTERS:
            return f"{name}: the register {field} is {register}"
        if register and field not in registers:
            return f"{name} has no field {field}, which is {register}"
    if operand is None and instruction.imm:
        return f"{name} has no field imm, which is {instruction.imm}"
    if operand == "target" and instruction.imm >= count:
        return f"{name}: the target {instruction.imm} isn't below the count {count}"
    if operand == "system call" and instruction.imm >= len(formats.SYSTEM_CALLS):
        return f"the system call {instruction.imm} is above {len(formats.SYSTEM_CALLS) - 1}"
    return None


def decode(data):
    """The image of bytes whose head is good."""
    flags, pages, count, *entries = struct.unpack_from("<8I", data, 4)
    code = struct.iter_unpack("<4BI", data[formats.IMAGE_HEAD_BYTES :])
    return Image(flags, pages, entries, [Instruction(*fields) for fields in code])


def encoded(image):
    """The bytes of an image."""
    head = struct.pack("<8I", image.flags, image.pages, len(image.code), *image.entries)
    return formats.IMAGE_MAGIC + head + b"".join(struct.pack("<4BI", *one) for one in image.code)


def canonical(image, comments=False, source=None):
    """The canonical text of a good image, with comments where they are wanted, and with those of a map."""
    targets = {instruction.imm for instruction in image.code if formats.OPERATIONS[instruction.op][2] == "target"}
    lines = [f".flags {image.flags}", f".pages {image.pages}"]
    lines += [f".entry {name} L{entry}" for name, entry in zip(formats.ENTRIES, image.entries)]
    for number, instruction in enumerate(image.code):
        if number in targets | set(image.entries):
            lines.append(f"L{number}:")
        if source and source.at(number) not in ("", source.at(number - 1) if number else ""):
            lines.append(f"# {source.at(number)}")
        if comments and formats.OPERATIONS[instruction.op][2] == "system call":
            lines.append(f"# {formats.SYSTEM_CALLS[instruction.imm]}")
        lines.append(instruction_text(instruction))
    return "".join(f"{line}\n" for line in lines)


def instruction_text(instruction):
    """The line of an instruction; a target has its number behind L."""
    name, registers, operand = formats.OPERATIONS[instruction.op]
    operands = [f"r{getattr(instruction, field)}" for field in registers]
    if operand:
        operands.append(f"L{instruction.imm}" if operand == "target" else str(instruction.imm))
    return " ".join([name, *operands])


def digits_of(name):
    """The bytes of an image's digits, in a file or on standard input."""
    return digits_in(text_of(name), name)


def digits_in(text, name):
    """The bytes of an image's digits in the text of a file."""
    digits, where = "".join(text.split()), "standard input" if name == "-" else name
    if not re.fullmatch("[0-9a-fA-F]+", digits):
        came = text.strip().partition("\n")[0][:40]
        raise BadWords(f"{where} is no image: hexadecimal digits are wanted, as `optee_run asm` makes them of a text, and not {came or 'nothing'}")
    if len(digits) % 2:
        raise BadWords(f"{where} is no image: {len(digits)} hexadecimal digits aren't an even number")
    return bytes.fromhex(digits)


def main(words):
    words = list(words)
    named = program.taken_from(words, "map")
    if words not in ([], ["comments"]):
        raise BadWords(f"{words[-1]} isn't served here, or stands twice: the words are comments and map=FILE; the image comes on standard input")
    source = places.map_of(named) if named else None
    data = digits_of("-")
    refused = refusal(data)
    if refused:
        print(f"{refused[0]}: {refused[1]}")
        return 1
    print(canonical(decode(data), bool(words), source), end="")
    return 0


if __name__ == "__main__":
    run(main, __doc__)

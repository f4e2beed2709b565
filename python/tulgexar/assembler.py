"""Assembles the text of an application, by docs/formats.md, "Assembler text". It isn't run by itself.

It is written from that page alone, so that what it gives can be compared with what the word `asm` has printed. Behind an image it keeps of
which line of the text each instruction is.
"""

import collections
import re

from tulgexar import formats, image, places

LABEL, REGISTER = "[A-Za-z][A-Za-z0-9_]*", "r(0|[1-9]|1[0-5])"
OPCODES = {name: op for op, (name, *_) in formats.OPERATIONS.items()}

# The faults of a line, the first of which decides.
BAD, UNKNOWN, REPEATED = "a line that isn't of the assembler's form", "a label that has no line", "a label that has a line before"
FAULTS = [BAD, UNKNOWN, REPEATED]

# An instruction of a text: its fields, its label or None, and its line.
Written = collections.namedtuple("Written", "op registers imm label place")

# What a text comes to: the image, of each instruction the number of its line and the line, and the labels, each with its place and the number
# of its line.
Assembled = collections.namedtuple("Assembled", "image lines labels")


class Fault(Exception):
    """The first fault of a text: the number of its line, from 1, and what it is."""

    def __init__(self, place, cause):
        super().__init__(f"line {place}: {cause}")
        self.place, self.cause = place, cause


class BadLine(Exception):
    """A line of another form."""


def number(word, most=2**32 - 1):
    """A number, at most this."""
    if not re.fullmatch("0|[1-9][0-9]*|0x[0-9a-fA-F]+", word):
        raise BadLine()
    value = int(word, 16 if word.startswith("0x") else 10)
    if value > most:
        raise BadLine()
    return value


class Text:
    """A text that is read line by line: its header, its instructions, and its labels."""

    def __init__(self):
        self.numbers, self.entries, self.written = [], [], []
        self.labels, self.waiting = {}, []  # labels by their names, as (place, line); lines of labels that no instruction has followed yet
        self.faults = []

    def take(self, place, line):
        """Takes a line that isn't skipped."""
        try:
            if re.fullmatch(f"{LABEL}:", line):
                self.label(place, line[:-1])
            elif self.is_in_header:
                self.header(place, line.split(" "))
            else:
                self.instruction(place, line.split(" "))
        except BadLine:
            self.faults.append((place, BAD))

    @property
    def is_in_header(self):
        return len(self.numbers) + len(self.entries) < 2 + len(formats.ENTRIES)

    def label(self, place, name):
        """The line of a label."""
        if name in self.labels:
            self.faults.append((place, REPEATED))
        self.labels.setdefault(name, (len(self.written), place))
        if self.is_in_header:
            raise BadLine()
        self.waiting.append(place)

    def header(self, place, words):
        """A line of the header, of which the next one is wanted."""
        if len(self.numbers) < 2:
            first, last = [(".flags", None), (".pages", formats.MOST_PAGES)][len(self.numbers)]
            if len(words) != 2 or words[0] != first:
                raise BadLine()
            value = number(words[1], last or 2**32 - 1)
            if value & ~formats.FLAGS if last is None else value == 0:
                raise BadLine()
            self.numbers.append(value)
        else:
            if len(words) != 3 or words[:2] != [".entry", formats.ENTRIES[len(self.entries)]] or not re.fullmatch(LABEL, words[2]):
                raise BadLine()
            self.entries.append((words[2], place))

    def instruction(self, place, words):
        """The line of an instruction."""
        if words[0] not in OPCODES:
            raise BadLine()
        name, fields, operand = formats.OPERATIONS[OPCODES[words[0]]]
        if len(words) != 1 + len(fields) + (operand is not None) or not all(re.fullmatch(REGISTER, word) for word in words[1 : 1 + len(fields)]):
            raise BadLine()
        registers = {field: int(word[1:]) for field, word in zip(fields, words[1:])}
        imm, label = 0, None
        if operand == "target":
            label = words[-1]
            if not re.fullmatch(LABEL, label):
                raise BadLine()
        elif operand:
            imm = number(words[-1], len(formats.SYSTEM_CALLS) - 1 if operand == "system call" else 2**32 - 1)
        self.waiting.clear()
        self.written.append(Written(OPCODES[name], registers, imm, label, place))
        if len(self.written) > formats.MOST_INSTRUCTIONS:
            raise BadLine()

    def end(self, count):
        """The faults that show behind the last of so many lines."""
        self.faults += [(place, BAD) for place in self.waiting]
        uses = self.entries + [(one.label, one.place) for one in self.written if one.label]
        self.faults += [(place, UNKNOWN) for name, place in uses if name not in self.labels]
        if not self.faults and (self.is_in_header or not self.written):
            self.faults.append((count + 1, BAD))


def assembled(text):
    """What a text comes to; its first fault is a Fault."""
    lines, read = text.split("\n"), Text()
    last = lines.pop()
    for place, line in enumerate(lines, 1):
        if line and line[0] != "#":
            read.take(place, line)
    if last:
        read.faults.append((len(lines) + 1, BAD))
    read.end(len(lines))
    if read.faults:
        raise Fault(*min(read.faults, key=lambda fault: (fault[0], FAULTS.index(fault[1]))))
    code = [instruction_of(one, read.labels) for one in read.written]
    flags, pages = read.numbers
    made = image.Image(flags, pages, [read.labels[name][0] for name, _ in read.entries], code)
    return Assembled(made, [(one.place, lines[one.place - 1]) for one in read.written], read.labels)


def instruction_of(one, labels):
    d, a, b = (one.registers.get(field, 0) for field in "dab")
    return image.Instruction(one.op, d, a, b, labels[one.label][0] if one.label else one.imm)


def is_text(text):
    """Whether a text is one for the assembler and no image's digits: its first line that isn't skipped begins a header."""
    first = next((line for line in text.splitlines() if line and line[0] != "#"), "")
    return first.startswith(".flags")


class Source(places.Map):
    """The map of an assembled text: the label up to which each place belongs, with its line, and the lines of the instructions."""

    def __init__(self, made, name):
        super().__init__()
        self.made, self.name = made, name
        for label, (place, line) in sorted(made.labels.items(), key=lambda one: one[1]):
            if place not in self.places:
                self.places.append(place)
                self.texts.append(f"{label} {name}:{line}")

    def behind(self, place, stack=()):
        """The label of a place, and its own line, in brackets behind a blank."""
        label = self.at(place).partition(" ")[0]
        return f" ({label} {self.name}:{self.made.lines[place][0]})" if place < len(self.made.lines) else ""

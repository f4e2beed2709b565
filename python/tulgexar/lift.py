"""Makes a trace of a readable script, in which arguments, images and calls have names.

Lines of a script, of which the first three name something and leave nothing in the trace:
    name NAME WORD..            $NAME stands for these words from here on
    argument NAME WORD..        $NAME stands for the bytes that arg.py writes for the words
    image NAME FILE [flags N]   $NAME stands for the image in a file of hexadecimal digits, which lies beside the script,
                                or the same with other flags
    smc CPU STEPS CALL [OPERAND=VALUE]..    CALL is a function by its name in docs/formats.md, or a0; enter likewise
    reply CPU ADDRESS WORD..    the lines write for a reply of arg.py, in the buffer at the address
    write CPU ADDRESS text TEXT the bytes of a text
Operands: argument or buffer, an address (a1 and a2); cookie (a4 and a5); thread (a3); client (a7); a1 to a7. Values are
hexadecimal, and `last` is what the register was in the processor's last answer. A register that isn't named is 0. A name is
given once in a script, and a register once in a call.
All other lines are those of a trace, or of a client's script. Comments and empty lines are copied, but for those that begin with ##.

Status: 0, 1 where a line of the script isn't of its form, 2 at other words.
usage: lift.py SCRIPT
"""

import inspect
import pathlib
import re
import struct
import sys

from tulgexar import arg, formats, image
from tulgexar.words import BadWords, hexadecimal, lines_of, located, number, plain, run, text_of

FUNCTIONS = {name: function for function, name in (formats.FUNCTIONS | formats.NOTIFY_FUNCTIONS).items()}
ITEMS = [*dict.fromkeys([*formats.LINES, "signal", "open", "invoke", "close"])]
NAMING = ("name", "argument", "image", "reply")  # the words of lines that no trace has
WIDE = {"argument": 1, "buffer": 1, "cookie": 4}  # in two registers, the upper half first
OPERANDS = WIDE | {"thread": 3, "client": 7} | {f"a{i}": i for i in range(1, 8)}


class Fault(Exception):
    """A line of a script that isn't of its form: its number, or 0 of the whole, and its text, and the cause."""

    def __init__(self, cause, place=0, line=""):
        super().__init__(located(cause, place))
        self.cause, self.place, self.line = cause, place, line

    def told(self, name):
        """What is said of it in the file of this name."""
        return located(self.cause, self.place, name)


class Script:
    """The names of a script, up to a line: what each stands for, and the number of the line that gives it."""

    def __init__(self, folder):
        self.folder, self.place = folder, 0
        self.names, self.given = {}, {}

    def lift(self, place, line):
        """The lines of the trace that a line of the script makes, which has this number."""
        self.place = place
        if line.startswith("##"):
            return []
        if not line or line.startswith("#"):
            return [line]
        item, *words = self.named(line).split() or [""]
        if item not in FORMS:
            return [" ".join([item, *words])]
        try:
            inspect.signature(FORMS[item]).bind(self, *words)
        except TypeError as error:
            raise BadWords(f"{item} has other words than its form: {USES[item]}") from error
        return FORMS[item](self, *words)

    def named(self, line):
        """The line with what its names stand for."""
        return re.sub(r"\$(\w+)", lambda match: self.meaning(match[1]), line)

    def meaning(self, name):
        if name not in self.names:
            raise BadWords(f"nothing has the name {name} yet")
        return self.names[name]

    def name(self, name, *words):
        if not words:
            raise BadWords(f"the name {name} stands for no words")
        if name in self.names:
            raise BadWords(f"line {self.given[name]} gives the name {name} already")
        self.names[name], self.given[name] = " ".join(words), self.place
        return []

    def argument(self, name, *words):
        return self.name(name, arg.argument(words).hex())

    def image(self, name, file, word="", flags=None):
        data = image.digits_of(self.folder / file)
        if word not in ("", "flags"):
            raise BadWords(f"image: {word} isn't flags")
        if flags:
            data = data[:4] + struct.pack("<I", number(flags)) + data[8:]
        return self.name(name, data.hex())

    def smc(self, cpu, steps, function, *operands):
        return [" ".join(["smc", *call(cpu, steps, function, *operands)])]

    def enter(self, cpu, steps, function, *operands):
        return [" ".join(["enter", *call(cpu, steps, function, *operands)])]

    def reply(self, cpu, address, *words):
        return [f"write {cpu} {hexadecimal(address) + offset:x} {piece.hex()}" for offset, piece in arg.reply(words)]

    def write(self, cpu, address, *words):
        if words[:1] == ("text",):
            if len(words) == 1:
                raise BadWords("a text is wanted behind `text`, and no word is left")
            words = [" ".join(words[1:]).encode("latin-1").hex()]
        return [" ".join(["write", cpu, address, *words])]


USES = {
    "name": "name NAME WORD..",
    "argument": "argument NAME WORD..",
    "image": "image NAME FILE [flags N]",
    "smc": "smc CPU STEPS CALL [OPERAND=VALUE]..",
    "enter": "enter CPU STEPS CALL [OPERAND=VALUE]..",
    "reply": "reply CPU ADDRESS WORD..",
    "write": "write CPU ADDRESS HEX",
}
FORMS = {form: getattr(Script, form) for form in ["name", "argument", "image", "smc", "enter", "reply", "write"]}


def call(cpu, steps, function, *operands):
    """The words of a call: processor, steps and the eight registers."""
    a0 = f"{FUNCTIONS[function]:x}" if function in FUNCTIONS else function
    if not re.fullmatch("[0-9a-fA-F]{1,8}|=[0-7]", a0):
        raise BadWords(f"{function} is no function")
    if len(operands) == 7 and not any(is_named(operand) for operand in operands):
        return [cpu, steps, a0, *operands]
    registers, given = [a0] + ["0"] * 7, {}
    for operand in operands:
        name, _, value = operand.partition("=")
        if name not in OPERANDS:
            raise BadWords(f"{name} is no operand: they are {', '.join(OPERANDS)}")
        register = OPERANDS[name]
        refuse_given(name, range(register, register + (2 if name in WIDE else 1)), given)
        if name in WIDE:
            wide = hexadecimal(value)
            registers[register : register + 2] = f"{wide >> 32:x}", f"{wide & 0xFFFFFFFF:x}"
        else:
            registers[register] = f"={register}" if value == "last" else f"{hexadecimal(value, 32):x}"
    return [cpu, steps, *registers]


def refuse_given(name, registers, given):
    """Refuses an operand that stands twice, or gives a register that another one has given; `given` has the operand of each register."""
    for register in registers:
        if register in given:
            raise BadWords(f"{name} stands twice" if given[register] == name else f"{given[register]} and {name} both give a{register}")
        given[register] = name


def is_of_script(line):
    """Whether a line is one of a script alone, and none of a trace or of a client's script, which stand for themselves."""
    item, *words = line.split() or [""]
    if line.startswith("#") or not item:
        return False
    if item in NAMING or item == "write" and words[2:3] == ["text"] or re.search(r"\$\w", line):
        return True
    return item in ("smc", "enter") and ("_" in "".join(words[2:3]) or any(is_named(word) for word in words[3:]))


def is_named(word):
    """Whether a word of a call names an operand; `=K` is a register of an answer."""
    return "=" in word[1:]


def is_script(text):
    """Whether a text has a line that is one of a script alone."""
    return any(is_of_script(line) for line in lines_of(text))


def refuse_unknown(line):
    """Refuses a line whose first word is none of a trace, with or without signals, or of a client's script."""
    word = line.split(" ")[0]
    if word and word[0] != "#" and word not in ITEMS:
        raise BadWords(f"{word} is no item: they are {', '.join(ITEMS)}")


def placed(text, folder):
    """The lines of the trace that a script makes, each behind the number of the script's line that makes it."""
    script = Script(folder)
    lines = []
    for place, line in enumerate(lines_of(text), 1):
        try:
            lines += [(place, made) for made in script.lift(place, line.removesuffix("\r"))]
            refuse_unknown(lines[-1][1] if lines else "")
        except BadWords as error:
            raise Fault(str(error), place, line) from error
    return lines


def lifted(text, folder):
    """The text of the trace that a script makes."""
    return "".join(f"{line}\n" for _, line in placed(text, folder))


def main(words):
    if len(words) != 1:
        raise BadWords()
    text = text_of(words[0])
    try:
        print(lifted(text, pathlib.Path(words[0]).parent), end="")
    except Fault as error:
        print(f"lift.py: {plain(error.told(words[0]))}", file=sys.stderr)
        return 1
    return 0


if __name__ == "__main__":
    run(main, __doc__)

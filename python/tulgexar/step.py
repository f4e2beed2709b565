"""Runs entry points of an application step by step, and prints what each step changes.

IMAGE is a file of an image's hexadecimal digits, as `asm` prints them, or a text for `asm`, which is assembled. Behind it stand the entry
points that are run on one instance, one after the other, each with its words:
    create, close, destroy
    open [PARAMETER]..
    invoke FUNCTION [PARAMETER]..   the function in hexadecimal digits, as in a client's script
    rN=HEX                          behind any of them: register N begins with this, whatever else it would
    cancelled                       behind any of them: the cancellation flag is set
A parameter is a word of a client's script: none, vi:A:B, vo, vio:A:B, mi:HEX, mo:LEN, mio:HEX. What an open returns in r1
is the context, which invoke and close get in r2. The memory begins as zeros, and objects are kept in files in memory, of which
there are none at first; a time is the number of those before, and a wait is over at once.

Each line has the number of the step, the place of its instruction, the instruction, and then what it changes: registers,
memory as [ADDRESS] BYTES, and the name of a system call with r0 to r2 as they were. Behind an entry point stand its result
and its outputs, or the panic's code and place. Where a map lies beside IMAGE, a line `-- FUNCTION FILE:LINE` stands where the steps come
to another line of the source, and a panic has its line. Of a text without a map it is `-- LABEL FILE:LINE`, where they come to another label; and
the instructions are the text's lines.

Status: 0 where all have returned, 1 at a panic, a bad image or text, or an entry point that takes over 10,000 steps; 2 at other words.
usage: step.py IMAGE ENTRY [WORD].. [ENTRY [WORD]..]..
"""

import collections
import pathlib
import re

from tulgexar import assembler, formats, image, machine, objects, places
from tulgexar.words import BadWords, hexadecimal, plain, run, text_of

MOST_STEPS = 10_000
APPLICATION = "00000000-0000-0000-0000-000000000000"

# An entry point that is to be run: its name, its first registers, those that are set, its parameters, and the flag.
Run = collections.namedtuple("Run", "entry registers changed parameters is_cancelled")


def runs_of(words):
    """The entry points that the words name."""
    words, found = collections.deque(words), []
    while words:
        entry = words.popleft()
        if entry not in formats.ENTRIES:
            raise BadWords(f"{entry} is no entry point: they are {', '.join(formats.ENTRIES)}")
        function = [hexadecimal(words.popleft(), 32)] if entry == "invoke" and words else []
        if entry == "invoke" and not function:
            raise BadWords("invoke has no function")
        changed, parameters, flags = operands_of(words, 4 if entry in ("open", "invoke") else 0)
        word = sum(parameter.type << 4 * k for k, parameter in enumerate(parameters))
        registers = function + [word] if entry in ("open", "invoke") else []
        found.append(Run(entry, registers, changed, parameters, bool(flags)))
    if not found:
        raise BadWords("an entry point is wanted")
    return found


def operands_of(words, most):
    """Takes the words of one entry point: registers, parameters, of which there are as many at most, and the flag."""
    changed, parameters, flags = {}, [], []
    while words and words[0] not in formats.ENTRIES:
        word = words.popleft()
        register = re.fullmatch("r([0-9]|1[0-5])=([0-9a-fA-F]{1,8})", word)
        if register:
            changed[int(register[1])] = int(register[2], 16)
        elif word == "cancelled":
            flags.append(word)
        elif machine.parameter_of(word) and len(parameters) < most:
            parameters.append(machine.parameter_of(word))
        else:
            raise BadWords(f"{word} is no parameter here (none, vi:A:B, vo, vio:A:B, mi:HEX, mo:LEN, mio:HEX), no register r0=HEX to r15=HEX, and not cancelled")
    return changed, parameters, flags


def begun(run_, instance, context):
    """The machine of an entry point at its beginning."""
    registers = [*run_.registers, 0, 0, 0][:3]
    if run_.entry in ("invoke", "close"):
        registers[2] = context
    instance.world.is_cancelled = lambda: run_.is_cancelled
    started = machine.Machine(instance, run_.entry, registers, run_.parameters)
    for number, value in run_.changed.items():
        started.registers[number] = value
    return started


class Shown:
    """An application that is shown step by step: its image's bytes, its map, and the lines of its text, where it is one."""

    def __init__(self, name):
        text, self.source, self.lines = text_of(name), places.map_beside(name), []
        if assembler.is_text(text):
            made = assembler.assembled(text)
            self.digits, self.lines = image.encoded(made.image), [line for _, line in made.lines]
            self.source = self.source if self.source.places else assembler.Source(made, pathlib.Path(name).name)
        else:
            self.digits = image.digits_in(text, name)

    def instruction(self, place, one):
        """The text of the instruction at a place."""
        return self.lines[place] if self.lines else image.instruction_text(one)


# What is printed of an entry point, in how many steps, and how it stopped, or None where it takes too many.
Traced = collections.namedtuple("Traced", "lines steps stop")


def traced(started, shown):
    """Steps up to the stop."""
    lines, told = [], ""
    for number in range(1, MOST_STEPS + 1):
        before, place = values_of(started), started.place
        if shown.source.at(place) != told:
            told = shown.source.at(place)
            lines.append(f"-- {told}")
        stop = started.step()
        if place < len(started.code):
            changes = changes_of(started, before, started.code[place])
            text = shown.instruction(place, started.code[place])
            lines.append(f"{number:5} {place:4}  {text:<26}{changes}".rstrip())
        if stop:
            return Traced(lines, number, stop)
    return Traced(lines, MOST_STEPS, None)


def changes_of(started, before, instruction):
    """What a step has changed, and which system call it was."""
    said = []
    if formats.OPERATIONS[instruction.op][0] == "sys":
        registers = " ".join(f"{before[f'r{number}']}".lstrip("0") or "0" for number in range(3))
        said.append(f"{formats.SYSTEM_CALLS[instruction.imm]} ({registers})")
    said += [f"[{address:08x}] {shortened(data.hex())}" for address, data in started.stored]
    said += [f"{name} {value}" for name, value in values_of(started).items() if before[name] != value]
    return "  ".join(said)


def values_of(started):
    """Registers, and the numbers and sizes of parameters, each by its name."""
    registers = {f"r{number}": f"{value:08x}" for number, value in enumerate(started.registers)}
    numbers = {f"value {k}": "{:08x} {:08x}".format(*parameter.numbers) for k, parameter in enumerate(started.parameters)}
    return registers | numbers | {f"size {k}": str(parameter.size) for k, parameter in enumerate(started.parameters)}


def shortened(digits):
    return digits if len(digits) <= 64 else f"{digits[:64]}.. ({len(digits) // 2} bytes)"


def ended(run_, started, steps, stop, source):
    """The line behind an entry point, which has stopped."""
    if stop is None:
        return f"{run_.entry} has not ended after {MOST_STEPS} steps"
    if stop.name == "panic":
        return f"{run_.entry} panics with {stop.first:08x} at {started.place}: {places.why_of(stop.first, stop.second, source)}{source.behind(started.place, started.stack)}"
    outputs = "".join(f" {parameter.printed()}" for parameter in run_.parameters if parameter.is_output)
    return f"{run_.entry} returns {stop.first:08x} {stop.second:08x} in {steps} steps{outputs}"


def session_steps(shown, words):
    """All that is printed, and whether all entry points have returned."""
    instance = machine.Instance(image.decode(shown.digits), objects.Store(APPLICATION, {}), machine.World())
    context, printed = 0, []
    for run_ in runs_of(words):
        started = begun(run_, instance, context)
        first = " ".join(f"{register:08x}" for register in started.registers[:3])
        lines, steps, stop = traced(started, shown)
        printed += [f"{run_.entry} begins with {first}", *lines, ended(run_, started, steps, stop, shown.source)]
        if stop is None or stop.name == "panic":
            return printed, False
        if run_.entry == "open":
            context = stop.second
    return printed, True


def main(words):
    if len(words) < 2:
        raise BadWords()
    try:
        shown = Shown(words[0])
    except assembler.Fault as fault:
        print(plain(f"{words[0]}:{fault.place}: {fault.cause}"))
        return 1
    refused = image.refusal(shown.digits)
    if refused:
        print(f"{refused[0]}: {refused[1]}")
        return 1
    printed, is_good = session_steps(shown, words[1:])
    print(plain("\n".join(printed)))
    return 0 if is_good else 1


if __name__ == "__main__":
    run(main, __doc__)

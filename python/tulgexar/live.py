"""Holds a conversation with a core, by docs/conversation.md: a prompt, and a module for benches.

It starts the program, sends it each line of standard input, and reads its answer, before it takes the next line. A line `> LINE` is
what was sent, and each line `< LINE` behind it is one of the answer. At a terminal the lines before can be had back and changed.
Words, in any order:
    script      a line is one of a script for lift.py, in which arguments, images and calls have names; files lie in the folder that
                live.py is called in
    serve       a call that asks for something is answered and resumed until it has ended: buffers are lent, files are kept in
                memory, waits are over at once
    notes       a line `  : TEXT` says of a call its function, client and thread, and what it asks for; and a line `  = TEXT` what an
                answer says, as annotate.py does, with the cause of ERESUME, and of a panic that is watched what its code is; with `script`
                by the maps beside the images' files, at which lines of the source it comes
    boot=FILE   the core is booted by a boot description (embed/teec/README.md), before the first line
    log=FILE    the conversation is kept in a file as a trace, for `run`, or with signals for `notify`: the lines that the program has
                taken, without questions, and at the end a `leave` of each processor that is inside
The program is the one of program=FILE, of the description, of TULGEXAR_LIVE, or what `rt run` has built in crates/optee_live.

With `serve` a call that sleeps, because a call that is inside or left suspended holds its instance, stays so, and goes on behind the next
line of a call.

A line that can't be sent, as it isn't of a script's form, is told with its number on standard error, at a terminal below it; the conversation
goes on.
Status: that of the program, as a shell has it, which is 0 where its input is over; 1 where it ends before with 0, gives no answer within 60
seconds, or answers otherwise than a conversation, where a line of an input can't be sent, or the core refuses what it is booted with; 2 at other
words, or a description that is wrong.
usage: live.py [program=FILE] [boot=FILE] [log=FILE] [script] [serve] [notes]
"""

import collections
import os
import pathlib
import re
import select
import subprocess
import sys
import time
from collections.abc import Callable, Sequence
from typing import NamedTuple, NoReturn

from tulgexar import description, formats, image, lift, places, plays, program
from tulgexar.formats import RAM_BYTES, RAM_START
from tulgexar.supplicant import Supplicant
from tulgexar.words import BadWords, plain, run

MOST_SHOWN, MOST_STEPS = 4096, 1_000_000
PATIENCE = 60  # seconds that an answer may take
PIPE_BYTES = 1 << 16  # read at once


class Answer(NamedTuple):
    """The lines of an answer, and the one that ends it."""

    lines: list[str]
    ending: str


# The words of a line by their names, numbers as such.
Named = dict[str, int | str]


class State(NamedTuple):
    """What a core keeps: of each slot, and of each instance by its number, the words of its line by their names; the processors that are
    inside; and the counts by their words. A slot that is free or active has its `phase` alone, and `cpu`; one whose call is masked has
    `masked`."""

    slots: list[Named]
    inside: set[int]
    instances: dict[int, Named]
    counts: dict[str, int]


# What an instance's line has behind its number.
INSTANCE = re.compile(r"(?P<uuid>\S+) users (?P<users>\d+) (?:idle|held (?P<holder>\d+)) (?P<life>alive|dead)")
SLOT = re.compile(
    r"(?P<phase>\w+)(?: (?P<cpu>\d+)| client (?P<client>\d+) session (?P<session>\d+) instance (?P<instance>\d+))?"
    r"(?: wants (?P<wants>\w+))?(?: buffer (?P<address>\w{8}) (?P<cookie>\w{16}))?(?P<cancelled> cancelled)?"
)
HEXADECIMAL = ("address", "cookie")
COUNTS = ("sessions", "buffers", "pages", "events", "copied")


class Refused(Exception):
    """A line that was answered by `bad KIND` or `full COPIED`."""

    def __init__(self, line: str, ending: str) -> None:
        super().__init__(f"{line:.80}: {ending}")
        self.line, self.ending = line, ending


class Over(Exception):
    """The program, where it is named that of this file, has ended with this status. One that has said nothing may be another program."""

    def __init__(self, status: int, file: str | os.PathLike[str] | None = None, is_known: bool = True) -> None:
        doubt = "" if is_known else ": is it the program of crates/optee_live?"
        super().__init__(f"{file or 'the program'} {program.how_ended(status)}{doubt}")
        self.status = status


class NoConversation(Exception):
    """The program gives no answer, or one that isn't of a conversation's form."""


class Asleep(Exception):
    """A call sleeps until its instance is free, which another call holds that is inside or left suspended: a processor goes on with it by
    `Driver.go_on(cpu, registers)`, behind that one."""

    def __init__(self, cpu: int, registers: list[int]) -> None:
        super().__init__(f"the call in thread {registers[3]} sleeps: another call holds its instance, and is inside or left suspended")
        self.cpu, self.registers = cpu, registers


# What stands in the answer to a line of its first word: the form of the first line, and of those behind it. To others stands nothing.
REGISTERS_TOLD, ANY = "ret [0-9]+( [0-9a-f]{8}){8}( [0-9]+ [0-9]+)?", "[a-z]+( .*)?"
EXIT = REGISTERS_TOLD, "(panic|wrote) .*"
TOLD = {"smc": EXIT, "leave": EXIT, "show": ("mem [0-9]+ [0-9a-f]{8} [0-9a-f]+",) * 2}
TOLD |= {question: (ANY, ANY) for question in ("state", "session", "buffer", "events")}


def is_of_trace(line: str) -> bool:
    """Whether a line is one of a trace, with or without signals, and no question."""
    word = line.split(" ")[0]
    return not line or line[0] == "#" or word == "signal" or word in formats.LINES


class Log:
    """A file that keeps the lines of a conversation as a trace. It is a whole one at each moment: behind its lines each processor that is
    inside leaves."""

    def __init__(self, path: str | os.PathLike[str]) -> None:
        self.file, self.end = open(path, "wb"), 0
        self.inside: list[str] = []  # processors

    def take(self, line: str) -> None:
        """Keeps a line that was taken."""
        word, cpu = [*line.split(" "), ""][:2]
        if word == "enter":
            self.inside.append(cpu)
        elif word == "leave":
            self.inside.remove(cpu)
        self.file.seek(self.end)
        self.file.truncate()
        self.end += self.file.write(line.encode("latin-1") + b"\n")
        self.file.write("".join(f"leave {cpu}\n" for cpu in self.inside).encode("latin-1"))
        self.file.flush()


class Conversation:
    """A conversation with a core of its own, whose program has so many seconds for each answer. `heard`, where it is given, is called with
    each line and its answer, and `log` is the path of a file that keeps the conversation as a trace. With `watch` exits
    are watched, and `ram` has a copy of each processor's RAM, which is behind each answer what the core sees, up to a line
    `watch off`; else it is None. Meanwhile `panic` has the code of the panic in which the call of the last exit has ended, or None.
    Without `history` the core keeps none, and its life has no limit."""

    def __init__(
        self,
        file: str | os.PathLike[str] | None = None,
        heard: Callable[[str, Answer], object] | None = None,
        watch: bool = False,
        history: bool = True,
        patience: float = PATIENCE,
        log: str | os.PathLike[str] | None = None,
    ) -> None:
        self.heard, self.patience = heard, patience
        self.ram: list[bytearray] | None = None
        self.panic: int | None = None
        self.log = Log(log) if log else None
        self.file, self.read_ahead, self.is_known = program.found("optee_live", file), b"", False
        self.process = program.started(self.file, stdin=subprocess.PIPE, stdout=subprocess.PIPE)
        if watch:
            self.ask("watch on")
            self.ram = []
        if not history:
            self.ask("history off")

    def __enter__(self) -> "Conversation":
        return self

    def __exit__(self, *error: object) -> None:
        self.close()

    def close(self) -> int:
        """Ends the input. The status of the program."""
        try:
            self.process.stdin.close()
        except BrokenPipeError:
            pass
        self.process.stdout.close()
        return self.ended()

    def finish(self) -> None:
        """Ends the input, behind which the program has to end with status 0, or it is Over."""
        status = self.close()
        if status:
            raise Over(status, self.file, self.is_known)

    def send(self, line: str) -> Answer:
        """Sends a line, and reads its answer."""
        if "\n" in line:
            raise ValueError("one line at a time")
        if self.process.stdin.closed:
            raise Over(self.ended(), self.file)
        try:
            self.process.stdin.write(line.encode("latin-1") + b"\n")
            self.process.stdin.flush()
        except BrokenPipeError:
            pass  # the program has ended: what it has said is read first
        answer, self.is_known = self.answer(line.partition(" ")[0]), True
        if self.ram is not None and answer.ending == "ok":
            self.copy(line, answer)
        if self.log and answer.ending == "ok" and is_of_trace(line):
            self.log.take(line)
        if self.heard:
            self.heard(line, answer)
        return answer

    def copy(self, line: str, answer: Answer) -> None:
        """Puts what a line and its answer have written into the copies of RAM."""
        word, _, rest = line.partition(" ")
        words = rest.split(" ")
        if word == "boot":
            self.ram = [bytearray(RAM_BYTES) for _ in range(int(words[0]))]
        elif word == "mem":
            for ram in self.ram or []:
                put(ram, *words)
        elif word == "write" and self.ram:
            put(self.ram[int(words[0])], *words[1:])
        elif word in ("smc", "leave"):
            self.panic = None
            for told in answer.lines[1:]:
                self.hear_exit(*told.split(" "))
        elif line == "watch off":
            self.ram, self.panic = None, None

    def hear_exit(self, word: str, *words: str) -> None:
        """What a line behind `ret` says."""
        if word == "panic":
            self.panic = int(words[0], 16)
        elif word == "wrote" and self.ram:
            put(self.ram[int(words[0])], *words[1:])

    def answer(self, word: str) -> Answer:
        """Reads an answer to a line of this first word, to the line that ends it."""
        lines: list[str] = []
        until = time.monotonic() + self.patience
        while True:
            line = self.next_line(until)
            if re.fullmatch("ok|bad [a-z]+|full [0-9]+", line):
                return Answer(lines, line)
            form = TOLD[word][min(len(lines), 1)] if word in TOLD else None
            if form is None or not re.fullmatch(form, line):
                self.stop(f"{self.file} doesn't answer as a conversation's program does: {plain(line[:80])}")
            lines.append(line)

    def next_line(self, until: float) -> str:
        """A line that is said before a moment."""
        stream = self.process.stdout.fileno()
        while b"\n" not in self.read_ahead:
            if not select.select([stream], [], [], max(0, until - time.monotonic()))[0]:
                self.stop(f"{self.file} has given no answer within {self.patience} seconds")
            part = os.read(stream, PIPE_BYTES)
            if not part:
                raise Over(self.ended(), self.file, self.is_known)
            self.read_ahead += part
        line, _, self.read_ahead = self.read_ahead.partition(b"\n")
        return line.decode("latin-1")

    def ended(self) -> int:
        """The status of a program that says no more, or is heard no more."""
        try:
            return self.process.wait(self.patience)
        except subprocess.TimeoutExpired:
            self.stop(f"{self.file} runs on, though its input or its output is over")

    def stop(self, why: str) -> NoReturn:
        """Stops the program."""
        self.process.kill()
        self.process.wait()
        raise NoConversation(why)

    def ask(self, line: str) -> list[str]:
        """Sends a line that is to be taken: the lines of its answer."""
        lines, ending = self.send(line)
        if ending != "ok":
            raise Refused(line, ending)
        return lines

    def boot(self, described: description.Description) -> bool:
        """Boots the core by a description, as description.read gives it. One that keeps no history is booted so where the program
        knows the line for that: whether it does."""
        is_kept = described.has_history or self.send("history off").ending != "ok"
        for line in described.lines():
            self.ask(line)
        return not is_kept

    def smc(self, cpu: int, registers: Sequence[int], steps: int = MOST_STEPS) -> list[int]:
        """A processor enters with up to eight registers, and exits: those of the answer."""
        padded = [*registers, *[0] * (8 - len(registers))]
        return registers_of(self.ask(f"smc {cpu} {steps} " + " ".join(f"{register:x}" for register in padded)))

    def read(self, cpu: int, address: int, length: int) -> bytes:
        """Bytes of a processor's RAM."""
        data = b""
        while len(data) < length:
            count = min(length - len(data), MOST_SHOWN)
            line = self.ask(f"show {cpu} {address + len(data):x} {count}")[0]
            data += bytes.fromhex(line.split(" ")[3])
        return data

    def write(self, cpu: int, address: int, data: bytes) -> None:
        """A processor writes bytes into its RAM."""
        self.ask(f"write {cpu} {address:x} {data.hex()}")

    def place_of(self, cookie: int, offset: int) -> int | None:
        """The address of a byte of a registered buffer, or None where the core doesn't keep the buffer, or it has no such byte."""
        for told in self.ask(f"buffer {cookie:x}"):
            word, *words = told.split(" ")
            if word == "piece":
                address, length = int(words[0], 16), int(words[1])
                if offset < length:
                    return address + offset
                offset -= length
        return None

    def state(self) -> State:
        """What the core keeps."""
        state = State([], set(), {}, {})
        for told in self.ask("state"):
            word, number, rest = (*told.split(" ", 2), "")[:3]
            if word == "slot":
                state.slots.append(named(SLOT, rest))
            elif word == "masked":
                state.slots[int(number)]["masked"] = True
            elif word == "inside":
                state.inside.add(int(number))
            elif word == "instance":
                state.instances[int(number)] = named(INSTANCE, rest)
            elif word in COUNTS:
                state.counts[word] = int(number)
        return state


class Driver:
    """Calls that are made to their end, with a supplicant that serves them. Where exits are watched, `panic` has the code of the panic
    in which the last call has ended, or None."""

    def __init__(self, talk: Conversation, supplicant: Supplicant | None = None) -> None:
        self.talk, self.supplicant = talk, supplicant or Supplicant(talk)
        self.panic: int | None = None

    def call(self, cpu: int, registers: Sequence[int], steps: int = MOST_STEPS) -> list[int]:
        """A processor calls, and returns until the call has ended: the registers of its last answer. A call that sleeps is resumed
        at once; where it then sleeps again, the call that it waits for is inside or left suspended, and it is Asleep."""
        answered = self.talk.smc(cpu, registers, steps)
        self.panic = self.talk.panic
        self.supplicant.begins(cpu, registers)
        return self.serve(cpu, answered, steps)

    def go_on(self, cpu: int, registers: Sequence[int], steps: int = MOST_STEPS) -> list[int]:
        """A processor goes on with a call that was Asleep: likewise."""
        answered = self.talk.smc(cpu, registers, steps)
        self.panic = self.talk.panic
        return self.serve(cpu, answered, steps)

    def serve(self, cpu: int, answered: list[int], steps: int = MOST_STEPS) -> list[int]:
        """Serves the call of an answer to its end: the registers of the last one."""
        has_slept = False
        while served := self.supplicant.serves(cpu, answered):
            returns, name = served
            if name == "Sleep" and has_slept:
                raise Asleep(cpu, returns)
            has_slept = name == "Sleep"
            answered = self.talk.smc(cpu, returns, steps)
            self.panic = self.panic if self.talk.panic is None else self.talk.panic
        return answered


def registers_of(lines: Sequence[str]) -> list[int]:
    """The registers of a line `ret`, which stands before all that is said of its exit where that is watched."""
    if not lines or not re.fullmatch(REGISTERS_TOLD, lines[0]):
        raise NoConversation(f"no line ret with eight registers is told: {plain(' '.join(lines[:1])):.80}")
    return [int(register, 16) for register in lines[0].split(" ")[2:10]]


def put(ram: bytearray, address: str, digits: str) -> None:
    """Puts bytes into a copy of RAM."""
    data = bytes.fromhex(digits)
    at = int(address, 16) - RAM_START
    ram[at : at + len(data)] = data


def named(form: re.Pattern[str], text: str) -> Named:
    """The words of a text of this form by their names, without those that it hasn't: numbers as such."""
    found = form.fullmatch(text)
    if not found:
        raise NoConversation(f"no line of what a core keeps: {plain(text[:80])}")
    words = {name: word for name, word in found.groupdict().items() if word is not None}
    return {name: number(name, word) for name, word in words.items()}


def number(name: str, word: str) -> int | str:
    """A word as a number, where it is one."""
    if name == "cancelled":
        return True
    if name in HEXADECIMAL:
        return int(word, 16)
    return int(word) if word.isdecimal() else word


class Notes:
    """What is said of a conversation, answer by answer."""

    def __init__(self) -> None:
        self.play, self.number = plays.Play(), 0
        self.asked: str | None = None  # what is said of the call that a line makes
        self.sources: list[tuple[image.Image, places.Map]] = []  # the images that are known, each with its map

    def told(self, line: str, answer: Answer, is_noted: bool = True) -> list[str]:
        """The lines that tell of a line and its answer: what was sent, what it asks for, what was answered, and what that says."""
        note = self.note(line, answer)
        asked, said = ([f"  {mark} {text}"] if text and is_noted else [] for mark, text in ((":", self.asked), ("=", note)))
        return [plain(part) for part in (f"> {line}", *asked, *(f"< {part}" for part in (*answer.lines, answer.ending)), *said)]

    def note(self, line: str, answer: Answer) -> str:
        """What an answer says."""
        self.asked = None
        word, _, rest = answer.ending.partition(" ")
        if word == "bad":
            return f"{rest}: {fault_of(line, rest)}"
        if word == "full":
            return f"the entry would have read too much: {rest} bytes are read so far"
        self.number += 1
        entry = self.play.entry(self.number, line, collections.deque(answer.lines))
        self.asked = entry.asked
        return "; ".join(part for part in (entry.note, self.panic(answer)) if part)

    def panic(self, answer: Answer) -> str:
        """What is said of the panic in which a call has ended, or an empty text."""
        codes = [told.split(" ")[1] for told in answer.lines if told.startswith("panic ")]
        meanings = [places.meanings_of(int(code, 16), self.sources) for code in codes]
        return "; ".join(f"panic {code}: {meaning or 'by its own system call'}" for code, meaning in zip(codes, meanings))


class Prompt(Notes):
    """Takes lines as a reader types them, and prints what comes of them."""

    def __init__(self, file, options, log=None):
        super().__init__()
        self.options = options
        self.talk = Conversation(file, self.heard, log=log)
        self.script, self.driver = lift.Script(pathlib.Path()), Driver(self.talk)
        self.inside, self.asleep = set(), []  # processors that are inside; calls that sleep
        self.typed = None  # a line that stands on the terminal
        self.has_refused = False  # whether a line of an input was none that can be sent

    def heard(self, line, answer):
        """Prints a line and its answer. One that stands on the terminal isn't printed again."""
        lines = self.told(line, answer, "notes" in self.options)
        print("\n".join(lines[line == self.typed :]))
        self.typed = None
        sys.stdout.flush()

    def take(self, place, text):
        """Sends what a line of the reader stands for, which has this number."""
        lines = self.script.lift(place, text) if "script" in self.options else [text]
        self.note_image(text.split())
        for line in lines:
            words = line.split(" ")
            if "serve" in self.options and words[0] in ("smc", "enter", "leave"):
                self.serve(line, words)
            else:
                self.talk.send(line)

    def note_image(self, words):
        """Keeps the image that a line of a script names, with its map."""
        if "script" in self.options and words[:1] == ["image"] and len(words) > 2:
            path = self.script.folder / words[2]
            digits = image.digits_of(path)
            if image.refusal(digits) is None:
                self.sources.append((image.decode(digits), places.map_beside(path)))

    def serve(self, line, words):
        """Sends a line of a call, and serves the call until it has ended or sleeps; behind it those that slept before."""
        registers = self.registers(words) if words[0] != "leave" else None
        lines, ending = self.talk.send(line)
        if ending != "ok":
            return
        cpu = int(words[1])
        (self.inside.discard if lines else self.inside.add)(cpu)
        if registers:
            self.driver.supplicant.begins(cpu, registers)
        if lines:
            self.until_it_sleeps(self.driver.serve, cpu, registers_of(lines))
            self.go_on()

    def go_on(self):
        """Goes on with the calls that sleep and whose processors aren't inside."""
        able = [call for call in self.asleep if call.cpu not in self.inside]
        self.asleep = [call for call in self.asleep if call.cpu in self.inside]
        for call in able:
            self.until_it_sleeps(self.driver.go_on, call.cpu, call.registers)

    def until_it_sleeps(self, serve, cpu, registers):
        """Serves a call; one that sleeps is kept."""
        try:
            serve(cpu, registers)
        except Asleep as asleep:
            self.asleep.append(asleep)

    def registers(self, words):
        """The registers of an entry, or None where the line isn't of its form."""
        try:
            return [self.register(words, at) for at in range(8)]
        except (ValueError, IndexError):
            return None

    def register(self, words, at):
        word = words[3 + at]
        return self.play.last_answer[words[1]][int(word[1:])] if word[0] == "=" else int(word, 16)

    def typed_lines(self):
        """The lines of the reader, up to their end."""
        sys.stdin.reconfigure(encoding="latin-1")
        if not sys.stdin.isatty():
            yield from (line.removesuffix("\n") for line in sys.stdin)
            return
        import readline  # noqa: F401  (the lines before can be had back)

        while True:
            try:
                self.typed = input("> ")
            except (EOFError, KeyboardInterrupt):
                print()
                return
            yield self.typed

    def hold(self, described=None):
        """Takes the lines of the reader, with a core that is booted by a description where there is one. The status."""
        try:
            if described:
                self.talk.boot(described)
            for place, text in enumerate(self.typed_lines(), 1):
                try:
                    self.take(place, text)
                except (BadWords, Refused) as error:
                    self.refuse(place, text, error)
        except Refused as refused:
            print(f"live.py: {plain(refusal_of_boot(described, refused))}", file=sys.stderr)
            self.has_refused = True
        return int(self.has_refused)

    def held(self, described=None):
        """Holds the conversation, and ends it. The status."""
        try:
            status = self.hold(described)
            self.talk.finish()
        except Over as over:
            print(f"live.py: {over}", file=sys.stderr)
            return program.status_of(over.status) or 1
        except NoConversation as wrong:
            print(f"live.py: {wrong}", file=sys.stderr)
            return 1
        return status

    def refuse(self, place, text, error):
        """Says why a line can't be sent: at a terminal below it, else with its number."""
        if sys.stdin.isatty():
            print(f"  {plain(str(error))}")
            return
        self.has_refused = True
        print(f"live.py: line {place}: {plain(text[:80])}: {plain(str(error))}", file=sys.stderr)


def refusal_of_boot(described, refused):
    """What is said of a line by which a core isn't booted: of an application where its description has it, and what is wrong with its image."""
    kind, (word, name, *_) = refused.ending.partition(" ")[2], refused.line.split(" ")
    if word != "ta" or name not in described.places:
        return f"the core isn't booted: {refused}: {fault_of(refused.line, kind)}"
    why = image.refusal(bytes.fromhex(described.applications[name])) if kind == "image" else None
    return f"{described.places[name]}: the core refuses application {name}: bad {kind}: {': '.join(why) if why else fault_of(refused.line, kind)}"


def fault_of(line, kind):
    """What a fault of this kind is in a line, or usually is."""
    if kind == "item" and line.split(" ")[0] == "watch":
        return "neither on nor off stands behind watch"
    named = [word for word in line.split(" ") if word in formats.FUNCTIONS.values()]
    hint = f"; {named[0]} is a name, which live.py takes by the word script" if named else ""
    return (FAULTS.get(kind) or formats.FAULTS.get(kind, "no known kind")) + hint


FAULTS = {
    "long": "the line has more than 8,388,736 bytes",
    "cut": "the input ends within the line",
}
OPTIONS = ("script", "serve", "notes")


def described_by(path):
    """What a description says."""
    try:
        return description.read(path)
    except description.Fault as fault:
        raise BadWords(str(fault)) from fault


def main(words):
    words = list(words)
    file, path, log = (program.taken_from(words, name) for name in ("program", "boot", "log"))
    for word in words:
        if word not in OPTIONS or words.count(word) > 1:
            raise BadWords(f"{word} isn't served here, or stands twice: the words are {', '.join(OPTIONS)}")
    described = described_by(path) if path is not None else None
    try:
        prompt = Prompt(file or described and described.program, words, log)
    except OSError as error:
        raise BadWords(f"{log}: {error.strerror}") from error
    return prompt.held(described)


if __name__ == "__main__":
    run(main, __doc__)

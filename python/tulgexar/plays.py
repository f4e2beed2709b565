"""Lays what a play has printed beside its trace: which line an item printed, and what it says. It isn't run by itself."""

import collections
import os
import pathlib
import re

from tulgexar import calls, formats, lift, messages
from tulgexar.words import located, paths_in, text_of

# A line of the trace; what it printed, and what that says in words; the name of an answer; the result of a call, as
# (result, origin), where the line shows one; what is said of a call as it enters.
Entry = collections.namedtuple("Entry", "number text printed note answer result asked", defaults=[None, None, None, None, None])


HEADER = ("boot", "ta", "mem", "key")
CLIENT_CALLS = ("open", "invoke", "close")  # the calls of a client's script
ITEMS = {*formats.LINES, "signal"} - {*HEADER}  # of a trace, which no client's script has
JOURNAL = "OTTJ"  # begins one
FORMLESS = "this line isn't of its form"
OUTPUTS = re.compile("(ret|mem|bad trace|cpu|open|invoke|close) ")  # what a play prints begins so
CLIENT_OUTPUT = "v:[0-9a-f]{8}:[0-9a-f]{8}|m:[0-9]+:(?:[0-9a-f]{2})*"  # of a client's call
RET = r"ret {}((?: [0-9a-f]{{8}}){{8}})"


class Mismatch(Exception):
    """Output that isn't that of the trace: the cause, and the number of the trace's line that has it, or 0, whose file may be named.
    `entries` are those before it."""

    entries = ()

    def __init__(self, cause, place=0):
        super().__init__(cause, place)
        self.cause, self.place, self.file = cause, place, ""

    def __str__(self):
        return located(self.cause, self.place, self.file)

    def of_file(self, name):
        """The same of the trace in the file of this name."""
        self.file = name
        return self


def of_files(trace, output):
    """The entries of a trace and its output; or of a folder of traces, and what `rt try --cases` has printed for it."""
    folder, printed = pathlib.Path(trace), text_of(output)
    if not os.path.isdir(trace):
        return laid_out_file(trace, printed)
    before, *cases = re.split("^== ", printed, flags=re.MULTILINE)
    named = {name: part for name, _, part in (case.partition("\n") for case in cases)}
    if before or set(named) != {path.name for path in paths_in(folder)}:
        raise Mismatch(f"the output isn't a line `== NAME` and what was printed for each file of {trace}")
    entries = []
    for name, part in named.items():
        entries += [Entry(0, f"== {name}"), *laid_out_file(folder / name, part)]
    return entries


def laid_out_file(name, output):
    """The entries of the trace in a file, and its output."""
    try:
        return lay_out(text_of(name), output)
    except Mismatch as mismatch:
        raise mismatch.of_file(name)


def lay_out(trace, output):
    """An Entry for each line of the trace; between them they use up the output, or it is a Mismatch."""
    refuse_journal(trace, output)
    refuse_swapped(trace, output)
    lines = list(enumerate(trace.removesuffix("\n").split("\n") if trace else [], 1))
    for place, line in lines:
        refuse_script(place, line)
    bad = re.fullmatch(r"bad trace ([0-9]{1,9}) (\w+)\n", output)
    if bad and not 1 <= int(bad[1]) <= len(lines) + 1:
        raise Mismatch(f"the trace has no line {bad[1]}, and the output is {output[:-1]}")
    if bad:
        return list(with_fault(lines, int(bad[1]), output[:-1], bad[2]))
    if output.startswith("cpu "):
        return in_blocks(lines, output)
    return laid(Play(), lines, collections.deque(output.splitlines()))


def item_of_trace(lines):
    """The first of lines, each behind its number, that is an item of a trace, where a client's script has none: its number, the line and what
    is to be said of it; or None."""
    for place, line in lines:
        word = line.split(" ")[0]
        if word in ITEMS:
            return place, line, f"{word} is an item of a trace, and no call of a client"
    return None


def refuse_script(place, line):
    """A Mismatch where a line is one of a script for lift.py."""
    if lift.is_of_script(line):
        raise Mismatch("this line is one of a script: lift.py makes a trace of it", place)


def refuse_journal(trace, output):
    """A Mismatch where the trace or the output is a journal."""
    for name, text in (("TRACE", trace), ("OUTPUT", output)):
        if text.startswith(JOURNAL):
            raise Mismatch(f"{name} is a journal, and no text: annotate.py JOURNAL tells its records, explain.py JOURNAL why it isn't legal")


def refuse_swapped(trace, output):
    """A Mismatch where the trace is what a play has printed, and the output a trace."""
    if OUTPUTS.match(trace) and output.split(" ")[0] in ("boot", "#"):
        raise Mismatch("OUTPUT is a trace, and TRACE what was printed: they are swapped")


def refuse_formless(number, text):
    """A Mismatch where a line is none of a trace, with or without signals, or of a client's script."""
    words = text.split(" ")
    is_item = words[0] in lift.ITEMS and formats.LINES.get(words[0], len(words)) == len(words)
    if text and not text.startswith("#") and not is_item:
        raise Mismatch(FORMLESS, number)


def laid(play, lines, printed):
    """The entries of lines, which use up what was printed."""
    entries = []
    try:
        for number, text in lines:
            refuse_formless(number, text)
            entries.append(play.entry(number, text, printed))
        if printed:
            raise Mismatch(f"behind the last line of the trace is left: {printed[0]}")
    except Mismatch as mismatch:
        mismatch.entries = entries
        raise
    return entries


def in_blocks(lines, output):
    """What `threads` has printed: the header, and then each processor's lines with its block."""
    header, own = parted(lines)
    entries = laid(Play(), header, collections.deque())
    blocks = re.split("^cpu ", output, flags=re.MULTILINE)[1:]
    cpus, threads = booted_by(header)
    if [block.partition("\n")[0] for block in blocks] != [str(cpu) for cpu in range(cpus)]:
        raise Mismatch("the output isn't a block for each processor")
    visits = []
    for block in blocks:
        cpu, *printed = block.splitlines()
        full = printed.pop() if printed and printed[-1].startswith("full ") else None
        play = Play(" at ([0-9]+) ([0-9]+)")
        laid(play, header, collections.deque())
        entries.append(Entry(0, f"cpu {cpu}"))
        entries += laid(play, own.get(cpu, []), collections.deque(printed)) if not full else cut_off(play, own[cpu], printed)
        if full:
            entries.append(Entry(0, "", full, "the next entry would have read too much: the processor does nothing more"))
        visits += play.threads.visits
    return with_calls(entries, visits, threads)


def booted_by(header):
    """How many processors and threads the lines of a header boot a core with; none, and None, where no line does."""
    for number, text in header:
        if text.startswith("boot "):
            boot = re.fullmatch("boot ([0-9]{1,5}) ([0-9]{1,5}) [0-9]+", text)
            if not boot:
                raise Mismatch(FORMLESS, number)
            return int(boot[1]), int(boot[2])
    return 0, None


def with_calls(entries, visits, count):
    """The entries of blocks, with what is said of each call: by the places of its entry and its exit."""
    exits = [at for at, entry in enumerate(entries) if entry.printed and entry.printed.startswith("ret ")]
    places = [[int(word) for word in entries[at].printed.split(" ")[-2:]] for at in exits]
    told = calls.told_in_order([(*place, *visit) for place, visit in zip(places, visits)], count)
    for at, (asked, why) in zip(exits, told):
        note = entries[at].note
        entries[at] = entries[at]._replace(asked=asked, note=note.replace("ERESUME", f"ERESUME: {why}", 1) if why else note)
    return entries


def cut_off(play, lines, printed):
    """The entries of the lines that had printed something before a processor's entry was refused."""
    printed, entries = collections.deque(printed), []
    for number, text in lines:
        if not printed:
            break
        entries.append(play.entry(number, text, printed))
    return entries


def parted(lines):
    """The header's lines, and those of each processor with the comments above them."""
    header, own, waiting = [], collections.defaultdict(list), []
    for number, text in lines:
        words = text.split(" ")
        waiting.append((number, text))
        if text.startswith("#") or not text:
            continue
        if words[0] not in HEADER and len(words) == 1:
            raise Mismatch(FORMLESS, number)
        (header if words[0] in HEADER else own[words[1]]).extend(waiting)
        waiting = []
    return header, own


def fault_of(kind, line=""):
    """What a fault of this kind is in a line, or usually is."""
    words = line.split(" ")
    if kind == "range" and words[0] == "boot" and words[2:3] == ["1"]:
        return f"{formats.FAULTS[kind]}; by `client` a core has at least two threads: one is for its cancels"
    return formats.FAULTS.get(kind, "no known kind")


def with_fault(lines, place, output, kind):
    """The lines, with the output under the one that has the fault; that of a processor inside is behind the last."""
    number = 0
    for number, text in lines:
        yield Entry(number, text, output, f"{kind}: {fault_of(kind, text)}") if number == place else Entry(number, text)
    if place > number:
        yield Entry(place, "", output, f"{kind}: {fault_of(kind)}")


class Lanes:
    """The RAM of each processor as far as lines of the trace have written it, and zeros elsewhere."""

    def __init__(self):
        self.filled = {}
        self.written = collections.defaultdict(dict)
        self.unknown = collections.defaultdict(set)  # what the core has written there, and nothing has shown

    def fill(self, address, digits):
        self.filled |= enumerate(bytes.fromhex(digits), int(address, 16))

    def write(self, cpu, address, digits):
        start, data = int(address, 16), bytes.fromhex(digits)
        self.written[cpu] |= enumerate(data, start)
        self.unknown[cpu].difference_update(range(start, start + len(data)))

    def forget(self, cpu, address, length):
        """The core has written there."""
        self.unknown[cpu].update(range(address, address + length))

    def knows(self, cpu, address, length):
        return self.unknown[cpu].isdisjoint(range(address, address + length))

    def half(self, cpu, address):
        """A number of four bytes."""
        return int.from_bytes(self.bytes_at(cpu, address, 4), "little")

    def bytes_at(self, cpu, address, length):
        """Bytes of a processor's RAM."""
        return bytes(self.written[cpu].get(at, self.filled.get(at, 0)) for at in range(address, address + length))

    def copy(self, cpu):
        """What lines of the trace have written into a processor's RAM, by the addresses."""
        return dict(self.written[cpu])


class Play:
    """What is known of a run up to a line: each processor's last answer, function and RAM, and the arguments there."""

    def __init__(self, places=""):
        self.behind_ret = places  # the form of the places in the history that `threads` prints
        self.last_answer = collections.defaultdict(lambda: [0] * 8)
        self.function = {}
        self.lanes = Lanes()
        self.lends = set()  # the threads whose call asked for a buffer
        self.places = messages.Places()
        self.threads = calls.Recorded() if places else calls.Threads()
        self.brought = {}  # what is said of each processor's last entry
        self.opening, self.suspended = {}, {}  # where the argument of an open is, by its processor inside, or its thread

    def entry(self, number, text, printed):
        """The entry of a line, which takes what it printed from the output."""
        words = text.split(" ")
        item, operands = words[0], words[1:]
        if item in CLIENT_CALLS:
            return Entry(number, text, *client_call(number, words, printed))
        if text.startswith("#") or formats.LINES.get(item) != len(words):
            return Entry(number, text)
        try:
            return Entry(number, text, *self.item(number, item, operands, printed))
        except (ValueError, LookupError, OverflowError) as error:
            raise Mismatch(FORMLESS, number) from error

    def item(self, number, item, operands, printed):
        """What an item has printed, and what that says, as further fields of an Entry."""
        if item == "boot" and not self.behind_ret:
            self.threads = calls.Threads(int(operands[1]))
        if item in ("mem", "write"):
            (self.lanes.fill if item == "mem" else self.lanes.write)(*operands)
        if item in ("smc", "enter"):
            self.enter(operands[0], operands[2:])
        asked = self.brought.get(operands[0]) if item in ("smc", "enter") else None
        if item in ("smc", "leave"):
            line = take(printed, number, RET.format(re.escape(operands[0])) + self.behind_ret)
            name, note = self.answer(operands[0], [int(register, 16) for register in line[1].split()])
            return line[0], note + (f"; places {line[2]} and {line[3]}" if self.behind_ret else ""), name, None, asked
        if item == "enter":
            return None, None, None, None, asked
        if item == "show":
            address, length = int(operands[1], 16), int(operands[2])
            line = take(printed, number, f"mem {re.escape(operands[0])} {address:08x} ([0-9a-f]{{{2 * length}}})")
            note, result = self.places.shown(address, bytes.fromhex(line[1]))
            self.lanes.write(operands[0], operands[1], line[1])
            return line[0], note, None, result
        return ()

    def enter(self, cpu, registers):
        """Reads what an entry brings: its function, and where an argument, its area or a lent buffer lies. Where an argument
        lies that a cookie names isn't known."""
        last = self.last_answer[cpu]
        registers = [last[int(word[1])] if word[0] == "=" else int(word, 16) for word in registers]
        a0, a1, a2, a3 = registers[:4]
        address = a1 << 32 | a2
        self.function[cpu] = a0
        came = calls.brought(cpu, registers, self.lanes)
        self.brought[cpu] = self.threads.enter(came)
        self.opening[cpu] = self.suspended.get(a3) if a0 == formats.RETURN_FROM_RPC else came.open_at
        if a0 in (formats.CALL_WITH_ARG, formats.CALL_WITH_RPC_ARG):
            self.places.argument_at(address)
        count = self.lanes.half(cpu, address + formats.COUNT_AT)
        if a0 == formats.CALL_WITH_RPC_ARG and count <= formats.MOST_PARAMETERS:
            self.places.area_at(address + formats.HEAD_BYTES + formats.PARAMETER_BYTES * count)
        if a0 == formats.RETURN_FROM_RPC and a3 in self.lends and address:
            self.places.buffer_at(address)

    def answer(self, cpu, registers):
        """The name of an answer, and what it says."""
        self.last_answer[cpu] = registers
        a0, a1, a2, a3 = registers[:4]
        why = self.threads.leave(cpu, registers)
        function = formats.FUNCTIONS.get(self.function[cpu])
        if function in formats.UUID_FUNCTIONS:
            digits = "".join(f"{register:08x}" for register in registers[:4])
            return function, f"{function} {'-'.join(re.findall('^.{8}|.{12}$|.{4}', digits))}"
        if function in formats.REVISION_FUNCTIONS:
            return function, f"{function} {a0}.{a1}"
        opening = self.opening.pop(cpu, None)
        if a0 == 0 and opening is not None:
            self.lanes.forget(cpu, opening + calls.SESSION_AT, 4)
        if a0 in formats.RPCS and function in formats.YIELDING_FUNCTIONS:
            self.suspended[a3] = opening
            return self.rpc(formats.RPCS[a0], a1, a2, a3)
        name = formats.CODES.get(a0, f"{a0:08x}")
        if formats.NOTIFY_FUNCTIONS.get(self.function[cpu]) == "GET_ASYNC_NOTIF_VALUE" and a0 == 0:
            return name, name + said_of_value(a1, a2)
        return name, name + (f": {why}" if why else said_beside(function, a0, a1, a3))

    def rpc(self, name, a1, a2, thread):
        """An answer that asks for something."""
        self.lends.discard(thread)
        if name == "ALLOC":
            self.lends.add(thread)
            return name, f"ALLOC of {a1} bytes, thread {thread}"
        cookie = f", cookie {a1 << 32 | a2:#x}" if name in ("FREE", "CMD") else ""
        return name, f"{name}{cookie}, thread {thread}"


def said_of_value(value, bits):
    """What GET_ASYNC_NOTIF_VALUE says: a value, whether it is one, and whether more are pending."""
    if not bits & 1:
        return ", no value pends"
    return f", value {value}" + (", and more are pending" if bits & 2 else "")


def client_call(number, words, printed):
    """What a call of a client's script has printed, and what that says, as further fields of an Entry."""
    head = " ".join(re.escape(word) for word in words[:2])
    line = take(printed, number, f"{head} ([0-9a-f]{{8}}) ([0-9a-f]{{8}})((?: (?:{CLIENT_OUTPUT}))*)")
    result, origin = (int(line[field], 16) for field in (1, 2))
    result, origin = messages.result_name(result), messages.origin_name(origin)
    outputs = [messages.output_note(word) for word in line[3].split()]
    return line[0], "; ".join([f"{result} of {origin}", *outputs]), None, (result, origin)


def said_beside(function, a0, a1, a3):
    """What an answer with a code says beside it."""
    if function == "GET_THREAD_COUNT" and a0 == 0:
        return f", threads {a1}"
    if function == "EXCHANGE_CAPABILITIES":
        names = [name for bit, name in enumerate(formats.CAPABILITIES) if a1 >> bit & 1]
        return f", capabilities: {', '.join(names)}" + (f" of {a3} parameters" if a3 else "")
    return ""


def take(printed, number, pattern):
    """The match of the next printed line with the pattern; another line is a Mismatch."""
    if not printed:
        raise Mismatch("the output ends before what this line prints", number)
    line = re.fullmatch(pattern, printed[0])
    if not line:
        raise Mismatch(f"this line doesn't print: {printed[0]}", number)
    printed.popleft()
    return line

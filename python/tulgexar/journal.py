"""A journal's records, told one by one, by docs/formats.md, "Journal". It isn't run by itself."""

import collections
import re
import struct
import uuid

from tulgexar import calls, plays, program

MAGIC, END = b"OTTJ", 0x7F
REGISTERS = struct.Struct("<8I")


class NoJournal(plays.Mismatch):
    """Bytes that don't begin as a journal."""


# How a verdict on journals begins, by the word that gives it, and the status at which one is given: `bad trace` has its own.
VERDICTS = {"audit": "legal [0-9]+|illegal [0-9]+", "compare": "illegal [12] [0-9]+|absent [12]|other|events [0-9]+|same [0-9]+"}
REFUSED = 3


def verdict_of(runner, words, data):
    """The verdict that the program gives on journals by these words. A Mismatch where it gives none, writes more, or ends otherwise."""
    done = runner.run(words, data.decode("latin-1"))
    if done.status not in (0, REFUSED):
        raise plays.Mismatch(program.wrong_end(runner.file, "optee_run", done.status))
    form = "bad trace [0-9]+ [a-z]+" if done.status else VERDICTS[words[0]]
    if not re.fullmatch(f"(?:{form})\n", done.output):
        raise plays.Mismatch(f"{runner.file} isn't the program of crates/optee_run: it doesn't {words[0]}")
    return done.output.removesuffix("\n")


class Reader:
    """Takes numbers and bytes from the front of a journal. Its record is the place that `bad trace` has: the magic is at 0, the records count
    from 1, and so on through those behind it."""

    def __init__(self, data):
        self.data, self.at, self.record = data, 0, 0

    def take(self, length, what="record"):
        if self.at + length > len(self.data):
            raise plays.Mismatch(f"{what} {self.record} is cut")
        self.at += length
        return self.data[self.at - length : self.at]

    def numbers(self, form):
        form = struct.Struct(f"<{form}")
        return form.unpack(self.take(form.size))

    def octets(self):
        """Bytes behind their length."""
        return self.take(*self.numbers("I"))


# The records of a journal. An event says whether it is an entry; one that is has steps, and its reads as (address, bytes).
Boot = collections.namedtuple("Boot", "cpus threads frames")
Application = collections.namedtuple("Application", "name image")
Key = collections.namedtuple("Key", "octets")
Event = collections.namedtuple("Event", "is_entry cpu registers steps reads", defaults=[0, ()])


def entry_of(reader):
    cpu, *registers, steps, count = reader.numbers("B8III")
    return Event(True, cpu, registers, steps, [(reader.numbers("Q")[0], reader.octets()) for _ in range(count)])


def exit_of(reader):
    cpu, *registers = reader.numbers("B8I")
    return Event(False, cpu, registers)


FORMS = {
    0x01: lambda reader: Boot(*reader.numbers("BBH")),
    0x02: lambda reader: Application(uuid.UUID(bytes=reader.take(16)), reader.octets()),
    0x04: lambda reader: Key(reader.take(32)),
    0x20: entry_of,
    0x21: exit_of,
}


def records(reader):
    """The records of a reader's next journal, up to its end; other bytes are a Mismatch."""
    if reader.take(len(MAGIC), "the magic at place") != MAGIC:
        raise NoJournal("these bytes aren't a journal, which begins with OTTJ")
    reader.record += 1
    while (tag := reader.take(1)[0]) != END:
        if tag not in FORMS:
            raise plays.Mismatch(f"record {reader.record} has the tag {tag:02x}, which is none")
        yield FORMS[tag](reader)
        reader.record += 1


def header_line(record):
    """The line of a trace that says what a record of a header does."""
    if isinstance(record, Boot):
        return f"boot {record.cpus} {record.threads} {record.frames}"
    if isinstance(record, Application):
        return f"ta {record.name} {record.image.hex()}"
    return f"key {record.octets.hex()}"


class Teller:
    """The lines on a journal's records, as Entries; what was known of a call before helps to name what is read and answered."""

    def __init__(self):
        self.play, self.event = plays.Play(), 0

    def tell(self, record):
        if isinstance(record, Event):
            yield from self.entry(record) if record.is_entry else self.exit(record)
            self.event += 1
            return
        if isinstance(record, Boot):
            self.play.threads = calls.Threads(record.threads)
        yield plays.Entry(0, header_line(record))

    def entry(self, event):
        cpu, words = str(event.cpu), [f"{register:x}" for register in event.registers]
        for address, data in event.reads:
            self.play.lanes.write(cpu, f"{address:x}", data.hex())
        self.play.enter(cpu, words)
        asked = self.play.brought[cpu]
        yield plays.Entry(0, f"event {self.event}: enter {cpu} {event.steps} {' '.join(words)}", asked=asked)
        for address, data in event.reads:
            note, _ = self.play.places.shown(address, data)
            yield plays.Entry(0, f"  reads {address:08x} {data.hex()}", None, note)

    def exit(self, event):
        cpu, registers = str(event.cpu), event.registers
        line = " ".join(f"{register:08x}" for register in registers)
        if cpu not in self.play.function:
            yield plays.Entry(0, f"event {self.event}: leave {cpu} {line}", None, f"an exit before any entry of processor {cpu}")
            return
        name, note = self.play.answer(cpu, registers)
        yield plays.Entry(0, f"event {self.event}: leave {cpu} {line}", None, note, name)


def told(data):
    """The Entries of a journal and of those behind it; other bytes are a Mismatch."""
    reader, entries = Reader(data), []
    try:
        tell(reader, entries)
    except plays.Mismatch as mismatch:
        mismatch.entries = entries
        raise
    return entries


def tell(reader, entries):
    """Puts the Entries of a reader's journals behind others."""
    while reader.at < len(reader.data) or not entries:
        teller = Teller()
        for record in records(reader):
            entries.extend(teller.tell(record))
        entries.append(plays.Entry(0, "end"))
        reader.record += 1

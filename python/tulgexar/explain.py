"""Explains why a journal isn't legal: which registers or reads were wanted at the event that `audit` names, which came, and what led there;
and how two journals of a session, or of an application's sessions, are different where `compare` says so.

JOURNAL is the bytes of one journal; `-` is standard input. The program audits it. Where it says `illegal AT`, its events up to that one are
played as a trace, over the bytes that its entries have read, and what the program records of that is what was wanted. The events of the call
stand above, each as annotate.py tells it. The program is
FILE, the one that TULGEXAR_RUN names, or what `rt run` has built in crates/optee_run.

Behind `compare ID` or `compare UUID` stand two journals, in one file or in two. Where the program says `events N`, the events of both that are
N of the session's own stand below, each with what led there; at `other` the entries of both opens; and behind them what differs by its name.
Status: 0 where the journal is legal, or both are the same; 1 where it isn't, or is none; 2 at other words.
usage: explain.py [program=FILE] JOURNAL | compare ID|UUID JOURNALS | compare ID|UUID JOURNAL JOURNAL
"""

import bisect
import collections
import itertools
import re
import sys

from tulgexar import annotate, calls, client, formats, image, journal, plays, program
from tulgexar.words import BadWords, plain, refuse_options, run, text_of, uuid

MOST_TOLD, MOST_SHOWN = 12, 64  # events that are told of a call; characters of a part that differs
ALL = 2**32  # more than any journal's events


def read(data):
    """The header of a journal as lines of a trace, and its events."""
    records = list(journal.records(journal.Reader(data)))
    header = [journal.header_line(record) for record in records if not isinstance(record, journal.Event)]
    return header, [record for record in records if isinstance(record, journal.Event)]


def trace_of(header, events):
    """A trace of the events, in which what each entry has read is written before it. Processors that are inside go out at the end."""
    lines, inside = list(header), []
    for event in events:
        if event.is_entry:
            lines += [f"write {event.cpu} {address:x} {data.hex()}" for address, data in event.reads]
            lines.append(f"enter {event.cpu} {event.steps} " + " ".join(f"{register:x}" for register in event.registers))
            inside.append(event.cpu)
        else:
            lines.append(f"leave {event.cpu}")
            inside.remove(event.cpu)
    return "".join(f"{line}\n" for line in [*lines, *(f"leave {cpu}" for cpu in inside)])


def turn_fault(events, at):
    """Why an event is out of turn, or None."""
    event = events[at]
    before = [other for other in events[:at] if other.cpu == event.cpu]
    is_inside = bool(before) and before[-1].is_entry
    if event.is_entry == is_inside:
        return f"processor {event.cpu} is {'inside already' if is_inside else 'not inside'}: its entries and exits alternate"
    return None


def unsteady(event):
    """Where two reads of an entry have different bytes, or None."""
    known = {}
    for address, data in event.reads:
        for place, byte in enumerate(data, address):
            if known.setdefault(place, byte) != byte:
                return place
    return None


def entry_before(events, at):
    """The place of the entry with which a processor is inside at an event."""
    return next((place for place in range(at, -1, -1) if events[place].is_entry and events[place].cpu == events[at].cpu), at)


def led_by(events, at):
    """The places of the events of a call up to one of them."""
    first = entry_before(events, at)
    chain = sorted({first, at})
    while events[chain[0]].is_entry and events[chain[0]].registers[0] == formats.RETURN_FROM_RPC:
        thread = events[chain[0]].registers[3]
        exits = [place for place in range(chain[0]) if asks_in(events[place], thread)]
        if not exits:
            break
        chain = [entry_before(events, exits[-1]), exits[-1], *chain]
    return chain


def asks_in(event, thread):
    """Whether an event is an exit that asks for something, or is interrupted, in a thread."""
    return not event.is_entry and event.registers[0] in formats.RPCS and event.registers[3] == thread


def by_event(data):
    """The told Entries of each event of a journal, its reads among them."""
    events = collections.defaultdict(list)
    number = None
    for entry in journal.told(data):
        named = re.match("event ([0-9]+):", entry.text)
        if named:
            number = int(named[1])
        elif not entry.text.startswith("  reads "):
            number = None
        if number is not None:
            events[number].append(entry)
    return events


def differing(came, wanted):
    """What differs between an event and the one that was wanted, by its name."""
    if not came.is_entry:
        parts = [f"a{i} is {c:08x}, wanted is {w:08x}" for i, (c, w) in enumerate(zip(came.registers, wanted.registers)) if c != w]
        return parts or ["the registers are those of the same events played again"]
    unlike = [(c, w) for c, w in zip(came.reads, wanted.reads) if (c[0], len(c[1])) != (w[0], len(w[1]))]
    if unlike:
        (address, data), (other, others) = unlike[0]
        return [f"{len(data)} bytes at {address:08x} are read, wanted are {len(others)} at {other:08x}"]
    if len(came.reads) != len(wanted.reads):
        return [f"the reads that came are {len(came.reads)}, wanted are {len(wanted.reads)}"]
    return ["the reads are those of the same events played again"]


def explanation(data, at, runner):
    """The lines on an event that isn't legal."""
    header, events = read(data)
    lines = [f"event {at} is {'an entry' if events[at].is_entry else 'an exit'} of processor {events[at].cpu}. What led there:"]
    lines += led_to(data, events, at)
    fault, place = turn_fault(events, at), unsteady(events[at])
    if fault:
        return [*lines, f"differs: {fault}"]
    if place is not None:
        return [*lines, f"differs: two reads of this entry have different bytes at {place:08x}"]
    recorded = runner.run(["record"], trace_of(header, events[: at + 1])).output.encode("latin-1")
    if not recorded.startswith(journal.MAGIC):
        raise plays.Mismatch(f"the events can't be played: {recorded[:80].decode('latin-1').strip()}")
    wanted = read(recorded)[1][at]
    lines += ["wanted:", *annotate.annotated(by_event(recorded)[at]).splitlines()]
    return [*lines, *(f"differs: {part}" for part in differing(events[at], wanted))]


def led_to(data, events, at):
    """The lines on the events of a call up to one of them."""
    told, chain = by_event(data), led_by(events, at)
    lines = [".."] if len(chain) > MOST_TOLD else []
    for place in chain[-MOST_TOLD:]:
        lines += annotate.annotated(told[place]).splitlines()
    return lines


class Side:
    """One of two journals that are compared, by its number, 1 or 2."""

    def __init__(self, number, data):
        self.number, self.data, self.places, reader = number, data, [], journal.Reader(data)
        records = journal.records(reader)
        at = len(journal.MAGIC)
        for record in records:
            if isinstance(record, journal.Event):
                self.places.append(at)
            at = reader.at
        self.header, self.events = read(data)

    def front(self, count):
        """The journal up to so many events."""
        return self.data if count == len(self.events) else self.data[: self.places[count]] + bytes([journal.END])


class Comparison:
    """What the program says of the two journals, and of their fronts."""

    def __init__(self, subject, one, two, runner):
        self.subject, self.sides, self.runner = subject, (one, two), runner

    def said(self, one, two):
        return journal.verdict_of(self.runner, ["compare", self.subject], one + two)

    def own_events(self, side, count):
        """How many of the session's own events the first events of a side are: -1 before its open, and more than any with all of them."""
        word, *numbers = self.said(side.front(count), side.data).split(" ")
        if word not in ("absent", "events", "same"):
            raise plays.Mismatch(f"{self.runner.file} doesn't compare a journal with its own front")
        return int(numbers[0]) if word == "events" else -1 if word == "absent" else ALL

    def opening(self, side):
        """The place of the event that begins the session: its open comes in."""
        return bisect.bisect_left(range(len(side.events)), 0, key=lambda at: self.own_events(side, at + 1))

    def place_of(self, side, number):
        """The place of the event that is this one of the session's own, or with which its own events end before."""
        return bisect.bisect_right(range(len(side.events)), number, key=lambda at: self.own_events(side, at + 1))

    def ends_before(self, side, number):
        """Whether a side has just so many own events: it is then the same as the other one up to its event of this number."""
        fronts = [it.data if it is side else it.front(self.place_of(it, number)) for it in self.sides]
        return self.said(*fronts).startswith("same")

    def events_lines(self, number):
        """The lines on the first own events that are different."""
        lines, parts, shorter = [], [], None
        for side in self.sides:
            at = self.place_of(side, number)
            if self.ends_before(side, number):
                shorter, what = side, f"has no own event {number}: its last one is event {at}"
            else:
                what = f"has its own event {number} at event {at}"
                parts.append(parts_of(side.events, at))
            lines += [f"journal {side.number} {what}. What led there:", *led_to(side.data, side.events, at)]
        return [*lines, f"differs: journal {shorter.number} ends before"] if shorter else lines + differences(*parts)

    def other_lines(self):
        """The lines on two different applications, or keys."""
        if "-" in self.subject:
            return differences(*(header_parts(side, self.subject) for side in self.sides))
        lines, parts = [], []
        for side in self.sides:
            at = self.opening(side)
            lines += [f"journal {side.number}: the number is given at event {at}", *led_to(side.data, side.events, at)]
            parts.append(header_parts(side, str(head_of(side.events[at]).uuid)))
        return lines + differences(*parts)

    def absent_lines(self, side):
        """The lines on a journal in which the subject isn't there."""
        named = [words.split(" ")[1:] for words in side.header if words.startswith("ta ")]
        if "-" in self.subject:
            is_there = self.subject.lower() in [client.DIGEST, *(uuid for uuid, _ in named)]
            why = "each of its sessions has an instance of its own: compare their numbers" if is_there else "it is no application there"
            return [f"journal {side.number}: {why}"]
        shared = [uuid for uuid, digits in named if image.decode(bytes.fromhex(digits)).flags & client.SINGLE]
        told = f"journal {side.number}: no open was given this number"
        return [told + (f", or it is of an application whose sessions share an instance: compare {' or '.join(shared)}" if shared else "")]


def head_of(event):
    """The head of the argument that a new call has read, or None."""
    if not event.reads:
        return None
    lanes = plays.Lanes()
    for address, data in event.reads:
        lanes.write(event.cpu, f"{address:x}", data.hex())
    return calls.head_at(event.cpu, event.reads[0][0], lanes)


def asked_by(event):
    """What a new call asks for, whatever the number of its session."""
    head = head_of(event) if event.registers[0] in calls.NEW_CALLS else None
    return re.sub(" (in|of) session [0-9]+", "", calls.asked_by(head)) if head else "a call that was not read"


def header_parts(side, uuid):
    """The application of a UUID as a journal's header has it, by names, and the key."""
    parts = {"the application": uuid.lower(), "the key": "zeros"}
    for line in side.header:
        words = line.split(" ")
        if words[0] == "ta" and words[1] == uuid.lower():
            parts["the image"] = words[2]
        elif words[0] == "key":
            parts["the key"] = words[1]
    return parts


KIND, CALL = "the event", "the call"


def parts_of(events, at):
    """What a session sees of an event, by names."""
    event, call = events[at], asked_by(events[led_by(events, at)[0]])
    if not event.is_entry:
        a0 = event.registers[0]
        return {KIND: "an exit", CALL: call, "the answer": formats.RPCS.get(a0) or formats.CODES.get(a0, f"{a0:08x}")}
    if event.registers[0] == formats.RETURN_FROM_RPC:
        return {KIND: "a resume", CALL: call, **lent_by(events, at), **reads_of(event.reads)}
    return {KIND: "a new call", "the function": calls.function_name(event.registers[0]), CALL: call, **argument_of(event)}


def lent_by(events, at):
    """Whether a resume lends a buffer, where its call has asked for one."""
    asks = [other for other in events[:at] if asks_in(other, events[at].registers[3])]
    if not asks or formats.RPCS[asks[-1].registers[0]] != "ALLOC":
        return {}
    address = events[at].registers[1] << 32 | events[at].registers[2]
    return {"the buffer": "lent" if calls.is_in_ram(address, formats.BUFFER_BYTES) and address % 8 == 0 else "none is lent"}


def argument_of(event):
    """The parameters of a new call, by names, and what else was read."""
    parts = {}
    if len(event.reads) > 1:
        for k, (attribute, p, q, s) in enumerate(calls.parameters_in(event.reads[1][1])):
            kind = formats.KINDS.get(attribute & 0xFF, f"{attribute:x}")
            parts[f"parameter {k}"] = f"{kind} {p:x}, {q:x}, {s:x}" if kind.startswith("value") else f"{kind} of {q} bytes" if "mem" in kind else kind
    return parts | reads_of(event.reads[2:])


def reads_of(reads):
    """Bytes that were read, each range by its number."""
    return {f"read {number}": data.hex() for number, (_, data) in enumerate(reads)}


def differences(one, two):
    """The lines that say by its name what differs between two events; where they aren't of one kind, that alone, and of which calls."""
    lines, are_alike = [], one.get(KIND) == two.get(KIND)
    for name in {**one, **two} if are_alike else (KIND, CALL):
        first, second = (parts.get(name, "none") for parts in (one, two))
        if first != second:
            at = next((at for at, pair in enumerate(zip(first, second)) if pair[0] != pair[1]), 0) // 2 * 2
            is_long = len(first) > MOST_SHOWN and len(second) > MOST_SHOWN
            where = f" from byte {at // 2} on" if is_long else ""
            shown = [f"{part[at : at + 16]}.." if is_long else part for part in (first, second)]
            lines.append(f"differs: {name}{where}: {shown[0]} in journal 1, {shown[1]} in journal 2")
    return lines or ["differs: what both read is the same; what became of it before is different"]


def journals_in(names):
    """The bytes of the journals that lie in files one behind the other, each with its end, behind the file's name. A Mismatch names the file."""
    found = []
    for name in names:
        data = text_of(name).encode("latin-1")
        try:
            found += [(name, part) for part in parted(data)]
        except plays.Mismatch as mismatch:
            raise plays.Mismatch(f"{name}: {mismatch}") from mismatch
    return found


def parted(data):
    """The bytes of the journals that lie one behind the other, each with its end."""
    reader, ends = journal.Reader(data), [0]
    while reader.at < len(data) or len(ends) == 1:
        for _ in journal.records(reader):
            pass
        ends.append(reader.at)
        reader.record += 1
    return [data[one:other] for one, other in itertools.pairwise(ends)]


def audited(words, runner):
    """The verdict on a journal, and the lines that explain it."""
    if len(words) != 1:
        raise BadWords()
    journals = journals_in(words)
    data = b"".join(part for _, part in journals)
    said = journal.verdict_of(runner, ["audit"], data)
    named = re.fullmatch("illegal ([0-9]+)", said)
    return said, explanation(data, int(named[1]), runner) if named else refusal_lines(said, journals)


def refusal_lines(said, journals):
    """The line on a record that the program refuses, whose number counts through all journals; or none at another verdict."""
    bad = re.fullmatch("bad trace ([0-9]+) ([a-z]+)", said)
    left = int(bad[1]) if bad else 0
    for number, (name, data) in enumerate(journals, 1):
        count = sum(1 for _ in journal.records(journal.Reader(data))) + 1  # the end has a number
        if 0 < left <= count:
            which = f"{name}, journal {number}" if len(journals) > 1 else name
            return [f"{which}: record {left}: {formats.FAULTS.get(bad[2], 'no known kind')}"]
        left -= count + 1  # so has the next one's magic
    return []


def compared(words, runner):
    """The verdict on two journals, and the lines that explain it."""
    if len(words) not in (2, 3):
        raise BadWords()
    subject, *names = words
    if not re.fullmatch("0|[1-9][0-9]*", subject):
        try:
            uuid(subject)
        except BadWords as error:
            raise BadWords(f"{error}; nor a session's number: decimal digits, without a zero before them") from error
    journals = journals_in(names)
    if len(journals) != 2:
        raise plays.Mismatch(f"two journals are wanted behind compare, and {len(journals)} {'is' if len(journals) == 1 else 'are'} there")
    said, lines = verdict(subject, b"".join(part for _, part in journals), runner)
    return said, lines or refusal_lines(said, journals)


def verdict(subject, data, runner):
    """What the program says of two journals, and the lines that explain it."""
    one, two = (Side(number, part) for number, part in enumerate(parted(data), 1))
    comparison = Comparison(subject, one, two, runner)
    said = journal.verdict_of(runner, ["compare", subject], data)
    word, *numbers = said.split(" ")
    if word == "illegal":
        return said, explanation(comparison.sides[int(numbers[0]) - 1].data, int(numbers[1]), runner)
    if word == "absent":
        return said, comparison.absent_lines(comparison.sides[int(numbers[0]) - 1])
    if word == "events":
        return said, comparison.events_lines(int(numbers[0]))
    return said, comparison.other_lines() if word == "other" else []


def main(words):
    words = list(words)
    file = program.taken_from(words)
    refuse_options(words, "program=FILE")
    runner = program.Program(file)
    try:
        said, lines = compared(words[1:], runner) if words[:1] == ["compare"] else audited(words, runner)
    except plays.Mismatch as mismatch:
        print(f"explain.py: {plain(str(mismatch))}", file=sys.stderr)
        return 1
    print(plain("\n".join([said, *lines])))
    return 0 if said.startswith(("legal", "same")) else 1


if __name__ == "__main__":
    run(main, __doc__)

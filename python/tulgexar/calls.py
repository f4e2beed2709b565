"""What each call of a play asks for, in which thread, and why a resume is answered ERESUME, by docs/formats.md ("A new call", "A
resume"). It isn't run by itself."""

import collections
import struct
import uuid

from tulgexar import formats

NEW_CALLS = (formats.CALL_WITH_ARG, formats.CALL_WITH_RPC_ARG, formats.CALL_WITH_REGD_ARG)
ERESUME = 3
HIGHEST_COMMAND = 5
SESSION_AT = 8
VERBS = {
    1: "invoke of function {func} in {session}",
    2: "close of {session}",
    3: "cancel in {session}, cancel id {cancel_id}",
    4: "register of a buffer",
    5: "unregister of a buffer",
}

# The head of an argument, as far as the trace has written it: where it is, its fields by their names, the UUID that stands behind it in
# an open, or None, and the session in words.
Head = collections.namedtuple("Head", "address fields uuid session")

Parameter = collections.namedtuple("Parameter", formats.PARAMETER)


class Brought(collections.namedtuple("Brought", "cpu registers asked begins head", defaults=[None])):
    """An entry: its processor and registers; what its call asks for; whether it passes the tests behind which it has a thread (None where
    that isn't known); and the head of its argument, or None where that isn't known, or none can be there."""

    @property
    def open_at(self):
        """Where the argument of an open is, or None."""
        return self.head.address if self.begins and self.head and self.head.fields["cmd"] == 0 else None


def brought(cpu, registers, lanes):
    """What an entry brings, by the RAM of its processor."""
    function, address = registers[0], registers[1] << 32 | registers[2]
    if function == formats.CALL_WITH_REGD_ARG:
        return Brought(cpu, registers, f"an argument at {registers[3]} of the buffer of cookie {address:#x}", None)
    if function not in NEW_CALLS:
        return Brought(cpu, registers, "", False)
    if address % 8 or not is_in_ram(address, formats.HEAD_BYTES):
        return Brought(cpu, registers, f"no argument can be at {address:x}", False)
    head = head_at(cpu, address, lanes)
    count = head.fields["num_params"]
    length = formats.HEAD_BYTES + formats.PARAMETER_BYTES * count
    length += formats.AREA_BYTES if function == formats.CALL_WITH_RPC_ARG else 0
    begins = count <= formats.MOST_PARAMETERS and is_in_ram(address, length) and head.fields["cmd"] <= HIGHEST_COMMAND
    return Brought(cpu, registers, asked_by(head), begins, head)


def is_in_ram(address, length):
    return formats.RAM_START <= address and address + length <= formats.RAM_START + formats.RAM_BYTES


def head_fields(argument):
    """The fields of an argument's head by their names, of its bytes."""
    return dict(zip(formats.HEAD, struct.unpack_from("<8I", argument)))


def parameters_in(data):
    """The parameters that lie in bytes one behind the other, each by its fields attr, p, q and s."""
    whole = len(data) // formats.PARAMETER_BYTES * formats.PARAMETER_BYTES
    return [Parameter(*fields) for fields in struct.iter_unpack("<4Q", data[:whole])]


def head_at(cpu, address, lanes):
    """The head of the argument at an address."""
    fields = head_fields(lanes.bytes_at(cpu, address, formats.HEAD_BYTES))
    application = uuid.UUID(bytes=lanes.bytes_at(cpu, address + formats.HEAD_BYTES + 8, 16)) if fields["num_params"] else None
    session = f"session {fields['session']}" if lanes.knows(cpu, address + SESSION_AT, 4) else "the session of an open before"
    return Head(address, fields, application, session)


def asked_by(head):
    """What an argument asks for, in words."""
    if head.fields["cmd"] == 0:
        return f"open of {head.uuid or 'no application'}"
    return VERBS.get(head.fields["cmd"], "command {cmd}").format(**head.fields | {"session": head.session})


class Call:
    """A call in a thread: what it asks for, its client, and the processor that it is inside on, or None."""

    def __init__(self, thread, came):
        self.thread, self.asked, self.client, self.cpu = thread, came.asked or "a call", came.registers[7], came.cpu


# A processor that is inside: what it has brought, its call, or None, and why ERESUME would come.
Inside = collections.namedtuple("Inside", "came call why", defaults=[None, ""])


class Threads:
    """The calls in the threads of a play, as far as its entries and exits tell them. A new call takes the lowest free thread; where an
    answer names another one, the answer is right."""

    def __init__(self, count=None):
        self.count = count
        self.held, self.inside = {}, {}  # the calls by their threads; those Inside by their processors

    def enter(self, came):
        """What is said of an entry."""
        cpu, registers = came.cpu, came.registers
        name = function_name(registers[0])
        if registers[0] == formats.RETURN_FROM_RPC:
            said = self.resume(came)
        elif registers[0] in NEW_CALLS:
            said = self.begin(came)
        else:
            self.inside[cpu] = Inside(came)
            return name
        return f"{name} of client {registers[7]}, {said}"

    def begin(self, came):
        """What is said of a new call's thread, and what it asks for."""
        thread = next(number for number in range(2**32) if number not in self.held)
        is_free = self.count is None or thread < self.count
        takes = came.begins is not False and is_free
        if takes:
            self.held[thread] = Call(thread, came)
        self.inside[came.cpu] = Inside(came, self.held[thread] if takes else None)
        where = f"thread {thread}" if takes else "no thread" if is_free else "no thread is free"
        return f"{where if came.begins is not None or not is_free else 'a new call'}: {came.asked}"

    def resume(self, came):
        """What is said of a resume's thread, and the call that it goes on with."""
        thread, client = came.registers[3], came.registers[7]
        why = self.refusal(thread, client)
        other = f"without a cause, as the call in thread {thread} is suspended for client {client}"
        call = None if why else self.held[thread]
        self.inside[came.cpu] = Inside(came, call, why or other)
        if call is None:
            return f"thread {thread}"
        call.cpu = came.cpu
        return f"thread {thread}: goes on with {call.asked}"

    def refusal(self, thread, client):
        """Why a resume is answered ERESUME, or None where it goes on with a call."""
        call = self.held.get(thread)
        if self.count is not None and thread >= self.count:
            return f"there is no thread {thread}: they count from 0 to {self.count - 1}"
        if call is None:
            return f"thread {thread} is free"
        if call.cpu is not None and self.inside[call.cpu].came.begins is None:
            return f"thread {thread} is active, or free: processor {call.cpu} is inside with a new call, whose argument isn't known"
        if call.cpu is not None:
            return f"thread {thread} is active: its call is inside on processor {call.cpu}"
        if call.client != client:
            return f"the call in thread {thread} is another client's: it is of client {call.client}, the resume of client {client}"
        return None

    def leave(self, cpu, registers):
        """Why an exit answers ERESUME, where it does, else an empty text."""
        if cpu not in self.inside:
            return ""
        came, call, why = self.inside.pop(cpu)
        is_resume = came.registers[0] == formats.RETURN_FROM_RPC
        is_refused = is_resume and registers[0] == ERESUME
        if call and self.held.get(call.thread) is call:
            del self.held[call.thread]
        if registers[0] in formats.RPCS and (is_resume or came.registers[0] in NEW_CALLS):
            self.suspend(registers[3], call or self.held.get(registers[3]) or Call(registers[3], came))
        elif is_refused and call:
            self.suspend(call.thread, call)
        return why if is_refused else ""

    def suspend(self, thread, call):
        """A call is suspended in a thread."""
        call.thread, call.cpu = thread, None
        self.held[thread] = call

    def call_on(self, cpu):
        """The call that a processor is inside with, or None."""
        return self.inside[cpu].call


class Recorded:
    """Entries and exits of one processor of a play by threads, which are told once all are known, in the order of their places."""

    def __init__(self):
        self.visits, self.came = [], None

    def enter(self, came):
        self.came = came

    def leave(self, cpu, registers):
        self.visits.append((self.came, registers))
        return ""


def told_in_order(visits, count):
    """What is said of each visit's entry, and why it was answered ERESUME, of visits with the places of their entries and exits."""
    threads, said = Threads(count), [None] * len(visits)
    whys = [""] * len(visits)
    events = [(visit[0], at, True) for at, visit in enumerate(visits)] + [(visit[1], at, False) for at, visit in enumerate(visits)]
    for _, at, is_entry in sorted(events):
        came, registers = visits[at][2:]
        if is_entry:
            said[at] = threads.enter(came)
        else:
            whys[at] = threads.leave(came.cpu, registers)
    return list(zip(said, whys))


def cause(why):
    """Why a resume was answered ERESUME, in a word or two."""
    return next((words for words in ("active, or free", "no thread", "free", "active", "another client") if words in why), "")


def function_name(a0):
    """The name of a function, or its number."""
    return formats.FUNCTIONS.get(a0) or formats.NOTIFY_FUNCTIONS.get(a0) or f"unknown function {a0:08x}"

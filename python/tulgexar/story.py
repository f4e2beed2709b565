"""What happened in a play, as chart.py draws it: visits of processors, calls and their slots. It isn't run by itself."""

import collections
import re

from tulgexar import calls, formats, messages, plays

REFUSED = ("ETHREAD_LIMIT", "EBADADDR", "EBADCMD")
VERBS = {name: name.split("_")[0].lower() for name in formats.COMMANDS.values()}
P_AT, RET_AT = formats.HEAD_BYTES + 8, 4 * formats.HEAD.index("ret")


class Visit:
    """A processor between an entry and its exit: places in the history, registers, and what is said of both."""

    def __init__(self, cpu, registers, lanes):
        self.cpu, self.registers = cpu, registers
        self.came = calls.brought(cpu, registers, lanes)
        self.called, self.why = "", ""  # all that is said of the entry, and why the exit answers ERESUME
        self.ram = lanes.copy(cpu)  # what was written into the processor's RAM before the entry, by the addresses
        self.asked = {}  # bytes of it that were shown behind the exit
        self.entry = self.exit = self.answered = None  # places in the history, and the registers of the answer
        self.line = None  # the line of the trace at which it goes out
        self.slot = self.call = None  # where it is in a call
        self.said = self.given = self.request_at = None  # what the entry and the exit say; where a request stands

    @property
    def function(self):
        return self.registers[0]

    @property
    def is_new_call(self):
        return self.function in calls.NEW_CALLS

    @property
    def is_resume(self):
        return self.function == formats.RETURN_FROM_RPC

    @property
    def answer(self):
        """The name of the answer."""
        a0 = self.answered[0]
        if a0 in formats.RPCS and (self.is_new_call or self.is_resume):
            return formats.RPCS[a0]
        return formats.CODES.get(a0, "OK") if self.function in formats.FUNCTIONS else "UNKNOWN_FUNCTION"

    @property
    def argument(self):
        """The address of the argument of a new call, or None where it isn't known."""
        return self.came.head.address if self.came.head else None


class Call:
    """A call: its slot from its entry to the exit that answers OK, and the visits in which it was worked on."""

    def __init__(self, held, visit):
        self.held, self.text, self.first, self.last = held, head_text(visit), visit.entry, None
        self.visits = []

    @property
    def slot(self):
        return self.held.thread

    @property
    def asked(self):
        return self.held.asked

    @property
    def client(self):
        return self.held.client


def visits_of(trace, output):
    """The visits of a play, in the order of their entries; of `run` or of `threads`."""
    if output.startswith("cpu "):
        return in_history(threads_visits(trace, output))
    walk = Walk(iter(range(2**32)))
    walk.play(trace, collections.deque(output.splitlines()))
    return walk.visits


def in_history(visits):
    """Visits in the order of their entries. A Mismatch where their places aren't those of one history."""
    places = sorted(place for visit in visits for place in (visit.entry, visit.exit))
    if places != list(range(len(places))) or any(visit.entry > visit.exit for visit in visits):
        raise plays.Mismatch("the places of the output aren't those of one history, in which each stands once, and an exit behind its entry")
    return sorted(visits, key=lambda visit: visit.entry)


def threads_of(trace):
    """How many threads a trace boots its core with, or None."""
    boot = re.search("^boot [0-9]+ ([0-9]+) ", trace, flags=re.MULTILINE)
    return int(boot[1]) if boot else None


def threads_visits(trace, output):
    """Those of a play by threads: each processor's lines of the trace, with its block."""
    visits = []
    for block in re.split("^cpu ", output, flags=re.MULTILINE)[1:]:
        cpu, *lines = block.splitlines()
        own = [line for line in trace.splitlines() if line.split(" ")[0] in ("mem", "boot") or line.split(" ")[1:2] == [cpu]]
        walk = Walk(None)
        walk.play("\n".join(own), collections.deque(line for line in lines if not line.startswith("full ")))
        visits += [visit for visit in walk.visits if visit.answered]
    return visits


class Walk:
    """Goes through a trace and what it has printed."""

    def __init__(self, places):
        self.places, self.lanes, self.visits = places, plays.Lanes(), []
        self.last, self.inside, self.latest = collections.defaultdict(lambda: [0] * 8), {}, {}
        self.lent = {}  # addresses of buffers by their cookies

    def play(self, trace, printed):
        for number, line in enumerate(trace.splitlines()):
            words = line.split(" ")
            if line.startswith("#") or formats.LINES.get(words[0]) != len(words):
                continue
            item, operands = words[0], words[1:]
            if item in ("mem", "write"):
                (self.lanes.fill if item == "mem" else self.lanes.write)(*operands)
            if item in ("smc", "enter"):
                self.enter(operands[0], operands[2:])
            if item in ("smc", "leave"):
                if not printed:
                    return
                self.leave(operands[0], printed.popleft(), number)
            if item == "show":
                self.show(operands[0], printed.popleft())

    def enter(self, cpu, words):
        last = self.last[cpu]
        registers = [last[int(word[1])] if word[0] == "=" else int(word, 16) for word in words]
        visit = self.inside[cpu] = Visit(cpu, registers, self.lanes)
        if visit.is_resume:
            self.lent[registers[4] << 32 | registers[5]] = registers[1] << 32 | registers[2]
        if self.places:
            visit.entry = next(self.places)
        self.visits.append(visit)

    def leave(self, cpu, line, number):
        """The exit at a line of the trace, by what it has printed; of `threads` with its places behind it."""
        fields = line.split(" ")
        visit = self.latest[cpu] = self.inside.pop(cpu)
        visit.line = number
        a0, a1, a2, *_ = visit.answered = self.last[cpu] = [int(word, 16) for word in fields[2:10]]
        buffer = self.lent.get(a1 << 32 | a2)
        if formats.RPCS.get(a0) == "CMD" and buffer:
            self.lanes.write(cpu, f"{buffer + RET_AT:x}", "0000ffff")  # each request has this as its ret
        if self.places:
            visit.exit = next(self.places)
        else:
            visit.entry, visit.exit = int(fields[11]), int(fields[12])

    def show(self, cpu, line):
        _, _, address, digits = line.split(" ")
        self.lanes.write(cpu, address, digits)
        if cpu in self.latest and cpu not in self.inside:
            self.latest[cpu].asked |= enumerate(bytes.fromhex(digits), int(address, 16))


class Story:
    """A play's visits, with the slots that calls take, and what each visit asks and is answered, in words."""

    def __init__(self, visits, threads=None):
        self.visits = [visit for visit in visits if visit.answered]
        self.threads = calls.Threads(threads)
        self.drawn = {}  # the Calls by those of the threads
        self.buffers, self.pending, self.places = {}, {}, {}  # by their slots: lent buffers, what was asked, and where requests stand
        events = [(visit.entry, self.entered, visit) for visit in self.visits]
        events += [(visit.exit, self.left, visit) for visit in self.visits]
        self.length = max((place for place, *_ in events), default=-1) + 1
        for _, happens, visit in sorted(events, key=lambda event: event[0]):
            happens(visit)

    @property
    def calls(self):
        return list(self.drawn.values())

    def entered(self, visit):
        """A processor comes in with a call, or with none. That a new call passes its tests is known by its answer."""
        came = visit.came._replace(begins=visit.answer not in REFUSED) if visit.is_new_call else visit.came
        visit.said, visit.called = self.entry_text(visit), self.threads.enter(came)
        held = self.threads.call_on(visit.cpu)
        if held is None:
            return
        visit.call = self.drawn.setdefault(held, Call(held, visit))
        visit.slot = held.thread
        visit.call.visits.append(visit)

    def entry_text(self, visit):
        """What an entry says: its function, and of a call or a return some more."""
        if visit.is_new_call:
            return head_text(visit)
        if visit.is_resume:
            return "return", self.reply_text(visit)
        return formats.FUNCTIONS.get(visit.function, f"{visit.function:08x}"), ""

    def reply_text(self, visit):
        """What the normal world answers to what was asked of it."""
        slot = visit.registers[3]
        asked = self.pending.get(slot)
        if asked == "ALLOC":
            address = self.buffers[slot] = visit.registers[1] << 32 | visit.registers[2]
            return f"lends {address:x}" if address else "lends none"
        if asked == "CMD Time" or str(asked).startswith("CMD Fs"):
            place = self.places[slot]
            ret = number_in(visit.ram, place + RET_AT, 4) if place is not None else None
            return messages.result_name(ret) if ret is not None else ""
        return ""

    def left(self, visit):
        """What an exit says: the answer, a request by its name, a result where it was shown."""
        visit.given, visit.why = self.exit_text(visit), self.threads.leave(visit.cpu, visit.answered)
        if visit.call is None:
            return
        visit.slot = visit.call.slot
        self.pending[visit.slot], self.places[visit.slot] = visit.given, visit.request_at
        if visit.answer == "OK":
            visit.call.last = visit.exit
            self.buffers.pop(visit.slot, None)

    def exit_text(self, visit):
        if visit.answer == "CMD":
            return f"CMD {self.request_name(visit)}".rstrip()
        if visit.answer == "OK" and visit.call:
            argument = visit.call.visits[0].argument
            result = number_in(visit.asked, argument + RET_AT, 4) if argument is not None else None
            return "OK" if result is None else f"OK {messages.result_name(result)}"
        return visit.answer

    def request_name(self, visit):
        """The name of a request, as far as it was shown: the buffer's, or of a call with an area that of its area."""
        address = visit.request_at = self.request_address(visit)
        if address is None:
            return ""
        command, p = number_in(visit.asked, address, 4), number_in(visit.asked, address + P_AT, 8)
        name = formats.REQUESTS.get((command, None)) or formats.REQUESTS.get((command, p))
        key = number_in(visit.asked, address + P_AT + 8, 8)
        if name in ("Sleep", "Wake") and key is not None:
            return f"{name} {key}"
        if name == "Suspend" and p is not None:
            return f"{name} {p} ms"
        return name or formats.RPC_COMMANDS.get(command, "")

    def request_address(self, visit):
        """Where a request stands: in the lent buffer, or, where its cookie is 0, in the call's area; None where that isn't known."""
        head = visit.call.visits[0].came.head if visit.call else None
        if head and visit.answered[1:3] == [0, 0]:
            return head.address + formats.HEAD_BYTES + formats.PARAMETER_BYTES * head.fields["num_params"]
        return self.buffers.get(visit.slot)


def head_text(visit):
    """What a new call asks for, in a few words: what, and of which session. Where the core has read no argument at its address, or it
    isn't known where that is, it is the function."""
    head = visit.came.head
    if visit.answer == "EBADADDR" or head is None:
        what = "cookie" if visit.function == formats.CALL_WITH_REGD_ARG else "at"
        return formats.FUNCTIONS[visit.function], f"{what} {visit.registers[1] << 32 | visit.registers[2]:x}"
    verb = VERBS.get(formats.COMMANDS.get(head.fields["cmd"], ""), "command")
    if verb == "open":
        return verb, str(head.uuid or "")[:8]
    return verb, head.session if verb in ("invoke", "close", "cancel") else ""


def number_in(known, address, size):
    """A number whose bytes are all known, or None."""
    data = [known.get(at) for at in range(address, address + size)]
    return None if None in data else int.from_bytes(data, "little")

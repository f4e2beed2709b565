#!/usr/bin/env python3
"""Works out what `core_cases` has to print of the machines of sessions.

A session's own machine, written a second time from its rules (docs/definitions.md) and not from the Rattle code: an
application is a generator that yields what it asks for, in the place of instructions that are counted. At the top of the
repository

    bench/own_replies.py | diff - <(sed -n '/^case sessions /,$p' crates/core_cases/stdout | grep -v '^  events ')

says nothing. The histories from which the events are read off stand in the crate's `stdin`; they were read by hand.
Behind an event of a call that comes in, `area` says that it has an area.
"""

import sys

from object_files import header, tag_of

KEY = bytes(32)  # of the tags of objects: no boot here brings another
SUCCESS, CANCEL, BAD_PARAMETERS, OUT_OF_MEMORY, TARGET_DEAD = 0, 0xFFFF0002, 0xFFFF0006, 0xFFFF000C, 0xFFFF3024
HAVE_PAYLOADS = {"create", "write"}  # of what the applications below ask for


class Panic(Exception):
    """What ends a call whose application panics."""


# ---- applications: what an invoke of a call does. It returns its result; all other entry points return at once

def adds(call):
    a, b = call.params
    call.params = (a + b, 0)
    return SUCCESS
    yield


def fills(call):
    call.params = b"\x41" + bytes(len(call.params) - 1)
    call.size = call.func
    return SUCCESS
    yield


def stores(call):
    """The object of the id 41: its file is made, by its name, and a header of length 0 written with its tag, in format 2."""
    name = b"11111111222233334444555555555555/41"
    descriptor = yield f"create {name.hex()}"
    yield f"write {descriptor} 0 40 {(header(0) + tag_of(KEY, name, b'')).hex()}"
    return SUCCESS


def wait(call, may_be_cancelled):
    if call.seen and may_be_cancelled:
        return CANCEL
    answer = yield f"suspend {call.func}"
    if call.seen and may_be_cancelled:
        return CANCEL
    return OUT_OF_MEMORY if answer == "no buffer" else SUCCESS


def waits(call):
    return (yield from wait(call, False))


def panics(call):
    if call.func != 0:
        raise Panic
    return SUCCESS
    yield


def waits_and_panics(call):
    result = yield from wait(call, True)
    if result != SUCCESS:
        raise Panic
    return result


# ---- a session

class Call:
    def __init__(self, kind, area=False, func=0, params=None):
        self.kind, self.area, self.func, self.params = kind, area, func, params
        self.seen = self.buffer = False
        self.phase, self.job, self.asked = "waits", None, None
        self.result, self.origin, self.told, self.wakes = None, 3, False, None

    def ends(self, result, origin=3):
        self.phase, self.result, self.origin = "ends", result, origin


class Session:
    def __init__(self, invoke):
        self.invoke = invoke
        self.there = self.dead = False
        self.holder, self.waiting, self.calls = None, [], []

    # ---- calls that come in

    def comes_in(self, call):
        self.calls.append(call)
        number = len(self.calls) - 1
        if call.phase == "ends":
            return
        if self.holder is None:
            self.begins(number)
        else:
            self.waiting.append(number)

    def begins(self, number):
        call = self.calls[number]
        self.holder, call.phase = number, "runs"
        call.job = self.invoke(call) if call.kind == "invoke" else iter(())

    def open(self, area):
        self.there = True
        self.comes_in(Call("open", area))

    def call(self, area, func, params=None):
        call = Call("invoke", area, int(func), params)
        if self.dead:
            call.ends(TARGET_DEAD)
        self.comes_in(call)

    def close(self, area):
        self.comes_in(Call("close", area))

    def cancel(self):
        call = Call("settled")
        call.ends(SUCCESS)
        self.comes_in(call)

    # ---- calls that come back

    def back(self, number, what):
        call = self.calls[number]
        if what == "buffer":
            call.buffer = True
        if call.phase == "asks" and what not in ("buffer", "nothing"):
            call.phase, call.answer = "runs", what
        elif call.phase == "ends" and what not in ("buffer", "nothing"):
            call.wakes = None
        elif call.phase == "waits":
            self.is_tested_again(number, call, what)

    def is_tested_again(self, number, call, what):
        if not self.there:
            call.ends(BAD_PARAMETERS)
        elif self.dead and call.kind != "close":
            call.ends(TARGET_DEAD)
        elif self.holder is not None:
            if what != "no buffer":
                return
            call.ends(OUT_OF_MEMORY)
        self.waiting.remove(number)
        if call.phase == "waits":
            self.begins(number)

    # ---- calls that go out

    def runs(self, call):
        try:
            call.asked = call.job.send(call.answer) if call.asked else next(call.job)
            call.phase = "asks"
            return
        except StopIteration as end:
            by_application = call.kind != "close"
            call.ends(end.value or SUCCESS, 4 if by_application else 3)
        except Panic:
            call.ends(TARGET_DEAD)
            self.dead = True
        self.holder = None
        if call.kind == "open":
            self.there = call.result == SUCCESS
        if call.kind == "close":
            self.there = False

    def out(self, number):
        call = self.calls[number]
        if call.phase == "runs":
            self.runs(call)
        if call.phase == "ends" and not call.told:
            call.told = True
            if call.kind != "settled" and self.holder is None and self.waiting:
                call.wakes = self.waiting[0]
        return self.reply(call)

    def reply(self, call):
        wanted = None
        if call.phase == "asks":
            wanted = f"ask {call.asked}"
        elif call.phase == "waits":
            wanted = "sleep"
        elif call.wakes is not None:
            wanted = f"wake {call.wakes}"
        if wanted:
            has_payload = call.phase == "asks" and call.asked.split()[0] in HAVE_PAYLOADS
            is_placed = call.buffer or call.area and not has_payload
            return wanted if is_placed else "alloc"
        if call.buffer:
            call.buffer = False
            return "free"
        return f"ended {call.result:08x} {call.origin}{self.outputs(call) if call.origin == 4 else ''}"

    def outputs(self, call):
        """Two numbers, or bytes that are written back where the buffer has room for as many as are told."""
        if call.params is None:
            return ""
        if isinstance(call.params, tuple):
            return " value {} {}".format(*call.params)
        told = call.params[:call.size] if call.size <= len(call.params) else b""
        return f" bytes {call.size}" + (f" {told.hex()}" if told else "")

    # ---- one event

    def happens(self, event):
        word, *rest = event.split()
        area = rest[-1:] == ["area"]
        if word == "open":
            return self.open(area)
        if word == "add":
            return self.call(area, 0, (int(rest[0]), int(rest[1])))
        if word == "fill":
            return self.call(area, rest[0], bytes(int(rest[1])))
        if word == "invoke":
            return self.call(area, rest[0])
        if word == "close":
            return self.close(area)
        if word == "cancel":
            return self.cancel()
        if word == "seen":
            self.calls[int(rest[0])].seen = True
            return None
        if word == "out":
            return self.out(int(rest[0]))
        if word == "limited":
            return "limited"
        what = {"no_buffer": "no buffer", "opened": rest[-1]}.get(word, word)
        return self.back(int(rest[0]), what)


# ---- the histories: a title, the application, and the events of some sessions by their numbers

HISTORIES = [
    ("open-and-invoke", adds, {1: "open, out 0, add 5 7, out 1"}),
    ("one-step-at-a-time", adds, {1: "open, out 0, add 5 7, out 1"}),
    ("open-invoke-close", adds, {1: "open, out 0, add 5 7, out 1, close, out 2"}),
    ("output-size-within-and-above-the-buffer", fills, {1: "open, out 0, fill 4 4, out 1, fill 5 4, out 2"}),
    ("create-object-with-a-tag", stores,
     {1: "open, out 0, invoke 0, out 1, buffer 1, out 1, opened 1 3, out 1, reply 1, out 1, nothing 1, out 1"}),
    ("two-waiting-calls-and-a-wake", waits,
     {1: "open, out 0, invoke 250, out 1, invoke 250, out 2, buffer 2, out 2, reply 2, out 2, no_buffer 1, out 1,"
         "buffer 1, out 1, reply 2, out 2, reply 1, out 1, nothing 1, out 1, reply 2, out 2, nothing 2, out 2"}),
    ("cancel-of-a-masked-call", waits,
     {1: "open, out 0, invoke 250, out 1, cancel, out 2, seen 1, buffer 1, out 1, reply 1, out 1, nothing 1, out 1"}),
    ("rpc-argument-beside-the-message", waits, {1: "open, out 0, invoke 250 area, out 1, reply 1, out 1"}),
    ("create-object-beside-an-area", stores,
     {1: "open, out 0, invoke 0 area, out 1, buffer 1, out 1, opened 1 3, out 1, reply 1, out 1, nothing 1, out 1"}),
    ("thread-limit-and-session-numbers", adds,
     {1: "open, limited, out 0", 2: "open, limited, out 0", 3: "open, out 0"}),
    ("panic-leaves-other-sessions", panics,
     {1: "open, out 0, invoke 1, out 1, invoke 1, out 2, close, out 3", 2: "open, out 0, invoke 0, out 1, close, out 2"}),
    ("two-clients-with-cancels-limits-and-a-panic", waits_and_panics,
     {1: "open, out 0, invoke 250, out 1, limited, cancel, out 2, invoke 5, out 3, buffer 3, out 3, seen 1, buffer 1, out 1,"
         "reply 1, out 1, reply 1, out 1, nothing 1, out 1, reply 3, out 3, nothing 3, out 3, invoke 5, out 4,"
         "cancel, out 5, close, out 6",
      2: "open, out 0, invoke 100, out 1, limited, buffer 1, out 1, reply 1, out 1, nothing 1, out 1, limited, close, out 2"}),
]


def print_replies(application, events):
    session = Session(application)
    for event in events.split(","):
        reply = session.happens(event)
        if reply is not None:
            print(f"  {reply}")


def main():
    for title, application, sessions in HISTORIES:
        print("case sessions", title, *sessions)
        for session, events in sessions.items():
            print(f"session {session}")
            print_replies(application, events)


main()

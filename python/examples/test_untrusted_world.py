"""A normal world that nobody can trust: it calls, resumes and lends what it likes, as whom it likes, and a small model says what each answer
has to be: ERESUME, ETHREAD_LIMIT, and how each call ends, by docs/formats.md ("A new call", "A resume", "What a call runs").

Each example of hypothesis has a core of its own, and a failing one is shrunk to as few calls as it needs."""

import dataclasses

import pytest
from hypothesis import settings
from hypothesis import strategies as st
from hypothesis.stateful import RuleBasedStateMachine, initialize, rule, run_state_machine_as_test

from tulgexar import arg, formats
from tulgexar.core import ended

ADD = "11111111-2222-3333-4444-555555555555"  # adds; each session has an instance of one page for itself
APPLICATIONS = {ADD: "../../examples/applications/add.hex"}
THREADS, CLIENTS, PAGE = 3, 2, 4096
ARGUMENTS, BUFFERS = 0x4000_0000, 0x4010_0000
NAMES = formats.CODES | formats.RPCS
ASKS = ("ALLOC", "CMD")


@dataclasses.dataclass
class Call:
    """A call in a thread. It works on its session, or waits for it, until it is known how it ends."""

    client: int
    verb: str
    session: int = 0
    numbers: tuple[int, int] = (0, 0)
    works: bool = False
    result: tuple[str, str] | None = None


class Model:
    """What the core has to keep: calls by their threads, sessions with their clients, those on which a call works, and free pages."""

    def __init__(self, frames):
        self.calls, self.sessions, self.worked_on = {}, {}, set()
        self.next_session, self.pages = 1, frames

    def begin(self, call):
        """A new call: its thread, or None where there is none."""
        free = [thread for thread in range(THREADS) if thread not in self.calls]
        if not free:
            return None
        self.calls[free[0]] = call
        if call.verb == "open" and not self.pages:
            call.result = "OUT_OF_MEMORY", "TEE"
        elif call.verb == "open":
            call.session, call.works = self.next_session, True
            self.next_session, self.pages = self.next_session + 1, self.pages - 1
        elif self.sessions.get(call.session) != call.client:
            call.result = "BAD_PARAMETERS", "TEE"
        else:
            self.go_on(call)
        return free[0]

    def go_on(self, call):
        """A call that waits looks whether its session is there, and whether it is free."""
        if call.works or call.result:
            return
        if call.session not in self.sessions:
            call.result = "BAD_PARAMETERS", "TEE"
        elif call.session not in self.worked_on:
            self.worked_on.add(call.session)
            call.works = True

    def answers(self, thread):
        """What the core may answer to who has begun a call or gone on with it."""
        call = self.calls[thread]
        if call.works:
            return ("INTERRUPT", "OK", "FREE", *ASKS)
        return ("OK", "FREE", *ASKS) if call.result else ASKS

    def leave(self, thread, answer):
        """A call goes out, and has then ended its work, unless it was interrupted: the call where it is over, or None."""
        call = self.calls[thread]
        if call.works and answer != "INTERRUPT":
            self.end_work(call)
        return self.calls.pop(thread) if answer == "OK" else None

    def end_work(self, call):
        call.works, call.result = False, ("SUCCESS", "TEE" if call.verb == "close" else "TRUSTED_APP")
        self.worked_on.discard(call.session)
        if call.verb == "open":
            self.sessions[call.session] = call.client
        elif call.verb == "close":
            del self.sessions[call.session]
            self.pages += 1


clients = st.integers(0, CLIENTS - 1)
steps = st.sampled_from([1000, 1, 1000, 3])
whiches = st.integers(0, 7)
rarely = st.sampled_from([False, False, False, True])


class World(RuleBasedStateMachine):
    """The normal world, with a core and the model of it."""

    def __init__(self, core, frames):
        super().__init__()
        self.core, self.model = core, Model(frames)

    def teardown(self):
        self.core.close()

    @initialize()
    def begin(self):
        """Each client asks for a session."""
        for client in range(CLIENTS):
            self.open(client, 1000)

    @rule(client=clients, steps=steps)
    def open(self, client, steps):
        self.call(Call(client, "open"), f"open {ADD}", steps)

    @rule(which=whiches, is_another=rarely, numbers=st.tuples(st.integers(0, 99), st.integers(0, 99)), steps=steps)
    def invoke(self, which, is_another, numbers, steps):
        """An invoke of a session, rarely for another client than its own."""
        client, session = self.session(which, is_another)
        self.call(Call(client, "invoke", session, numbers), f"invoke {session} 0 value_inout {numbers[0]} {numbers[1]}", steps)

    @rule(which=whiches, is_another=rarely, steps=steps)
    def close(self, which, is_another, steps):
        """A close of a session, rarely for another client than its own."""
        client, session = self.session(which, is_another)
        self.call(Call(client, "close", session), f"close {session}", steps)

    @rule(which=whiches, is_another=rarely, steps=steps)
    def resume(self, which, is_another, steps):
        """A return to a call, rarely for another client than its own."""
        threads = sorted(self.model.calls) or [0]
        thread = threads[which % len(threads)]
        call = self.model.calls.get(thread)
        self.resume_thread(thread, (call.client if call else 0) ^ is_another, steps)

    @rule(client=clients, thread=st.integers(0, THREADS), steps=steps)
    def resume_thread(self, thread, client, steps):
        """A return to a thread, in which no call may be, with a buffer that it may have asked for."""
        buffer = BUFFERS + PAGE * thread
        answer = self.smc(steps, [formats.RETURN_FROM_RPC, 0, buffer, thread, 0, 1 + thread, 0, client])
        call = self.model.calls.get(thread)
        if call is None or call.client != client:
            assert answer == "ERESUME"
        else:
            self.model.go_on(call)
            self.leaves(thread, answer)

    def session(self, which, is_another):
        """A client, and a session that is open, or, where none is, one that never was."""
        sessions = list(self.model.sessions.items()) or [(self.model.next_session, 0)]
        session, client = sessions[which % len(sessions)]
        return client ^ is_another, session

    def call(self, call, words, steps):
        """Makes a new call."""
        thread = self.model.begin(call)
        at = ARGUMENTS + PAGE * (THREADS if thread is None else thread)
        self.core.write(0, at, arg.argument(words.split()))
        answer = self.smc(steps, [formats.CALL_WITH_ARG, 0, at, 0, 0, 0, 0, call.client])
        if thread is None:
            assert answer == "ETHREAD_LIMIT"
        else:
            self.leaves(thread, answer)

    def leaves(self, thread, answer):
        """Compares an answer with those that may come, and the end of a call with its own."""
        assert answer in self.model.answers(thread)
        call = self.model.leave(thread, answer)
        if call:
            told = ended(self.core.read(0, ARGUMENTS + PAGE * thread, 96))
            assert (told.result, told.origin) == call.result
            if call.result == ("SUCCESS", "TRUSTED_APP"):
                assert told.session == call.session
            if call.verb == "invoke" and told.result == "SUCCESS":
                assert told.values[0] == (sum(call.numbers), 0)

    def smc(self, steps, registers):
        """The name of an answer."""
        return NAMES[self.core.smc(0, registers, steps)[0]]


@pytest.mark.parametrize("frames", [1, 2, 4, 8])
def test_untrusted_world(cores, frames):
    def world():
        return World(cores(threads=THREADS, frames=frames, applications=APPLICATIONS), frames)

    run_state_machine_as_test(world, settings=settings(max_examples=100, stateful_step_count=20, deadline=None))

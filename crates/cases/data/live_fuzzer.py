"""A normal world that nobody can trust, in conversation with a core. It learns from each answer which calls stand suspended, for whom,
and which sessions are open; so it makes calls, and resumes what it likes as whom it likes. It stops at a wrong answer, and where the core
keeps something else than it has learned.
usage: live_fuzzer.py PROGRAM SEED TURNS
"""

import pathlib
import random
import sys

try:
    from tulgexar import arg, calls, formats, live, words
except ModuleNotFoundError as missing:
    sys.exit(f"live_fuzzer.py: {missing}: in a clone PYTHONPATH=python names where it is")

COUNTER, THREADS, BUFFERS = "22222222-3333-4444-5555-666666666666", 3, 0x40010000
ARGUMENTS, PLACE_BYTES = formats.RAM_START, 4096
ETHREAD_LIMIT, ERESUME = 1, 3
IMAGE = pathlib.Path(__file__).parent / "applications/counter.hex"


class World:
    """What was learned: the client and the argument's place of each suspended call, by its thread; the open sessions; and how often each
    answer has come."""

    def __init__(self, talk, chance):
        self.talk, self.chance = talk, chance
        self.suspended, self.sessions, self.seen = {}, set(), {}

    def turn(self):
        """Makes a call or a resume, and learns from its answer; or says what is wrong."""
        is_call, client = self.chance.random() < 0.4, self.chance.randrange(2)
        registers, thread, place, refusal = self.call(client) if is_call else self.resume(client)
        answer = self.talk.smc(0, registers, self.chance.choice([1, 2, 1_000_000]))
        if answer[0] != refusal and (refusal or answer[0] in (ETHREAD_LIMIT, ERESUME)):
            return f"{registers} is answered {answer}, with {self.suspended} suspended"
        self.seen[answer[0]] = self.seen.get(answer[0], 0) + 1
        if not refusal:
            self.suspended.pop(thread, None)
        if answer[0] in formats.RPCS:
            self.suspended[answer[3]] = client, place
        if answer[0] == 0:
            self.learn(calls.head_fields(self.talk.ram[0][place - formats.RAM_START :]))
        kept = {number: slot["client"] for number, slot in enumerate(self.talk.state().slots) if slot["phase"] != "free"}
        is_known = kept == {number: owner for number, (owner, _) in self.suspended.items()}
        return None if is_known else f"the core keeps {kept}, with {self.suspended} suspended"

    def call(self, client):
        """The registers of a new call, no thread, its argument's place, and the refusal that is wanted, or None."""
        used = {place for _, place in self.suspended.values()}
        place = next(place for place in range(ARGUMENTS, BUFFERS, PLACE_BYTES) if place not in used)
        session = self.chance.choice(sorted(self.sessions) or [1])
        asked = self.chance.choice([f"open {COUNTER}", f"invoke {session} 0 value_out", f"close {session}"])
        self.talk.write(0, place, arg.argument(asked.split()))
        refusal = ETHREAD_LIMIT if len(self.suspended) == THREADS else None
        return [formats.CALL_WITH_ARG, 0, place, 0, 0, 0, 0, client], None, place, refusal

    def resume(self, client):
        """The same of a resume, of its thread and with its call's place."""
        thread = self.chance.randrange(THREADS + 1)
        owner, place = self.suspended.get(thread, (None, None))
        registers = [formats.RETURN_FROM_RPC, 0, BUFFERS + PLACE_BYTES * thread, thread, 0, thread, 0, client]
        return registers, thread, place, None if owner == client else ERESUME

    def learn(self, head):
        """Learns of a session from the argument of a call that has ended."""
        command = formats.COMMANDS[head["cmd"]]
        if head["ret"] == 0 and command != "INVOKE_COMMAND":
            (self.sessions.add if command == "OPEN_SESSION" else self.sessions.discard)(head["session"])


def play(talk, seed, turns):
    """Makes so many turns: how often each answer has come, in words."""
    talk.ask(f"boot 1 {THREADS} 8")
    talk.ask(f"ta {COUNTER} {IMAGE.read_text().strip()}")
    world = World(talk, random.Random(seed))
    for number in range(turns):
        wrong = world.turn()
        if wrong:
            sys.exit(f"turn {number}: {wrong}")
    names = {0: "OK", ETHREAD_LIMIT: "ETHREAD_LIMIT", ERESUME: "ERESUME", **formats.RPCS}
    return " ".join(f"{names[a0]} {count}" for a0, count in sorted(world.seen.items()))


def main(given):
    if len(given) != 3:
        raise words.BadWords("a PROGRAM of a conversation, a SEED and a number of TURNS are wanted")
    seed, turns = words.number(given[1]), words.number(given[2])
    try:
        with live.Conversation(given[0], watch=True) as talk:
            print(play(talk, seed, turns))
    except (live.Over, live.NoConversation, live.Refused) as wrong:
        sys.exit(f"live_fuzzer.py: {wrong}")


words.run(main, __doc__)

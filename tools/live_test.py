#!/usr/bin/env python3
"""Tries the program of a conversation over pipes and other streams, as its users have them. No part of the gate.

The conversations are those that `live_cases` holds, of at most 5,000 lines. They are given whole, and line by line; a line in pieces,
several at once, and many more than are read; streams that are closed, full or slow, or no streams of that kind; a normal world that does
what it likes; with history and without it; a life of a million turns, or N, in the same memory (life.py has what is wanted of it); and,
where there is a C compiler, each request for memory is refused in turn. The program is what `rt run` has built in crates/optee_live, or
FILE. It prints what the life took, each thing that isn't as docs/conversation.md has it, and at the end how many were compared.
Status: 0 where all is as wanted, 1 where something isn't, 2 at other words.
usage: live_test.py [program=FILE] [turns=N]
"""

import contextlib
import fcntl
import os
import pathlib
import random
import re
import select
import subprocess
import sys
import tempfile
import threading
import time

import conversations
import life
import packaged  # noqa: F401  (where tulgexar is)
import shipped
from check import Comparison
from embed import compiler
from tulgexar import arg, formats, live, program
from tulgexar.words import BadWords, number, run

PATIENCE = 20  # seconds
MOMENT = 0.2
USAGE = b"usage: optee_live\n"
BOOT, TAKEN = b"boot 1 1 1\n", b"ok\n"
LONG = 4000  # bytes that are shown at once
MOST_ANSWERED = 3 * 4096  # bytes of an answer
MOST_TURNS = 5000  # of a conversation
REFUSED = [
    "page",
    "session-by-its-number",
    "two-waiting-calls-and-a-wake",
    "create-object-with-a-tag",
    "signals",
    "questions-of-a-cancelled-wait",
]
KEPT = {"sessions": 0, "buffers": 0, "pages": 1, "events": 2, "copied": 0}  # of a core of one page, behind a call
SHARED = "11111111-2222-3333-4444-555555555555"  # an application whose sessions share one instance
CALL = [formats.CALL_WITH_ARG, 0, formats.RAM_START]
ASKED = ["state", "session 1", "buffer 40010000", "events 0 3"]  # behind each line
AT_ONCE = 200  # lines of a life, whose answers the pipe holds
TURNS, FEWEST_TURNS = 1_000_000, 1000  # of a long life
KEPT_TURNS = 50_000  # of one that keeps its history, which takes at least so many bytes for each
KEPT_BYTES = 64
SAME_MEMORY = 256  # KiB that a life without history may grow by
DRAWN = 2000  # lines


class Tests:
    """The program, and what was compared."""

    def __init__(self, path, comparison, turns=TURNS):
        self.path, self.same, self.turns = path, comparison.same, turns
        self.cases = {case.name: case for case in conversations.cases() if len(case.turns) <= MOST_TURNS}

    def ends(self, what, wanted, **streams):
        """Runs the program on streams to its end, and compares its status with that which is wanted, and what it said."""
        done = subprocess.run([self.path], stdout=streams.pop("stdout", subprocess.PIPE), timeout=PATIENCE, check=False, **streams)
        self.same(what, (done.returncode, done.stdout), wanted)

    @contextlib.contextmanager
    def start(self):
        """The program on two pipes; at last it is ended, whatever it does."""
        process = subprocess.Popen([self.path], stdin=subprocess.PIPE, stdout=subprocess.PIPE)
        try:
            yield process
        finally:
            process.kill()
            process.wait()


def lines_of(case):
    """All that a side writes."""
    cut = case.cut[0] if case.cut else ""
    return ("".join(f"{line}\n" for line, _ in case.turns) + cut).encode("latin-1")


def answers_of(case):
    """What is answered to each line."""
    answers = [answer for _, answer in case.turns] + ([case.cut[1]] if case.cut else [])
    return ["".join(f"{line}\n" for line in answer).encode("latin-1") for answer in answers]


def try_whole_inputs(tests):
    """Each conversation, all of it written at once."""
    for case in tests.cases.values():
        tests.ends(f"{case.name}, at once", (0, b"".join(answers_of(case))), input=lines_of(case))


def try_turns(tests):
    """Each conversation, each line written when the last is answered; each answer comes by one write, before any further line."""
    for case in tests.cases.values():
        with tests.start() as process:
            given = [turn(process, line) for line, _ in case.turns]
            cut = case.cut[0].encode("latin-1") if case.cut else b""
            rest = process.communicate(cut, timeout=PATIENCE)[0]
        given += [rest] if case.cut else []
        tests.same(f"{case.name}, line by line", (process.returncode, given), (0, answers_of(case)))


def turn(process, line):
    """Writes a line, and reads what is said by one write, or ends where nothing is said."""
    write(process, line.encode("latin-1") + b"\n")
    if not is_answered(process, PATIENCE):
        raise TimeoutError(f"nothing is answered to {line:.60}")
    return os.read(process.stdout.fileno(), 2 * MOST_ANSWERED)


def try_pieces(tests):
    """A line in pieces isn't answered before its line feed; what stands behind it in one write is a line of its own."""
    with tests.start() as process:
        for piece in (BOOT[:3], BOOT[3:7], BOOT[7:-1]):
            write(process, piece)
            tests.same(f"nothing is answered to {piece}", is_answered(process), False)
        write(process, b"\n# a comment\nlea")
        tests.same("two lines at once", read_to(process, 2 * len(TAKEN)), 2 * TAKEN)
        write(process, b"ve 0\n")
        tests.same("the third", read_to(process, 11), b"bad inside\n")
        process.stdin.close()
        tests.same("the end", (process.stdout.read(), process.wait(PATIENCE)), (b"", 0))


def try_slow_sides(tests):
    """A side that writes, and one that reads, byte by byte."""
    case = tests.cases["page"]
    wanted = b"".join(answers_of(case))
    with tests.start() as process:
        for byte in lines_of(case):
            write(process, bytes([byte]))
            time.sleep(MOMENT / 100)
        process.stdin.close()
        given = b""
        while is_answered(process, PATIENCE) and (part := os.read(process.stdout.fileno(), 1)):
            given += part
            time.sleep(MOMENT / 100)
        tests.same("a slow side", (given, process.wait(PATIENCE)), (wanted, 0))


def try_lines_ahead(tests):
    """A side that reads nothing can't write on for ever: both stop. Once it reads, each line has its answer, in order."""
    line, answer = b"show 0 40000000 %d\n" % LONG, b"mem 0 40000000 " + 2 * LONG * b"0" + b"\nok\n"
    with tests.start() as process:
        write(process, BOOT)
        os.set_blocking(process.stdin.fileno(), False)
        ahead = lines_until_full(process.stdin.fileno(), line)
        tests.same("both sides wait", 0 < len(ahead) < 2 * room_of(process), True)
        os.set_blocking(process.stdin.fileno(), True)
        rest = line[len(ahead) % len(line) :] if len(ahead) % len(line) else b""
        count = (len(ahead) + len(rest)) // len(line)
        threading.Thread(target=finish, args=(process, rest), daemon=True).start()
        wanted = TAKEN + count * answer
        tests.same("lines ahead", (read_to(process, len(wanted) + 1) == wanted, process.wait(PATIENCE)), (True, 0))


def finish(process, rest):
    write(process, rest)
    process.stdin.close()


def lines_until_full(stream, line):
    """What of lines, one after the other, a stream takes until it takes nothing for a moment."""
    written = b""
    while select.select([], [stream], [], 5 * MOMENT)[1]:
        at = len(written) % len(line)
        written += line[at : at + os.write(stream, line[at:])]
    return written


def room_of(process):
    """How many bytes both pipes hold."""
    streams = process.stdin, process.stdout
    return sum(fcntl.fcntl(stream.fileno(), fcntl.F_GETPIPE_SZ) for stream in streams)


def try_other_streams(tests):
    """Streams that are closed or full, or that can't be read or written."""
    with open(os.devnull, "rb") as nothing, open("/dev/full", "wb") as full, open(os.devnull, "wb") as unread:
        tests.ends("an input that is over", (0, b""), stdin=nothing)
        tests.ends("an input that can't be read", (4, b""), stdin=unread)
        tests.ends("no input", (4, b""), preexec_fn=lambda: os.close(0))
        tests.ends("a full output", (5, None), input=BOOT, stdout=full)
        tests.ends("a full output, and nothing to say", (0, None), stdin=nothing, stdout=full)
        tests.ends("no output", (5, None), input=BOOT, stdout=None, preexec_fn=lambda: os.close(1))
    folder = os.open(shipped.ROOT, os.O_RDONLY)
    tests.ends("an input that is a folder", (4, b""), stdin=folder)
    os.close(folder)
    with tests.start() as process:
        process.stdout.close()
        write(process, BOOT)
        tests.same("an output that nobody reads", process.wait(PATIENCE), 5)
    with tests.start() as process:
        write(process, BOOT + b"enter 0 1 bf00ff01 0 0 0 0 0 0 0\n")
        read_to(process, 2 * len(TAKEN))
        process.stdin.close()
        tests.same("an end with a processor inside", (process.stdout.read(), process.wait(PATIENCE)), (b"", 0))


def try_words(tests):
    for words in (["a"], [""], ["a", "b"]):
        done = subprocess.run([tests.path, *words], input=BOOT, capture_output=True, timeout=PATIENCE, check=False)
        tests.same(f"the words {words}", (done.returncode, done.stdout), (2, USAGE))


def try_module(tests):
    """What tools/live.py says of a refused line, and of a program that has ended."""
    with live.Conversation(tests.path) as talk:
        tests.same("send", talk.send("boot 1 1 1"), live.Answer([], "ok"))
        tests.same("ask", refusal(talk.ask, "boot 1 1 1"), "bad place")
        talk.write(0, 0x40000FFF, bytes(range(200)) * 50)
        tests.same("read", talk.read(0, 0x40000FFF, 10_000), bytes(range(200)) * 50)
        tests.same("smc", talk.smc(0, [0xBF00FF03]), [2, 0, 0, 0, 0, 0, 0, 0])
        tests.same("state", talk.state(), live.State([{"phase": "free"}], set(), {}, KEPT))
        talk.process.kill()
        tests.same("a program that has ended", refusal(talk.ask, "# a"), -9)
    tests.same("registers of another line", refusal(live.registers_of, ["mem 0 40000000 00"]), live.NoConversation)
    tests.same("a program that echoes", refusal(live.Conversation("/bin/cat").ask, "boot 1 1 1"), live.NoConversation)
    with tempfile.TemporaryDirectory() as folder:
        for what in ("read -r line; exec sleep 20", "exec cat > /dev/null"):
            quiet = pathlib.Path(folder, "quiet")
            quiet.write_text(f"#!/bin/sh\n{what}\n")
            quiet.chmod(0o700)
            tests.same(f"the program {what}", refusal(live.Conversation(quiet, patience=1).ask, "boot 1 1 1"), live.NoConversation)


def try_sleepers(tests):
    """A driver whose call sleeps, since the call that holds its instance is inside, says so, and goes on behind that one."""
    with live.Conversation(tests.path) as talk:
        digits = (shipped.EXAMPLES / "applications/wait.hex").read_text().strip()
        for line in ("boot 2 2 4", f"ta {SHARED} {digits[:8]}0c{digits[10:]}"):
            talk.ask(line)
        driver = live.Driver(talk)
        for words in (f"open {SHARED}", f"open {SHARED}"):
            talk.write(0, formats.RAM_START, arg.argument(words.split()))
            driver.call(0, CALL)
        for cpu in (0, 1):
            talk.write(cpu, formats.RAM_START, arg.argument(f"invoke {cpu + 1} 5".split()))
        talk.ask("enter 0 1000 " + " ".join(f"{register:x}" for register in [*CALL, 0, 0, 0, 0, 0]))
        try:
            driver.call(1, CALL)
        except live.Asleep as asleep:
            driver.supplicant.begins(0, CALL)
            tests.same("the holder", driver.serve(0, live.registers_of(talk.ask("leave 0"))), [0] * 8)
            tests.same("the sleeper", driver.go_on(asleep.cpu, asleep.registers), [0] * 8)
        results = [talk.read(cpu, formats.RAM_START + 20, 8).hex() for cpu in (0, 1)]
        tests.same("both results", results, ["0000000004000000"] * 2)


def try_served(tests):
    """The conversations of tools/served, whose calls are served."""
    words = [sys.executable, "-B", shipped.ROOT / "tools/bench_test.py", f"live={tests.path}", shipped.ROOT / "tools/served"]
    done = subprocess.run(words, capture_output=True, text=True, timeout=PATIENCE, check=False)
    tests.same("tools/served", (done.returncode, done.stdout if done.returncode else ""), (0, ""))


def try_questions(tests):
    """Each conversation with questions behind each of its lines: it is answered as it is without them, and what is kept of the core is
    read. And with its exits watched: behind it the copies of RAM are what the core sees."""
    for case in tests.cases.values():
        with live.Conversation(tests.path) as talk:
            has_history = not turns_history_off(case)
            given = [asked(talk, line, has_history) for line, _ in case.turns]
            tests.same(f"{case.name}, with questions", given, [answer for _, answer in case.turns])
        with live.Conversation(tests.path, watch=True) as talk:
            for line, _ in case.turns:
                if line != "watch off":
                    talk.send(line)
            seen = [talk.read(cpu, formats.RAM_START, formats.RAM_BYTES) == ram for cpu, ram in enumerate(talk.ram)]
            tests.same(f"{case.name}, its copies of RAM", seen, [True] * len(seen))


def asked(talk, line, has_history):
    """The answer to a line, behind which questions are asked. Behind a boot they are answered, but for events where there is no history."""
    lines, ending = talk.send(line)
    told = [talk.send(question).ending for question in ASKED]
    if told != ["bad place"] * len(ASKED):
        if told != ["ok"] * (len(ASKED) - 1) + ["ok" if has_history else "bad place"]:
            return told
        talk.state()
    return [*lines, ending]


def turns_history_off(case):
    return ("history off", ["ok"]) in case.turns


def try_without_history(tests):
    """Each conversation that keeps its history, without it: the answers are those with it, but to questions for events, and up to an
    entry for which it was full."""
    for case in tests.cases.values():
        if not turns_history_off(case):
            with live.Conversation(tests.path, history=False) as talk:
                for line, answer in case.turns:
                    lines, ending = talk.send(line)
                    if answer[-1].startswith("full"):
                        tests.same(f"{case.name}, which isn't full", (len(lines), ending), (int(line.startswith("smc")), "ok"))
                        break
                    wanted = answer_without_history(line, answer)
                    tests.same(f"{case.name}, without history, at {line:.60}", [*lines, ending], wanted)


def answer_without_history(line, answer):
    """What is answered without history to a line that has this answer with it, whose first faults are told before."""
    is_other = line.split(" ")[0] == "events" and answer[-1] not in ("bad long", "bad byte", "bad count")
    return ["bad place"] if is_other else answer


def try_drawn_lines(tests):
    """Lines of a normal world that does what it likes: the same answers with history and without it."""
    for seed in range(3):
        with live.Conversation(tests.path) as kept, live.Conversation(tests.path, history=False) as counted:
            parted, told = [], set()
            for line in drawn_lines(random.Random(seed), DRAWN):
                answer, other = kept.send(line), counted.send(line)
                parted += [(line, answer, other)] if answer != other else []
                told |= {live.registers_of(answer.lines)[0]} if line.startswith(("smc", "leave")) and answer.lines else set()
            tests.same(f"drawn lines of seed {seed}", parted[:1], [])
            tests.same(f"what is answered to drawn lines of seed {seed}", {0, 1, 3, *formats.RPCS} - told, set())


def drawn_lines(chance, count):
    """The lines of a boot, and so many behind it."""
    counts, waits = (shipped.read(shipped.EXAMPLES / f"applications/{name}.hex").strip() for name in ("counter", "wait_unmasked"))
    yield from ("boot 2 3 6", f"ta {SHARED} {waits[:8]}0c{waits[10:]}", f"ta 2{SHARED[1:]} {counts}")
    for _ in range(count):
        yield chance.choice(DRAWS)(chance)


def drawn_argument(chance):
    session, application = chance.randrange(1, 5), chance.choice([SHARED, f"2{SHARED[1:]}"])
    calls = (
        f"open {application}", f"invoke {session} 5 id 1 value_out", f"invoke {session} 0 rmem_in 0 4096 1", f"cancel {session} 1",
        f"close {session}", "register 40020000 8192 1", "unregister 1",
    )
    words = chance.choices(calls, weights=(4, 6, 2, 2, 1, 1, 1))[0]
    return f"write {chance.randrange(2)} {formats.RAM_START:x} {arg.argument(words.split()).hex()}"


def drawn_entry(chance):
    """Registers of a call or of a resume, with some client, thread and buffer."""
    client, thread, buffer = chance.choice([0, 0, 0, 1]), chance.randrange(4), chance.choice([0x4003_0000, 0])
    calls = [*CALL, 0, 0, 0, 0, client], [formats.CALL_WITH_RPC_ARG, 0, formats.RAM_START, 0, 0, 0, 0, client]
    resume = [formats.RETURN_FROM_RPC, 0, buffer, thread, 0, thread, 0, client]
    registers = " ".join(f"{register:x}" for register in chance.choice([*calls, resume, resume, resume]))
    return f"{chance.choice(['smc', 'smc', 'smc', 'enter'])} {chance.randrange(2)} {chance.choice([1, 1000, 1000])} {registers}"


DRAWS = [
    *[drawn_argument] * 3,
    *[drawn_entry] * 6,
    *[lambda chance: f"leave {chance.randrange(2)}"] * 2,
    lambda chance: f"show {chance.randrange(2)} 40000000 64",
    lambda chance: f"write {chance.randrange(2)} 40030014 00000000",
    lambda chance: "write 0 40020000 00001040000000000020104000000000",
    lambda chance: f"signal {chance.randrange(1, 5)}",
    lambda chance: f"smc 0 1 b20000{chance.randrange(0x10, 0x12):x} 0 0 0 0 0 0 0",
    lambda chance: "state",
    lambda chance: f"session {chance.randrange(1, 9)}",
    lambda chance: "buffer 1",
]


class Living:
    """The program in a life: what is said is compared with what is wanted, up to the first line that has another answer."""

    def __init__(self, process, is_kept=False):
        self.process, self.life, self.parted = process, life.Life(is_kept), None

    def goes_on(self):
        """Says what has come to be said. Whether all answers were those that are wanted."""
        said, self.life.said = self.life.said, []
        for first in range(0, len(said), AT_ONCE):
            some = said[first : first + AT_ONCE]
            write(self.process, "".join(it.line for it in some).encode())
            wanted = "".join(it.answer for it in some).encode()
            given = read_to(self.process, len(wanted))
            if given != wanted:
                self.parted = self.parted or first_parted(some, given.decode("latin-1"))
                return False
        return True

    def resident(self):
        """The memory of the process, in KiB."""
        told = pathlib.Path(f"/proc/{self.process.pid}/status").read_text()
        return int(re.search(r"^VmRSS:\s+(\d+) kB$", told, re.MULTILINE)[1])

    def seconds(self):
        """The processor time of the process."""
        fields = pathlib.Path(f"/proc/{self.process.pid}/stat").read_text().rpartition(")")[2].split()
        return sum(map(int, fields[11:13])) / os.sysconf("SC_CLK_TCK")

    def ages(self, turns):
        """At least so many turns more, of all kinds."""
        until, age = self.life.turns + turns, 0
        while self.life.turns < until and self.goes_on():
            self.life.age(age)
            age += 1
        self.goes_on()


def first_parted(said, given):
    """The first line that has another answer, with both."""
    for line, wanted in said:
        told, given = given[: len(wanted)], given[len(wanted) :]
        if told != wanted:
            return line, told, wanted
    return None


def try_limit(tests):
    """A life up to 2^28 bytes that entries read, with history and without it; there the one is full, and the other goes on, beyond
    2^32 bytes."""
    for is_kept in (True, False):
        with tests.start() as process:
            living = Living(process, is_kept)
            living.ages(1)
            session, until = living.life.open(life.ADD), formats.MOST_READ if is_kept else 1 << 32
            while living.goes_on() and living.life.copied <= until and living.life.add_beside_memory(session, living.life.turns, 7):
                pass
            living.life.smc([life.GET_THREAD_COUNT], [0, life.THREADS])
            living.life.state()
            living.life.close(session)
            living.ages(1)
            tests.same(f"a life of {living.life.copied} bytes read", (living.parted, living.life.copied > 1 << 32), (None, not is_kept))


def try_long_life(tests):
    """A long life in the same memory. One that keeps its history grows with its turns, so this could be seen."""
    with tests.start() as process:
        living = Living(process)
        living.ages(tests.turns // 10)
        first, before, began, used = living.life.turns, living.resident(), time.monotonic(), living.seconds()
        living.ages(tests.turns - first)
        after, took, used = living.resident(), time.monotonic() - began, living.seconds() - used
        tests.same(f"a life of {living.life.turns} turns", living.parted, None)
        tests.same(f"its memory, from {before} to {after} KiB", after - before <= SAME_MEMORY, True)
        own = 1e6 * used / (living.life.turns - first)
        what = f"turns {first} to {living.life.turns} of a life without history"
        print(f"{what}: {took:.1f} s, {own:.2f} us of the program's for each, {before} to {after} KiB")
    with tests.start() as process:
        living = Living(process, is_kept=True)
        before = living.resident()
        living.ages(KEPT_TURNS)
        grown = 1024 * (living.resident() - before) // living.life.turns
        tests.same(f"a life of {living.life.turns} turns with history", living.parted, None)
        tests.same(f"its memory, {grown} bytes a turn", grown >= KEPT_BYTES, True)


def try_fuzzer(tests):
    """examples/live_fuzzer.py finds no wrong answer, but of programs that answer as if a resume had found its call, or a call a thread."""
    for seed in range(3):
        tests.same(f"the fuzzer by seed {seed}", fuzzed(tests.path, seed).returncode, 0)
    with tempfile.TemporaryDirectory() as folder:
        for refusal in ("00000003", "00000001"):
            wrong = pathlib.Path(folder, refusal)
            wrong.write_text(f"#!/bin/sh\n'{tests.path}' | sed -u 's/^ret 0 {refusal}/ret 0 00000000/'\n")
            wrong.chmod(0o700)
            tests.same(f"the fuzzer where {refusal} is no answer", fuzzed(wrong, 0).returncode, 1)


def fuzzed(path, seed):
    """What the fuzzer says of 2,000 turns."""
    words = [sys.executable, "-B", shipped.ROOT / "examples/live_fuzzer.py", path, str(seed), "2000"]
    environment = {**os.environ, "PYTHONPATH": str(shipped.ROOT / "python")}
    return subprocess.run(words, env=environment, capture_output=True, timeout=PATIENCE, check=False)


def refusal(ask, line):
    """How a line was refused, or the status with which the program has ended."""
    try:
        return ask(line)
    except live.Refused as refused:
        return refused.ending
    except live.Over as over:
        return over.status
    except live.NoConversation:
        return live.NoConversation


def try_memory(tests):
    """Each request for memory refused: the program ends with 6, and has said whole answers from the front."""
    cc = compiler()
    if cc is None:
        print("no C compiler: no request for memory was refused")
        return
    with tempfile.TemporaryDirectory() as folder:
        library = pathlib.Path(folder, "refuse_allocation.so")
        source = shipped.ROOT / "bench/refuse_allocation.c"
        subprocess.run([cc, "-O2", "-shared", "-fPIC", "-o", library, source], check=True)
        for name in REFUSED:
            refuse_each(tests, tests.cases[name], library)


def refuse_each(tests, case, library):
    """A refusal ends the program with 6. For the words of the command line and for the bytes of a line `write` memory is asked for once
    more, so once, and once for each such line, it may go on as if none was refused."""
    answers = answers_of(case)
    fronts, whole = [b"".join(answers[:count]) for count in range(len(answers) + 1)], b"".join(answers)
    asked_again = 1 + sum(line.startswith("write ") for line, _ in case.turns)
    request, is_refused = 0, True
    while is_refused:
        request += 1
        settings = os.environ | {"LD_PRELOAD": str(library), "REFUSE": str(request)}
        run_once = {"input": lines_of(case), "capture_output": True, "timeout": PATIENCE, "env": settings, "check": False}
        done = subprocess.run([tests.path], **run_once)
        is_refused = b"refused\n" in done.stderr
        went_on = (done.returncode, done.stdout) == (0, whole)
        asked_again -= is_refused and went_on
        has_ended = is_refused and done.returncode == 6 and done.stdout in fronts
        tests.same(f"{case.name}, memory request {request}, {done.returncode}", has_ended or went_on and asked_again >= 0, True)
    print(f"{case.name}: {request - 1} requests for memory, each refused once")


def write(process, data):
    process.stdin.write(data)
    process.stdin.flush()


def is_answered(process, seconds=MOMENT):
    return bool(select.select([process.stdout], [], [], seconds)[0])


def read_to(process, count):
    """So many bytes of what is said, or what there is where no more is said."""
    given = b""
    while len(given) < count and is_answered(process, PATIENCE):
        part = os.read(process.stdout.fileno(), count - len(given))
        if not part:
            break
        given += part
    return given


TESTS = [
    try_whole_inputs,
    try_turns,
    try_pieces,
    try_slow_sides,
    try_lines_ahead,
    try_other_streams,
    try_words,
    try_module,
    try_sleepers,
    try_served,
    try_questions,
    try_without_history,
    try_drawn_lines,
    try_limit,
    try_long_life,
    try_fuzzer,
    try_memory,
]


def main(words):
    words = list(words)
    file, turns = program.taken_from(words), number(program.taken_from(words, "turns") or str(TURNS))
    if words:
        raise BadWords()
    if turns < FEWEST_TURNS:
        raise BadWords(f"a long life has at least {FEWEST_TURNS} turns")
    comparison = Comparison()
    path = program.found("optee_live", file)
    try:
        with live.Conversation(path, patience=PATIENCE) as talk:
            talk.ask("boot 1 1 1")
    except (live.Over, live.NoConversation, live.Refused) as error:
        raise BadWords(f"{path} holds no conversation: {error}") from error
    tests = Tests(path, comparison, turns)
    for test in TESTS:
        try:
            test(tests)
        except (OSError, subprocess.TimeoutExpired, live.Over, live.Refused) as error:
            comparison.same(test.__name__, repr(error), None)
    print(f"{comparison.compared} compared, {comparison.differing} differ")
    return 1 if comparison.differing else 0


if __name__ == "__main__":
    run(main, __doc__)

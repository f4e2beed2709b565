"""A life of a core in conversation, with the answer that docs/formats.md and docs/conversation.md want to each of its lines: a model of
its own, which asks no program. It isn't run by itself."""

import collections
import hashlib
import struct

import packaged  # noqa: F401  (where tulgexar is)
import shipped
from tulgexar import arg, formats

ADD, CLOCK, PANIC = (f"{digit}1111111-2222-3333-4444-555555555555" for digit in "123")
DIGEST = "3f0c7a11-52b8-4d6e-9a40-0e6b5d2c8f01"  # built in
IMAGES = {ADD: "add", CLOCK: "clock", PANIC: "panic"}  # each with one page, and an instance for each session
CPUS, THREADS, FRAMES = 2, 2, 4

ARGUMENT, OUTPUT, LIST, MEMORY = formats.RAM_START, 0x4001_0000, 0x4002_0000, 0x4010_0000
LENT, COOKIE = 0x4003_0000, 7  # of a call that asks for something
LISTED, REGISTERED = 4, 0x55  # pages of a registered buffer, and its cookie
MOST_MEMORY = 65_536  # bytes of one parameter
BESIDE = 3 * f"tmem_in {MEMORY:x} {MOST_MEMORY} "
HEAD, PARAMETER = formats.HEAD_BYTES, formats.PARAMETER_BYTES
TIME_READ = 20  # bytes of a reply that tells the time

ALLOC, FREE, INTERRUPT, CMD = formats.RPCS
OK, ERESUME = [0], [3]
CALL, RETURN, GET_THREAD_COUNT = [formats.CALL_WITH_ARG, 0, ARGUMENT], formats.RETURN_FROM_RPC, 0xB200000F
SUCCESS, BAD_PARAMETERS, TARGET_DEAD = 0, 0xFFFF0006, 0xFFFF3024
TEE, TRUSTED_APP = 3, 4  # whose result it is

KEPT_FROM = 4  # registers of an answer that are the caller's

# What is said, with its answer.
Said = collections.namedtuple("Said", "line answer")


def digits(registers, width=""):
    """Eight registers: these, and zeros behind them."""
    return " ".join(f"{register:{width}x}" for register in [*registers, *[0] * (8 - len(registers))])


class Life:
    """What is said, and what the core keeps behind that; `turns` are its exits. It keeps its history where it `is_kept`."""

    def __init__(self, is_kept=False):
        self.said, self.is_kept = [], is_kept
        self.turns = self.events = self.copied = 0
        self.last_session = self.last_instance = 0
        self.sessions, self.instances, self.buffers = {}, {}, 0  # each session's instance, and each one's application
        self.dead, self.inside, self.asking = set(), set(), None  # the session whose call asks for something
        self.boot()

    def boot(self):
        if not self.is_kept:
            self.say("history off")
        self.say(f"boot {CPUS} {THREADS} {FRAMES}")
        for uuid, name in IMAGES.items():
            self.say(f"ta {uuid} {shipped.read(shipped.EXAMPLES / f'applications/{name}.hex').strip()}")
        self.write(LIST, struct.pack(f"<{LISTED}Q", *(MEMORY + formats.BUFFER_BYTES * page for page in range(LISTED))))

    # ---- Lines.

    def say(self, line, *told, end="ok"):
        self.said.append(Said(f"{line}\n", "".join(f"{part}\n" for part in (*told, end))))

    def write(self, address, data):
        self.say(f"write 0 {address:x} {data.hex()}")

    def show(self, address, wanted):
        """The bytes that stand there."""
        self.say(f"show 0 {address:x} {len(wanted)}", f"mem 0 {address:08x} {wanted.hex()}")

    def smc(self, registers, answered, read=0):
        """An entry of processor 0, which reads so many bytes, and its exit: a4 to a7 are the caller's."""
        told = answered + [0] * (KEPT_FROM - len(answered)) + registers[KEPT_FROM:]
        self.say(f"smc 0 1000 {digits(registers)}", f"ret 0 {digits(told, '08')}")
        self.turns, self.events, self.copied = self.turns + 1, self.events + 2, self.copied + read

    def state(self):
        """All that the core keeps."""
        slots = [self.slot_of(self.asking) if self.asking else "free", *["free"] * (THREADS - 1)]
        told = [f"slot {number} {slot}" for number, slot in enumerate(slots)]
        told += ["masked 0"] if self.asking else []
        told += [f"inside {cpu}" for cpu in sorted(self.inside)]
        told += [self.instance_told(number) for number in sorted(self.instances)]
        pages = FRAMES - sum(uuid != DIGEST for number, uuid in self.instances.items() if number not in self.dead)
        counts = {"sessions": len(self.sessions), "buffers": self.buffers, "pages": pages, "events": self.events, "copied": self.copied}
        self.say("state", *told, *(f"{name} {count}" for name, count in counts.items()))

    def slot_of(self, session):
        """That of a call which waits, with the buffer that it was lent."""
        return f"asks client 0 session {session} instance {self.sessions[session]} wants suspend buffer {LENT:08x} {COOKIE:016x}"

    def instance_told(self, number):
        is_held = self.asking and self.sessions[self.asking] == number
        life = "dead" if number in self.dead else "alive"
        return f"instance {number} {self.instances[number]} users 1 {'held 0' if is_held else 'idle'} {life}"

    # ---- Calls.

    def call(self, words, read, result=SUCCESS, origin=TRUSTED_APP):
        """A call by an argument, which reads so many bytes and ends with this result."""
        self.write(ARGUMENT, arg.argument(words.split()))
        self.smc(CALL, OK, read)
        self.show(ARGUMENT + 20, struct.pack("<2I", result, origin))

    def open(self, uuid):
        """Opens a session: its number."""
        self.call(f"open {uuid}", HEAD + 2 * PARAMETER, origin=TEE if uuid == DIGEST else TRUSTED_APP)
        self.last_session, self.last_instance = self.last_session + 1, self.last_instance + 1
        self.sessions[self.last_session], self.instances[self.last_instance] = self.last_instance, uuid
        self.show(ARGUMENT + 8, struct.pack("<I", self.last_session))
        return self.last_session

    def close(self, session):
        self.call(f"close {session}", HEAD, origin=TEE)
        instance = self.sessions.pop(session)
        del self.instances[instance]
        self.dead.discard(instance)

    def add(self, session, a, b, more="", read=0):
        """Adds two numbers; the call has further parameters, of which so many bytes are read."""
        count = 1 + sum(word.startswith(("tmem", "rmem")) for word in more.split())
        self.call(f"invoke {session} 0 value_inout {a} {b} {more}", HEAD + count * PARAMETER + read)
        self.show(ARGUMENT + HEAD + 8, struct.pack("<2Q", (a + b) % (1 << 32), 0))

    def add_beside_memory(self, session, a, b):
        """Likewise, with as much memory as a call can have beside. Where it would read more than may be read, its entry is refused."""
        if not self.is_kept or self.copied + HEAD + 4 * PARAMETER + 3 * MOST_MEMORY <= formats.MOST_READ:
            self.add(session, a, b, BESIDE, 3 * MOST_MEMORY)
            return True
        self.write(ARGUMENT, arg.argument(f"invoke {session} 0 value_inout {a} {b} {BESIDE}".split()))
        self.say(f"smc 0 1000 {digits(CALL)}", end=f"full {self.copied}")
        self.show(ARGUMENT + HEAD + 8, struct.pack("<2Q", a, b))
        return False

    def digest(self, session, data):
        """Digests bytes, and the zeros behind them, 4096 in all."""
        length = formats.BUFFER_BYTES
        self.write(MEMORY, data)
        self.call(f"invoke {session} 0 tmem_in {MEMORY:x} {length} tmem_out {OUTPUT:x} 32", HEAD + 2 * PARAMETER + length)
        self.show(OUTPUT, hashlib.sha256(data.ljust(length, b"\0")).digest())

    def tell_time(self, session, times):
        """Tells the time, waits and tells it again. Each is of seconds and milliseconds."""
        self.write(ARGUMENT, arg.argument(f"invoke {session} 5 value_out value_out".split()))
        asks, returns = [CMD, 0, COOKIE], [RETURN]
        self.smc(CALL, [ALLOC, formats.BUFFER_BYTES], HEAD + 2 * PARAMETER)
        self.smc([RETURN, 0, LENT, 0, 0, COOKIE], asks)
        self.reply_time(*times[0])
        self.smc(returns, asks, TIME_READ)
        self.asking = session
        self.state()
        self.asking = None
        self.smc(returns, asks)
        self.reply_time(*times[1])
        self.smc(returns, [FREE, 0, COOKIE], TIME_READ)
        self.smc(returns, OK)
        for number, time in enumerate(times):
            self.show(ARGUMENT + HEAD + number * PARAMETER + 8, struct.pack("<2Q", *time))

    def reply_time(self, seconds, milliseconds):
        for offset, piece in arg.reply(["time", str(seconds), str(1_000_000 * milliseconds)]):
            self.write(LENT + offset, piece)

    def panic(self, session):
        self.call(f"invoke {session} 51966", HEAD, TARGET_DEAD, TEE)
        self.dead.add(self.sessions[session])

    def register(self):
        """Registers a buffer of some pages."""
        self.call(f"register {LIST:x} {LISTED * formats.BUFFER_BYTES} {REGISTERED:x}", HEAD + PARAMETER + 8 * LISTED, origin=TEE)
        self.buffers = 1
        pieces = (f"piece {MEMORY + formats.BUFFER_BYTES * page:08x} {formats.BUFFER_BYTES}" for page in range(LISTED))
        self.say(f"buffer {REGISTERED:x}", f"buffer {REGISTERED:016x} free", *pieces)

    def unregister(self):
        self.call(f"unregister {REGISTERED:x}", HEAD + PARAMETER, origin=TEE)
        self.buffers = 0
        self.say(f"buffer {REGISTERED:x}")

    def be_inside(self):
        """A processor stays inside for a while."""
        self.say(f"enter 1 1 {digits([GET_THREAD_COUNT])}")
        self.inside, self.events = {1}, self.events + 1
        self.state()
        self.say("leave 1", f"ret 1 {digits([0, THREADS], '08')}")
        self.inside, self.events, self.turns = set(), self.events + 1, self.turns + 1

    def break_rules(self):
        """Lines that change nothing."""
        self.say(f"smc 2 1 {digits([GET_THREAD_COUNT])}", end="bad cpu")
        self.say(f"smc 0 0 {digits([GET_THREAD_COUNT])}", end="bad range")
        self.say("history off", end="bad place")
        if not self.is_kept:
            self.say(f"events {self.events} 1", end="bad place")

    def age(self, number):
        """Some of each: sessions and buffers come and go, and nothing is left of them but the counts."""
        adds, digests = self.open(ADD), self.open(DIGEST)
        for _ in range(60):
            self.smc([GET_THREAD_COUNT], [0, THREADS])
        for more in range(5):
            self.add(adds, number, more)
        self.digest(digests, struct.pack("<I", number))
        self.register()
        self.add(adds, 0xFFFFFFFF, number, f"rmem_in 1 {formats.BUFFER_BYTES} {REGISTERED:x}", formats.BUFFER_BYTES)
        self.unregister()
        tells, panics = self.open(CLOCK), self.open(PANIC)
        self.tell_time(tells, [(number, number % 1000), (number + 1, 999)])
        self.panic(panics)
        self.smc([RETURN], ERESUME)
        self.call(f"cancel {self.last_session + 1} 1", HEAD, BAD_PARAMETERS, TEE)
        self.be_inside()
        self.break_rules()
        for session in (digests, panics, adds, tells):
            self.close(session)
        self.state()

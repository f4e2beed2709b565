"""The machine of applications, by the tables of docs/formats.md ("Image", "Machine"). It isn't run by itself.

It is written from that page alone, step by step, so that what it does can be compared with what the core has printed.
"""

import collections
import re

from tulgexar import formats, objects

PARAMETER = re.compile("none|vo|(vi|vio):[0-9a-fA-F]{1,8}:[0-9a-fA-F]{1,8}|(mi|mio):([0-9a-fA-F]{2})+|mo:[1-9][0-9]{0,4}")
MOST_PARAMETER_BYTES = 65_536
PAGE_BYTES, BUFFERS_APART, MOST_CALLS = 4096, 0x10000000, 64
PANICS = {
    1: "an address outside the memory and the buffers, or bytes that leave them",
    2: "past the last instruction",
    3: "a division by 0",
    4: "a call with 64 on the stack, or a ret with none",
    5: "no such parameter, or an object handle that isn't open",
}
OBJECT_CALLS = {13: "create", 14: "open", 15: "read", 16: "write", 17: "seek", 18: "close", 19: "delete"}
TYPES = {"none": 0, "value": 0, "memref": 4}
WAYS = {"in": 1, "out": 2, "inout": 3, "": 0}
CANCEL = objects.RESULTS["CANCEL"]

# How an entry point has stopped: by its return, with r0 and r1; or by a panic, with its code and why.
Stop = collections.namedtuple("Stop", "name first second")


class Panic(Exception):
    """A panic, with its code."""

    def __init__(self, code):
        super().__init__(code)
        self.code = code


class Parameter:
    """A parameter as copied: none, two numbers, or bytes with a size."""

    def __init__(self, family="none", way="", numbers=(0, 0), data=b""):
        self.family, self.way, self.numbers = family, way, tuple(numbers)
        self.data, self.size = bytearray(data), len(data)

    @property
    def type(self):
        return TYPES[self.family] + WAYS[self.way]

    @property
    def is_output(self):
        return self.way in ("out", "inout")

    def printed(self):
        """As the word `client` prints an output."""
        if self.family == "value":
            return "v:{:08x}:{:08x}".format(*self.numbers)
        return f"m:{self.size}:{self.data[: self.size].hex() if self.size <= len(self.data) else ''}"


class World:
    """What lies outside an instance: the time, and how often the call has come back from the normal world."""

    def __init__(self):
        self.times = 0
        self.is_cancelled = lambda: False
        self.requests_made = lambda requests: None

    def time(self):
        self.requests_made(1)
        self.times += 1
        return self.times - 1


class Instance:
    """An instance: its memory, its open objects, and whether it has panicked."""

    def __init__(self, image, store, world):
        self.image, self.store, self.world = image, store, world
        self.is_dead = False
        self.memory = bytearray(PAGE_BYTES * image.pages)


class Machine:
    """A machine at an entry point."""

    def __init__(self, instance, entry, registers=(), parameters=(), client=bytes(16), login=0):
        self.instance, self.world = instance, instance.world
        self.code = instance.image.code
        self.place = instance.image.entries[formats.ENTRIES.index(entry)]
        self.registers = [*registers] + [0] * (formats.REGISTERS - len(registers))
        self.parameters = [*parameters] + [Parameter() for _ in range(4 - len(parameters))]
        self.client, self.login = client, login
        self.stack, self.is_masked = [], True
        self.stored = []  # what the last step has stored, each (address, bytes)

    def step(self):
        """One step: None, or how it stopped. At a panic nothing has changed."""
        self.stored = []
        if self.place >= len(self.code):
            return Stop("panic", 2, PANICS[2])
        instruction = self.code[self.place]
        name, _, _ = formats.OPERATIONS[instruction.op]
        try:
            if name == "sys":
                return self.system_call(instruction.imm)
            self.place = self.operation(name, instruction)
        except Panic as panic:
            return Stop("panic", panic.code, PANICS[panic.code])
        return None

    def operation(self, name, instruction):
        """Does an instruction; the place of the next."""
        a, b, imm = self.registers[instruction.a], self.registers[instruction.b], instruction.imm
        if name in BRANCHES:
            return imm if BRANCHES[name](a, b) else self.place + 1
        if name == "call" and len(self.stack) < MOST_CALLS:
            self.stack.append(self.place + 1)
            return imm
        if name == "ret" and self.stack:
            return self.stack.pop()
        if name in ("call", "ret"):
            raise Panic(4)
        if name in STORES:
            self.store(a + imm, b.to_bytes(4, "little")[: STORES[name]])
        elif name in LOADS:
            self.put(instruction.d, int.from_bytes(self.span(a + imm, LOADS[name]), "little"))
        else:
            self.put(instruction.d, MADE[name](a, b, imm))
        return self.place + 1

    def put(self, number, value):
        self.registers[number] = value % 2**32

    def span(self, address, length):
        """The bytes of a range, all of which lie in the memory or in one buffer."""
        if length == 0:
            return memoryview(b"")
        address %= 2**32
        number, offset = divmod(address, BUFFERS_APART)
        of = self.instance.memory if number == 0 else b""
        if 1 <= number <= 4:
            of = self.parameters[number - 1].data
        if offset + length > len(of):
            raise Panic(1)
        return memoryview(of)[offset : offset + length]

    def store(self, address, data):
        self.span(address, len(data))[:] = data
        self.stored = [(address % 2**32, data)]

    def parameter(self, families, outputs_alone=False):
        """The parameter that r0 names."""
        k = self.registers[0]
        if k > 3 or self.parameters[k].family not in families or outputs_alone and not self.parameters[k].is_output:
            raise Panic(5)
        return self.parameters[k]

    def is_seen_cancelled(self):
        return self.world.is_cancelled() and not self.is_masked

    def system_call(self, number):
        """Does a system call: None, or how it stopped."""
        r0, r1, r2 = self.registers[:3]
        if number == 0:
            return Stop("return", r0, r1)
        if number == 1:
            return Stop("panic", r0, "by its own system call")
        given = self.object_call(number, r0, r1, r2) if number in OBJECT_CALLS else CALLS[number](self, r0, r1, r2)
        for register, value in enumerate(given or ()):
            self.put(register, value)
        self.place += 1
        return None

    def types(self, *_):
        return (sum(parameter.type << 4 * k for k, parameter in enumerate(self.parameters)),)

    def value(self, *_):
        return self.parameter(["value"]).numbers

    def set_value(self, _, r1, r2):
        self.parameter(["value"], outputs_alone=True).numbers = r1, r2

    def size(self, *_):
        return (self.parameter(["memref"]).size,)

    def set_size(self, _, r1, __):
        self.parameter(["memref"], outputs_alone=True).size = r1

    def login_of(self, r0, *_):
        self.store(r0, self.client)
        return (self.login,)

    def cancelled(self, *_):
        return (int(self.is_seen_cancelled()),)

    def mask(self, *_):
        return self.masks(True)

    def unmask(self, *_):
        return self.masks(False)

    def masks(self, is_masked):
        old, self.is_masked = self.is_masked, is_masked
        return (int(old),)

    def time(self, *_):
        return 0, self.world.time(), 0

    def wait(self, *_):
        if not self.is_seen_cancelled():
            self.world.requests_made(1)
        return (CANCEL if self.is_seen_cancelled() else 0,)

    def object_call(self, number, r0, r1, r2):
        """An object call: the range that it names is looked at first, and then its handle."""
        name, store = OBJECT_CALLS[number], self.instance.store
        if name in ("create", "open"):
            operands = [bytes(self.span(r0, r1))]
        elif name == "read":
            operands = [r0, r2, self.span(r1, r2)]
        elif name == "write":
            operands = [r0, bytes(self.span(r1, r2))]
        else:
            operands = [r0, r1] if name == "seek" else [r0]
        try:
            given = store.call(name, *operands)
        except objects.NoHandle as error:
            raise Panic(5) from error
        if name == "read" and given.number:
            self.stored = [(r1, bytes(self.span(r1, given.number)))]
        self.world.requests_made(given.requests)
        return (given.result, given.number) if name in ("create", "open", "read") else (given.result,)


def divided(take):
    """A division, which panics where it is by 0."""

    def made(a, b, _):
        if b == 0:
            raise Panic(3)
        return take(a, b)

    return made


MADE = {
    "const": lambda a, b, imm: imm,
    "move": lambda a, b, imm: a,
    "add": lambda a, b, imm: a + b,
    "sub": lambda a, b, imm: a - b,
    "mul": lambda a, b, imm: a * b,
    "div": divided(lambda a, b: a // b),
    "rem": divided(lambda a, b: a % b),
    "and": lambda a, b, imm: a & b,
    "or": lambda a, b, imm: a | b,
    "xor": lambda a, b, imm: a ^ b,
    "shl": lambda a, b, imm: a << b % 32,
    "shr": lambda a, b, imm: a >> b % 32,
}
BRANCHES = {
    "beq": lambda a, b: a == b,
    "bne": lambda a, b: a != b,
    "bltu": lambda a, b: a < b,
    "bgeu": lambda a, b: a >= b,
    "jump": lambda a, b: True,
}
LOADS = {"loadb": 1, "loadw": 4}
STORES = {"storeb": 1, "storew": 4}
CALLS = {
    2: Machine.types,
    3: Machine.value,
    4: Machine.set_value,
    5: Machine.size,
    6: Machine.set_size,
    7: Machine.login_of,
    8: Machine.cancelled,
    9: Machine.mask,
    10: Machine.unmask,
    11: Machine.time,
    12: Machine.wait,
}


def parameter_of(word):
    """A parameter of a client's script, `vi:5:7`, or None where the word is none."""
    if not PARAMETER.fullmatch(word):
        return None
    if word == "none":
        return Parameter()
    form, *operands = word.split(":")
    way = {"i": "in", "o": "out", "io": "inout"}[form[1:]]
    if form[0] == "v":
        return Parameter("value", way, [int(operand, 16) for operand in operands] or (0, 0))
    data = bytes(int(operands[0])) if form == "mo" else bytes.fromhex(operands[0])
    return Parameter("memref", way, data=data) if len(data) <= MOST_PARAMETER_BYTES else None

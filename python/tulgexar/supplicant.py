"""What the normal world does for calls that ask it for something, by docs/formats.md ("A resume", "Messages to the normal world"): over
any RAM that can be read and written by `read(cpu, address, length)` and `write(cpu, address, data)`, and that knows by
`place_of(cookie, offset)` where a byte of a registered buffer is, or None. It isn't run by itself."""

from collections.abc import Sequence
from typing import NamedTuple, Protocol

from tulgexar import arg, calls, formats

MOST_FILE_BYTES = 1 << 20
MOST_PARAMETERS = 3  # of a request
MESSAGE_BYTES = formats.HEAD_BYTES + MOST_PARAMETERS * formats.PARAMETER_BYTES


class Ram(Protocol):
    """What a supplicant reads and writes: a conversation's memory, or any other."""

    def read(self, cpu: int, address: int, length: int) -> bytes: ...

    def write(self, cpu: int, address: int, data: bytes) -> None: ...

    def place_of(self, cookie: int, offset: int) -> int | None: ...


class Lent(NamedTuple):
    """A buffer that a call was lent, and the place of its requests' arguments."""

    buffer: int
    cookie: int
    place: int


class Request(NamedTuple):
    """A request: its name in docs/formats.md, the p, q and s of each parameter, and the bytes of its payload."""

    name: str
    parameters: list[tuple[int, int, int]]
    payload: bytes


class Refused(Exception):
    """A result of a file, by its name."""


class Files:
    """Files in memory, by their names, each open one under the lowest free descriptor."""

    def __init__(self) -> None:
        self.data: dict[bytes, bytearray] = {}
        self.names: dict[int, bytes] = {}  # by their descriptors

    def file(self, descriptor: int) -> bytearray:
        if descriptor not in self.names:
            raise Refused("BAD_PARAMETERS")
        if self.names[descriptor] not in self.data:
            raise Refused("ITEM_NOT_FOUND")
        return self.data[self.names[descriptor]]

    def open(self, name: bytes) -> int:
        if name not in self.data:
            raise Refused("ITEM_NOT_FOUND")
        descriptor = next(number for number in range(len(self.names) + 1) if number not in self.names)
        self.names[descriptor] = name
        return descriptor

    def create(self, name: bytes) -> int:
        if name in self.data:
            raise Refused("ACCESS_CONFLICT")
        self.data[name] = bytearray()
        return self.open(name)

    def close(self, descriptor: int) -> None:
        if self.names.pop(descriptor, None) is None:
            raise Refused("BAD_PARAMETERS")

    def read(self, descriptor: int, offset: int, length: int) -> bytes:
        return bytes(self.file(descriptor)[offset : offset + length])

    def write(self, descriptor: int, offset: int, data: bytes) -> None:
        file = self.file(descriptor)
        if offset + len(data) > MOST_FILE_BYTES:
            raise Refused("BAD_PARAMETERS")
        file.extend(bytes(max(0, offset - len(file))))
        file[offset : offset + len(data)] = data

    def remove(self, name: bytes) -> None:
        if self.data.pop(name, None) is None:
            raise Refused("ITEM_NOT_FOUND")


class Supplicant:
    """Lends buffers, keeps files, and tells the time. A buffer lies at `buffer` and 4096 bytes further for each thread, under a cookie
    that is `cookie` and one more for each thread."""

    def __init__(self, ram: Ram, buffer: int = 0x40010000, cookie: int = 1) -> None:
        self.ram, self.buffer, self.cookie = ram, buffer, cookie
        self.files = Files()
        self.lent: dict[int, Lent] = {}  # by threads
        self.begun: dict[int, tuple[int | None, int | None]] = {}  # by processors, a new call's area and argument
        self.seconds = 0

    def time(self) -> tuple[int, int]:
        """Seconds and nanoseconds. Here so many seconds as there were such requests before: equal conversations have equal bytes."""
        self.seconds += 1
        return self.seconds - 1, 0

    def wait(self, milliseconds: int) -> None:
        """A call waits so long. Here it doesn't."""

    def begins(self, cpu: int, registers: Sequence[int], area: int | None = None) -> None:
        """An entry with these registers is let in. The requests of a new call stand in its area, where it has one. It is the one that is
        given, or lies behind the argument, which stands at an address or in the buffer of a cookie."""
        self.begun.pop(cpu, None)
        if registers[0] != formats.RETURN_FROM_RPC:
            self.begun[cpu] = area, self.argument_of(registers) if area is None else None

    def argument_of(self, registers: Sequence[int]) -> int | None:
        """The address of the argument before an area, or None where the call brings no area."""
        function, upper, lower, offset = [*registers, 0, 0, 0][:4]
        if function == formats.CALL_WITH_REGD_ARG:
            return self.ram.place_of(upper << 32 | lower, offset)
        return upper << 32 | lower if function == formats.CALL_WITH_RPC_ARG else None

    def serves(self, cpu: int, answered: Sequence[int]) -> tuple[list[int], str] | None:
        """Answers what a call asks for in the registers of its answer: the registers to return with, and the request's name, or
        None where it has ended."""
        if answered[0] not in formats.RPCS:
            self.begun.pop(cpu, None)
            return None
        thread, client = answered[3], answered[7]
        if cpu in self.begun or thread not in self.lent:
            self.lent[thread] = self.lent_to(cpu, thread)
        lent, name = self.lent[thread], formats.RPCS[answered[0]]
        returns = [formats.RETURN_FROM_RPC, 0, 0, thread, 0, 0, 0, client]
        if name == "ALLOC":
            returns[1:3], returns[4:6] = halves(lent.buffer), halves(lent.cookie)
        if name == "CMD":
            name = self.answers(cpu, lent)
        return returns, name

    def lent_to(self, cpu: int, thread: int) -> Lent:
        """The buffer of a thread, whose requests stand in the area of the call that its processor has begun, or else in the buffer."""
        buffer = self.buffer + formats.BUFFER_BYTES * thread
        area, argument = self.begun.pop(cpu, (None, None))
        if argument is not None:
            count = int.from_bytes(self.ram.read(cpu, argument + formats.COUNT_AT, 4), "little")
            area = argument + formats.HEAD_BYTES + formats.PARAMETER_BYTES * count
        return Lent(buffer, self.cookie + thread, area or buffer)

    def answers(self, cpu: int, lent: Lent) -> str:
        """Reads a request, and writes its reply. The name of the request."""
        request = self.request(cpu, lent)
        try:
            words = getattr(self, f"reply_{request.name.lower()}")(request)
        except Refused as refused:
            words = ["ret", str(refused)]
        for offset, piece in arg.reply(words):
            self.ram.write(cpu, (lent.buffer if offset == formats.PAYLOAD_AT else lent.place) + offset, piece)
        return request.name

    def request(self, cpu: int, lent: Lent) -> Request:
        """The request that stands where the call's requests do."""
        data = self.ram.read(cpu, lent.place, MESSAGE_BYTES)
        head = calls.head_fields(data)
        parameters = calls.parameters_in(data[formats.HEAD_BYTES :])[: min(head["num_params"], MOST_PARAMETERS)]
        values = [(p, q, s) for _, p, q, s in parameters]
        kind = values[0][0] if values else None
        name = formats.REQUESTS.get((head["cmd"], None), formats.REQUESTS.get((head["cmd"], kind), "Other"))
        length = next((q for attribute, _, q, _ in parameters if formats.KINDS.get(attribute) == "tmem_in"), 0)
        return Request(name, values, self.ram.read(cpu, lent.buffer + formats.PAYLOAD_AT, length) if length else b"")

    def reply_other(self, request: Request) -> list[str]:
        return ["ret", "NOT_SUPPORTED"]

    def reply_time(self, request: Request) -> list[str]:
        return ["time", *map(str, self.time())]

    def reply_sleep(self, request: Request) -> list[str]:
        return ["ret", "SUCCESS"]

    def reply_wake(self, request: Request) -> list[str]:
        return ["ret", "SUCCESS"]

    def reply_suspend(self, request: Request) -> list[str]:
        self.wait(request.parameters[0][0])
        return ["ret", "SUCCESS"]

    def reply_fsopen(self, request: Request) -> list[str]:
        return ["descriptor", str(self.files.open(request.payload))]

    def reply_fscreate(self, request: Request) -> list[str]:
        return ["descriptor", str(self.files.create(request.payload))]

    def reply_fsclose(self, request: Request) -> list[str]:
        self.files.close(request.parameters[0][1])
        return ["ret", "SUCCESS"]

    def reply_fsread(self, request: Request) -> list[str]:
        (_, descriptor, offset), (_, length, _) = request.parameters[:2]
        return ["bytes", self.files.read(descriptor, offset, length).hex() or "-"]

    def reply_fswrite(self, request: Request) -> list[str]:
        _, descriptor, offset = request.parameters[0]
        self.files.write(descriptor, offset, request.payload)
        return ["ret", "SUCCESS"]

    def reply_fsremove(self, request: Request) -> list[str]:
        self.files.remove(request.payload)
        return ["ret", "SUCCESS"]


def halves(number: int) -> tuple[int, int]:
    """A number of 64 bits in two registers, the upper half first."""
    return number >> 32, number & 0xFFFFFFFF

"""Objects of applications and the files in which they lie, by docs/formats.md, "Objects". It isn't run by itself."""

import collections
import hashlib
import hmac

from tulgexar import formats

RESULTS = {name: result for result, name in formats.RESULTS.items()}
HEAD_BYTES, TAG_BYTES, PIECE_BYTES = 8, 32, formats.BUFFER_BYTES - formats.PAYLOAD_AT
MOST_BYTES, MOST_ID_BYTES, MOST_HANDLES = 32_768, 64, 8

# What an object call gives: its result and the number beside it; and how many requests it has made.
Given = collections.namedtuple("Given", "result number requests")


class NoHandle(Exception):
    """A handle that isn't open."""


class Handle:
    """An open object: its file's name, length, position and format."""

    def __init__(self, name, length=0, format_number=2):
        self.name, self.length, self.format, self.position = name, length, format_number, 0


class Refused(Exception):
    """A result other than SUCCESS, by its name."""


class Store:
    """The open objects of an instance, over files that its application's instances share."""

    def __init__(self, application, files, key=bytes(32)):
        self.prefix = application.replace("-", "").lower()
        self.files, self.key, self.handles = files, key, {}
        self.requests = 0

    def call(self, name, *operands):
        """What an object call gives: `create`, `open`, `read`, `write`, `seek`, `close` or `delete`."""
        self.requests = 0
        try:
            number = getattr(self, name)(*operands) or 0
            return Given(RESULTS["SUCCESS"], number, self.requests)
        except Refused as refused:
            return Given(RESULTS[str(refused)], 0, self.requests)

    def handle(self, number):
        if number not in self.handles:
            raise NoHandle()
        return self.handles[number]

    def name_of(self, identifier):
        if not 1 <= len(identifier) <= MOST_ID_BYTES:
            raise Refused("BAD_PARAMETERS")
        if len(self.handles) == MOST_HANDLES:
            raise Refused("BAD_STATE")
        return f"{self.prefix}/{identifier.hex()}"

    def file(self, name):
        """The bytes of a file, for one request."""
        self.requests += 1
        if name not in self.files:
            raise Refused("ITEM_NOT_FOUND")
        return self.files[name]

    def opened(self, handle):
        number = min(set(range(MOST_HANDLES)) - set(self.handles))
        self.handles[number] = handle
        return number

    def tag(self, name, data):
        text = name.encode() + bytes(1) + len(data).to_bytes(4, "little") + data
        return hmac.new(self.key, text, hashlib.sha256).digest()

    def create(self, identifier):
        name = self.name_of(identifier)
        self.requests += 1
        if name in self.files:
            raise Refused("ACCESS_CONFLICT")
        self.files[name] = bytearray(b"OTO2" + bytes(4) + self.tag(name, b""))
        self.requests += 1
        return self.opened(Handle(name))

    def open(self, identifier):
        name = self.name_of(identifier)
        self.file(name)
        head = bytes(self.file(name)[:HEAD_BYTES])
        length = int.from_bytes(head[4:], "little")
        if len(head) < HEAD_BYTES or head[:4] not in formats.OBJECT_MAGICS or length > MOST_BYTES:
            raise Refused("CORRUPT_OBJECT")
        return self.opened(Handle(name, length, formats.OBJECT_MAGICS.index(head[:4]) + 1))

    def piece(self, handle, at, length):
        """Bytes of a file in pieces, each a request."""
        read = b""
        for begin in range(at, at + length, PIECE_BYTES):
            wanted = min(PIECE_BYTES, at + length - begin)
            got = bytes(self.file(handle.name)[begin : begin + wanted])
            if len(got) < wanted:
                raise Refused("CORRUPT_OBJECT")
            read += got
        return read

    def data(self, handle, put=None):
        """All data of an object whose tag is right; what was read is handed to `put` before the tag is looked at."""
        data = self.piece(handle, HEAD_BYTES, handle.length)
        if put:
            put(data)
        if handle.format == 2 and self.piece(handle, HEAD_BYTES + handle.length, TAG_BYTES) != self.tag(handle.name, data):
            raise Refused("CORRUPT_OBJECT")
        return data

    def read(self, number, length, into):
        """Reads bytes into a range, a memoryview."""
        handle = self.handle(number)
        count = min(length, handle.length - handle.position)
        if count == 0:
            return 0
        if handle.format == 1:
            into[:count] = self.piece(handle, HEAD_BYTES + handle.position, count)
        else:
            self.data(handle, lambda data: put_at(into, data[handle.position : handle.position + count]))
        handle.position += count
        return count

    def write(self, number, given):
        handle = self.handle(number)
        end = handle.position + len(given)
        if end > MOST_BYTES:
            raise Refused("BAD_PARAMETERS")
        if not given:
            return
        data = bytearray(self.data(handle))
        data[handle.position : end] = given
        is_new_head = len(data) > handle.length or handle.format == 1
        self.requests += -(-len(given) // PIECE_BYTES) + 1 + is_new_head
        self.files[handle.name][HEAD_BYTES : HEAD_BYTES + len(data) + TAG_BYTES] = data + self.tag(handle.name, bytes(data))
        if is_new_head:
            self.files[handle.name][:HEAD_BYTES] = b"OTO2" + len(data).to_bytes(4, "little")
        handle.position, handle.length, handle.format = end, len(data), 2

    def seek(self, number, position):
        handle = self.handle(number)
        if position > handle.length:
            raise Refused("BAD_PARAMETERS")
        handle.position = position

    def close(self, number):
        handle = self.handle(number)
        del self.handles[number]
        self.file(handle.name)

    def delete(self, number):
        handle = self.handle(number)
        del self.handles[number]
        self.requests += 1
        self.file(handle.name)
        del self.files[handle.name]


def put_at(into, data):
    into[: len(data)] = data

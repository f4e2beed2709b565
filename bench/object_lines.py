#!/usr/bin/env python3
"""Works out what `parts` has to print of its calls on objects.

The calls are written a second time from their rules (docs/formats.md, "Objects") and not from the Rattle code, and the tags are
those of Python's `hmac`. A call is a generator that yields a request and its payload, and is sent the reply. At the top of
the repository

    bench/object_lines.py cases | diff - <(grep -E '^(object|unbuffered) ' crates/parts/stdin)
    bench/object_lines.py | diff - <(sed -n '/^create: FsCreate/,/^no-handle: /p' crates/parts/stdout)

say nothing.
"""

import sys

import object_files
from object_files import header, number

KEY = bytes(range(32))
APPLICATION = "11111111222233334444555555555555"
SUCCESS, UNAVAILABLE, CORRUPT = 0, 0xF0100003, 0xF0100001
ACCESS_CONFLICT, BAD_PARAMETERS, BAD_STATE = 0xFFFF0003, 0xFFFF0006, 0xFFFF0007
ITEM_NOT_FOUND, OUT_OF_MEMORY = 0xFFFF0008, 0xFFFF000C

objects = {}  # the open ones, by their handles


class Ends(Exception):
    """What ends a call whose result is none of success."""

    def __init__(self, code):
        self.code = code


def end_unless(holds, code):
    if not holds:
        raise Ends(code)


# ---- files

def file_name(identifier):
    return f"{APPLICATION}/{identifier.hex()}".encode()


def tag_of(name, content):
    return object_files.tag_of(KEY, name, content)


def pieces(length):
    """Where each piece begins, and how many bytes it has."""
    return [(start, min(3584, length - start)) for start in range(0, length, 3584)]


# ---- requests and replies

def named(request, name):
    return f"{request}(FileName {{ bytes: {list(name)} }})", name


def reading(descriptor, offset, length):
    return f"FsRead {{ fd: {descriptor}, offset: {offset}, len: {length} }}", b""


def writing(descriptor, offset, content):
    return f"FsWrite {{ fd: {descriptor}, offset: {offset}, len: {len(content)} }}", content


def taken(reply):
    """The number and the bytes of a reply."""
    result, value, content = reply
    kept = (ITEM_NOT_FOUND, ACCESS_CONFLICT)
    end_unless(result == SUCCESS, result if result in kept else UNAVAILABLE)
    return value, content


def whole(reply, length):
    content = taken(reply)[1]
    end_unless(len(content) == length, CORRUPT)
    return content


# ---- calls

class Handle:
    def __init__(self, name, descriptor, length, version):
        self.name, self.descriptor, self.length, self.version = name, descriptor, length, version
        self.position = 0


def free_handle(identifier):
    end_unless(1 <= len(identifier) <= 64, BAD_PARAMETERS)
    free = [it for it in range(8) if it not in objects]
    end_unless(free, BAD_STATE)
    return free[0]


def create(identifier):
    handle, name = free_handle(identifier), file_name(identifier)
    descriptor, _ = taken((yield named("FsCreate", name)))
    taken((yield writing(descriptor, 0, header(0) + tag_of(name, b""))))
    objects[handle] = Handle(name, descriptor, 0, 2)
    return handle


def open_file(identifier):
    handle, name = free_handle(identifier), file_name(identifier)
    descriptor, _ = taken((yield named("FsOpen", name)))
    first = whole((yield reading(descriptor, 0, 8)), 8)
    version = {b"OTO1": 1, b"OTO2": 2}.get(first[:4])
    length = int.from_bytes(first[4:], "little")
    end_unless(version and length <= 32768, CORRUPT)
    objects[handle] = Handle(name, descriptor, length, version)
    return handle


def all_content(it, keep):
    """All the object's bytes, each of which `keep` is told with its place, and then the tag, where there is one."""
    content = b""
    for start, length in pieces(it.length):
        piece = whole((yield reading(it.descriptor, 8 + start, length)), length)
        for place, byte in enumerate(piece, start):
            keep(place, byte)
        content += piece
    if it.version == 2:
        tag = whole((yield reading(it.descriptor, 8 + it.length, 32)), 32)
        end_unless(tag == tag_of(it.name, content), CORRUPT)
    return content


def read(it, memory):
    count = min(len(memory), it.length - it.position)

    def keep(place, byte):
        if 0 <= place - it.position < count:
            memory[place - it.position] = byte

    if count and it.version == 2:
        yield from all_content(it, keep)
    elif count:
        for start, length in pieces(count):
            piece = whole((yield reading(it.descriptor, 8 + it.position + start, length)), length)
            memory[start:start + length] = piece
    it.position += count
    return count


def write(it, memory):
    first, end = it.position, it.position + len(memory)
    end_unless(end <= 32768, BAD_PARAMETERS)
    if not memory:
        return 0
    old = yield from all_content(it, lambda place, byte: None)
    new = old[:first] + memory + old[end:]
    for start, length in pieces(len(memory)):
        taken((yield writing(it.descriptor, 8 + first + start, bytes(memory[start:start + length]))))
    taken((yield writing(it.descriptor, 8 + len(new), tag_of(it.name, new))))
    if len(new) > it.length or it.version == 1:
        taken((yield writing(it.descriptor, 0, header(len(new)))))
    it.length, it.position, it.version = len(new), end, 2
    return 0


def seek(it, position):
    end_unless(position <= it.length, BAD_PARAMETERS)
    it.position = position
    return 0
    yield


def close(handle):
    reply = yield f"FsClose({objects[handle].descriptor})", b""
    del objects[handle]
    taken(reply)
    return 0


def delete(handle):
    it = objects[handle]
    yield f"FsClose({it.descriptor})", b""
    del objects[handle]
    taken((yield named("FsRemove", it.name)))
    return 0


def begun(call, handle, position, memory):
    """The call, or None where it panics, since its handle isn't open."""
    if call in ("create", "open"):
        return {"create": create, "open": open_file}[call](bytes(memory))
    if handle not in objects:
        return None
    if call in ("close", "delete"):
        return {"close": close, "delete": delete}[call](handle)
    if call == "seek":
        return seek(objects[handle], position)
    return {"read": read, "write": write}[call](objects[handle], memory)


# ---- cases

def steps(call, replies):
    """The steps of a call that gets these replies: its requests, and its end, unless it waits for one reply more."""
    reply, left = None, list(replies)
    try:
        while True:
            request, payload = call.send(reply)
            yield f"{request} with {payload.hex()}"
            if not left:
                return
            reply = left.pop(0)
    except StopIteration as end:
        yield f"done {SUCCESS:08x} {end.value}"
    except Ends as end:
        yield f"done {end.code:08x} 0"
    assert not left


def case(kind, name, call, handle, position, content, *replies):
    """The line of a case in the input, and the line that it prints."""
    words = [f"{result}:{value}:{bytes_.hex() or '-'}" for result, value, bytes_ in replies]
    line = " ".join([kind, name, call, str(handle), str(position), content.hex() or "-", *words])
    memory = bytearray(content)
    running = begun(call, handle, position, memory)
    told = list(steps(running, replies)) if running else ["panics 5"]
    assert (kind == "unbuffered") == (" with " in told[-1])
    if kind == "unbuffered":
        told.append(f"{OUT_OF_MEMORY:08x} without a buffer")
    it = objects.get(handle)
    left = f"{it.descriptor} of format {it.version}, {it.position} of {it.length}" if it else "closed"
    return line, f"{name}: {', '.join(told)}, over {memory.hex()}; {handle} is {left}"


DONE = (SUCCESS, 0, b"")


def brings(content):
    return SUCCESS, 0, content


def is_file(descriptor):
    return SUCCESS, descriptor, b""


def cases():
    name, other = file_name(b"A"), file_name(b"B")
    written, changed = b"\x0a\x0b\x0c", b"\x0a\x0d\x0c"
    more = bytes(range(7, 107))
    joined = changed[:1] + more
    untagged, tagged = b"\x01\x02\x03\x04", b"\x01\x02\xee\x04"
    good = [brings(changed), brings(tag_of(name, changed))]
    wrong_tag = bytes([*tag_of(name, changed)[:31], tag_of(name, changed)[31] ^ 1])

    yield case("object", "create", "create", 0, 0, b"A", is_file(7), DONE)
    yield case("object", "read-nothing", "read", 0, 0, bytes(2))
    yield case("object", "write", "write", 0, 0, written, brings(tag_of(name, b"")), DONE, DONE, DONE)
    yield case("object", "seek", "seek", 0, 1, b"")
    yield case("object", "seek-past-the-end", "seek", 0, 4, b"")
    yield case("object", "write-inside", "write", 0, 0, b"\x0d", brings(written), brings(tag_of(name, written)), DONE, DONE)
    yield case("object", "seek-back", "seek", 0, 1, b"")
    yield case("object", "read", "read", 0, 0, bytes(4), *good)
    yield case("object", "read-at-the-end", "read", 0, 0, bytes(2))
    yield case("object", "seek-to-the-start", "seek", 0, 0, b"")
    yield case("object", "short-piece", "read", 0, 0, bytes(2), brings(changed[:2]))
    yield case("object", "changed-byte", "read", 0, 0, bytes(2), brings(b"\x0a\x0e\x0c"), good[1])
    yield case("object", "changed-byte-behind-the-range", "read", 0, 0, bytes(2), brings(b"\x0a\x0d\x0d"), good[1])
    yield case("object", "changed-tag", "read", 0, 0, bytes(2), good[0], brings(wrong_tag))
    yield case("object", "short-tag", "read", 0, 0, bytes(2), good[0], brings(wrong_tag[:31]))
    yield case("object", "older-file", "read", 0, 0, bytes(2), brings(written), brings(tag_of(name, written)))
    yield case("object", "seek-to-the-start-again", "seek", 0, 0, b"")
    yield case("object", "write-over-a-changed-byte", "write", 0, 0, b"\x0f", brings(b"\x0a\x0e\x0c"), good[1])
    yield case("object", "write-without-the-tag", "write", 0, 0, b"\x0f", good[0], (UNAVAILABLE, 0, b""))
    yield case("object", "seek-to-the-second-byte", "seek", 0, 1, b"")
    yield case("object", "write-past-the-end", "write", 0, 0, more, *good, DONE, DONE, DONE)
    yield case("object", "seek-to-the-middle", "seek", 0, 50, b"")
    yield case("object", "read-in-the-middle", "read", 0, 0, bytes(8), brings(joined), brings(tag_of(name, joined)))
    yield case("object", "open-without-a-tag", "open", 1, 0, b"B", is_file(8), brings(b"OTO1" + number(4)))
    yield case("object", "read-without-a-tag", "read", 1, 0, bytes(2), brings(untagged[:2]))
    yield case("object", "write-without-a-tag", "write", 1, 0, b"\xee", brings(untagged), DONE, DONE, DONE)
    yield case("object", "seek-where-a-tag-is-now", "seek", 1, 0, b"")
    yield case("object", "read-where-a-tag-is-now", "read", 1, 0, bytes(4), brings(tagged), brings(tag_of(other, tagged)))
    yield case("object", "tag-of-another-name", "write", 1, 0, b"\xef", brings(tagged), brings(tag_of(name, tagged)))
    yield case("object", "open", "open", 2, 0, b"A", is_file(9), brings(header(101)))
    yield case("object", "corrupt", "open", 3, 0, b"A", is_file(10), brings(b"OTO3" + number(0)))
    yield case("object", "too-long", "open", 3, 0, b"A", is_file(10), brings(header(32769)))
    yield case("object", "not-found", "open", 3, 0, b"A", (ITEM_NOT_FOUND, 0, b""))
    yield case("object", "no-id", "create", 3, 0, b"")
    yield case("object", "long-id", "create", 3, 0, b"\xff" * 65)
    yield case("unbuffered", "longest-id", "create", 3, 0, b"\xff" * 64)
    yield case("unbuffered", "no-buffer-for-the-tag", "write", 1, 0, b"\xef", brings(tagged))
    yield case("object", "close", "close", 2, 0, b"", (5, 0, b""))
    yield case("object", "delete", "delete", 0, 0, b"", (0xFFFF0000, 0, b""), (ITEM_NOT_FOUND, 0, b""))
    yield case("object", "closed", "read", 0, 0, b"\0")
    yield case("object", "no-handle", "seek", 8, 0, b"")


if __name__ == "__main__":
    column = 0 if sys.argv[1:] == ["cases"] else 1
    for lines in cases():
        print(lines[column])

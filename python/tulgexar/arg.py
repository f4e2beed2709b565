"""Writes a message argument, or the reply to a request, as hexadecimal digits for lines `mem` and `write` of a trace.

Arguments:
    open UUID [client UUID] [login N] [id N] [PARAMETER..]      of an application, for a client; the id is for a cancel
    invoke SESSION FUNCTION [id N] [PARAMETER..]
    close SESSION
    cancel SESSION ID
    register POINTER SIZE COOKIE    the pointer is a page list's address and, in its low 12 bits, the offset
    unregister COOKIE
Parameters:
    none
    value_in A B, value_out, value_inout A B
    rmem_in OFFSET SIZE COOKIE      a part of a registered buffer; also rmem_out, rmem_inout
    tmem_in ADDRESS SIZE            memory at an address; also tmem_out, tmem_inout
    list_in POINTER SIZE            memory in the pages of a list; also list_out, list_inout
    null_in                         the null reference; also null_out, null_inout
An argument is one line. A reply is a line `+OFFSET HEX` for each piece of the lent buffer that it is written to, with
the offset in hexadecimal digits:
    reply ret RESULT                a result by its name or number; of a close, write or remove it is all that is read
    reply time SECONDS NANOSECONDS
    reply descriptor N              of an open or create
    reply bytes HEX                 of a read; `reply bytes -` are none
Addresses, pointers and cookies are hexadecimal, as in a trace; other numbers are decimal, or hexadecimal behind 0x.

Status: 0, or 2 at words that aren't of these forms.
usage: arg.py open UUID.. | invoke SESSION FUNCTION.. | close N | cancel N ID | register.. | unregister.. | reply..
"""

import struct
from collections.abc import Iterable

from tulgexar import formats
from tulgexar.words import BadWords, hexadecimal, number, octets, run, uuid

COMMANDS = {name: number for number, name in formats.COMMANDS.items()}
ATTRIBUTES = {name: attribute for attribute, name in formats.KINDS.items()}
RESULTS = {name: result for result, name in formats.RESULTS.items()}
OPTIONS = {"client": uuid, "login": number, "id": number}
OPERANDS = {"client": "UUID", "login": "N", "id": "N"}  # what stands behind an option
RET_AT = 4 * formats.HEAD.index("ret")


def parameter_at(index: int, field: str) -> int:
    """The offset of a field of a parameter."""
    return formats.HEAD_BYTES + formats.PARAMETER_BYTES * index + 8 * formats.PARAMETER.index(field)


def argument(words: Iterable[str]) -> bytes:
    """The bytes of the argument that the words ask for."""
    words = list(words)
    return last(words, chosen(words, CALLS, "call")(words))


def reply(words: Iterable[str]) -> list[tuple[int, bytes]]:
    """The pieces of the reply that the words ask for, each (offset, bytes)."""
    words = list(words)
    return last(words, chosen(words, REPLIES, "reply")(words))


def take(words, form, what="word", **bits):
    """The first word, taken away, in its form."""
    if not words:
        raise BadWords(f"{what} is wanted, and no word is left")
    word = words.pop(0)
    value = form(word, **bits)
    if value is None:
        raise BadWords(f"{word} is no {what}")
    return value


def chosen(words, table, what):
    """What the first word, taken away, names in a table."""
    word = take(words, str, what)
    if word not in table:
        raise BadWords(f"{word} is no {what}: they are {', '.join(table)}")
    return table[word]


def last(words, made):
    """What was made, where no word is left."""
    if words:
        raise BadWords(f"{words[0]} is one word too many")
    return made


def argument_bytes(command, function=0, session=0, cancel_id=0, parameters=()):
    if len(parameters) > formats.MOST_PARAMETERS:
        raise BadWords(f"an argument has at most {formats.MOST_PARAMETERS} parameters")
    head = struct.pack("<8I", COMMANDS[command], function, session, cancel_id, 0, 0, 0, len(parameters))
    return head + b"".join(struct.pack("<4Q", *parameter) for parameter in parameters)


def open_session(words):
    application = take(words, uuid, "UUID")
    options = {"client": bytes(16), "login": 0, "id": 0} | options_of(words, ["client", "login", "id"])
    metas = [meta(application, 0), meta(options["client"], options["login"])]
    return argument_bytes("OPEN_SESSION", 0, 0, options["id"], metas + parameters_of(words))


def meta(octets_of_uuid, login):
    return formats.META | ATTRIBUTES["value_in"], *struct.unpack("<2Q", octets_of_uuid), login


def invoke(words):
    session, function = take(words, number, "SESSION"), take(words, number, "FUNCTION")
    cancel_id = options_of(words, ["id"]).get("id", 0)
    return argument_bytes("INVOKE_COMMAND", function, session, cancel_id, parameters_of(words))


def close(words):
    return argument_bytes("CLOSE_SESSION", 0, take(words, number, "SESSION"))


def cancel(words):
    return argument_bytes("CANCEL", 0, take(words, number, "SESSION"), take(words, number, "ID"))


def register(words):
    pointer, size = take(words, hexadecimal, "POINTER"), take(words, number, "SIZE", bits=64)
    cookie = take(words, hexadecimal, "COOKIE")
    attribute = formats.NONCONTIG | ATTRIBUTES["tmem_out"]
    return argument_bytes("REGISTER_SHM", parameters=[(attribute, pointer, size, cookie)])


def unregister(words):
    return argument_bytes("UNREGISTER_SHM", parameters=[(ATTRIBUTES["rmem_in"], 0, 0, take(words, hexadecimal, "COOKIE"))])


CALLS = {
    "open": open_session,
    "invoke": invoke,
    "close": close,
    "cancel": cancel,
    "register": register,
    "unregister": unregister,
}


def options_of(words, names):
    """Takes the options of these names from the front."""
    options = {}
    while words and words[0] in names:
        name = words.pop(0)
        if name in options:
            raise BadWords(f"{name} stands twice")
        options[name] = take(words, OPTIONS[name], f"{OPERANDS[name]} behind {name}")
    return options


def parameters_of(words):
    """Takes all words as parameters, each (attr, p, q, s)."""
    parameters = []
    while words:
        parameters.append(parameter(words.pop(0), words))
    return parameters


KINDS = "none, value_, rmem_, tmem_ and list_in, _out and _inout, as value_inout, and null_in, null_out and null_inout"


def parameter(kind, words):
    family, _, way = kind.partition("_")
    memory = ATTRIBUTES.get(f"tmem_{way}")
    if kind in ("none", "value_out"):
        return ATTRIBUTES[kind], 0, 0, 0
    if kind in ATTRIBUTES and family == "value":
        return ATTRIBUTES[kind], take(words, number, f"of {kind} A B: A", bits=64), take(words, number, f"of {kind} A B: B", bits=64), 0
    if kind in ATTRIBUTES and family == "rmem":
        return ATTRIBUTES[kind], take(words, number, bits=64), take(words, number, bits=64), take(words, hexadecimal)
    if memory and family == "tmem":
        return memory, take(words, hexadecimal), take(words, number, bits=64), 0
    if memory and family == "list":
        return formats.NONCONTIG | memory, take(words, hexadecimal), take(words, number, bits=64), 0
    if memory and family == "null":
        return memory, 0, 0, 0
    raise BadWords(f"{kind} is no kind of parameter: they are {KINDS}")


def reply_ret(words):
    return [ret(take(words, result, "RESULT"))]


def result(word):
    if word not in RESULTS and not word[:1].isdecimal():
        raise BadWords(f"{word} is no result of docs/formats.md, as SUCCESS, and no number")
    return RESULTS[word] if word in RESULTS else number(word)


def reply_time(words):
    seconds, nanoseconds = take(words, number, "SECONDS", bits=64), take(words, number, "NANOSECONDS", bits=64)
    return [ret(0), (parameter_at(0, "p"), struct.pack("<2Q", seconds, nanoseconds))]


def reply_descriptor(words):
    return [ret(0), (parameter_at(2, "p"), struct.pack("<Q", take(words, number, bits=64)))]


def reply_bytes(words):
    read = take(words, lambda word: b"" if word == "-" else octets(word))
    size = [ret(0), (parameter_at(1, "q"), struct.pack("<Q", len(read)))]
    return size + ([(formats.PAYLOAD_AT, read)] if read else [])


REPLIES = {"ret": reply_ret, "time": reply_time, "descriptor": reply_descriptor, "bytes": reply_bytes}


def ret(code):
    return RET_AT, struct.pack("<I", code)


def main(words):
    if words[:1] == ["reply"]:
        for offset, piece in reply(words[1:]):
            print(f"+{offset:x} {piece.hex()}")
    else:
        print(argument(words).hex())


if __name__ == "__main__":
    run(main, __doc__)

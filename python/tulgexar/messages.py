"""Names for bytes that a play shows: which fields of an argument or of a message they are. It isn't run by itself."""

import collections

from tulgexar import formats

Field = collections.namedtuple("Field", "at size name index", defaults=[None])

HEAD = [Field(4 * i, 4, name) for i, name in enumerate(formats.HEAD)]
PARAMETERS = [
    Field(formats.HEAD_BYTES + formats.PARAMETER_BYTES * index + 8 * i, 8, name, index)
    for index in range(formats.MOST_PARAMETERS)
    for i, name in enumerate(formats.PARAMETER)
]
ARGUMENT_BYTES = formats.HEAD_BYTES + formats.PARAMETER_BYTES * formats.MOST_PARAMETERS


class Places:
    """Where arguments, areas and lent buffers lie, the latest first."""

    def __init__(self):
        self.known = []

    def argument_at(self, address):
        self.add(address, ARGUMENT_BYTES, formats.COMMANDS)

    def area_at(self, address):
        self.add(address, formats.AREA_BYTES, formats.RPC_COMMANDS)

    def buffer_at(self, address):
        self.add(address, formats.BUFFER_BYTES, formats.RPC_COMMANDS)

    def add(self, address, length, commands):
        self.known = [place for place in self.known if place[0] != address]
        self.known.insert(0, (address, length, commands))

    def shown(self, address, data):
        """What shown bytes say, and the result, as (result, origin), where they are an argument's; each may be None."""
        for start, length, commands in self.known:
            if start <= address < start + length:
                return said(address - start, data[: start + length - address], commands)
        return None, None


def said(at, data, commands):
    """What bytes at an offset of an argument or a message say, and the result if it is an argument."""
    values = {field: value_of(field, at, data) for field in HEAD + PARAMETERS if is_within(field, at, data)}
    head = {field.name: value for field, value in values.items() if field.index is None}
    is_message = commands is formats.RPC_COMMANDS
    notes = [request_name(values)] if is_message else []
    notes += [head_note(name, value, commands) for name, value in head.items() if value or name in ("cmd", "ret")]
    for index in range(min(head.get("num_params", formats.MOST_PARAMETERS), formats.MOST_PARAMETERS)):
        notes.append(parameter_note(index, {f.name: value for f, value in values.items() if f.index == index}))
    if is_message and at + len(data) > formats.PAYLOAD_AT:
        notes.append(payload_note(data[max(0, formats.PAYLOAD_AT - at) :]))
    result = None
    if "ret" in head and not is_message:
        result = result_name(head["ret"]), origin_name(head.get("ret_origin"))
    return "; ".join(note for note in notes if note) or None, result


def is_within(field, at, data):
    return at <= field.at and field.at + field.size <= at + len(data)


def value_of(field, at, data):
    return int.from_bytes(data[field.at - at : field.at - at + field.size], "little")


def head_note(name, value, commands):
    if name == "cmd":
        return f"cmd {commands.get(value, value)}"
    if name == "ret":
        return f"ret {result_name(value)}"
    if name == "ret_origin":
        return f"origin {origin_name(value)}"
    return f"{name} {plain(value)}"


def request_name(values):
    """The request of a message whose head is shown, where the command, or p of parameter 0, tells it."""
    command, kind = (values.get(field) for field in (HEAD[0], PARAMETERS[1]))
    return formats.REQUESTS.get((command, None)) or formats.REQUESTS.get((command, kind))


def parameter_note(index, fields):
    """What the shown fields of a parameter say."""
    if not fields:
        return None
    kind = kind_name(fields["attr"]) if "attr" in fields else ""
    forms = {"p": hex, "s": hex} if "mem" in kind else {}
    numbers = [f"{name} {forms.get(name, plain)(value)}" for name, value in fields.items() if name != "attr"]
    return f"parameter {index}: " + " ".join([kind, ", ".join(numbers)]).strip()


def kind_name(attribute):
    kind = formats.KINDS.get(attribute & ~(formats.META | formats.NONCONTIG), f"{attribute:x}")
    bits = [name for bit, name in [(formats.META, "META"), (formats.NONCONTIG, "NONCONTIG")] if attribute & bit]
    return " ".join(bits + [kind])


def payload_note(payload):
    if payload.startswith(formats.OBJECT_MAGICS) and len(payload) >= 8:
        return f"payload: an object's header, length {int.from_bytes(payload[4:8], 'little')}"
    if payload and all(0x20 <= byte < 0x7F for byte in payload):
        return f"payload: {payload.decode()}"
    return f"payload: {len(payload)} bytes"


def output_note(word):
    """An output of a client's call, `v:A:B` or `m:SIZE:HEX`, in words."""
    form, *fields = word.split(":")
    if form == "v":
        return "value {}, {}".format(*(plain(int(field, 16)) for field in fields))
    data = bytes.fromhex(fields[1])
    is_text = data and all(0x20 <= byte < 0x7F for byte in data)
    return f"{fields[0]} bytes" + (f": {data.decode()}" if is_text else "")


def plain(value):
    """A number in decimal, or, where that has more than five digits, in hexadecimal behind 0x."""
    return str(value) if value < 100_000 else f"{value:#x}"


def result_name(value):
    return formats.RESULTS.get(value, f"{value:08x}")


def origin_name(value):
    return value if value is None else formats.ORIGINS.get(value, str(value))

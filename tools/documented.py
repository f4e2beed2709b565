"""The tables of docs/formats.md, read from its text, for check.py to compare formats.py with; and what pages name and link to.
It isn't run by itself."""

import re

import shipped

PAGES = [
    path.resolve()
    for pattern in ("README.md", "docs/*.md", "tools/README.md", "bench/README.md", "examples/README.md", "sdk/README.md", "python/README.md", "embed/*/README.md")
    for path in sorted(shipped.ROOT.glob(pattern))
]


def links(text):
    """The links of a page to others of the repository, each with its anchor."""
    return re.findall(r"\]\(([^():#]*)#?([^()]*)\)", text)


def anchors(text):
    """The anchors of a page's headings."""
    found = re.findall("^#+ (.*)$", text, flags=re.MULTILINE)
    return [re.sub("[^a-z0-9 _-]", "", heading.lower()).replace(" ", "-") for heading in found]


def shown_by(text):
    """What a page names in brackets behind its rules: (`case` or `example`, name)."""
    for kind, names in re.findall("\\b(case|example)s? ((?:`[a-z0-9_-]+`(?:,\\s+|\\s+and\\s+)?)+)", text):
        yield from ((kind, name) for name in re.findall("`([a-z0-9_-]+)`", names))


def section(text, heading):
    """The text below a heading, on one line, and the rows of its tables, each a list of cells."""
    below = re.split(r"^## ", text.split(f"\n## {heading}", 1)[1], maxsplit=1, flags=re.MULTILINE)[0]
    rows = [[cell.strip() for cell in line.strip("|").split("|")] for line in below.splitlines() if line.startswith("| ")]
    return " ".join(below.split()), rows


def crates_by_floor(text, heading):
    """The floors below a heading of a page, each with the crates that begin its rows and items."""
    below = re.split("^## ", text.split(f"\n## {heading}\n", 1)[1], maxsplit=1, flags=re.MULTILINE)[0]
    _, *parts = re.split("^### (.*)\n", below, flags=re.MULTILINE)
    starts = r"^\| \[?(`[a-z_]+`)|^- (\*\*`.*?):"
    begun = [re.findall(starts, part, flags=re.MULTILINE) for part in parts[1::2]]
    return list(zip(parts[::2], [[name for start in found for name in re.findall("`([a-z_]+)`", "".join(start))] for found in begun]))


def by_number(text, base=16):
    """Names with their numbers behind them, `NAME N, NAME N`, as a table by the number."""
    return {int(number, base): name for name, number in re.findall(r"\b([A-Z_]{2,}) ([0-9A-F]+)\b", text)}


def between(text, start, end):
    return text.split(start, 1)[1].split(end, 1)[0]


def tables(text):
    """The tables by their names in formats.py."""
    registers, register_rows = section(text, "SMC registers")
    argument, _ = section(text, "Message argument")
    codes, _ = section(text, "Codes")
    _, message_rows = section(text, "Messages to the normal world")
    _, image_rows = section(text, "Image")
    _, machine_rows = section(text, "Machine")
    trace, trace_rows = section(text, "Text trace")
    _, signal_rows = section(text, "Trace with signals")
    results = between(codes, "SUCCESS 0; with the upper half FFFF: ", ". Origins")
    upper, whole = results.split("; ")
    return {
        "FUNCTIONS": {int(a0, 16): name for a0, name, *_ in register_rows if re.fullmatch("[0-9A-F]{8}", a0)},
        "NOTIFY_FUNCTIONS": dict(call for row in signal_rows for call in named_call(row[0])),
        "CODES": by_number(between(registers, "Return codes: ", " are never answered")),
        "RPCS": {int(row[1], 16): row[0].upper() for row in register_rows if row[1].startswith("FFFF")},
        "CAPABILITIES": re.findall("([A-Za-z][A-Za-z ]+?) (?:bit )?[0-9]", between(registers, "secure world: ", ";")),
        "COMMANDS": by_number(between(argument, "Commands: ", ". Any")),
        "KINDS": kinds(between(argument, "low byte is the kind: ", "(hexadecimal)")),
        "REQUESTS": dict(request(row) for row in message_rows if re.fullmatch("[0-9] [A-Z_]+", row[1])),
        "RPC_COMMANDS": by_number(" ".join(" ".join(reversed(row[1].split())) for row in message_rows), 10),
        "RESULTS": {0: "SUCCESS"} | {0xFFFF0000 | low: name for low, name in by_number(upper).items()} | by_number(whole),
        "ORIGINS": by_number(between(codes, "Origins: ", ". Parameter")),
        "OPERATIONS": {op: form for row in image_rows for op, form in operations(row)},
        "SYSTEM_CALLS": [name for row in machine_rows for name in system_calls(row[0])],
        "LINES": {line[0]: len(line) for row in trace_rows if (line := row[0].strip("`").split())[1:]},
        "FAULTS": [row[0].strip("`") for row in trace_rows if re.fullmatch("`[a-z]+`", row[0])]
        + re.findall("the fault is `([a-z]+)`", trace),
    }


def named_call(cell):
    """A call by its number and its name, `ENABLE_ASYNC_NOTIF, b2000010`."""
    call = re.fullmatch("([A-Z_]+), ([0-9a-f]{8})", cell)
    return [(int(call[2], 16), call[1])] if call else []


def kinds(text):
    """Kinds of parameters: `none 0; value in 1, out 2, inout 3; ..`."""
    found = {}
    for group in text.split("; "):
        words = group.replace(",", "").split()
        family = f"{words.pop(0)}_" if len(words) > 2 else ""
        found |= {int(number, 16): family + name for name, number in zip(words[::2], words[1::2])}
    return found


def request(row):
    """A request's command, with the p that tells it from others of the command, and its name."""
    command, p = row[1].split()[0], re.search(r"p (\d)", row[2])
    return (int(command), int(p[1]) if p else None), row[0].partition("(")[0]


def operations(row):
    """The operations of a row, `03, 04, 05 | add, sub, mul d a b`, each with its name, registers and operand."""
    if len(row) != 3 or not re.fullmatch("[0-9A-F]{2}(, [0-9A-F]{2})*", row[0]):
        return
    names, fields = re.fullmatch("([a-z, ]*?[a-z]{2,})((?: [dab]| imm)*)", row[1]).groups()
    operand = "system call" if names == "sys" else "target" if "target" in row[2] else "number"
    for op, name in zip(row[0].split(", "), names.split(", ")):
        yield int(op, 16), (name, re.sub("imm| ", "", fields), operand if "imm" in fields else None)


def system_calls(cell):
    """The names of a row, `13, 14 object create, open`, in which the second may lack its first word."""
    numbers, names = re.match("((?:[0-9]+(?:, )?)*) ?(.*)", cell).groups()
    if not numbers:
        return []
    names = names.split(", ")
    return names[:1] + [names[0].split()[0] + f" {name}" if " " in names[0] else name for name in names[1:]]

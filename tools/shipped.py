"""What the repository ships to be compared with: examples, worked cases and tables. It isn't run by itself."""

import collections
import pathlib

ROOT = pathlib.Path(__file__).resolve().parent.parent
EXAMPLES, CRATES, SCRIPTS = ROOT / "examples", ROOT / "crates", ROOT / "tools/scripts"
IN_C = ROOT / "sdk/examples"

Play = collections.namedtuple("Play", "name trace output status")


def read(path):
    return path.read_bytes().decode("latin-1")


# The bytes that an input may have.
LONGEST = 1 << 24


def examples():
    """The traces of examples/, each with its output."""
    paths = sorted(EXAMPLES.glob("*.trace"))
    return [Play(path.stem, read(path), read(path.with_suffix(".out")), 0) for path in paths]


def worked_cases(wanted="run"):
    """The cases of `cases` whose words are these and in which no call fails, in the form that docs/formats.md gives; not
    those that are made of one before, nor those with more bytes than an input may have."""
    case = {}
    for line in read(CRATES / "cases/stdin").splitlines(keepends=True):
        word, _, rest = line.rstrip("\n").partition(" ")
        if word in ("case", "again", "by_threads", "by_audit"):
            case = {"name": rest, "words": "", "input": [], "output": [], "fails": word != "case"}
        elif word in ("words", "take", "put"):
            case["fails" if word != "words" else "words"] = rest
        elif word in ("cut", "change", "swap"):
            case["fails"] = True
        elif word in ("input", "output"):
            into = case[word]
        elif word == "status":
            if case["words"] == wanted and not case["fails"]:
                yield Play(case["name"], "".join(case["input"]), "".join(case["output"]), int(rest))
        elif word == "repeat":
            at, count = map(int, rest.split())
            part = "".join(into)[at:]
            case["fails"] |= len(part) * count > LONGEST
            into.append("" if case["fails"] else part * (count - 1))
        elif line[0] != "#":
            into.append(bytes_of(line, word, rest))


def case_names():
    """The names of all worked cases."""
    lines = (line.split(" ") for line in read(CRATES / "cases/stdin").splitlines())
    return [words[1] for words in lines if words[0] in ("case", "again", "by_threads", "by_audit") and len(words) == 2]


def core_names():
    """The names of the traces of core_cases."""
    return sections(read(CRATES / "core_cases/stdin"))


def bytes_of(line, word, rest):
    """What a line of bytes of a worked case stands for."""
    if word == "zeros":
        return "\0" * int(rest)
    if word == "lines":
        count, _, text = rest.partition(" ")
        return f"{text}\n" * int(count)
    if word == "comment":
        return "#" * (int(rest) - 1) + "\n"
    if word == "hex":
        return bytes.fromhex(rest).decode("latin-1")
    if line[0] == "<":
        return read(EXAMPLES / line[1:-1])
    return line[1:] if line[0] == "|" else line[1:-1]


def core_cases():
    """The traces of core_cases that are served by lists, each with what it prints but counts of events; not those with a refused
    entry."""
    traces, outputs = (sections(read(CRATES / "core_cases" / name)) for name in ("stdin", "stdout"))
    for name, trace in traces.items():
        if not any(line.startswith("full ") for line in outputs[name]):
            yield Play(name, "".join(trace), "".join(line for line in outputs[name] if " events, " not in line), 0)


def sections(text):
    """The lines below each line `case lists NAME`."""
    found = {}
    for line in text.splitlines(keepends=True):
        if line.startswith("case "):
            lines = []
            if line.startswith("case lists "):
                found[line[11:-1]] = lines
        else:
            lines.append(line)
    return found


def rows(kind):
    """The rows of `parts` of this kind, each with its outcome: `|` is a line feed, and `let` names a part."""
    names = {}
    wanted = iter(read(CRATES / "parts/stdout").splitlines())
    for row in read(CRATES / "parts/stdin").split("\n")[:-1]:
        if row.startswith("## "):
            continue
        if row.startswith("let "):
            _, name, part = row.split(" ", 2)
            names[name] = in_full(part, names)
        else:
            told = next(wanted)
            if row.startswith(kind + " "):
                yield in_full(row[len(kind) + 1 :], names).replace("|", "\n"), told


def in_full(row, names):
    """A row in which the names stand for their parts."""
    for name, part in names.items():
        row = row.replace(name, part)
    return row


def trace_rows():
    """The texts of traces, each with its outcome."""
    return rows("trace")


def assembler_rows():
    """The texts of the assembler, each with what it comes to: `canonical HEX`, `other HEX` or a fault."""
    yield from rows("asm")
    for digits, told in rows("asm-bytes"):
        yield bytes.fromhex(digits).decode("latin-1"), told


# An application in C: its folder, its text, its digits and its map.
InC = collections.namedtuple("InC", "folder text digits map")


def applications_in_c():
    """The applications of sdk/examples."""
    for folder in sorted(IN_C.iterdir()):
        files = [folder / f"{folder.name}{end}" for end in (".s", ".hex", ".map")]
        yield InC(folder, read(files[0]), read(files[1]).strip(), read(files[2]))


def applications():
    """The images of examples/applications, each with its name, its text and its digits."""
    for path in sorted((EXAMPLES / "applications").glob("*.hex")):
        yield path.stem, read(path.with_suffix(".s")), read(path).strip()

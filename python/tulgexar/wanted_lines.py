"""Wanted lines of tests, which stand in comments behind an item, and how they compare with what has come of it. It isn't run by itself.

    #= LINE      what the item prints
    #= = NOTE    what annotate.py says of that
    #= : NOTE    what annotate.py says of a call as it enters
Each kind may stand once behind an item; `..` at the end leaves out what follows.
"""

import collections
import os
import re

from tulgexar import arg, formats, plays
from tulgexar.words import BadWords

MARK, SERVE, REST = "#=", "#! serve", ".."
LINE, NOTE, ASKED = "", "=", ":"  # the kinds, by the mark that stands before the text
FORMS = "`#= LINE`, `#= = NOTE`, `#= : NOTE`, and, in a conversation (.lines), `#! serve` on a line of its own"
LIKE_ONE = re.compile(r"#!|#:|#\s+[=!:]")  # a comment that would be one of a test
EMPTY = re.compile(r"#=\s*[=:]?\s*\.\.\s*")  # a wanted line that any answer would fit
ANSWERS = {name: code for table in (formats.CODES, formats.RPCS) for code, name in table.items()}
ORIGINS = {name: origin for origin, name in formats.ORIGINS.items()}

# What differs at a line of a file: its number and text, what was wanted and what came, each as lines, and what differs by name.
Failure = collections.namedtuple("Failure", "place text wanted got differs", defaults=[(), (), ""])

# What has come of a line of a file: what was printed, or None, and what that says; `explained`, which says what another line there would
# say; and what is said of the call that the line makes.
Printed = collections.namedtuple("Printed", "place text line note explained asked", defaults=[None])

# A wanted line: its number and text, its kind, what is wanted, and the number of the item that it stands behind, or None.
Wanted = collections.namedtuple("Wanted", "place text kind wanted of")


def wanted_in(lines):
    """The wanted lines among the lines of a file, which count from 1."""
    found, of = [], None
    for place, line in enumerate(lines, 1):
        if line.startswith(MARK):
            wanted = line[len(MARK) :].strip()
            kind = wanted[:1] if wanted[:1] in (NOTE, ASKED) else LINE
            found.append(Wanted(place, line, kind, wanted, of))
        elif line and not line.startswith("#"):
            of = place
    return found


def misspelt(lines, is_conversation):
    """The failures of comments that look like a test's, and are none."""
    failures = []
    for place, line in enumerate(lines, 1):
        is_own = line == SERVE and is_conversation or line.startswith("#!/") and place == 1
        if LIKE_ONE.match(line) and not is_own:
            failures.append(Failure(place, line, got=[f"this looks like a comment of a test, and is none: they are {FORMS}"]))
        elif EMPTY.fullmatch(line):
            failures.append(Failure(place, line, got=["nothing stands before `..`, so any line would do: what is wanted begins there"]))
    return failures


def differing_lines(printed, wanted):
    """The failures of wanted lines, by what has come of each line of the file."""
    failures, seen = [], set()
    for one in wanted:
        came = printed.get(one.of)
        if came is None or came.line is None and one.kind != ASKED:
            failures.append(Failure(one.place, one.text, [one.text], ["nothing: it stands behind no line that prints"]))
        elif (one.of, one.kind) in seen:
            what = f"line {one.of} has a wanted line of this kind already: one `#= LINE`, one `#= = NOTE` and one `#= : NOTE` may stand behind it"
            failures.append(Failure(one.place, one.text, got=[what]))
        elif failure := compared(one.wanted, came):
            failures.append(failure)
        seen.add((one.of, one.kind))
    return failures


def compared(wanted, printed):
    """The failure of a printed line that is another than the wanted one, or None."""
    if wanted[:1] in (NOTE, ASKED):
        return compared_note(wanted, printed)
    got = [printed.line, *told(printed.note)]
    try:
        full = in_digits(wanted)
    except BadWords as error:
        return Failure(printed.place, printed.text, [wanted, str(error)], got)
    if fits(full, printed.line):
        return None
    explained = [] if full.endswith(REST) else told(printed.explained(full))
    return Failure(printed.place, printed.text, [wanted, *explained], got, differing(full, printed.line))


def compared_note(wanted, printed):
    """The failure of a note that is another than the wanted one, or None."""
    kind, note = wanted[:1], wanted[1:].strip()
    came = printed.asked if kind == ASKED else printed.note
    if fits(note, came or ""):
        return None
    got = told(came, kind) if kind == ASKED else [printed.line, *told(came)]
    return Failure(printed.place, printed.text, [wanted], got or ["nothing is said of a call here"], differing_notes(note, came) if came else "")


def fits(wanted, came):
    """Whether what came is wanted so, or begins so where the rest is left out."""
    return wanted == came or wanted.endswith(REST) and came.startswith(wanted.removesuffix(REST))


def told(note, kind=NOTE):
    return [f"{kind} {note}"] if note else []


def in_digits(line):
    """A wanted line with its names as digits."""
    words = line.split(" ")
    tables = {"ret": [(2, ANSWERS, "answer")]}.get(words[0], [])
    if words[0] in plays.CLIENT_CALLS:
        tables = [(2, arg.RESULTS, "result"), (3, ORIGINS, "origin")]
    for place, table, what in tables:
        if len(words) > place and not words[place].endswith(REST):
            words[place] = digits_of(words[place], table, what)
    return " ".join(words)


def digits_of(word, table, what):
    """The eight digits of a word, which are its own, or those of a name in a table."""
    if word not in table and number_of(word) is None:
        if not word:
            raise BadWords(f"two blanks stand together, where one is printed before the {what}")
        raise BadWords(f"{word} is no {what} of docs/formats.md, and no eight hexadecimal digits in small letters")
    return f"{table[word]:08x}" if word in table else word


def number_of(digits):
    """The number of eight lower-case hexadecimal digits, or None."""
    return int(digits, 16) if re.fullmatch("[0-9a-f]{8}", digits) else None


def differing(wanted, came):
    """What differs between two lines, by name; of lines of other kinds, that alone."""
    pairs = list(zip(wanted.removesuffix(REST).split(), came.split()))
    named = [f"{name_of(pairs[0][1], place)}: {valued(pairs[0][1], place, old, new)}" for place, (old, new) in enumerate(pairs) if old != new]
    if pairs and pairs[0][0] != pairs[0][1]:
        return named[0]
    more = len(came.split()) - len(wanted.split())
    if more and not wanted.endswith(REST):
        hint = ", which `..` at the end would leave out" if more > 0 else ""
        named.append(f"{abs(more)} word{'s' if abs(more) > 1 else ''} {'more' if more > 0 else 'fewer'} came{hint}")
    return "; ".join(named)


def differing_notes(wanted, came):
    """What differs between two notes, part by part; of notes that begin with other words, that alone."""
    front, parts, is_front = parts_of(wanted.removesuffix(REST)), parts_of(came), wanted.endswith(REST)
    pairs = list(zip(front, parts))
    if is_front and len(front) <= len(parts) and pairs[-1][1].startswith(front[-1]):
        pairs.pop()
    named = [differing_parts(old, new) for old, new in pairs if old.split() != new.split()]
    if named and pairs[0][0].split()[:1] != pairs[0][1].split()[:1]:
        return named[0]
    count, more = abs(len(parts) - len(front)), len(parts) > len(front)
    if count and not (more and is_front):
        first, hint = (parts[len(front)], ", which `..` at the end would leave out") if more else (front[len(parts)] or REST, "")
        named.append(f"{count} part{'s' if count > 1 else ''} {'more' if more else 'fewer'} came, from `{first}` on{hint}")
    return "; ".join(named) or differing_texts(wanted, came)


def parts_of(note):
    """The parts of a note, between which stand commas, semicolons or colons."""
    return re.split("[,;:] ", note)


def differing_parts(wanted, came):
    """What differs between two parts of a note, behind the words with which both begin."""
    old, new = wanted.split(), came.split()
    same = common_length(old, new)
    name = " ".join(old[:same])
    return (f"{name}: " if name else "") + f"{' '.join(new[same:]) or 'nothing'}, not {' '.join(old[same:]) or 'nothing'}"


def differing_texts(wanted, came):
    """Where two notes differ that have the same words in each part."""
    at = common_length(wanted, came)
    return f"from character {at} on `{came[at : at + 16]}`, not `{wanted[at : at + 16]}`"


def common_length(one, other):
    """How many words or characters two beginnings have in common."""
    return len(os.path.commonprefix([one, other]))


def name_of(word, place):
    """The name of a word in a line of this first word."""
    names = {"mem": ["line", "processor", "address", "bytes"]}
    names["ret"] = ["line", "processor", *(f"a{k}" for k in range(8)), "word at", "place of the entry", "place of the exit"]
    names["bad"] = ["line", "kind"]
    if word in plays.CLIENT_CALLS:
        names[word] = ["call", "session", "result", "origin"]
    known = names.get(word, ["line"])
    if place < len(known):
        return known[place]
    return f"parameter {place - len(known)}" if word in plays.CLIENT_CALLS else f"word {place}"


def valued(word, place, wanted, came):
    """Two values, by their names where they have one."""
    if word == "mem" and place == 3:
        at = next((at for at in range(0, len(came), 2) if came[at : at + 2] != wanted[at : at + 2]), len(came))
        return f"from byte {at // 2} on {came[at : at + 16] or 'nothing'}, not {wanted[at : at + 16] or 'nothing'}"
    tables = {("ret", 2): dict(map(reversed, ANSWERS.items()))}
    tables |= {(call, 2): formats.RESULTS for call in plays.CLIENT_CALLS} | {(call, 3): formats.ORIGINS for call in plays.CLIENT_CALLS}
    return ", not ".join(named_value(tables.get((word, place), {}), value) for value in (came, wanted))


def named_value(table, word):
    value = number_of(word)
    return f"{word} ({table[value]})" if value in table else word

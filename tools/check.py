#!/usr/bin/env python3
"""Runs the tools over all shipped examples and cases, and compares what they give with what is wanted.

That are the shipped files, expected.py, and, for the tables that the tools share, those of docs/formats.md. The commands that
pages of docs/ show are run, and what they print is compared. The programs answer by the shipped cases alone there (known.py, and
known_live.py for conversations), so that each run of a page is one of the gate; FILE is run instead, where it is given. It prints each
thing that doesn't agree, and at the end how many were compared.
Status: 0 where all agree, 1 where something doesn't, 2 at other words.
usage: check.py [program=FILE] [live=FILE]
"""

import collections
import importlib
import io
import pathlib
import re
import subprocess
import sys
import tempfile

import conversations
import crates
import documented
import expected
import packaged  # noqa: F401  (where tulgexar is)
import pages
import shipped
from tulgexar import (
    annotate,
    answers,
    arg,
    assembler,
    bench_test,
    chart,
    client,
    client_trace,
    explain,
    formats,
    image,
    journal,
    lift,
    live,
    places,
    plays,
    program,
    story,
    supplicant,
    wanted_lines,
)
from tulgexar.words import BadWords, run

FOLDER = shipped.ROOT / "tools"


class Comparison:
    """Counts what agrees, and prints what doesn't."""

    def __init__(self):
        self.compared = self.differing = 0

    def same(self, what, given, wanted):
        self.compared += 1
        if given != wanted:
            self.differing += 1
            print(f"{what}\n  gives  {given!r:.300}\n  wanted {wanted!r:.300}")


def tool(name, *words, text=""):
    """The status and what is printed of a tool, whose main is run as a program runs it."""
    module = importlib.import_module(name.removesuffix(".py"))
    streams = sys.stdin, sys.stdout, sys.stderr
    sys.stdin = io.TextIOWrapper(io.BytesIO(text.encode("latin-1")), encoding="latin-1")
    printed, said = (io.TextIOWrapper(io.BytesIO(), encoding="latin-1", write_through=True) for _ in range(2))
    sys.stdout, sys.stderr = printed, said
    try:
        run(module.main, module.__doc__, [str(word) for word in words])
    except SystemExit as ended:
        status = ended.code or 0
    finally:
        sys.stdin, sys.stdout, sys.stderr = streams
    return status, *(stream.buffer.getvalue().decode("latin-1") for stream in (printed, said))


def tool_alone(name, *words):
    """The same of a tool that is run as a program of its own."""
    done = subprocess.run([FOLDER / name, *words], input="", capture_output=True, text=True, check=False)
    return done.returncode, done.stdout, done.stderr


def check_arguments(comparison):
    """Each argument that stands in an example, and no other, is written by the words of expected.py."""
    for play in shipped.examples():
        lines = [line.split(" ") for line in play.trace.splitlines()]
        stand = {line[-1] for line in lines if line[0] in ("mem", "write") and len(line[-1]) >= 2 * formats.HEAD_BYTES}
        given = {arg.argument(words.split()).hex() for words in expected.ARGUMENTS[play.name]}
        given |= set(expected.TAGS.get(play.name, []))
        comparison.same(f"arguments of {play.name}", sorted(given), sorted(stand))
    for words, wanted in expected.OTHER_ARGUMENTS.items():
        comparison.same(f"arg.py {words}", tool("arg.py", *words.split()), (0, wanted.replace(" ", "") + "\n", ""))
    for words, wanted in expected.REPLIES.items():
        comparison.same(f"arg.py reply {words}", tool("arg.py", "reply", *words.split()), (0, wanted, ""))


def check_images(comparison):
    """Refusals by hand; images that the shipped tables refuse or take; and the texts of the assembler's tables."""
    for digits, wanted in expected.REFUSALS.items():
        status, printed, _ = tool("image.py", text=digits)
        comparison.same(f"image.py of {digits}", (status, printed.partition(":")[0]), (1, wanted))
    for digits in expected.EDGES:
        comparison.same(f"image.py of {digits}", image.refusal(bytes.fromhex(digits)), None)
    comparison.same("image.py of a good image", tool("image.py", text=expected.GOOD), (0, expected.GOOD_TEXT, ""))
    for text, wanted in shipped.assembler_rows():
        word, _, digits = wanted.partition(" ")
        if word in ("canonical", "other"):
            comparison.same(f"image.py of {digits} is the text", disassembled(digits) == text, word == "canonical")
    for name, text, digits in shipped.applications():
        comparison.same(f"image.py of {name}", disassembled(digits), plain_text(text))
        commented = tool("image.py", "comments", text=digits)[1]
        without = [line for line in commented.splitlines(keepends=True) if line[0] != "#"]
        comparison.same(f"image.py comments of {name}", "".join(without), disassembled(digits))


def check_assembler(comparison):
    """The texts of the assembler's tables, and those of the shipped applications: images, or the first fault. Steps of a text have its labels."""
    texts = [(text, digits) for _, text, digits in shipped.applications()]
    texts += [(shown.text, shown.digits) for shown in shipped.applications_in_c()]
    texts += [(text, wanted.removeprefix("canonical ").removeprefix("other ")) for text, wanted in shipped.assembler_rows()]
    for text, wanted in texts:
        comparison.same(f"assembler.py at {text[-80:]!r}", assembled(text), wanted)
    for words, wanted in expected.STEPS_OF_TEXTS.items():
        name, *entries = words.split(" ")
        printed = tool("step.py", shipped.EXAMPLES / f"applications/{name}.s", *entries)[1]
        comparison.same(f"step.py {words}", [line for line in wanted if line in printed.splitlines()], wanted)
    with tempfile.TemporaryDirectory() as folder:
        path = pathlib.Path(folder, "x.s")
        path.write_text(expected.GOOD_TEXT + "jump NOWHERE\n", encoding="latin-1")
        given = tool("step.py", path, "open")[:2]
        comparison.same("step.py at a text with a fault", given, (1, f"{path}:{expected.GOOD_TEXT.count(chr(10)) + 1}: a label that has no line\n"))


def assembled(text):
    """The digits of an image, or the first fault as the table of texts has it."""
    names = {assembler.BAD: "bad line", assembler.UNKNOWN: "unknown label in line", assembler.REPEATED: "repeated label in line"}
    try:
        return image.encoded(assembler.assembled(text).image).hex()
    except assembler.Fault as fault:
        return f"{names[fault.cause]} {fault.place}"


def disassembled(digits):
    data = bytes.fromhex(digits)
    return image.refusal(data) or image.canonical(image.decode(data))


def plain_text(text):
    """A good text of the assembler with numbers in decimal, labels by number, and labels alone that something names."""
    lines = [line.split(" ") for line in text.splitlines() if line and line[0] != "#"]
    labels, body = {}, []
    for words in lines[7:]:
        if words[0].endswith(":"):
            labels[words[0][:-1]] = f"L{len(body)}"
        else:
            body.append(words)
    plain = [" ".join(plain_word(word, labels) for word in words) for words in lines[:7] + body]
    named = {word for line in plain for word in line.split(" ") if word in labels.values()}
    header, body = plain[:7], plain[7:]
    for number, line in enumerate(body):
        header += ([f"L{number}:"] if f"L{number}" in named else []) + [line]
    return "".join(f"{line}\n" for line in header)


def plain_word(word, labels):
    return str(int(word, 16)) if word.startswith("0x") else labels.get(word, word)


def check_faults(comparison):
    """In the table of texts: which images are refused, and that a fault stands under its line."""
    for text, wanted in shipped.trace_rows():
        place, kind = wanted.split(" ")[2:] if wanted.startswith("bad trace") else (0, "")
        for number, line in enumerate(text.splitlines(), 1):
            if line.startswith("ta ") and kind in ("", "image") and number <= (int(place) or number):
                refused = image.refusal(bytes.fromhex(line.split(" ")[2])) is not None
                comparison.same(f"image.py at line {number} of {text[:60]!r}", refused, number == int(place))
        if kind:
            entries = plays.lay_out(text, f"{wanted}\n")
            said = [(entry.number, entry.note.partition(":")[0]) for entry in entries if entry.printed]
            comparison.same(f"annotate.py at {text[:60]!r}", said, [(int(place), kind)])


def check_outputs(comparison):
    """Each shipped output lies under its trace, with nothing left over; a line less or more, or another one, is found."""
    for play in [*shipped.examples(), *shipped.worked_cases(), *shipped.core_cases()]:
        entries = laid_out(play.trace, play.output)
        is_cut_off = play.status == 7 and items(play.trace) != []
        comparison.same(f"annotate.py at {play.name} fits", entries is None, is_cut_off)
        if entries is None:
            continue
        printed = "".join(f"{entry.printed}\n" for entry in entries if entry.printed)
        comparison.same(f"annotate.py at {play.name}", printed, play.output)
        text = annotate.annotated(entries)
        kept = "".join(line for line in text.splitlines(keepends=True) if not line.startswith(annotate.INDENT))
        trace = "".join(f"{annotate.shortened(line)}\n" for line in play.trace.splitlines())
        comparison.same(f"the trace in annotate.py at {play.name}", kept.rstrip("\n"), trace.rstrip("\n"))
        rets = sum(line.startswith("ret ") for line in play.output.splitlines())
        comparison.same(f"answers.py at {play.name}", answers.counted(entries).splitlines()[0], f"answers {rets}")
        for output in other_outputs(play):
            comparison.same(f"annotate.py at {play.name} and {output[:80]!r}..", laid_out(play.trace, output), None)


def check_other_words(comparison):
    """Outputs of `client`, `notify` and `threads` under their inputs, and another one found; journals by their records."""
    for word in ("client", "notify", "threads"):
        for play in shipped.worked_cases(word):
            if play.status == 7 and not play.output:
                continue
            entries = laid_out(play.trace, play.output)
            is_cut_off = play.status == 7 and word != "threads"
            comparison.same(f"annotate.py at {play.name} fits", entries is None, is_cut_off)
            found = [entry for entry in entries or () if entry.printed or entry.text.startswith("cpu ")]
            printed = "".join(f"{entry.printed or entry.text}\n" for entry in found)
            comparison.same(f"annotate.py at {play.name}", printed, play.output if entries else "")
            for output in other_outputs(play) if play.status == 0 else []:
                comparison.same(f"annotate.py at {play.name} and {output[:80]!r}..", laid_out(play.trace, output), None)
    for name in ("session", "session_in_steps"):
        told = journal.told((shipped.EXAMPLES / f"{name}.journal").read_bytes())
        left = [entry.text.partition("leave ")[2] for entry in told if " leave " in entry.text]
        rets = shipped.read(shipped.EXAMPLES / f"{name}.out").splitlines()
        comparison.same(f"exits of {name}.journal", left, [line[4:] for line in rets if line.startswith("ret ")])
        given = tool("annotate.py", shipped.EXAMPLES / f"{name}.journal")
        comparison.same(f"annotate.py {name}.journal", given[:2], (0, annotate.annotated(told)))
    check_explained(comparison)
    check_compared(comparison)
    for play in shipped.worked_cases("record"):
        data = play.output.encode("latin-1")
        if data.startswith(journal.MAGIC):
            header = [line for line in items(play.trace) if line.split(" ")[0] in ("boot", "ta", "key")]
            told = [entry.text for entry in journal.told(data) if entry.text.split(" ")[0] in ("boot", "ta", "key")]
            is_told = all(line.lower() in told or line == f"key {64 * '0'}" for line in header)
            comparison.same(f"the header of the journal of {play.name}", is_told, True)
            for cut in (1, len(data) // 2, len(data) - 1):
                comparison.same(f"the journal of {play.name} cut at {cut}", is_journal(data[:cut]), False)


class Recorder:
    """A program that records one journal, whatever it is given."""

    def __init__(self, journal_of):
        self.journal_of = journal_of

    def run(self, words, trace):
        return program.Done(self.journal_of.decode("latin-1"), 0)


def check_explained(comparison):
    """At each exit of a journal, with a register changed: that one is named, and the events of the exit's call stand above."""
    data = (shipped.EXAMPLES / "session_in_steps.journal").read_bytes()
    header, events = explain.read(data)
    trace = [line for line in items(shipped.read(shipped.EXAMPLES / "session_in_steps.trace")) if line.split(" ")[0] in ("boot", "ta")]
    comparison.same("the header of session_in_steps.journal", header, trace)
    for at, event in enumerate(events):
        if event.is_entry:
            continue
        for register, value in enumerate(event.registers):
            changed = data_with(data, at, register, value ^ 1)
            lines = explain.explanation(changed, at, Recorder(data))
            wanted = f"differs: a{register} is {value ^ 1:08x}, wanted is {value:08x}"
            comparison.same(f"explain.py at event {at} with another a{register}", lines[-1], wanted)
        told = [int(place) for line in lines[: lines.index("wanted:")] for place in re.findall("^event ([0-9]+):", line)]
        comparison.same(f"explain.py at event {at} tells its entry", told[-2:], [explain.entry_before(events, at), at])
        first = events[told[0]]
        comparison.same(f"explain.py at event {at} begins with a call", first.registers[0] != formats.RETURN_FROM_RPC, True)
    for name, fault in expected.TURNS.items():
        play = next(play for play in shipped.worked_cases("audit") if play.name == name)
        at = int(play.output.split(" ")[1])
        comparison.same(f"explain.py at {name}", explain.explanation(play.trace.encode("latin-1"), at, None)[-1], f"differs: {fault}")


class Comparer:
    """A program that compares fronts of two journals, of which the session's own events are told by hand, event by event."""

    file = "comparer"

    def __init__(self, *told):
        self.told = told

    def own(self, data):
        """The own events of a front of one of them."""
        events = explain.read(data)[1]
        labels = next(labels for whole, labels in self.told if explain.read(whole)[1][: len(events)] == events)
        return [label for label in labels[: len(events)] if label]

    def run(self, words, text):
        one, two = (self.own(part) for part in explain.parted(text.encode("latin-1")))
        first = next((at for at, pair in enumerate(zip(one, two)) if pair[0] != pair[1]), min(len(one), len(two)))
        said = f"same {len(one)}" if one == two else f"events {first}"
        absent = [number for number, own in ((1, one), (2, two)) if not own]
        return program.Done(f"absent {absent[0]}\n" if absent else f"{said}\n", 0)


def check_compared(comparison):
    """Two journals that are different: the events at which they first are, or their headers, and what differs by its name."""
    play = next(play for play in shipped.worked_cases("compare 1") if play.name == "compare-session-with-another-input")
    one, two = explain.parted(play.trace.encode("latin-1"))
    comparer = Comparer((one, expected.OWN_EVENTS[0]), (two, expected.OWN_EVENTS[1]))
    short = explain.Side(1, one).front(2)
    for data, wanted in ((one + two, expected.COMPARED[0]), (two + short, expected.COMPARED[1]), (short + one, expected.COMPARED[2])):
        said, lines = explain.verdict("1", data, comparer)
        told = [line for line in lines if line.startswith(("journal", "differs"))]
        comparison.same(f"explain.py compare: {wanted[0]}", [said, *told], wanted)
    for verdict, subject, change, wanted in expected.HEADERS_COMPARED:
        changed = one.replace(bytes.fromhex(change[0]), bytes.fromhex(change[1]), 1)
        given = explain.verdict(subject, one + changed, Printer(f"{verdict}\n"))
        comparison.same(f"explain.py compare {subject}: {verdict}", given, (verdict, wanted))


def compare_plays():
    """The cases of `compare` that are told a verdict, each with its subject."""
    words = {line[6:] for line in shipped.read(shipped.CRATES / "cases/stdin").splitlines() if line.startswith("words compare ")}
    yield from ((play, text.split(" ")[1]) for text in sorted(words) for play in shipped.worked_cases(text) if play.status == 0)


def data_with(data, at, register, value):
    """A journal in which an exit has another register."""
    reader, number = journal.Reader(data), -1
    reader.take(len(journal.MAGIC))
    while number < at:
        before = reader.at
        number += skip(reader) in (0x20, 0x21)
    place = before + 2 + 4 * register
    return data[:place] + value.to_bytes(4, "little") + data[place + 4 :]


def skip(reader):
    """Takes a record: its tag."""
    tag = reader.take(1)[0]
    lengths = {0x01: 4, 0x02: 16, 0x04: 32, 0x20: 37, 0x21: 33}
    reader.take(lengths[tag])
    if tag == 0x02:
        reader.octets()
    if tag == 0x20:
        for _ in range(*reader.numbers("I")):
            reader.take(8)
            reader.octets()
    return tag


def is_journal(data):
    try:
        return journal.told(data) is not None
    except plays.Mismatch:
        return False


def check_pictures(comparison):
    """The pictures of docs/, and that slots are taken as each answer that asks for something tells them."""
    pictures = shipped.ROOT / "docs/pictures"
    shown = [(shipped.EXAMPLES / "wait_and_wake", "wait_and_wake.svg"), (pictures / "two_processors", "two_processors.svg")]
    for path, picture in shown:
        given = tool("chart.py", path.with_suffix(".trace"), path.with_suffix(".out"))
        comparison.same(f"chart.py {path.name}", given, (0, shipped.read(pictures / picture), ""))
    told = story.Story(story.visits_of(expected.CAUSES_TRACE, expected.CAUSES_OUTPUT), 2)
    given = [(visit.called, visit.why) for visit in told.visits if visit.why]
    whys = [note.partition("ERESUME: ")[2] for note in expected.CAUSES]
    comparison.same("causes in a picture", given, [(said, why) for said, why in zip(expected.CAUSES, whys[1:]) if why])
    drawn = re.findall(">ERESUME ([a-z]+)<", chart.chart(told))
    comparison.same("words of causes in a picture", sorted(drawn), ["active", "another", "free", "no"])
    for play in [*shipped.examples(), *threads_plays(pictures)]:
        told = story.Story(story.visits_of(play.trace, play.output), story.threads_of(play.trace))
        for visit in told.visits:
            if visit.answer in formats.RPCS.values():
                comparison.same(f"the slot at {visit.exit} of {play.name}", visit.slot, visit.answered[3])
                is_told = f"thread {visit.answered[3]}:" in visit.called
                comparison.same(f"the thread of the call at {visit.exit} of {play.name}", is_told or "a new call:" in visit.called, True)
        rets = sum(line.startswith("ret ") for line in play.output.splitlines())
        comparison.same(f"visits of {play.name}", len(told.visits), rets)
        comparison.same(f"places of {play.name}", sorted(places_of(told)), list(range(2 * rets)))


def threads_plays(pictures):
    path = pictures / "two_processors"
    yield shipped.Play(path.name, shipped.read(path.with_suffix(".trace")), shipped.read(path.with_suffix(".out")), 0)
    yield from (play for play in shipped.worked_cases("threads") if play.status == 0)


def places_of(told):
    return [place for visit in told.visits for place in (visit.entry, visit.exit)]


def laid_out(trace, output):
    try:
        return plays.lay_out(trace, output)
    except plays.Mismatch:
        return None


def other_outputs(play):
    """Outputs that aren't those of a play that has printed answers or bytes."""
    lines = play.output.splitlines(keepends=True)
    if not lines or lines[0].startswith("bad trace"):
        return []
    changed = [("ret ", "ret 9"), ("mem ", "mem 9"), (" 4000", " 4001")]
    others = [play.output.replace(old, new, 1) for old, new in changed if old in play.output]
    return ["".join(lines[1:]), "".join(lines[:-1]), play.output + lines[-1], *others]


def check_examples(comparison):
    """The tools as programs, over the examples: what is said, what is counted, and an output that is another one's."""
    for play in shipped.examples():
        files = shipped.EXAMPLES / f"{play.name}.trace", shipped.EXAMPLES / f"{play.name}.out"
        status, printed, _ = tool("annotate.py", *files)
        comparison.same(f"annotate.py {play.name}", status, 0)
        lines = [line.strip() for line in printed.splitlines()]
        for line, note in expected.NOTES.get(play.name, {}).items():
            comparison.same(f"annotate.py {play.name} under {line}", f"= {note}" in following(lines, line), True)
        status, printed, _ = tool("answers.py", *files)
        counts = [line.strip() for line in printed.splitlines() if line.startswith("  ")]
        wanted = expected.COUNTS.get(play.name, counts)
        comparison.same(f"answers.py {play.name}", (status, sorted(counts)), (0, sorted(wanted)))
    check_folder(comparison)
    said = [entry.note for entry in plays.lay_out(expected.TRACE, expected.OUTPUT) if entry.printed]
    comparison.same("annotate.py at a play of calls that are refused", said, expected.OUTPUT_NOTES)
    trace = lift.lifted(expected.AREA_SCRIPT, shipped.SCRIPTS)
    said = [entry.note for entry in plays.lay_out(trace, expected.AREA_OUTPUT) if entry.printed]
    comparison.same("annotate.py at a play of calls with areas", said, expected.AREA_NOTES)
    check_causes(comparison)
    for trace, output in expected.NO_PLAYS:
        comparison.same(f"annotate.py at {trace!r}", laid_out(trace, output), None)
    for name in ("annotate.py", "answers.py"):
        status, printed, said = tool(name, files[0], "-", text="ret 0\n")
        comparison.same(f"{name} at another output", (status, "ret" in printed, said.startswith(name)), (1, False, True))


def check_causes(comparison):
    """What is said of each call of a play, and why a resume is answered ERESUME; and of one that is cut as much as is there."""
    entries = plays.lay_out(expected.CAUSES_TRACE, expected.CAUSES_OUTPUT)
    said = [said for entry in entries for said in (entry.asked, entry.note) if said]
    comparison.same("annotate.py at resumes that are refused", said, expected.CAUSES)
    lines = expected.CAUSES_OUTPUT.splitlines(keepends=True)
    for count in range(len(lines)):
        with tempfile.TemporaryDirectory() as folder:
            path = pathlib.Path(folder, "trace")
            path.write_text(expected.CAUSES_TRACE, encoding="latin-1")
            status, printed, _ = tool("annotate.py", path, "-", text="".join(lines[:count]))
        whole = annotate.annotated(entries)
        comparison.same(f"annotate.py at {count} lines", (status, printed.count("  ret "), whole.startswith(printed)), (1, count, True))


def check_folder(comparison):
    """Several traces at once: the examples, and one that is refused."""
    with tempfile.TemporaryDirectory() as folder:
        all_plays = [*shipped.examples(), shipped.Play("refused", "boots\n", "bad trace 1 item\n", 3)]
        for play in all_plays:
            pathlib.Path(folder, play.name).write_text(play.trace, encoding="latin-1")
        output = "".join(f"== {play.name}\n{play.output}" for play in all_plays)
        status, printed, _ = tool("annotate.py", folder, "-", text=output)
        laid = [f"== {play.name}\n{annotate.annotated(plays.lay_out(play.trace, play.output))}" for play in all_plays]
        comparison.same("annotate.py at a folder", (status, printed), (0, "".join(laid)))
        status, printed, _ = tool("answers.py", folder, "-", text=output)
        rets = len(re.findall("^ret ", output, flags=re.MULTILINE))
        comparison.same("answers.py at a folder", (status, printed.splitlines()[0]), (0, f"answers {rets}"))
        status, *_ = tool("annotate.py", folder, "-", text=output.replace("== refused\nbad trace 1 item\n", ""))
        comparison.same("annotate.py at a folder with a trace more", status, 1)


def following(lines, line):
    """The lines that stand behind a line."""
    return [behind for before, behind in zip(lines, lines[1:]) if before == line]


def check_machine(comparison):
    """The machine's table, read a second time: what clients' calls come to, and steps of shipped applications."""
    for play in shipped.worked_cases("client"):
        is_served = play.status == 0 or play.output
        if is_served and not play.output.startswith("bad trace"):
            comparison.same(f"client.py at {play.name}", client.play(play.trace), play.output)
    for words, (status, wanted) in expected.STEPS.items():
        name, *entries = words.split(" ")
        given = tool("step.py", shipped.EXAMPLES / f"applications/{name}.hex", *entries)
        comparison.same(f"step.py {words}", (given[0], last_lines(given[1], wanted)), (status, wanted))
    comparison.same("step.py at no image", tool("step.py", "-", "open", text="4f")[:2], (1, NO_IMAGE))


def last_lines(text, wanted):
    """As many of the last lines as are wanted."""
    return "".join(text.splitlines(keepends=True)[-wanted.count("\n") :])


NO_IMAGE = "BadHeader(0): 1 bytes are fewer than 36\n"


class Printer:
    """A program that prints one output and ends with one status, whatever it is given."""

    file = "printer"

    def __init__(self, output, status=0):
        self.done = program.Done(output, status)

    def run(self, words, text):
        return self.done


def calls_of(script):
    """The calls of a script, each with the line that is wanted of it, in digits, or None."""
    found = []
    for line in script.splitlines():
        if line.split(" ")[0] in plays.CLIENT_CALLS:
            found.append((line, None))
        elif line.startswith(wanted_lines.MARK):
            found[-1] = found[-1][0], wanted_lines.in_digits(line[len(wanted_lines.MARK) :].strip())
    return found


def check_clients(comparison):
    """Scripts as tests: the shipped ones, and each of their lines changed, left out, or of another status."""
    known = f"program={FOLDER / 'known.py'}"
    for path in sorted(shipped.EXAMPLES.glob("*.client")):
        script, output = shipped.read(path), shipped.read(path.with_suffix(".out"))
        wanted = [line for _, line in calls_of(script)]
        comparison.same(f"lines wanted by {path.name}", wanted, output.splitlines())
        given = tool("client_test.py", known, path)
        told = f"{path}: ok, {len(wanted)} compared\n1 cases, 0 failed, {len(wanted)} lines compared\n"
        comparison.same(f"client_test.py {path.name}", given[:2], (0, told))
        for line in output.splitlines(keepends=True):
            for other in (output.replace(line, line.replace("0000", "0001", 1), 1), output.replace(line, "", 1)):
                _, failures = bench_test.play(path, "client", Printer(other))
                comparison.same(f"bench_test.py at another line {line}", failures != [], True)
        _, failures = bench_test.play(path, "client", Printer(output, 7))
        comparison.same("bench_test.py at status 7", [failure.got[0][:31] for failure in failures], ["printer has ended with status 7"])
    for script, (output, status, wanted) in expected.CLIENT_TESTS.items():
        given = told_of("x.client", script, Printer(output, status))
        comparison.same(f"bench_test.py at {script}", given, wanted)
    given = tool("client_test.py", known, "-", text="boot 1 2 1\n#= open s 00000000 00000004\n")
    comparison.same("client_test.py at a line behind no call", given[0], 1)


def told_of(name, text, runner):
    """What bench_test.py tells of a file of this name and text, by a program, but for its first line."""
    with tempfile.TemporaryDirectory() as folder:
        path = pathlib.Path(folder, name)
        path.write_text(text, encoding="latin-1")
        case = bench_test.Case(name, *bench_test.play(path, bench_test.WORDS[path.suffix], runner), 0)
    return bench_test.lines_on(case)[1:]


def check_runner(comparison):
    """A script by bench_test.py: as it is, with each wanted line changed in turn, and a folder without a test."""
    known, path = f"program={FOLDER / 'known.py'}", shipped.EXAMPLES / "storage_and_cancel.client"
    script = shipped.read(path)
    count = sum(line.startswith("#=") for line in script.splitlines())
    status, printed, _ = tool("bench_test.py", known, path)
    comparison.same("bench_test.py", (status, printed.splitlines()[-1]), (0, f"1 cases, 0 failed, {count} lines compared"))
    played = expected_play(path)
    calls = [(text, wanted) for text, wanted in calls_of(script) if wanted]
    comparison.same("bench_test.py: the calls", len(calls), count)
    for number, ((text, _), line) in enumerate(zip(calls, played.output.splitlines())):
        note = plays.client_call(0, text.split(" "), collections.deque([line]))[1]
        printed = wanted_lines.Printed(number, text, line, note, lambda other: None)
        words = line.split(" ")
        other = " ".join([*words[:2], "ffff0000", *words[3:]])
        comparison.same(f"bench_test.py at line {number}", wanted_lines.compared(line, printed), None)
        comparison.same(f"bench_test.py at the front of line {number}", wanted_lines.compared(f"{words[0]} ..", printed), None)
        said = wanted_lines.compared(other, printed)
        comparison.same(f"bench_test.py at another result, {number}", said and (said.place, said.differs[:8]), (number, "result: "))
        said = wanted_lines.compared("= nothing", printed)
        comparison.same(f"bench_test.py at another note, {number}", said and said.got, [line, f"= {note}"])
    for wanted, came, differs in expected.OTHER_NOTES:
        printed = wanted_lines.Printed(1, "", "", came, None, came)
        said = [wanted_lines.compared(f"{kind} {wanted}", printed) for kind in (wanted_lines.NOTE, wanted_lines.ASKED)]
        comparison.same(f"bench_test.py at {came} for {wanted}", [one.differs.startswith(differs) for one in said], [True, True])
    with tempfile.TemporaryDirectory() as folder:
        comparison.same("bench_test.py at no test", tool("bench_test.py", known, folder)[0], bench_test.NO_CASE)
    check_threads(comparison)


def check_threads(comparison):
    """Traces by threads: each printed line stands behind its own one, whatever the order of the processors' blocks; and a folder in which
    the output of one lies."""
    trace, output = (shipped.read(shipped.EXAMPLES / f"two_rams.{end}") for end in ("trace", "threads"))
    left = [line for line in output.splitlines() if not line.startswith("cpu ")]
    for cpu in ("0", "1"):
        own = [line for line in left if line.split(" ")[1] == cpu]
        wanted = own[::-1]
        text = "".join(f"{line}\n" + (f"#= {wanted.pop()}\n" if prints(line, cpu) else "") for line in trace.splitlines())
        comparison.same(f"bench_test.py: lines of processor {cpu}", wanted, [])
        comparison.same(f"bench_test.py by threads, {cpu}", told_of("x.threads", text, Printer(output)), [])
        for number, line in enumerate(own):
            other = text.replace(f"#= {line}", f"#= {line[:-1]}x", 1)
            comparison.same(f"bench_test.py by threads, {cpu} {number}", len(told_of("x.threads", other, Printer(output))) > 2, True)
    with tempfile.TemporaryDirectory() as folder:
        texts = {"a.trace": "", "a.threads": "cpu 0\n", "b.threads": "", "c.trace": "", "c.threads": trace, "d.trace": "", "d.threads": "bad trace 1 cut\n"}
        for name, content in texts.items():
            pathlib.Path(folder, name).write_text(content, encoding="latin-1")
        found = [pathlib.Path(path).name for path in bench_test.paths_of([folder])]
        comparison.same("bench_test.py: tests of a folder", found, ["a.trace", "b.threads", "c.threads", "c.trace", "d.trace"])


def prints(line, cpu):
    """Whether a line of a trace prints one of a processor."""
    return line.split(" ")[0] in ("smc", "leave", "show") and line.split(" ")[1] == cpu


class Given(live.Conversation):
    """A conversation whose answers are given."""

    def __init__(self, answers):  # pylint: disable=super-init-not-called
        self.answers, self.said = collections.deque(answers), []

    def ask(self, line):
        self.said.append(line)
        answer = self.answers.popleft() if self.answers else None
        return [answer] if answer else []


def check_client_traces(comparison):
    """The calls of a script as they are said to a core; and a conversation that is kept as a trace."""
    lines = lift.placed(expected.CLIENT_SCRIPT, shipped.SCRIPTS)
    digits = lines[2][1].split(" ")[2]
    turns = [(line.replace("{image}", digits), answer) for line, answer in expected.CLIENT_TURNS]
    talk = Given(answer for _, answer in turns)
    client_trace.play(lines, talk)
    comparison.same("client_trace.py", talk.said, [line for line, _ in turns])
    with tempfile.TemporaryDirectory() as folder:
        path = pathlib.Path(folder, "kept.trace")
        log = live.Log(path)
        for line, wanted in expected.KEPT.items():
            if live.is_of_trace(line):
                log.take(line)
            comparison.same(f"live.py log=FILE behind {line}", shipped.read(path), wanted)


def check_by_talker(comparison, talker):
    """By a program of conversations the calls of the shipped scripts, and of the cases of clients, come to what these print; but for those
    that go to a limit, which make up to 32,768 SMCs."""
    for play in [*client_plays(), *(play for play in shipped.worked_cases("client") if play.status != 7)]:
        said, fault = client_said(play.trace, talker)
        if play.status == 3:
            comparison.same(f"client_trace.py at {play.name}", fault is not None or play.output.endswith(" cut\n"), True)
        else:
            comparison.same(f"client_trace.py at {play.name}", (said, fault), (play.output, None))


def client_said(script, talker):
    """The lines that stand in a script's trace as those that `client` prints, and the fault at which it ends, or None."""
    said, fault = [], None
    try:
        with live.Conversation(talker, heard=lambda line, answer: said.append(line)) as talk:
            client_trace.play([*enumerate(script.splitlines(), 1)], talk)
    except (lift.Fault, live.Refused) as refused:
        fault = refused
    return "".join(f"{line[2:]}\n" for line in said if re.fullmatch("# [a-z]+ [a-z]+ [0-9a-f]{8} [0-9a-f]{8}( .*)?", line)), fault


def client_plays():
    """The shipped scripts of clients, as they are without their wanted lines and with these."""
    yield expected_play(shipped.EXAMPLES / "storage_and_cancel.client")
    for shown in shipped.applications_in_c():
        name = shown.folder.name
        script = lift.lifted(shipped.read(shown.folder / f"{name}.client"), shown.folder)
        wanted = "".join(f"{wanted}\n" for _, wanted in calls_of(script))
        yield shipped.Play(f"{name}.client", script, wanted, 0)


def expected_play(path):
    """A shipped example with its output."""
    return shipped.Play(path.stem, shipped.read(path), shipped.read(path.with_suffix(".out")), 0)


def check_applications_in_c(comparison):
    """The shipped images of applications in C: their texts, whose comments are those of their maps, and their scripts by the machine's
    table, with each result that they want; a panic with its line."""
    for shown in shipped.applications_in_c():
        name, data = shown.folder.name, bytes.fromhex(shown.digits)
        comparison.same(f"image.py of {name}", image.refusal(data) or disassembled(shown.digits), plain_text(shown.text))
        commented = image.canonical(image.decode(data), source=places.Map(shown.map))
        told = [line for line in commented.splitlines() if line[0] == "#"]
        comparison.same(f"image.py map={name}.map", told, [line for line in shown.text.splitlines() if line[0] == "#"][1:])
        script = lift.lifted(shipped.read(shown.folder / f"{name}.client"), shown.folder)
        calls = calls_of(script)
        comparison.same(f"{name}.client wants each result", [text for text, wanted in calls if wanted is None], [])
        comparison.same(f"client.py at {name}.client", client.play(script), "".join(f"{wanted}\n" for _, wanted in calls))
    for name, (code, wanted) in expected.OWN_PANICS.items():
        folder = shipped.IN_C / name
        sources = [(image.decode(bytes.fromhex(shipped.read(folder / f"{name}.hex"))), places.map_beside(folder / f"{name}.hex"))]
        comparison.same(f"places.py: panic {code:08x} of {name}", places.meanings_of(code, sources), wanted)
    for words, wanted in expected.STEPS_IN_C.items():
        name, *entries = words.split(" ")
        printed = tool("step.py", shipped.IN_C / f"{name}/{name}.hex", *entries)[1]
        comparison.same(f"step.py {words}", [line for line in wanted if line in printed.splitlines()], wanted)


def check_scripts(comparison):
    """Each script makes the items of its example."""
    for path in sorted(shipped.SCRIPTS.glob("*.script")):
        status, printed, _ = tool("lift.py", path)
        trace = shipped.read(shipped.EXAMPLES / f"{path.stem}.trace")
        comparison.same(f"lift.py {path.name}", (status, items(printed)), (0, items(trace)))
    for name, digits in (("ENABLE_ASYNC_NOTIF", "b2000010"), ("GET_ASYNC_NOTIF_VALUE", "b2000011")):
        comparison.same(f"lift.py at {name}", lift.lifted(f"smc 0 1 {name}\n", shipped.SCRIPTS), f"smc 0 1 {digits}{7 * ' 0'}\n")
    for line in expected.BAD_SCRIPTS:
        status, _, said = tool("lift.py", "-", text=f"boot 1 1 1\n{line}\n")
        comparison.same(f"lift.py at {line}", (status, said.startswith("lift.py: -:2: ")), (1, True))


def items(trace):
    return [line for line in trace.splitlines() if line and line[0] != "#"]


def check_conversations(comparison):
    """Answers to lines that don't ask are lines as others print them, but for what stands where exits are watched; files of a
    supplicant; a prompt's lines that aren't of their form."""
    for case in conversations.cases():
        turns = [(line, answer) for line, answer in case.turns if not conversations.asks(line)]
        lines = [line for line, answer in turns if answer[-1] == "ok" and live.is_of_trace(line)]
        printed = [told for _, answer in turns for told in answer[:-1] if not conversations.is_watched(told)]
        entries = laid_out("".join(f"{line}\n" for line in lines), "".join(f"{line}\n" for line in printed))
        told = [entry.printed for entry in entries or () if entry.printed]
        comparison.same(f"annotate.py at the conversation {case.name}", told, printed)
    files = supplicant.Files()
    for words, wanted in expected.FILES:
        comparison.same(f"supplicant.py: {words}", file_call(files, *words), wanted)
    for line, (status, printed, said) in expected.PROMPTED.items():
        given = tool("live.py", f"program={FOLDER / 'known_live.py'}", "script", text=f"boot 1 1 1\n{line}\n")
        comparison.same(f"live.py at {line}", given, (status, f"> boot 1 1 1\n< ok\n{printed}", said))


class Zeros:
    """RAM of zeros, with one registered buffer."""

    def read(self, cpu, address, length):
        return bytes(length)

    def write(self, cpu, address, data):
        pass

    def place_of(self, cookie, offset):
        return 0x40300000 + offset if cookie == 31 else None


def check_areas(comparison):
    """Where a supplicant takes the requests of a call from: the area behind its argument, where it has one, and none of a call that has
    ended before."""
    asks = next(code for code, name in formats.RPCS.items() if name == "CMD")
    served, ended = supplicant.Supplicant(Zeros()), [0] * 8
    for cpu, call, answers, place in (
        (0, [formats.CALL_WITH_RPC_ARG, 0, 0x40000000], [[asks, 0, 0, 0, 0, 0, 0, 0]], 0x40000020),
        (0, [formats.CALL_WITH_RPC_ARG, 0, 0x40001000], [ended, [asks, 0, 0, 0, 0, 0, 0, 0]], 0x40000020),
        (1, [formats.CALL_WITH_REGD_ARG, 0, 31, 8], [[asks, 0, 0, 1, 0, 0, 0, 0]], 0x40300028),
        (1, [formats.CALL_WITH_ARG, 0, 0x40002000], [[asks, 0, 0, 1, 0, 0, 0, 0]], 0x40011000),
    ):
        served.begins(cpu, call)
        for answer in answers:
            served.serves(cpu, answer)
        comparison.same(f"supplicant.py: the requests of {call}", served.lent[answers[-1][3]].place, place)


def file_call(files, name, *operands):
    """What a call on files gives, or the result with which it is refused."""
    try:
        return getattr(files, name)(*operands)
    except supplicant.Refused as refused:
        return str(refused)


def check_by_program(comparison, file):
    """The scripts of the applications in C by the program; and each verdict of `compare`, explained."""
    for play, subject in compare_plays():
        said, lines = explain.verdict(subject, play.trace.encode("latin-1"), program.Program(file))
        is_told = bool(lines) and lines[-1].startswith(("differs: ", "journal ")) and "became of it" not in lines[-1]
        comparison.same(f"explain.py compare: {play.name}", (f"{said}\n", is_told), (play.output, not said.startswith("same")))
    for shown in shipped.applications_in_c():
        path = shown.folder / f"{shown.folder.name}.client"
        case = bench_test.tested(str(path), bench_test.Programs(file, None))
        comparison.same(f"bench_test.py {path.name}", bench_test.lines_on(case)[1:], [])


def check_pages(comparison, file=None, talker=None):
    """The commands of the tutorials, and those of other pages that show some."""
    runner = pathlib.Path(file).resolve() if file else FOLDER / "known.py"
    talker = pathlib.Path(talker).resolve() if talker else FOLDER / "known_live.py"
    for path in sorted((shipped.ROOT / "docs").glob("*.md")):
        for shown, given in pages.run_page(path, runner, talker):
            what = f"{path.name} line {shown.line}: {shown.command}"
            comparison.same(what, given if not pages.is_shown(given, shown.printed) else shown.printed, shown.printed)
    shown = [["a"], ["..", "b"], ["a", ".."], ["a", "..", "b"], [".."]]
    comparison.same("lines that are left out", [pages.is_shown(["a", "b"], lines) for lines in shown], [False] + [True] * 4)


def check_links(comparison):
    """Links between pages lead to files and headings that there are; the cases and examples that formats.md names are shipped."""
    texts = {path: shipped.read(path) for path in documented.PAGES}
    headings = {path: documented.anchors(text) for path, text in texts.items()}
    for path, text in texts.items():
        for target, anchor in documented.links(text):
            to = (path.parent / target).resolve() if target else path
            comparison.same(f"{path.name}: the link to {target}", to.exists(), True)
            if anchor:
                comparison.same(f"{path.name}: the link to {target}#{anchor}", anchor in headings.get(to, []), True)
    names = set(shipped.case_names()) | set(shipped.core_names())
    files = {path.stem for path in shipped.EXAMPLES.iterdir()}
    for kind, name in documented.shown_by(texts[shipped.ROOT / "docs/formats.md"]):
        comparison.same(f"formats.md names the {kind} {name}", name in (names if kind == "case" else files), True)


def check_crates(comparison):
    """The floors of crates.txt, each crate behind those that it stands on, are those of the pages; each edit is named."""
    floors = [(floor.name, list(floor.crates)) for floor in crates.floors()]
    seen = set()
    for floor in crates.floors():
        for crate, below in floor.crates.items():
            comparison.same(f"crates.txt: {crate} stands on crates behind it", [name for name in below if name not in seen], [])
            seen.add(crate)
    names = ("architecture.md", "proofs.md", "wrong-bodies.md")
    architecture, proofs, wrong = (shipped.read(shipped.ROOT / "docs" / name) for name in names)
    comparison.same("architecture.md: the drawing", architecture.split("```\n")[1], crates.drawing())
    comparison.same("architecture.md: the crates", documented.crates_by_floor(architecture, "The crates"), floors)
    comparison.same("proofs.md: crate by crate", documented.crates_by_floor(proofs, "Crate by crate"), floors)
    listed = shipped.read(shipped.ROOT / "docs/definitions-by-crate.md")
    comparison.same("definitions-by-crate.md: the files of definitions", listed, crates.definitions())
    named = set(re.findall("`([a-z0-9_]+)`", wrong))
    edits = [path.stem for path in sorted(shipped.CRATES.glob("*/must-fail/*.edit"))]
    comparison.same("wrong-bodies.md: edits that it doesn't name", [edit for edit in edits if edit not in named], [])


def check_words(comparison):
    """Other words end with the usage line and 2."""
    for name, rows in expected.BAD_WORDS.items():
        for number, words in enumerate(rows):
            status, printed, said = (tool if number else tool_alone)(name, *words.split())
            usage = said.splitlines()[-1:] and said.splitlines()[-1].startswith(f"usage: {name}")
            comparison.same(f"{name} {words}", (status, printed, usage), (2, "", True))


def check_tables(comparison):
    """The tables of formats.py are those of docs/formats.md."""
    for name, table in documented.tables(shipped.read(shipped.ROOT / "docs/formats.md")).items():
        given = getattr(formats, name)
        if name == "FAULTS":
            given = [kind for kind in given if kind not in ("asm", "name")]
        comparison.same(f"formats.py {name}", given, table)


CHECKS = [
    check_tables,
    check_arguments,
    check_images,
    check_assembler,
    check_faults,
    check_outputs,
    check_other_words,
    check_pictures,
    check_examples,
    check_machine,
    check_clients,
    check_runner,
    check_client_traces,
    check_applications_in_c,
    check_scripts,
    check_conversations,
    check_areas,
    check_links,
    check_crates,
    check_words,
]


def main(words):
    words = list(words)
    file, talker = program.taken_from(words), program.taken_from(words, "live")
    if words:
        raise BadWords()
    for name, named in (("optee_run", file), ("optee_live", talker)):
        if named:
            program.found(name, named)
    comparison = Comparison()
    for check in CHECKS:
        check(comparison)
    check_pages(comparison, file, talker)
    if file:
        check_by_program(comparison, file)
    if talker:
        check_by_talker(comparison, talker)
    else:
        print("no live=FILE: conversations are answered by the shipped cases alone")
    print(f"{comparison.compared} compared, {comparison.differing} differ")
    return 1 if comparison.differing else 0


if __name__ == "__main__":
    run(main, __doc__)

"""Runs tests of a bench: traces, traces with signals, scripts of clients, conversations and journals, whose comments hold wanted lines.

What a file is, the end of its name says. Of a folder, and of the folders in it but for those whose names begin with a dot, the files of these
names are run, in the order of their names:
    .trace .script   a trace, or a script from which lift.py makes one; by the word `run`
    .threads         the same by `threads`, whose lines may come in another order each time: `..` leaves out their places. In a folder
                     NAME.threads beside NAME.trace is no test where it begins as what `threads` prints, with `cpu` or `bad trace`
    .signals         a trace with signals, or such a script; by `notify`
    .client          a script of a client; by `client`. Of a call that has ended in a panic stand the code and the place, as the machine's
                     tables have them, and by the map beside the image's file the function, file and line of the source
    .lines           a conversation, as live.py takes it with `script`, and where a line `#! serve` stands, with `serve`
    .journal         the bytes of a journal; `audit` has to find it legal
A file in which no line is one of a script alone (a name, `$NAME`, a function or an operand by its name) is run as it is, byte by byte, whatever
its name, but for .script. Another comment that begins with `#!`, `#:`, `# =` or `# :` is refused: it looks like one of a test; and so is a
wanted line of `..` alone, which any line would fit.
A comment `#= LINE` behind an item says what the item has to print, `#= = NOTE` what annotate.py has to say of that, and `#= : NOTE` what it
has to say of a call as it enters; each may stand once behind an item. `..` at the end leaves out what follows. a0 of a line `ret`, and result
and origin of a client's line, may be names of docs/formats.md. Of a call that is served it is the last answer; a conversation's line that is
answered otherwise than by `ok` has to be wanted so, as `#= bad KIND`:
    smc 0 1000 CALL_WITH_ARG argument=40000000
    #= ret 0 OK ..
    #= : CALL_WITH_ARG of client 0, thread 0: ..
    show 0 40000014 8
    #= = ret SUCCESS; origin TRUSTED_APP
Each file has a line, and below it stand its failures: file and number of the line, what was wanted and what came, both as annotate.py
explains them, and what differs by its name. At the end is a total. --junit and --json write the same for other programs, also where the core's
program ends amid a file: the others are run all the same. A file without a wanted line is a case that JUnit has as skipped. JSON has the list
`cases`, each with its `path`, how many lines were `compared`, its `seconds`, and the list `failures`: `place` is the number of the line, or 0,
`text` the line, `wanted` and `got` are lists of lines, `differs` is a text; and the totals `failed`, `compared` and `unwanted`, the cases without
a wanted line. The programs are FILE, those that TULGEXAR_RUN and, for conversations, TULGEXAR_LIVE name, or what `rt run` has built in
crates/optee_run and crates/optee_live. -j N runs so many files at once.

Status: 0 where all is as wanted, 1 where something isn't, 2 at other words, 5 where no line was compared.
usage: bench_test.py [program=FILE] [live=FILE] [-j N] [--junit FILE] [--json FILE] FILE|FOLDER..
"""

import collections
import concurrent.futures
import copy
import json
import os
import pathlib
import re
import sys
import time
import xml.etree.ElementTree

from tulgexar import client, explain, journal, lift, live, places, plays, program, wanted_lines
from tulgexar.wanted_lines import Failure, Printed
from tulgexar.words import BadWords, behind, lines_of, number, paths_in, plain, print_no_more, refuse_absent, refuse_options, run, text_of, write_text

WORDS = {".trace": "run", ".script": "run", ".threads": "threads", ".signals": "notify", ".client": "client", ".lines": None, ".journal": "audit"}
NO_CASE = 5
OPTIONS = {"-j": "a number of files to run at once", "--junit": "a file to write", "--json": "a file to write"}

# A file that was run: how many lines were compared, its failures, and how long it took.
Case = collections.namedtuple("Case", "path compared failures seconds")

# Programs that run traces and hold conversations.
Programs = collections.namedtuple("Programs", "runner talker")

# What is run of a file: its text, and of each of its lines the number of the file's line that makes it.
Trace = collections.namedtuple("Trace", "text lines")


def play(path, word, runner):
    """Runs a trace or a script: how many lines were compared, and the failures."""
    text = text_of(path)
    lines = lines_in(text)
    failures = wanted_lines.misspelt(lines, is_conversation=False)
    if failures:
        return 0, failures
    trace = trace_of(text, pathlib.Path(path))
    item = plays.item_of_trace(trace.lines) if word == "client" else None
    if item:
        place, line, what = item
        return 0, [Failure(place, line, got=[what])]
    done = runner.run([word], trace.text)
    refused = refusal_of(done, trace)
    if refused:
        return 0, [refused]
    if done.status:
        return 0, [Failure(0, "", got=[program.wrong_end(runner.file, "optee_run", done.status)])]
    try:
        printed = printed_by(trace, lines, done.output)
    except plays.Mismatch as mismatch:
        return 0, [Failure(0, "", got=[f"{runner.file} isn't the program of crates/optee_run: {mismatch}"])]
    found = wanted_lines.wanted_in(lines)
    failures = wanted_lines.differing_lines(printed, found)
    return len(found), with_panics(failures, path, text, trace, done) if word == "client" else failures


def lines_in(text):
    """The lines of a file, for who reads them."""
    return [line.removesuffix("\r") for line in lines_of(text)]


def line_at(lines, place):
    """A line by its number, or nothing."""
    return lines[place - 1] if 0 < place <= len(lines) else ""


def trace_of(text, path):
    """What is run of a file: itself, or what lift.py makes of it where it is a script."""
    if path.suffix != ".script" and not lift.is_script(text):
        return Trace(text, list(enumerate(lines_of(text), 1)))
    lines = lift.placed(text, path.parent)
    return Trace("".join(f"{line}\n" for _, line in lines), lines)


def refusal_of(done, trace):
    """The failure of a trace that the program refuses, at the line of the reader's own file; or None."""
    bad = re.fullmatch(r"bad trace (\d+) (\w+)\n", done.output) if done.status == 3 else None
    if bad is None:
        return None
    number, kind = int(bad[1]), bad[2]
    place, line = trace.lines[number - 1] if 0 < number <= len(trace.lines) else (0, "")
    hint = hint_at(kind, line)
    return Failure(place, f"{line:.80}", got=[f"bad trace, {kind}: {plays.fault_of(kind, line)}{hint}"])


def hint_at(kind, line):
    """The name of a file in which a refused line could stand, or an empty text."""
    if kind == "count" and line.startswith(("smc ", "enter ")) and not line.endswith(" "):
        return "; registers may be left out in a file NAME.script"
    return "; signals may come in a file NAME.signals" if kind == "item" and line.startswith("signal ") else ""


def printed_by(trace, lines, output):
    """What has come of each line of a file, by its number."""
    found, at = {}, 0
    for entry in plays.lay_out(trace.text, output):
        if entry.number and (entry.printed or entry.asked):
            place = trace.lines[entry.number - 1][0]
            explained = Explained(trace.text, output, entry.number, at)
            found[place] = Printed(place, line_at(lines, place), entry.printed, entry.note, explained, entry.asked)
        at += bool(entry.printed) or entry.text.startswith("cpu ")
    return found


class Explained:
    """What another line would say in the place of the one that a line of a trace has printed, which is the output's line `at`, from 0."""

    def __init__(self, trace, output, number, at):
        self.trace, self.output, self.number, self.at = trace, output, number, at

    def __call__(self, line):
        printed = self.output.splitlines()
        printed[self.at] = line
        try:
            entries = plays.lay_out(self.trace, "".join(f"{part}\n" for part in printed))
        except plays.Mismatch:
            return None
        return next((entry.note for entry in entries if entry.number == self.number), None)  # none behind a line full


def with_panics(failures, path, text, trace, done):
    """The failures of a client's script, with the panics in which calls have ended."""
    if not failures:
        return failures
    maps = places.maps_of(text, pathlib.Path(path).parent)
    panics = client.panics_of(trace.text, done.output.splitlines(), maps)
    calls = [place for place, line in trace.lines if line.split(" ")[0] in plays.CLIENT_CALLS]
    by_place = {calls[number]: panic for number, panic in panics.items()}
    return [failure._replace(got=[*failure.got, by_place[failure.place]]) if failure.place in by_place else failure for failure in failures]


# A line that was sent in a conversation, its answer, what that says, what is said of its call, and what was known before it.
Turn = collections.namedtuple("Turn", "line answer note asked before")


class Talk(live.Prompt):
    """A conversation whose lines come from a file; `said` has what was sent for its last line."""

    def __init__(self, file, options):
        self.said = []
        super().__init__(file, options)

    def heard(self, line, answer):
        before = copy.deepcopy(self.play)
        note = self.note(line, answer)
        self.said.append(Turn(line, answer, note, self.asked, before))


def converse(path, talker):
    """Holds a conversation: how many lines were compared, and the failures."""
    text = text_of(path)
    lines = lines_in(text)
    failures = wanted_lines.misspelt(lines, is_conversation=True)
    if failures:
        return 0, failures
    talk = Talk(talker, [*(["script"] if lift.is_script(text) else []), *(["serve"] if wanted_lines.SERVE in lines else [])])
    talk.script.folder = pathlib.Path(path).parent
    found = wanted_lines.wanted_in(lines)
    try:
        printed, failures, end = held(talk, text, found)
    finally:
        status = talk.talk.close()
    if status and end > len(lines):  # it has answered all, and ends wrongly
        failures.append(Failure(0, "", got=[str(live.Over(status, talk.talk.file, talk.talk.is_known))]))
    refused = {failure.place for failure in failures} - {*printed}  # what is wanted of these is no failure of its own
    found = [one for one in found if one.place < end and one.of not in refused]
    failures += wanted_lines.differing_lines(printed, found)
    return len(found), sorted(failures, key=lambda failure: failure.place)


def held(talk, text, found):
    """Takes the lines of a conversation: what has come of each by its number, the failures beside the wanted lines, and the number of the line
    at which the program has ended, or the one behind all."""
    printed, failures, place = {}, [], 0
    for place, line in enumerate(lines_of(text), 1):
        if not line or line.startswith("#"):
            continue
        talk.said.clear()
        try:
            talk.take(place, line.removesuffix("\r") if "script" in talk.options else line)
        except BadWords as error:
            failures.append(Failure(place, line, got=[str(error)]))
            continue
        except (live.Over, live.NoConversation, live.Refused) as error:
            return printed, [*failures, Failure(place, line, got=[str(error)])], place
        if talk.said:
            printed[place] = of_talk(talk.said, place, line)
            last = talk.said[-1]
            if last.answer.ending != "ok" and not any(one.of == place and one.kind != wanted_lines.ASKED for one in found):
                failures.append(Failure(place, line, ["ok"], [last.answer.ending, *wanted_lines.told(last.note)]))
    return printed, failures, place + 1


def of_talk(said, place, text):
    """What has come of a line: the last answer of the call that it has made, or how it was refused."""
    last = next((turn for turn in reversed(said) if is_of(turn, said[0])), said[-1])
    answer = last.answer
    line = answer.lines[0] if answer.lines and answer.ending == "ok" else answer.ending

    def explained(other):
        try:
            return copy.deepcopy(last.before).entry(place, last.line, collections.deque([other])).note
        except plays.Mismatch:
            return None

    return Printed(place, text, line, last.note, explained, said[0].asked)


def is_of(turn, first):
    """Whether a line is a call's, on the processor of the first one, or no call's."""
    words, own = turn.line.split(" "), first.line.split(" ")
    return own[0] not in ("smc", "leave") or words[0] in ("smc", "leave") and words[1:2] == own[1:2]


def audited(path, runner):
    """Audits a journal."""
    data = text_of(path).encode("latin-1")
    said = journal.verdict_of(runner, ["audit"], data)
    return 1, [] if said.startswith("legal ") else [Failure(0, "", ["legal"], [f"{said}: {reason_of(said, data)}"])]


def reason_of(said, data):
    """Why a journal isn't legal, in short."""
    if said.startswith("illegal "):
        return "explain.py says why"
    try:
        explain.parted(data)
    except plays.Mismatch as mismatch:
        return str(mismatch)
    return plays.fault_of(said.split(" ")[-1])


def tested(path, programs, suffix=None):
    """Runs a file, which is what the end of its name says, or the suffix."""
    begun, suffix = time.monotonic(), suffix or pathlib.Path(path).suffix
    try:
        if suffix == ".lines":
            count, failures = converse(path, programs.talker)
        elif suffix == ".journal":
            count, failures = audited(path, program.Program(programs.runner))
        else:
            count, failures = play(path, WORDS[suffix], program.Program(programs.runner))
    except lift.Fault as fault:
        count, failures = 0, [Failure(fault.place, f"{fault.line:.80}", got=[fault.cause])]
    except (BadWords, plays.Mismatch, live.Over, live.NoConversation) as fault:
        count, failures = 0, [Failure(0, "", got=[str(fault)])]
    return Case(path, count, failures, time.monotonic() - begun)


def lines_on(case):
    """The lines that are printed of a file."""
    lines = [f"{case.path}: {'failed' if case.failures else 'ok'}, {case.compared} compared"]
    for failure in case.failures:
        lines.append(f"{case.path}:{failure.place}: {failure.text}" if failure.place else f"{case.path}:")
        for word, parts in (("wanted", failure.wanted), ("got", failure.got)):
            lines += [f"    {word if not at else '':<7}{part}" for at, part in enumerate(parts)]
        lines += [f"    differs: {failure.differs}"] if failure.differs else []
    return [plain(line) for line in lines]


def has_compared_nothing(case):
    """Whether a file was run in which no line is wanted."""
    return not case.compared and not case.failures


def as_json(cases):
    """The cases as JSON."""
    keys = ("place", "text", "wanted", "got", "differs")
    told_cases = [
        {"path": case.path, "compared": case.compared, "seconds": round(case.seconds, 3), "failures": [dict(zip(keys, failure)) for failure in case.failures]}
        for case in cases
    ]
    totals = {"failed": sum(bool(case.failures) for case in cases), "compared": sum(case.compared for case in cases)}
    return json.dumps({"cases": told_cases, **totals, "unwanted": sum(map(has_compared_nothing, cases))}, indent=2) + "\n"


def as_junit(cases):
    """The cases as JUnit's XML."""
    count, skipped = str(sum(bool(case.failures) for case in cases)), str(sum(has_compared_nothing(case) for case in cases))
    suite = xml.etree.ElementTree.Element("testsuite", name="bench", tests=str(len(cases)), failures=count, errors="0", skipped=skipped)
    for case in cases:
        path = pathlib.Path(case.path)
        element = xml.etree.ElementTree.SubElement(suite, "testcase", classname=str(path.parent), name=path.name, time=f"{case.seconds:.3f}")
        if has_compared_nothing(case):
            xml.etree.ElementTree.SubElement(element, "skipped", message="no line was compared")
        elif case.failures:
            lines = lines_on(case)
            xml.etree.ElementTree.SubElement(element, "failure", message=lines[1]).text = "\n".join(lines[1:])
    return xml.etree.ElementTree.tostring(suite, encoding="unicode", xml_declaration=True) + "\n"


def paths_of(names):
    """The files that the words name, those of a folder and of the folders in it in the order of their names."""
    for name in names:
        path = pathlib.Path(name)
        if os.path.isdir(name):
            files = [str(file) for file in files_in(path) if file.suffix in WORDS and not is_output(file)]
            if not files:
                print(f"{name} has no test: no name there ends with one of {' '.join(WORDS)}", file=sys.stderr)
            yield from files
        elif path.suffix not in WORDS and os.path.exists(name):
            raise BadWords(f"{name} is no test: its name ends with none of {' '.join(WORDS)}")
        else:
            refuse_absent(name)
            yield name


def files_in(folder, seen=()):
    """The files of a folder and of the folders in it, but for those whose names begin with a dot, and those around it."""
    seen = (*seen, folder.resolve())
    for path in paths_in(folder):
        if not os.path.isdir(path):
            yield path
        elif not path.name.startswith(".") and path.resolve() not in seen:
            yield from files_in(path, seen)


def is_output(path):
    """Whether a file is what `threads` has printed of the trace beside it: a test begins otherwise."""
    return path.suffix == ".threads" and os.path.isfile(path.with_suffix(".trace")) and text_of(path).startswith(("cpu ", "bad trace "))


def cases_of(paths, programs, jobs):
    """Runs the files, so many at once; the cases in their order."""
    if jobs == 1:
        yield from (tested(path, programs) for path in paths)
        return
    with concurrent.futures.ProcessPoolExecutor(jobs) as pool:
        yield from pool.map(tested, paths, [programs] * len(paths))


def main(words):
    words = list(words)
    programs = Programs(program.taken_from(words), program.taken_from(words, "live"))
    options = {option: behind(words, option, what) for option, what in OPTIONS.items()}
    jobs = number(options["-j"] or "1")
    if not jobs:
        raise BadWords("-j 0: at least one file is run at once")
    refuse_options(words, "-j N, --junit FILE, --json FILE, program=FILE, live=FILE")
    if not words:
        eaten = [f"; {word} stands behind {option}, which takes {OPTIONS[option]}" for option, word in options.items() if word]
        raise BadWords(f"no FILE or FOLDER is left to run{''.join(eaten[-1:])}")
    paths = list(paths_of(words))
    needed = {"optee_live" if pathlib.Path(path).suffix == ".lines" else "optee_run" for path in paths}
    for name, file in zip(("optee_run", "optee_live"), programs):
        if name in needed:
            program.found(name, file)
    written = [(options[option], made) for option, made in (("--junit", as_junit), ("--json", as_json)) if options[option]]
    for path, _ in written:
        write_text(path, "")  # so that one that can't be written is told before all is run
    cases = []
    try:
        cases.extend(told_cases(cases_of(paths, programs, jobs)))
    finally:
        for path, made in written:
            write_text(path, made(cases))
    return status_of(cases)


def told_cases(cases):
    """The cases, each told as soon as it was run; where nobody reads that, the others are run all the same."""
    for case in cases:
        try:
            print("\n".join(lines_on(case)), flush=True)
        except BrokenPipeError:
            print_no_more()
        yield case


def status_of(cases):
    """Tells the total. The status."""
    count, failed = sum(case.compared for case in cases), sum(bool(case.failures) for case in cases)
    unwanted = sum(map(has_compared_nothing, cases))
    print(f"{len(cases)} cases, {failed} failed, {count} lines compared{f'; {unwanted} without a wanted line' if unwanted else ''}")
    if not count and not failed:
        if cases:
            print("no line was compared: a comment `#= LINE` behind an item says what it has to print", file=sys.stderr)
        return NO_CASE
    return 1 if failed else 0


if __name__ == "__main__":
    run(main, __doc__)

"""Commands that pages of docs/ show, with what they print, run as a shell runs them. It isn't run by itself.

In an indented block of a page a line that begins with `$ ` is a command, and below it stands what it prints on standard output,
all of it, but that a line `..` stands for some lines that are left out. A command with `<<END` or `<<'END'` goes on to a line `END`. The
commands of a page run one after the other at the top of the repository, where T is a folder of their own, RUN the program and LIVE that of
a conversation.
"""

import collections
import itertools
import os
import pathlib
import re
import subprocess
import tempfile

import shipped

INDENT, PROMPT, LEFT_OUT = "    ", "$ ", ".."
TEXTS = ("<<END", "<<'END'")

# A command of a page, at a line, and the lines that it prints.
Shown = collections.namedtuple("Shown", "line command printed")


def shown_in(text):
    """The commands of a page. An empty line between two indented ones is of their block."""
    lines = list(enumerate(text.splitlines(), 1))
    written = [line.startswith(INDENT) for _, line in lines if line]
    before = list(itertools.accumulate(bool(line) for _, line in lines))
    is_of_block = [all(written[max(0, count - 1) : count + (not line)]) for count, (_, line) in zip(before, lines)]
    for is_block, group in itertools.groupby(zip(is_of_block, lines), lambda part: part[0]):
        if is_block:
            yield from shown_in_block(collections.deque((number, line[len(INDENT) :]) for _, (number, line) in group))


def shown_in_block(lines):
    while lines:
        number, line = lines.popleft()
        if not line.startswith(PROMPT):
            continue
        command = [line[len(PROMPT) :]]
        has_text = any(mark in command[0] for mark in TEXTS)
        while has_text and command[-1] != "END":
            command.append(lines.popleft()[1])
        printed = []
        while lines and not lines[0][1].startswith(PROMPT):
            printed.append(lines.popleft()[1])
        while printed and not printed[-1]:
            printed.pop()
        yield Shown(number, "\n".join(command), printed)


def run_page(path, program, live):
    """The commands of a page, each with the lines that it has printed."""
    found = list(shown_in(shipped.read(path)))
    with tempfile.TemporaryDirectory() as folder:
        own = pathlib.Path(folder, "own")
        own.mkdir()
        script = ["earlier() { return $1; }", "status=0"]
        for number, shown in enumerate(found):
            output = pathlib.Path(folder, str(number))
            script += ["earlier $status", "{", shown.command, f"}} > {output}", "status=$?"]
        settings = os.environ | {"T": str(own), "RUN": str(program), "LIVE": str(live)}
        text = "\n".join(script)
        subprocess.run(["bash"], input=text, cwd=shipped.ROOT, env=settings, capture_output=True, text=True, check=False)
        outputs = [pathlib.Path(folder, str(number)) for number in range(len(found))]
        texts = [output.read_bytes().decode("latin-1") if output.exists() else "" for output in outputs]
    return [(shown, text.splitlines()) for shown, text in zip(found, texts)]


def is_shown(given, shown):
    """Whether lines are those that a page shows, of which a line `..` leaves out some."""
    parts = ["".join(re.escape(line) + "\n" for line in part) for part in split_at(shown, LEFT_OUT)]
    return re.fullmatch("(?:.*\n)*?".join(parts), "".join(f"{line}\n" for line in given)) is not None


def split_at(lines, mark):
    """The lines in parts, which the mark parts."""
    parts = [[]]
    for line in lines:
        if line == mark:
            parts.append([])
        else:
            parts[-1].append(line)
    return parts

"""Puts each printed line of a play under the line of the trace that printed it, and says what it is.

TRACE is a trace as text, OUTPUT what `run` has printed for it; `-` is standard input. Answers are named by the call, and
bytes that are shown by the field of the argument or message in which they lie, with results and origins by name. A line `: TEXT` says
of each call its function, client and thread, and what it asks for, of which session; and behind ERESUME stands why it came.
`bad trace` stands under the line that has the fault, with what it usually is. Likewise TRACE is one with signals, and OUTPUT
what `notify` has printed; or a client's script, and what `client` has printed. Of what `threads` has printed each processor's
lines stand below its block's first. FOLDER has several traces, and OUTPUT is then what `rt try --cases FOLDER -- run` has
printed. JOURNAL is the bytes of one journal or of several, whose records are told one by one.
The bytes of long lines `ta` and `mem` are shortened.

What is cut off, or isn't of its trace from some line on, is told up to there.
Status: 0 where nothing is left over, 1 where the output isn't that of the trace, or is cut off, or the bytes are no journal;
2 at other words.
usage: annotate.py TRACE OUTPUT | FOLDER OUTPUT | JOURNAL
"""

import os
import re
import sys

from tulgexar import journal, plays
from tulgexar.words import BadWords, plain, run, text_of

INDENT = "    "
LONG = re.compile("((?:ta|mem) [^ ]+) ([0-9a-fA-F]{64,})")


def shortened(line):
    """A line, of a `ta` or a `mem` with many bytes the first ones and how many there are."""
    long = LONG.fullmatch(line)
    return f"{long[1]} {long[2][:16]}.. ({len(long[2]) // 2} bytes)" if long else line


def annotated(entries):
    """The text of a trace and its output."""
    lines = []
    for entry in entries:
        lines.append(shortened(entry.text))
        if entry.asked:
            lines.append(f"{INDENT}  : {entry.asked}")
        if entry.printed:
            lines.append(f"{INDENT}{entry.printed}")
        if entry.note:
            lines.append(f"{INDENT}  = {entry.note}")
    return "".join(f"{line}\n" for line in lines)


def main(words):
    if len(words) not in (1, 2):
        raise BadWords()
    if len(words) == 1 and os.path.isdir(words[0]):
        raise BadWords(f"{words[0]} is a folder: behind it OUTPUT is wanted, which `rt try --cases {words[0]} -- run` has printed")
    try:
        entries = plays.of_files(*words) if len(words) == 2 else journal.told(text_of(words[0]).encode("latin-1"))
        print(plain(annotated(entries)), end="")
    except journal.NoJournal as mismatch:
        print(f"annotate.py: {words[0]}: {mismatch}; behind a trace OUTPUT is wanted", file=sys.stderr)
        return 1
    except plays.Mismatch as mismatch:
        print(plain(annotated(mismatch.entries)), end="")
        where = f"{words[0]}: " if len(words) == 1 else ""  # of a journal's record; a trace's line has its file
        print(f"annotate.py: {plain(f'{where}{mismatch}')}", file=sys.stderr)
        return 1
    return 0


if __name__ == "__main__":
    run(main, __doc__)

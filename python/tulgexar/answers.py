"""Counts the answers of a play by name, and the results that it shows.

TRACE is a trace as text, OUTPUT what `run` has printed for it; `-` is standard input. An answer is named by its code, by
what it asks for, or, where a0 is part of the UUID or revision that was asked for, by the function. A result is counted at
each `show` of the field ret of an argument, with its origin where that is shown too. FOLDER has several traces, and OUTPUT
is then what `rt try --cases FOLDER -- run` has printed.

Status: 0, or 1 where the output isn't that of the trace, or is cut off; 2 at other words.
usage: answers.py TRACE OUTPUT | FOLDER OUTPUT
"""

import collections
import sys

from tulgexar import plays
from tulgexar.words import BadWords, plain, run


def counted(entries):
    """The lines of the counts, the most frequent first."""
    answers = collections.Counter(entry.answer for entry in entries if entry.answer)
    results = collections.Counter(entry.result for entry in entries if entry.result)
    lines = [f"answers {sum(answers.values())}"] + [f"  {count} {name}" for name, count in answers.most_common()]
    lines += [f"results {sum(results.values())}"]
    for (result, origin), count in results.most_common():
        lines.append(f"  {count} {result}" + (f" of {origin}" if origin else ""))
    return "".join(f"{line}\n" for line in lines)


def main(words):
    if len(words) != 2:
        raise BadWords()
    try:
        print(counted(plays.of_files(*words)), end="")
    except plays.Mismatch as mismatch:
        print(f"answers.py: {plain(str(mismatch))}", file=sys.stderr)
        return 1
    return 0


if __name__ == "__main__":
    run(main, __doc__)

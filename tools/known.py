#!/usr/bin/env python3
"""Answers as the program does, where the repository ships a case with the same words and the same input.

It prints the case's output and ends with its status, so that what a page shows can be compared without the program, and each
run that a page shows is one that the gate makes too.
Status: that of the case; 1 where no case has these words and this input.
usage: known.py WORD.. < INPUT
"""

import sys

import packaged  # noqa: F401  (where tulgexar is)
import shipped
from tulgexar.words import BadWords, run


def answered(words, text):
    """The case of the words and the input, or None."""
    wanted = " ".join(words)
    return next((play for play in shipped.worked_cases(wanted) if play.trace == text), None)


def main(words):
    if not words:
        raise BadWords()
    play = answered(words, sys.stdin.buffer.read().decode("latin-1"))
    if play is None:
        print(f"known.py: no case has the words {' '.join(words)} and this input", file=sys.stderr)
        return 1
    print(play.output, end="")
    return play.status


if __name__ == "__main__":
    run(main, __doc__)

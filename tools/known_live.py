#!/usr/bin/env python3
"""Answers each line as the program of a conversation does, where the lines so far begin a conversation that `live_cases` holds.

So what docs/conversation.md shows can be compared without the program, and each conversation that it shows is one of the gate.
Status: 0 where the input is over; 1 where no case has these lines.
usage: known_live.py < LINES
"""

import sys

import conversations
import packaged  # noqa: F401  (where tulgexar is)
from tulgexar.words import BadWords, run


def main(words):
    if words:
        raise BadWords()
    known = [case.turns for case in conversations.cases()]
    for number, line in enumerate(sys.stdin.buffer):
        said = line.decode("latin-1").removesuffix("\n")
        known = [turns for turns in known if number < len(turns) and turns[number][0] == said]
        if not known:
            print(f"known_live.py: no case has the line {said:.80}", file=sys.stderr)
            return 1
        print("".join(f"{part}\n" for part in known[0][number][1]), end="", flush=True)
    return 0


if __name__ == "__main__":
    run(main, __doc__)

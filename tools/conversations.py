"""The conversations that `live_cases` holds, read from its cases. It isn't run by itself."""

import collections
import re

import shipped

# What a side does next: `line` (which it says), `while` (a line that it says as long as the last answer has a word), or `cut` (its
# input ends within this line).
Move = collections.namedtuple("Move", "kind line word", defaults=[None])

# A conversation: each line that is heard, or an input that ends within one, with the lines of its answer; and how it ends.
Case = collections.namedtuple("Case", "name turns cut finish")

ENDINGS = ("ok", "bad", "full")

# The first words of lines that ask, which are none of a trace.
QUESTIONS = ("watch", "state", "session", "buffer", "events")

# The first words of lines that stand behind a `ret` where exits are watched.
WATCHED = ("panic", "wrote")


def asks(line):
    """Whether a line asks."""
    return line.split(" ")[0] in QUESTIONS


def is_watched(told):
    """Whether a line of an answer is one that stands where exits are watched alone."""
    return told.split(" ")[0] in WATCHED


class Reader:
    """The case that is being read."""

    def __init__(self, name):
        self.name, self.moves, self.wanted, self.is_plain = name, [], [], True
        self.behind = 0  # the lines that are wanted behind the last move

    def push(self, move):
        self.moves.append(move)
        self.behind = 0

    def take(self, line):
        """Takes a line of the case."""
        word, _, rest = line.partition(" ")
        if word == "<":
            self.wanted.append(rest)
            self.behind += 1
        elif word == "again":
            part = self.wanted[len(self.wanted) - self.behind :]
            self.moves += self.moves[-1:] * int(rest)
            self.wanted += part * int(rest)
        elif word == "times":
            self.wanted += self.wanted[len(self.wanted) - self.behind :] * (int(rest) - 1)
            self.behind *= int(rest)
        elif word in ("words", "no_text", "put_fails", "fails", "wander"):
            self.is_plain = False
        elif word in MOVES:
            self.push(MOVES[word](rest))

    def told(self, finish):
        """The conversation: each move says its line by the answer before, which is wanted."""
        answers = self.answers()
        turns, cut, last = [], None, []
        for move in self.moves:
            while move.kind != "while" or last and move.word in last[0].split(" "):
                last_words = last[0].split(" ") if last else []
                line = re.sub(r"\{(\d)\}", lambda match: last_words[int(match[1])], move.line)
                last = next(answers)
                if move.kind == "cut":
                    cut = line, last
                else:
                    turns.append((line, last))
                if move.kind != "while":
                    break
        return Case(self.name, turns, cut, finish)

    def answers(self):
        """The wanted lines, answer by answer."""
        lines = []
        for line in self.wanted:
            lines.append(line)
            if line.split(" ")[0] in ENDINGS:
                yield lines
                lines = []


def line_move(rest):
    return Move("line", rest)


def while_move(rest):
    word, _, line = rest.partition(" ")
    return Move("while", line, word)


def hex_move(rest):
    return Move("line", bytes.fromhex(rest).decode("latin-1"))


def comment_move(rest):
    return Move("line", "#" * int(rest))


def fill_move(rest):
    count, digits, line = rest.split(" ", 2)
    return Move("line", line + digits * int(count))


def cut_move(rest):
    return Move("cut", rest)


def cut_hex_move(rest):
    return Move("cut", bytes.fromhex(rest).decode("latin-1"))


def cut_comment_move(rest):
    return Move("cut", "#" * int(rest))


MOVES = {
    ">": line_move,
    "while": while_move,
    "hex": hex_move,
    "comment": comment_move,
    "fill": fill_move,
    "cut": cut_move,
    "cut_hex": cut_hex_move,
    "cut_comment": cut_comment_move,
}


def cases():
    """The cases without words in which no call of the port fails, and whose lines are given."""
    reader = None
    for line in shipped.read(shipped.CRATES / "live_cases/stdin").splitlines():
        word, _, rest = line.partition(" ")
        if word == "case":
            reader = Reader(rest)
        elif word == "end":
            if reader.is_plain:
                yield reader.told(rest)
        elif not line.startswith("#"):
            reader.take(line)

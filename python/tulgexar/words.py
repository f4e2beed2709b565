"""Words that the tools take: their forms, and how a tool ends at one that doesn't fit. It isn't run by itself."""

import os
import pathlib
import re
import signal
import sys

if sys.version_info < (3, 10):
    sys.exit(f"Python 3.10 or later is wanted, and this is {sys.version_info[0]}.{sys.version_info[1]}")

CONTROLS = {code: f"\\x{code:02x}" for code in (*range(0x20), *range(0x7F, 0xA0)) if chr(code) not in "\t\n"}  # C0, and DEL with C1
HELP = ("--help", "-h")
UNREAD = 128 + signal.SIGPIPE  # the status of a tool whose output nobody reads, as a shell has it
MOST_DIGITS = 40  # of a number in decimal


class BadWords(Exception):
    """Words that a tool doesn't serve; the text says which."""


def number(word, bits=32):
    """A number in decimal digits, or in hexadecimal ones behind 0x."""
    if not re.fullmatch("0|[1-9][0-9]*|0x[0-9a-fA-F]+", word):
        raise BadWords(f"{word} is no number: decimal digits, or 0x and hexadecimal ones")
    if len(word) > MOST_DIGITS:
        raise BadWords(f"{word[:MOST_DIGITS]}.. isn't below 2^{bits}")
    return below(int(word, 0), bits, word)


def hexadecimal(word, bits=64):
    """A register or an address: hexadecimal digits, as in a trace; 0x may stand before them."""
    if not re.fullmatch("(0x)?[0-9a-fA-F]+", word):
        raise BadWords(f"{word} has other characters than hexadecimal digits")
    return below(int(word, 16), bits, word)


def below(value, bits, word):
    if value >> bits:
        raise BadWords(f"{word} isn't below 2^{bits}")
    return value


def octets(word):
    """Bytes, as an even number of hexadecimal digits, at least two."""
    if not re.fullmatch("([0-9a-fA-F]{2})+", word):
        raise BadWords(f"{word[:40]} isn't an even number of hexadecimal digits")
    return bytes.fromhex(word)


def uuid(word):
    """The 16 octets of a UUID in the hyphenated form."""
    if not re.fullmatch("[0-9a-fA-F]{8}(-[0-9a-fA-F]{4}){3}-[0-9a-fA-F]{12}", word):
        raise BadWords(f"{word} is no UUID: 8-4-4-4-12 hexadecimal digits")
    return bytes.fromhex(word.replace("-", ""))


def text_of(name):
    """The text of a file; `-` is standard input."""
    if not str(name):
        raise BadWords("a word is empty where the name of a file is wanted")
    try:
        data = sys.stdin.buffer.read() if name == "-" else pathlib.Path(name).read_bytes()
    except (OSError, ValueError) as error:
        raise BadWords(f"{name}: {cause_of(error)}") from error
    return data.decode("latin-1")


def cause_of(error):
    """Why a name can't be used, by the error with which the system or Python answers."""
    return getattr(error, "strerror", None) or "a name that has a zero byte"


def refuse_absent(name):
    """Refuses the name of a file or a folder that isn't there, or can't be reached."""
    try:
        os.stat(name)
    except (OSError, ValueError) as error:
        raise BadWords(f"{name}: {cause_of(error)}") from error


def paths_in(folder):
    """The paths of what lies in a folder, in the order of their names."""
    try:
        return sorted(pathlib.Path(folder).iterdir())
    except OSError as error:
        raise BadWords(f"{folder}: {error.strerror}") from error


def lines_of(text):
    """The lines of a text, without the line feeds that end them, as the program counts them."""
    return text.removesuffix("\n").split("\n") if text else []


def write_text(name, text):
    """Writes the text of a file."""
    try:
        pathlib.Path(name).write_text(text, encoding="utf-8", errors="backslashreplace")
    except OSError as error:
        raise BadWords(f"{name}: {error.strerror}") from error


def behind(words, option, what="a file"):
    """The word behind an option, which is taken away with it, or None; what is wanted there is said where it is missing."""
    if option not in words:
        return None
    at = words.index(option)
    if at + 1 == len(words):
        raise BadWords(f"{what} is wanted behind {option}, and no word is left")
    del words[at]
    if not words[at]:
        raise BadWords(f"{what} is wanted behind {option}, and the word there is empty")
    return words.pop(at)


def refuse_options(words, served):
    """Refuses a word that looks like an option, and is no file: those that are served come first, and once; and an empty word."""
    for word in words:
        if not word:
            raise BadWords("a word is empty where the name of a file is wanted")
        if re.match("-.|[a-z_]+=", word) and not os.path.exists(word):
            raise BadWords(f"{word} isn't served here, or stands twice: the options are {served}")


def located(cause, place, name=""):
    """A cause behind the number of the line that has it, and behind the name of its file where that is known; or alone, at the place 0."""
    if not place:
        return cause
    return f"{name}:{place}: {cause}" if name else f"line {place}: {cause}"


def plain(text):
    """A text in which control characters stand as \\xNN, so that no terminal obeys them."""
    return text.translate(CONTROLS)


def print_no_more():
    """What is printed from here on goes nowhere: nobody reads it."""
    os.dup2(os.open(os.devnull, os.O_WRONLY), sys.stdout.fileno())


def run(main, doc, words=None):
    """Ends with the status of a tool's main over the words of its call, or, at words that it doesn't serve, with the usage line of
    doc, and 2. Where help is asked for, doc is printed. Where nobody reads what is printed, it ends without a word, with UNREAD; a pipe to
    another program that has ended is its user's to tell (live.Over). What is printed has a byte for each character, as the files have that are
    read; a character of a file's name that none of these bytes is, stands as \\uNNNN."""
    sys.stdout.reconfigure(encoding="latin-1", errors="backslashreplace")
    sys.stderr.reconfigure(errors="backslashreplace")
    words = sys.argv[1:] if words is None else words
    try:
        if len(words) == 1 and words[0] in HELP:
            print(doc.strip())
            status = 0
        else:
            status = main(words)
        sys.stdout.flush()
    except BadWords as error:
        usage = next(line for line in doc.splitlines() if line.startswith("usage: "))
        print(f"{plain(str(error))}\n{usage}" if str(error) else usage, file=sys.stderr)
        status = 2
    except BrokenPipeError:
        print_no_more()
        status = UNREAD
    sys.exit(status)

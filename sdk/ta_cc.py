#!/usr/bin/env python3
"""Builds a trusted application from C.

The files are compiled for RISC-V (RV32EM) and linked with the runtime, and the program is translated into an image for the
machine of docs/formats.md. The folder of the first FILE has user_ta_header_defines.h, with TA_UUID, TA_FLAGS, TA_STACK_SIZE and
TA_DATA_SIZE.

It writes NAME.hex, the image's digits; NAME.s, its text for `asm`, with the functions, files and lines as comments; and NAME.map,
from places of the image to these, for tools/step.py and others. NAME is that of the first FILE without its end, in this folder.
What the image needs is told on standard error, with a warning where calls may be too deep.

Words: -o NAME; -O LEVEL, of s (the default), 0, 1, 2 and 3; -I FOLDER and -D MACRO, for the compiler; --pages N, of 4096 bytes
each; --keep FILE, for the linked program.
Status: 0 built; 1 where a file can't be read or written, the compiler or the linker refuses, or the machine hasn't what the program
needs: then nothing is written; 2 at other words.
usage: ta_cc.py [-o NAME] [-O LEVEL] [-I FOLDER].. [-D MACRO].. [--pages N] [--keep FILE] FILE.c|FILE.o..
"""

import collections
import contextlib
import os
import pathlib
import sys
import tempfile

from translator import Refused, build
from tulgexar.words import BadWords, number, run

LEVELS = ("s", "0", "1", "2", "3")
TAKING = ("-o", "-O", "-I", "-D", "--pages", "--keep")
JOINED = ("-O", "-I", "-D")

# What the words say.
Words = collections.namedtuple("Words", "files name keep options")


def words_of(words):
    """What the words of a call say."""
    given, files = collections.defaultdict(list), []
    words = collections.deque(words)
    while words:
        word = words.popleft()
        joined = next((option for option in JOINED if word.startswith(option) and word != option), None)
        if joined:
            given[joined].append(word[2:])
        elif word in TAKING:
            if not words:
                raise BadWords(f"{word} wants a word behind it")
            given[word].append(words.popleft())
        elif word.startswith("-"):
            raise BadWords(f"{word} isn't served")
        else:
            files.append(file_of(word))
    if not files:
        raise BadWords("a file of C is wanted")
    keep = pathlib.Path(given["--keep"][-1]) if given["--keep"] else None
    return Words(files, pathlib.Path(last(given["-o"], files[0].stem)), keep, options_of(given))


def last(given, otherwise):
    return given[-1] if given else otherwise


def file_of(word):
    file = pathlib.Path(word)
    if file.suffix not in (".c", ".o"):
        raise BadWords(f"{word} is neither a file of C nor an object")
    return file


def options_of(given):
    level = last(given["-O"], "s")
    if level not in LEVELS:
        raise BadWords(f"-O{level} is none of {', '.join(LEVELS)}")
    pages = number(given["--pages"][-1]) if given["--pages"] else 0
    if given["--pages"] and not 1 <= pages <= 64:
        raise BadWords(f"{pages} pages aren't 1 to 64")
    return build.Options(level, given["-I"], given["-D"], pages)


def check_readable(files):
    for file in files:
        try:
            with file.open("rb"):
                pass
        except OSError as error:
            raise Refused(f"{file}: {error.strerror}") from error


def write_all(contents):
    """Writes the bytes of files, all or none of them: each beside its place, and then moved there."""
    written = []
    try:
        for file, content in contents.items():
            beside = file.with_name(f".{file.name}.{os.getpid()}")
            written.append((beside, file))
            beside.write_bytes(content)
        for beside, file in written:
            beside.replace(file)
    except OSError as error:
        for beside, _ in written:
            with contextlib.suppress(OSError):
                beside.unlink()
        raise Refused(f"{file}: {error.strerror}") from error


def built(words):
    """Builds what the words say, and writes it: a line of figures."""
    check_readable(words.files)
    with tempfile.TemporaryDirectory() as folder:
        done = build.build(words.files, words.options, pathlib.Path(folder))
        text, places = build.text_and_map(done)
        kept = {words.keep: done.file.read_bytes()} if words.keep else {}
    contents = {".hex": build.image(done).hex() + "\n", ".s": text, ".map": places}
    write_all({words.name.with_name(words.name.name + end): text.encode() for end, text in contents.items()} | kept)
    for warning in build.warnings(done):
        print(f"ta_cc.py: warning: {warning}", file=sys.stderr)
    return build.figures(done)


def main(words):
    try:
        print(f"{built(words_of(words))}", file=sys.stderr)
    except Refused as refused:
        print(f"ta_cc.py: {refused}", file=sys.stderr)
        return 1
    return 0


if __name__ == "__main__":
    run(main, __doc__)

"""The module for Python tells wrong descriptions as the library for C does, those of wrong.txt, and behind a cause which word or file it is
of; and boots a core by a right one.

It runs in the folder above. With TULGEXAR_LIVE it boots that program."""

import os
import pathlib
import sys
import tempfile

TESTS = pathlib.Path(__file__).resolve().parent
sys.path.insert(0, str(TESTS.parent.parent.parent / "python"))

from tulgexar import description, live  # noqa: E402


def blocks():
    """The blocks of wrong.txt: a line, a cause, and a text."""
    for block in ("\n" + (TESTS / "wrong.txt").read_text()).split("\n== ")[1:]:
        head, _, text = block.partition("\n")
        line, _, cause = head.partition(" ")
        yield int(line), cause, text


def told(path, text):
    """What is told of a description."""
    path.write_text(text)
    try:
        description.read(path)
    except description.Fault as fault:
        return str(fault)
    return "nothing"


def main():
    faults = checks = 0
    with tempfile.TemporaryDirectory() as folder:
        path = pathlib.Path(folder, "boot.txt")
        for line, cause, text in blocks():
            wanted = f"{path}:{line}: {cause}" if line else f"{path}: {cause}"
            said, checks = told(path, text), checks + 1
            if said != wanted and not said.startswith(f"{wanted}: "):
                faults += 1
                print(f"said   {said}\nwanted {wanted}")
    described = description.read(TESTS.parent / "hosts/boot.txt")
    checks += 1
    faults += (described.threads, len(described.applications), described.is_virtual, described.steps) != (4, 14, False, 100_000)
    if "TULGEXAR_LIVE" in os.environ:
        with live.Conversation(os.environ["TULGEXAR_LIVE"]) as talk:
            talk.boot(described)
            checks += 1
            faults += len(talk.state().slots) != 4
    print(f"descriptions.py: {checks} checks, {faults} faults")
    return faults > 0


sys.exit(main())

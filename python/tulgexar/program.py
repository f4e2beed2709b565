"""Where the programs lie that the tools run, and how one is run. It isn't run by itself."""

import collections
import os
import pathlib
import signal
import subprocess
import tempfile

from tulgexar.words import BadWords

PATIENCE = 60  # seconds that a run may take
CRATES = pathlib.Path(__file__).resolve().parents[2] / "crates"  # in a clone

# The variables of the environment that name programs.
VARIABLES = {"optee_run": "TULGEXAR_RUN", "optee_live": "TULGEXAR_LIVE"}

# The statuses that the core's own programs have at an input that is in order (README.md, "Use").
NO_MEMORY, ABOVE_LIMITS = 6, 7
MEANINGS = {NO_MEMORY: "want of memory", ABOVE_LIMITS: "the input, or what it would read, is above a limit (docs/formats.md, Limits)"}

# What the program has written for some words and an input, and its status.
Done = collections.namedtuple("Done", "output status")


def found(name, file=None):
    """The path of a program: the file that is given, or that its variable names, or what `rt run` has built in the crate of its name."""
    file = file or os.environ.get(VARIABLES[name]) or None
    how = f"`rt run` in crates/{name} builds one, and program=FILE or {VARIABLES[name]} names another"
    if file is None and not CRATES.is_dir():
        raise BadWords(f"no program is named, and there is no clone around: {how}")
    path = pathlib.Path(os.path.realpath(file)) if file else CRATES / name / "out" / name
    if not os.path.isfile(path):
        raise BadWords(f"{path} is no program: {how}")
    if not os.access(path, os.X_OK):
        raise BadWords(f"{path} is no program: it isn't executable")
    return path


def started(path, *words, **streams):
    """A program that runs, as subprocess.Popen has it."""
    try:
        return subprocess.Popen([path, *words], **streams)
    except OSError as error:
        raise BadWords(f"{path} is no program: {error.strerror}") from error


def how_ended(status):
    """How a program has ended, by the status that subprocess.Popen has."""
    if status >= 0:
        return f"has ended with status {status}"
    return f"was ended by {next((one.name for one in signal.Signals if one == -status), f'signal {-status}')}"


def status_of(status):
    """A status of subprocess.Popen as a shell has it, of a program that a signal has ended, too."""
    return status if status >= 0 else 128 - status


def wrong_end(file, name, status):
    """What is said of a run of a program, which should be that of a crate, that has ended with another status than it has at such an input."""
    return f"{file} {how_ended(status)}: {MEANINGS.get(status) or f'is it the program of crates/{name}?'}"


class Program:
    """The program: what `rt run` has built, or the file that a word `program=FILE` names."""

    def __init__(self, file=None, patience=PATIENCE):
        self.file, self.patience = found("optee_run", file), patience

    def run(self, words, text):
        """Runs it over an input; both the input and the output are bytes as text. It is stopped where it takes too long."""
        with tempfile.TemporaryFile() as given:
            given.write(text.encode("latin-1"))
            given.seek(0)
            process = started(self.file, *words, stdin=given, stdout=subprocess.PIPE, stderr=subprocess.DEVNULL)
        with process:
            try:
                output, _ = process.communicate(timeout=self.patience)
            except subprocess.TimeoutExpired:
                process.kill()
                raise BadWords(f"{self.file} hasn't ended within {self.patience} seconds") from None
        return Done(output.decode("latin-1"), process.returncode)


def taken_from(words, name="program"):
    """The file that a word `program=FILE` names, which is taken away, or None; likewise by another name. It stands once, and isn't empty."""
    named = [word for word in words if word.startswith(f"{name}=")]
    for word in named:
        words.remove(word)
    if len(named) > 1:
        raise BadWords(f"{name}= stands twice")
    value = named[0].partition("=")[2] if named else None
    if value == "":
        raise BadWords(f"nothing stands behind {name}=")
    return value

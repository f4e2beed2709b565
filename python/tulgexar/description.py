"""Reads boot descriptions: what a core is booted with, and how it is used. It isn't run by itself.

embed/teec/README.md has their lines. The library for C reads them too (embed/teec/src/description.c), and says the same causes; here stands
behind a cause which word or file it is of.
"""

import dataclasses
import os
import pathlib
import re
from collections.abc import Iterator

from tulgexar.words import BadWords, cause_of

UUID = re.compile("[0-9a-f]{8}(-[0-9a-f]{4}){3}-[0-9a-f]{12}", re.IGNORECASE)
HEXADECIMAL = re.compile("[0-9a-f]*", re.IGNORECASE)
MOST = {"cpus": 8, "threads": 16, "frames": 1024, "steps": 1_000_000, "limit": 3_600_000}  # of settings that are numbers, from 1 on
SWITCHES, PATHS = ("is_virtual", "has_history"), ("program", "files")
MOST_APPLICATIONS, MOST_IMAGES = 16, 64


class Fault(Exception):
    """A description that is wrong: the text has its path, the line and the cause."""


class Wrong(Exception):
    """The cause why a line is wrong, and the word or file that it is of."""

    def __init__(self, cause: str, detail: object = "") -> None:
        super().__init__(f"{cause}: {detail}" if detail else cause)


@dataclasses.dataclass
class Description:
    """What a description says. Paths are None where it names none."""

    cpus: int = 0
    threads: int = 0
    frames: int = 0
    applications: dict[str, str] = dataclasses.field(default_factory=dict)  # UUID: digits of its image
    key: str | None = None  # 64 digits
    program: pathlib.Path | None = None
    files: pathlib.Path | None = None
    is_virtual: bool = False  # the clock
    steps: int = 100_000  # that one entry is granted
    limit: int = 10_000  # milliseconds
    has_history: bool = False
    places: dict[str, str] = dataclasses.field(default_factory=dict, compare=False, repr=False)  # UUID: the file and the line

    def lines(self) -> Iterator[str]:
        """The lines that boot the core, without the one for its history."""
        yield f"boot {self.cpus} {self.threads} {self.frames}"
        for uuid, digits in self.applications.items():
            yield f"ta {uuid} {digits}"
        if self.key:
            yield f"key {self.key}"


class Reading:
    """A description that is read, up to a line."""

    def __init__(self, path):
        self.path, self.folder, self.place = path, path.parent, 0
        self.described, self.images, self.seen = Description(), {}, set()

    def take(self, line):
        words = line.split()
        if not words or words[0].startswith("#"):
            return
        form = FORMS.get(words[0])
        if form is None:
            raise Wrong("a word that isn't known", f"{words[0]}; they are {', '.join(FORMS)}")
        if len(words) != len(form.usage.split()):
            raise Wrong("another number of words", form.usage)
        if not form.is_repeated and words[0] in self.seen:
            raise Wrong("a second line of this word", words[0])
        self.seen.add(words[0])
        form.take(self, *words[1:])

    def boot(self, cpus, threads, frames):
        self.described.cpus = number(cpus, "cpus")
        self.described.threads = number(threads, "threads")
        self.described.frames = number(frames, "frames")

    def image(self, name, file):
        if name in self.images:
            raise Wrong("a second image of this name", name)
        if len(self.images) == MOST_IMAGES:
            raise Wrong("too many images", f"at most {MOST_IMAGES}")
        path = self.folder / file
        try:
            text = path.read_bytes().decode("latin-1")
        except (OSError, ValueError) as error:
            raise Wrong("an image that can't be read", f"{path}: {cause_of(error)}") from None
        if not text:
            raise Wrong("an image that can't be read", f"{path} is empty")
        self.images[name] = digits_of(re.split("[\r\n]", text)[0], path)

    def ta(self, uuid, image):
        applications = self.described.applications
        if len(applications) == MOST_APPLICATIONS:
            raise Wrong("too many applications", f"at most {MOST_APPLICATIONS}")
        if not UUID.fullmatch(uuid):
            raise Wrong("a UUID that isn't of its form", uuid)
        if uuid.lower() in applications:
            raise Wrong("a second application of this UUID", uuid)
        digits = self.images.get(image[1:]) if image[0] == "$" else image
        if digits is None:
            raise Wrong("a name of no image", image)
        applications[uuid.lower()] = digits_of(digits, image)
        self.described.places[uuid.lower()] = f"{self.path}:{self.place}"

    def key(self, digits):
        if not is_key(digits):
            raise Wrong("a key that isn't 64 digits")
        self.described.key = digits

    def program(self, file):
        self.described.program = self.folder / file

    def files(self, folder):
        if not can_hold_files(self.folder / folder):
            raise Wrong("a folder that can't be made", self.folder / folder)
        self.described.files = self.folder / folder

    def clock(self, kind):
        self.described.is_virtual = one_of(kind, "real", "virtual", "a clock that is neither real nor virtual") == "virtual"

    def steps(self, count):
        self.described.steps = number(count, "steps")

    def limit(self, milliseconds):
        self.described.limit = number(milliseconds, "limit")

    def history(self, kept):
        self.described.has_history = one_of(kept, "on", "off", "a history that is neither on nor off") == "on"


@dataclasses.dataclass
class Form:
    """A line: its form, whether it may be repeated, and what takes it."""

    usage: str
    is_repeated: bool
    take: object


FORMS = {
    "boot": Form("boot CPUS THREADS FRAMES", False, Reading.boot),
    "image": Form("image NAME FILE", True, Reading.image),
    "ta": Form("ta UUID IMAGE", True, Reading.ta),
    "key": Form("key DIGITS", False, Reading.key),
    "program": Form("program FILE", False, Reading.program),
    "files": Form("files FOLDER", False, Reading.files),
    "clock": Form("clock real|virtual", False, Reading.clock),
    "steps": Form("steps N", False, Reading.steps),
    "limit": Form("limit MILLISECONDS", False, Reading.limit),
    "history": Form("history on|off", False, Reading.history),
}


def number(word, setting):
    """The number of a setting in decimal."""
    if not re.fullmatch("[0-9]{1,40}", word) or not 1 <= int(word) <= MOST[setting]:
        raise Wrong("a number that isn't in its limits", f"{word} isn't one from 1 to {MOST[setting]}")
    return int(word)


def refuse_setting(name: str, value: object) -> None:
    """BadWords at a setting of a Description that there isn't, or whose value isn't of its kind, but for applications."""
    names = [field.name for field in dataclasses.fields(Description) if field.name != "places"]
    if name not in names:
        raise BadWords(f"{name} is no setting of a core: they are {', '.join(names)}")
    if name in MOST and (type(value) is not int or not 1 <= value <= MOST[name]):
        raise BadWords(f"{name}={value!r} isn't a number from 1 to {MOST[name]}")
    if name in SWITCHES and not isinstance(value, bool):
        raise BadWords(f"{name}={value!r} is neither True nor False")
    if name in PATHS and not isinstance(value, (str, os.PathLike)):
        raise BadWords(f"{name}={value!r} is no path")
    if name == "key" and not is_key(value):
        raise BadWords(f"key={value!r} isn't 64 hexadecimal digits")


def is_key(digits: object) -> bool:
    return isinstance(digits, str) and len(digits) == 64 and HEXADECIMAL.fullmatch(digits) is not None


def is_open_folder(path):
    """Whether files may be made in a folder."""
    return os.path.isdir(path) and os.access(path, os.W_OK | os.X_OK)


def can_hold_files(path):
    """Whether files may lie in a folder: it is there, or can be made in one that is."""
    try:
        path.lstat()
    except FileNotFoundError:
        return is_open_folder(path.parent)
    except (OSError, ValueError):
        return False
    return is_open_folder(path)


def one_of(word, one, other, cause):
    if word not in (one, other):
        raise Wrong(cause, word)
    return word


def digits_of(digits, where):
    if not HEXADECIMAL.fullmatch(digits):
        raise Wrong("an image that isn't hexadecimal digits", f"{where!s:.40}")
    return digits


def read(path: str | os.PathLike[str]) -> Description:
    """Reads a description."""
    path = pathlib.Path(path)
    try:
        text = path.read_bytes().decode("latin-1")
    except (OSError, ValueError) as error:
        raise Fault(f"{path}: {cause_of(error)}") from error
    reading = Reading(path)
    for place, line in enumerate(text.split("\n"), 1):
        reading.place = place
        try:
            reading.take(line)
        except Wrong as cause:
            raise Fault(f"{path}:{place}: {cause}") from None
    if reading.described.threads == 0:
        raise Fault(f"{path}: no line boot")
    return reading.described

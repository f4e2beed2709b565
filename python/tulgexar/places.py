"""Which function, file and line of its source a place of an image is of: the map that sdk/ta_cc.py writes beside an image. It isn't
run by itself.

A map is lines `PLACE TEXT`, PLACE a number in decimal, in rising order. TEXT is a function, and behind it FILE:LINE where these are known,
or in brackets what was made of no source: it holds up to the next line's place.
"""

import bisect
import os
import pathlib
import re

from tulgexar import formats, machine
from tulgexar.words import BadWords, octets, text_of

# Codes of panics that an application in C has of the sdk, by its page.
SDK_PANICS = {16: "an assertion, or a trap of the compiler", 17: "a call by a pointer that is no function's"}


class Map:
    """The map of an image; an empty one says nothing."""

    def __init__(self, text=""):
        self.places, self.texts = [], []
        for line in text.splitlines():
            place, _, told = line.partition(" ")
            if not re.fullmatch("0|[1-9][0-9]{,9}", place) or not told or self.places and int(place) <= self.places[-1]:
                raise BadWords(f"`{line[:60]}` is no line of a map")
            self.places.append(int(place))
            self.texts.append(told)

    def at(self, place):
        """What is told of a place, or an empty text."""
        number = bisect.bisect_right(self.places, place)
        return self.texts[number - 1] if number else ""

    def behind(self, place, stack=()):
        """What is told of a place, in brackets behind a blank, or nothing. Of one outside the application's files it is told too where
        the application has called, by the stack of places to return to."""
        told = [self.at(place)]
        callers = [self.at(back - 1) for back in reversed(stack)]
        if told[0] and not is_own(told[0]):
            told += [f"called at {caller}" for caller in callers if is_own(caller)][:1]
        return f" ({', '.join(one.strip('()') for one in told)})" if told[0] else ""


def is_own(told):
    """Whether what is told of a place names a line of the application's own files."""
    return ":" in told and " sdk/" not in told


def map_of(name):
    """The map in a file."""
    return Map(text_of(name))


def map_beside(name):
    """The map beside an image's file, or an empty one."""
    file = pathlib.Path(name).with_suffix(".map")
    return map_of(file) if name != "-" and os.path.isfile(file) else Map()


def maps_of(text, folder):
    """The maps that lie beside the images that a script for lift.py names, by what an image has behind its flags."""
    found = {}
    for words in (line.split() for line in text.splitlines()):
        if words[:1] == ["image"] and len(words) > 2:
            found[behind_flags(octets("".join(text_of(folder / words[2]).split())))] = map_beside(folder / words[2])
    return found


def behind_flags(data):
    """The bytes of an image behind its flags, which a script may change."""
    return data[8:]


def why_of(code, why, source):
    """Why the machine has stopped: of a panic of the application's own, what the sdk has it for, where the image has a map."""
    is_own = why not in machine.PANICS.values()
    return SDK_PANICS.get(code, why) if is_own and source.places else why


def meanings_of(code, sources):
    """What a panic of this code may be, where its place isn't known: one of the machine's own, or a line at which one of the images
    panics with it, by their maps."""
    found = [machine.PANICS[code]] if code in machine.PANICS else []
    for image, source in sources:
        found += [f"at {told}" for told in lines_of_own_panic(image, source, code)]
    return ", or ".join(found)


def lines_of_own_panic(image, source, code):
    """The lines at which an application takes a code with which it then panics by a system call of its own."""
    taken = [place for place, one in enumerate(image.code) if name_of(one) == "const" and (one.d, one.imm) == (0, code)]
    told = [source.at(place) for place in taken if comes_to_panic(image.code, place + 1)]
    return [line for line in dict.fromkeys(told) if line]


def name_of(one):
    return formats.OPERATIONS[one.op][0]


def comes_to_panic(code, place):
    """Whether the number in r0 at a place is that with which the application panics, on one way at least."""
    seen, ahead = set(), [place]
    while ahead:
        place = ahead.pop()
        if place in seen or place >= len(code):
            continue
        seen.add(place)
        one, (name, registers, operand) = code[place], formats.OPERATIONS[code[place].op]
        if name == "sys" and one.imm == 1:
            return True
        if name in ("sys", "ret", "call") or "d" in registers and one.d == 0:
            continue
        ahead += [one.imm] if name == "jump" else [place + 1] + ([one.imm] if operand == "target" else [])
    return False

"""A core that is booted, and calls on it that are made to their end: what a test begins with.

    with core.Core(core.booted(applications={UUID: "add.hex"})) as talk:
        session = talk.call(f"open {UUID}").session
        talk.call(f"invoke {session} 0 value_inout 5 7").values[0]      # (12, 0)
"""

import contextlib
import dataclasses
import os
import pathlib
from collections.abc import Callable, Iterable, Mapping
from typing import Any, NamedTuple

from tulgexar import arg, calls, description, formats, image
from tulgexar.live import Answer, Conversation, Driver, NoConversation, Over
from tulgexar.words import uuid


class NotTaken(Exception):
    """A call that was answered by a code other than OK, so it has no result: the code by its name."""


class Ended(NamedTuple):
    """How a call has ended: its result and its origin, by their names in docs/formats.md where they have one, the session, and of each
    parameter a and b of a value, or offset or address and size of memory. An open has two META parameters before its own."""

    result: str
    origin: str
    session: int
    values: list[tuple[int, int]]


def ended(argument: bytes) -> Ended:
    """What an argument says behind its call."""
    head = calls.head_fields(argument)
    parameters = [(parameter.p, parameter.q) for parameter in calls.parameters_in(argument[formats.HEAD_BYTES :])]
    result = formats.RESULTS.get(head["ret"], f"{head['ret']:08x}")
    return Ended(result, formats.ORIGINS.get(head["ret_origin"], str(head["ret_origin"])), head["session"], parameters)


def booted(
    folder: str | os.PathLike[str] = ".",
    applications: Mapping[str, str | bytes] | None = None,
    **settings: Any,
) -> description.Description:
    """A boot description that is told in Python: what description.Description has, of which `cpus` is 1, `threads` 4 and `frames` 16 where
    nothing is said. An application is told by its UUID: its image's bytes, or a file of its digits, in the folder. BadWords at settings that
    aren't in their limits, or that there aren't."""
    return changed(description.Description(cpus=1, threads=4, frames=16), folder, applications, **settings)


def changed(
    described: description.Description,
    folder: str | os.PathLike[str] = ".",
    /,
    applications: Mapping[str, str | bytes] | None = None,
    **settings: Any,
) -> description.Description:
    """A boot description with settings in the place of its own, told likewise; applications stand beside its own, or in the place of those of
    their UUIDs."""
    for name, value in settings.items():
        description.refuse_setting(name, value)
    told, places = dict(described.applications), dict(described.places)
    for name, data in (applications or {}).items():
        uuid(name)
        places.pop(name.lower(), None)
        told[name.lower()] = data.hex() if isinstance(data, bytes) else image.digits_of(pathlib.Path(folder, data)).hex()
    return dataclasses.replace(described, applications=told, places=places, **settings)


class Core(Conversation):
    """A conversation with a core that is booted by a description. `driver` makes calls to their end, and serves them; `turns` has each line
    and its answer."""

    def __init__(
        self,
        described: description.Description,
        program: str | os.PathLike[str] | None = None,
        watch: bool = False,
        heard: Callable[[str, Answer], object] | None = None,
    ) -> None:
        self.turns: list[tuple[str, Answer]] = []
        self.described, self.hears = described, heard
        super().__init__(program or described.program, self.keep, watch)
        self.driver = Driver(self)
        try:
            self.boot(described)
        except BaseException:
            with contextlib.suppress(Over, NoConversation):  # the first cause is told
                Conversation.close(self)
            raise

    def keep(self, line: str, answer: Answer) -> None:
        """Keeps a turn."""
        self.turns.append((line, answer))
        if self.hears:
            self.hears(line, answer)

    def __enter__(self) -> "Core":
        return self

    def call(self, words: str | Iterable[str], cpu: int = 0, client: int = 0, at: int = formats.RAM_START) -> Ended:
        """Makes the call of an argument that arg.py writes for the words, and serves it to its end."""
        argument = arg.argument(words.split() if isinstance(words, str) else words)
        self.write(cpu, at, argument)
        answered = self.driver.call(cpu, [formats.CALL_WITH_ARG, at >> 32, at & 0xFFFFFFFF, 0, 0, 0, 0, client], self.described.steps)
        if answered[0] != 0:
            raise NotTaken(formats.CODES.get(answered[0], f"{answered[0]:08x}"))
        return ended(self.read(cpu, at, len(argument)))

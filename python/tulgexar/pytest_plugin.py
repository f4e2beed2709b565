"""A plugin for pytest: each test has a core of its own, and what was said with it is kept where the test fails.

Fixtures:
    core    a core.Core, booted as the test's marker `boot` says; it ends with the test
    cores   makes such cores, for a test that needs several, or a new one for each example of hypothesis: `with cores() as core:`
The marker has the path of a boot description, beside the test's file, or what core.booted takes, or both, where the settings stand in the
place of those of the description; and besides `watch=True`, by which exits are watched: `@pytest.mark.boot("boot.txt")`,
`@pytest.mark.boot(threads=3, applications={UUID: "add.hex"})`, `@pytest.mark.boot("boot.txt", threads=2)`. What a call of `cores` is given
stands in its place. A test whose core can't be booted so fails with a line that says why.
The program is --core-program FILE, that of the description, TULGEXAR_LIVE of the environment, or, in a clone, what `rt run` has built.

Of a test that fails stand in --core-kept FOLDER (failed-cores), in a folder of the test's name: `core.log`, what was said, and what it
means; `core.trace`, which the program `run` plays again; and `core.svg`, a picture of it, or where it is long `core.json`, for a viewer of
Chrome's or Perfetto's traces. Of several cores those that the test had left open are kept, and the last one that it has closed. Where nothing
can be written there, the report says so, beside what was said last.
"""

import pathlib
import re
from collections.abc import Iterator
from typing import Any

import pytest

from tulgexar import chart, description, live, plays, story
from tulgexar.core import Core, booted, changed
from tulgexar.words import BadWords

MOST_DRAWN = 400  # calls in a picture
SHOWN = 24  # last lines of a log, in the report
NO_CORE = (BadWords, description.Fault, live.Over, live.NoConversation, live.Refused)
NO_PICTURE = (plays.Mismatch, ValueError, IndexError, KeyError)


class Cores:
    """The cores of the test that runs."""

    item: pytest.Item

    def __init__(self, config: pytest.Config) -> None:
        self.config = config
        self.open: list[Core] = []
        self.closed: Core | None = None
        self.has_failed = False

    def begin(self, item: pytest.Item) -> None:
        """A test begins."""
        self.item, self.closed, self.has_failed = item, None, False

    def __call__(self, boot: str | description.Description | None = None, **settings: Any) -> Core:
        """A core that is booted as is said, or else as the test's marker says."""
        marker = self.item.get_closest_marker("boot") if boot is None and not settings else None
        try:
            core = self.made(path_of(marker), dict(marker.kwargs)) if marker else self.made(boot, settings)
        except NO_CORE as wrong:
            why = str(wrong)
        else:
            self.open.append(core)
            return core
        pytest.fail(f"{self.item.nodeid}: no core is booted: {why}", pytrace=False)

    def made(self, boot: Any, settings: dict[str, Any]) -> Core:
        """A core that is booted by a description, by settings, or by both."""
        watch = settings.pop("watch", False)
        if not isinstance(watch, bool):
            raise BadWords(f"watch={watch!r} is neither True nor False")
        return Kept(self, self.described(boot, settings), self.config.getoption("core_program"), watch)

    def described(self, boot: str | description.Description | None, settings: dict[str, Any]) -> description.Description:
        """What a core is booted with."""
        folder = self.item.path.parent
        if boot is None:
            described = booted()
        else:
            described = description.read(folder / boot) if isinstance(boot, (str, pathlib.Path)) else boot
        if not isinstance(described, description.Description):
            raise BadWords(f"{boot!r} is no path of a boot description, and none itself")
        return changed(described, folder, **settings)

    def forget(self, core: Core) -> None:
        """A test has closed a core."""
        self.open.remove(core)
        self.closed = core

    def end(self) -> None:
        """The test is over. A program that ends wrongly makes it fail, where it hasn't."""
        wrong = None
        for core in list(self.open):
            try:
                core.close()
            except (live.Over, live.NoConversation) as error:
                wrong = error
        if wrong and not self.has_failed:
            raise wrong

    def keep(self) -> Iterator[tuple[str, str]]:
        """Keeps what was said with the cores of a test that has failed: the sections of its report."""
        self.has_failed = True
        cores = [*([self.closed] if self.closed else []), *self.open]
        folder = pathlib.Path(self.config.rootpath, self.config.getoption("core_kept"), file_name(self.item.nodeid))
        for number, core in enumerate(cores, 1):
            name = "core" if number == 1 else f"core-{number}"
            lines, place = lines_of(core), f"{folder / name}.log"
            try:
                folder.mkdir(parents=True, exist_ok=True)
                keep(core, lines, folder / name)
            except OSError as error:  # the test has failed all the same
                place = f"not kept: {error.filename or folder}: {error.strerror}"
            yield f"{name} ({place})", "\n".join(lines[-SHOWN:])


def path_of(marker: pytest.Mark) -> Any:
    """What a marker names without a setting's name: the path of a boot description, or nothing."""
    if len(marker.args) > 1:
        raise BadWords(f"the marker boot takes one path, and settings by their names: {marker.args[1]!r} is neither")
    return marker.args[0] if marker.args else None


class Kept(Core):
    """A core of a test."""

    def __init__(self, cores: Cores, *settings: Any) -> None:
        self.cores = cores
        super().__init__(*settings)

    def close(self) -> int:
        """Ends the core. A program that ends otherwise than with status 0 is wrong."""
        if self in self.cores.open:
            self.cores.forget(self)
        status = super().close()
        if status:
            raise live.Over(status, self.file, self.is_known)
        return status


def file_name(name: str) -> str:
    """A test's name as that of a file."""
    return re.sub(r"[^\w.\[\]-]+", "-", name)[-150:]


def lines_of(core: Core) -> list[str]:
    """What was said with a core, and what it means, line by line."""
    notes = live.Notes()
    return [part for line, answer in core.turns for part in notes.told(line, answer)]


def keep(core: Core, lines: list[str], path: pathlib.Path) -> None:
    """Keeps what was said with a core, of which these are the lines, in files of a name. A picture that can't be drawn is told behind them."""
    taken = [(line, answer.lines) for line, answer in core.turns if answer.ending == "ok" and live.is_of_trace(line)]
    log = live.Log(path.with_suffix(".trace"))
    for line, _ in taken:
        log.take(line)
    log.file.close()
    try:
        draw(path, "".join(f"{line}\n" for line, _ in taken), "".join(f"{told}\n" for _, answer in taken for told in answer))
    except NO_PICTURE as cause:
        lines.append(f"no picture: {cause}")
    path.with_suffix(".log").write_text("".join(f"{line}\n" for line in lines), encoding="utf-8")


def draw(path: pathlib.Path, trace: str, output: str) -> None:
    """Draws a play, or where it is long, writes it for a viewer."""
    chart.refuse_others(trace)
    chart.refuse_none(trace)
    told = story.Story(story.visits_of(trace, output), story.threads_of(trace))
    if len(told.visits) <= MOST_DRAWN:
        path.with_suffix(".svg").write_text(chart.chart(told), encoding="utf-8")
    else:
        path.with_suffix(".json").write_text(chart.traced(told), encoding="utf-8")


CORES = pytest.StashKey[Cores]()


def pytest_addoption(parser: pytest.Parser) -> None:
    group = parser.getgroup("tulgexar", "cores of a TEE kernel")
    group.addoption("--core-program", metavar="FILE", help="the program of a conversation, optee_live")
    group.addoption("--core-kept", metavar="FOLDER", default="failed-cores", help="where what was said with cores of failed tests is kept")


def refuse_empty(config: pytest.Config) -> None:
    """Refuses an option behind which nothing stands: a variable of a shell may be empty."""
    for option in ("--core-program", "--core-kept"):
        if config.getoption(option) == "":
            raise pytest.UsageError(f"nothing stands behind {option}")


def pytest_configure(config: pytest.Config) -> None:
    refuse_empty(config)
    config.addinivalue_line("markers", "boot(FILE or settings): what the fixtures core and cores boot a core with")
    config.stash[CORES] = Cores(config)


@pytest.hookimpl(tryfirst=True)
def pytest_runtest_setup(item: pytest.Item) -> None:
    item.config.stash[CORES].begin(item)


@pytest.hookimpl(hookwrapper=True)
def pytest_runtest_makereport(item: pytest.Item, call: pytest.CallInfo[None]) -> Iterator[None]:
    report = (yield).get_result()
    if report.when == "call" and report.failed:
        report.sections += item.config.stash[CORES].keep()


@pytest.hookimpl(trylast=True)
def pytest_runtest_teardown(item: pytest.Item) -> None:
    item.config.stash[CORES].end()


@pytest.fixture(scope="session")
def cores(pytestconfig: pytest.Config) -> Cores:
    """Makes cores for the test that runs."""
    return pytestconfig.stash[CORES]


@pytest.fixture
def core(cores: Cores) -> Core:
    """A core that is booted as the test's marker `boot` says."""
    return cores()

#!/usr/bin/env python3
"""Installs the package of python/, as its page has it, and tries it there: its commands, a bench, the examples, and cores that are wrong.

All is done in a folder of its own, in an environment that /usr/bin/python3 makes, and without a network. It needs Debian's packages that
python/README.md names. The untrusted world of the examples has to find each core of examples/wrong_core.py, to shrink what shows it, and what
was said has to be kept; a test whose core can't be booted has a line that says why, and so has one whose core can't be kept. The program is what `rt run` has built in
crates/optee_live, or FILE.
Status: 0 where all is as wanted, 1 where something isn't, 2 at other words, or where a package is missing.
usage: package_test.py [live=FILE]
"""

import os
import pathlib
import re
import shutil
import subprocess
import sys
import tempfile

import packaged  # noqa: F401  (where tulgexar is)
import shipped
from check import Comparison
from tulgexar import program
from tulgexar.words import BadWords, run

PYTHON = "/usr/bin/python3"
STANDS = "\npackaged.stand_for("  # in a tool that is the package's
PATIENCE = 1200  # seconds
NEEDED = ("venv", "setuptools", "wheel", "pytest", "xdist", "hypothesis")
WORLD = "examples/test_untrusted_world.py::test_untrusted_world[8]"
BENCH = """
from tulgexar import core
ADD = "11111111-2222-3333-4444-555555555555"
with core.Core(core.booted(applications={ADD: "../examples/applications/add.hex"}), watch=True) as talk:
    print(talk.call(f"open {ADD}")[:3], talk.call("invoke 1 0 value_inout 5 7").values, talk.state().counts["sessions"])
"""
TOLD = "('SUCCESS', 'TRUSTED_APP', 1) [(12, 0)] 1\n"

# Tests whose cores can't be booted, each with what is said of it, and one that has a setting in the place of its description's.
UNBOOTED = """
import pytest
ADD = "11111111-2222-3333-4444-555555555555"

@pytest.mark.boot("examples/boot.txt", threads=3)
def test_settings_in_the_place_of_a_file(core):
    assert len(core.state().slots) == 3 and core.call(f"open {ADD}").session == 1
"""
WRONG_MARKERS = {
    '"examples/boot.txt", 3': "the marker boot takes one path, and settings by their names: 3 is neither",
    "thread=2": "thread is no setting of a core: they are cpus, threads, frames, ",
    "threads=0": "threads=0 isn't a number from 1 to 16",
    "frames='4'": "frames='4' isn't a number from 1 to 1024",
    "watch=1": "watch=1 is neither True nor False",
    "3": "3 is no path of a boot description, and none itself",
    "applications={'1111': 'add.hex'}": "1111 is no UUID: 8-4-4-4-12 hexadecimal digits",
    "applications={ADD: 'nowhere.hex'}": "nowhere.hex: No such file or directory",
    "applications={ADD: b'OT'}": "bad image",
    "'nowhere.txt'": "nowhere.txt: No such file or directory",
}

# A test that fails, among others, each with a core.
UNKEPT = """
import pytest

@pytest.mark.parametrize("number", range(6))
def test_threads(core, number):
    assert core.smc(0, [0xB200000F])[1] == (5 if number == 3 else 4)
"""

# Of each wrong core what comes and what is wanted, and with how many steps of the world at most that is shown; the least are 3, 4 and 1.
BY_ITSELF = "result"
WRONG = {"resume": ("'OK' == 'ERESUME'", 5), "limit": ("'OK' == 'ETHREAD_LIMIT'", 6), "result": (r"\(\d+, 0\) == \(\d+, 0\)", 3)}


class Bench:
    """A folder with a copy of the package's, beside the examples of the repository, and an environment in which it is installed."""

    def __init__(self, folder, live):
        self.folder, self.live = folder / "python", live
        shutil.copytree(shipped.ROOT / "python", self.folder, ignore=shutil.ignore_patterns("__pycache__", "build", "*.egg-info", ".*"))
        (folder / "examples").symlink_to(shipped.EXAMPLES)
        self.bin = folder / "bench/bin"
        self.settings = {name: value for name, value in os.environ.items() if name != "PYTHONPATH"} | {"TULGEXAR_LIVE": str(live)}

    def run(self, *words, text="", **settings):
        """The status of a command, by variables of the environment besides, and what it has told."""
        given = {"input": text, "text": True, "encoding": "latin-1", "stdout": subprocess.PIPE, "stderr": subprocess.STDOUT}
        done = subprocess.run([str(word) for word in words], cwd=self.folder, env=self.settings | settings, timeout=PATIENCE, check=False, **given)
        return done.returncode, done.stdout

    def install(self):
        """Makes the environment: what was told where that fails, or None."""
        for words in (
            [PYTHON, "-m", "venv", "--system-site-packages", self.bin.parent],
            [self.bin / "pip", "install", "--no-index", "--no-build-isolation", self.folder],
        ):
            status, told = self.run(*words)
            if status:
                return told
        shutil.rmtree(self.folder / "tulgexar")  # what runs from here on is what was installed
        return None

    def pytest(self, *words, **settings):
        return self.run(self.bin / "python", "-m", "pytest", "-p", "no:cacheprovider", *words, **settings)

    def wrong_core(self, mistake):
        """The path of a program whose core makes a mistake: the example itself, or where time counts, one that starts it sooner."""
        if mistake == BY_ITSELF:
            return self.folder / "examples/wrong_core.py"
        path = self.folder / f"wrong_{mistake}"
        path.write_text(f'#!/bin/sh\nexec {PYTHON} -S {self.folder}/examples/wrong_core.py {mistake} "{self.live}"\n')
        path.chmod(0o700)
        return path


def check_commands(bench, comparison):
    """Each command tells its usage; a conversation, and a bench."""
    commands = sorted(path.name for path in bench.bin.glob("tulgexar-*"))
    tools = sorted(path.stem for path in (shipped.ROOT / "tools").glob("*.py") if STANDS in path.read_text() and path.stem != "formats")
    comparison.same("commands", commands, [f"tulgexar-{tool.replace('_', '-')}" for tool in tools])
    for command in commands:
        status, told = bench.run(bench.bin / command, "--help")
        comparison.same(f"{command} --help", (status, f"usage: {command} " in told), (0, True))
    status, told = bench.run(bench.bin / "tulgexar-live", TULGEXAR_LIVE="")
    comparison.same("tulgexar-live without a program", (status, "no program is named, and there is no clone around" in told), (2, True))
    given = bench.run(bench.bin / "tulgexar-live", text="boot 1 1 1\nleave 0\n")
    comparison.same("tulgexar-live", given, (0, "> boot 1 1 1\n< ok\n> leave 0\n< bad inside\n"))
    comparison.same("a bench", bench.run(bench.bin / "python", "-c", BENCH), (0, TOLD))


def check_examples(bench, comparison):
    """The examples on all processors, of which none fails, so nothing is kept."""
    status, told = bench.pytest("-n", "auto", "-q", "examples")
    comparison.same("the examples", (status, re.findall(r"\d+ \w+(?= in )", told), ""), (0, ["7 passed"], "" if status == 0 else told))
    comparison.same("what is kept of them", (bench.folder / "failed-cores").exists(), False)


def check_options(bench, comparison):
    """An option behind which nothing stands is refused before any test."""
    for option in ("--core-program", "--core-kept"):
        for words in ([f"{option}="], [option, ""]):
            status, told = bench.pytest("-q", *words, "examples")
            comparison.same(f"{words}", (status, f"nothing stands behind {option}" in told, " passed" in told), (4, True, False))


def check_unbooted(bench, comparison):
    """Of a test whose core can't be booted the report has one line that says why, and no traceback; settings stand in the place of a file's."""
    tests = [f"\n@pytest.mark.boot({marker})\ndef test_{number}(core):\n    pass\n" for number, marker in enumerate(WRONG_MARKERS)]
    (bench.folder / "test_unbooted.py").write_text(UNBOOTED + "".join(tests))
    status, told = bench.pytest("-q", "-p", "no:xdist", "test_unbooted.py")
    totals = f"1 passed, {len(WRONG_MARKERS)} errors"
    comparison.same("unbooted", (status, totals in told, "Traceback" in told, "During handling" in told), (1, True, False, False))
    for number, why in enumerate(WRONG_MARKERS.values()):
        lines = [line for line in told.splitlines() if line.startswith(f"test_unbooted.py::test_{number}: no core is booted: ")]
        comparison.same(f"unbooted: {why}", (len(lines), [why in line for line in lines]), (1, [True]))
    for path in ("/bin/true", "/bin/cat"):
        status, told = bench.pytest("-q", "test_unbooted.py", "-k", "place", "--core-program", path)
        name = pathlib.Path(path).resolve().name
        comparison.same(f"unbooted: {path}", (status, bool(re.search(f"no core is booted: .*/{name} (has|doesn't)", told))), (1, True))


def check_unkept(bench, comparison):
    """A test that fails where nothing can be kept fails all the same, on one processor and on several, and the report says why nothing is."""
    (bench.folder / "test_unkept.py").write_text(UNKEPT)
    (bench.folder / "a_file").touch()
    for words in (["-p", "no:xdist"], *[["-n", "2"]] * 4):
        status, told = bench.pytest("-q", *words, "--core-kept", "a_file", "test_unkept.py")
        totals = re.findall(r"\d+ failed, \d+ passed", told)
        comparison.same(f"unkept, {words}", (status, totals, "INTERNALERROR" in told), (1, ["1 failed, 5 passed"], False))
        comparison.same(f"unkept, {words}: why", re.findall(r"core \(not kept: \S*/a_file[^:]*: ([^)]*)\)", told), ["Not a directory"])
        comparison.same(f"unkept, {words}: what was said", "> smc 0 " in told, True)


def check_wrong_cores(bench, comparison):
    """The untrusted world over wrong cores."""
    for mistake, (told_wrong, most) in WRONG.items():
        kept = bench.folder / f"kept_{mistake}"
        status, told = bench.pytest("-q", "--core-program", bench.wrong_core(mistake), "--core-kept", kept, WORLD, WRONG_CORE=mistake)
        steps = [step for step in re.findall(r"state\.(\w+)\(", told) if step not in ("begin", "teardown")]
        comparison.same(f"a wrong core, {mistake}", (status, bool(re.search(told_wrong, told))), (1, True))
        comparison.same(f"a wrong core, {mistake}: at most {most} of {steps}", 0 < len(steps) <= most, True)
        files = sorted(path.name for path in kept.glob("*/*"))
        comparison.same(f"a wrong core, {mistake}: what is kept", files, ["core.log", "core.svg", "core.trace"])
        calls = sum(line.startswith("> smc ") for path in kept.glob("*/core.log") for line in path.read_text().splitlines())
        comparison.same(f"a wrong core, {mistake}: calls that were said", calls, len(steps) + 2)


def refuse_missing():
    """Refuses a system that lacks a package."""
    found = "import importlib.util, sys; print(*[name for name in sys.argv[1:] if importlib.util.find_spec(name) is None])"
    if not pathlib.Path(PYTHON).exists():
        raise BadWords(f"there is no {PYTHON}")
    missing = subprocess.run([PYTHON, "-c", found, *NEEDED, "ensurepip"], capture_output=True, text=True, check=True).stdout.split()
    if missing:
        raise BadWords(f"{PYTHON} has no {', '.join(missing)}: python/README.md names Debian's packages")


def main(words):
    words = list(words)
    file = program.taken_from(words, "live")
    if words:
        raise BadWords()
    live = program.found("optee_live", file)
    refuse_missing()
    comparison = Comparison()
    with tempfile.TemporaryDirectory() as folder:
        bench = Bench(pathlib.Path(folder), live)
        before = sorted(bench.folder.iterdir())
        told = bench.install()
        comparison.same("pip install", told, None)
        comparison.same("what pip leaves", sorted(bench.folder.iterdir()), [path for path in before if path.name != "tulgexar"])
        if told is None:
            for check in (check_commands, check_examples, check_options, check_unbooted, check_unkept, check_wrong_cores):
                check(bench, comparison)
    print(f"{comparison.compared} compared, {comparison.differing} differ")
    return 1 if comparison.differing else 0


if __name__ == "__main__":
    sys.dont_write_bytecode = True
    run(main, __doc__)

#!/usr/bin/env python3
"""Makes each mistake of tools/mistakes.py, and compares the answers with what a user would want.

A mistake is answered poorly where the command hangs, shows a traceback, has another status, doesn't tell what is wanted, or prints codes
that move a terminal. Each that is answered poorly is printed, with how; then how many were made. The programs are those that `rt run` has
built in crates/optee_run and crates/optee_live, or the files that are named; -j N makes so many mistakes at once (2), and only=TEXT
those whose command has the text.
Status: 0 where each is answered well, 1 where one isn't, 2 at other words.
usage: mistakes_test.py [program=FILE] [live=FILE] [only=TEXT] [-j N]
"""

import concurrent.futures
import os
import pathlib
import re
import signal
import subprocess
import sys
import tempfile

import mistakes
import packaged
import shipped
from tulgexar import program
from tulgexar.words import BadWords, number, run

FOLDER = shipped.ROOT / "tools"
PATIENCE = 100
CODES = re.compile(r"[\x00-\x08\x0b-\x1f\x7f-\x9f]")


class Bench:
    """A folder in which mistakes are made, and the programs that stand behind the names in their commands."""

    def __init__(self, folder, runner, talker):
        self.folder = folder
        self.names = {"$RUN": str(runner), "$LIVE": str(talker), "$TOOLS": str(FOLDER), "$TOP": str(shipped.ROOT), "$PWD": str(folder)}
        for name, text in mistakes.FILES.items():
            path = folder / name
            path.parent.mkdir(parents=True, exist_ok=True)
            path.write_bytes(self.content(text))
        for name in mistakes.EXECUTABLE:
            (folder / name).chmod(0o700)

    def content(self, text):
        """The bytes of a file: a text, or those of a shipped file."""
        if text.startswith("$TOP/") and "\n" not in text:
            return pathlib.Path(self.named(text)).read_bytes()
        return text.encode("latin-1")

    def named(self, text):
        for name, meaning in self.names.items():
            text = text.replace(name, meaning)
        return text

    def command(self, mistake):
        first, _, rest = mistake.command.partition(" ")
        if first == "python":
            return f"exec {sys.executable} -B {self.named(rest)}"
        return self.named(f"exec {FOLDER / first} {rest}" if first.endswith(".py") else f"exec {mistake.command}")

    def poor(self, mistake):
        """How a mistake is answered poorly, or None, and what was told."""
        settings = {**os.environ, "PYTHONPATH": f"{FOLDER}{os.pathsep}{packaged.FOLDER}", "PYTHONDONTWRITEBYTECODE": "1"}
        streams = {"stdin": subprocess.PIPE, "stdout": subprocess.PIPE, "stderr": subprocess.STDOUT}
        process = subprocess.Popen(["sh", "-c", self.command(mistake)], cwd=self.folder, env=settings, start_new_session=True, **streams)
        try:
            told = process.communicate(mistake.text.encode("latin-1"), PATIENCE)[0].decode("latin-1")
        except subprocess.TimeoutExpired:
            os.killpg(process.pid, signal.SIGKILL)
            return "hangs", process.communicate()[0].decode("latin-1")
        return how(mistake, process.returncode, told), told


def how(mistake, status, told):
    """How an answer is poor, or None."""
    is_module = mistake.command.startswith("python ")
    if "Traceback" in told and not is_module:
        return "a traceback"
    if str(status) not in str(mistake.status):
        return f"silent, with status {status}" if not told.strip() else f"status {status}, not {mistake.status}"
    if not re.search(mistake.told, told):
        return f"doesn't tell {mistake.told}"
    if CODES.search(told):
        return "codes of a terminal"
    return None


def main(words):
    words = list(words)
    file, live = program.taken_from(words), program.taken_from(words, "live")
    only, jobs = program.taken_from(words, "only") or "", 2
    if words[:1] == ["-j"] and len(words) == 2:
        jobs, words = number(words[1]), []
    if words or not jobs:
        raise BadWords()
    programs = program.found("optee_run", file), program.found("optee_live", live)
    made = [mistake for mistake in mistakes.ALL if only in mistake.command]
    with tempfile.TemporaryDirectory() as folder:
        bench = Bench(pathlib.Path(folder), *programs)
        with concurrent.futures.ThreadPoolExecutor(jobs) as pool:
            answers = list(pool.map(bench.poor, made))
    poorly = [(mistake, answer) for mistake, answer in zip(made, answers) if answer[0]]
    for mistake, (why, told) in poorly:
        print(f"{mistake.what}: {why}\n  {mistake.command}\n  {told.strip()[-300:]!r}")
    print(f"{len(made)} mistakes, {len(poorly)} answered poorly")
    return 1 if poorly else 0


if __name__ == "__main__":
    run(main, __doc__)

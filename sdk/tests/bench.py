"""What the tests share: folders, commands, and how a test says what differs. It isn't run by itself."""

import pathlib
import subprocess
import sys

TESTS = pathlib.Path(__file__).resolve().parent
SDK, ROOT = TESTS.parent, TESTS.parent.parent
sys.path[:0] = [str(SDK), str(ROOT / "python")]

from tulgexar import bench_test, program  # noqa: E402


class Report:
    """Counts what is as wanted, and prints what isn't."""

    def __init__(self, name):
        self.name, self.good, self.bad = name, 0, 0

    def check(self, is_good, what, more=""):
        self.good += bool(is_good)
        self.bad += not is_good
        if not is_good:
            print(f"{self.name}: {what}{': ' if more else ''}{more}", flush=True)

    def end(self):
        """Prints the counts: the status."""
        print(f"{self.name}: {self.good} as wanted, {self.bad} not")
        return 1 if self.bad else 0


def built(*words, folder=SDK, environment=None):
    """Runs ta_cc.py in a folder: what has come of it."""
    command = [sys.executable, str(SDK / "ta_cc.py"), *map(str, words)]
    return subprocess.run(command, cwd=folder, env=environment, capture_output=True, text=True, check=False)


def played(script, file):
    """The lines of bench_test.py on a script, and whether all is as wanted."""
    case = bench_test.tested(str(script), bench_test.Programs(file, None))
    return bench_test.lines_on(case), case.compared > 0 and not case.failures


def panic_of(script, file):
    """What bench_test.py tells of the panic that a script isn't wanted to come to, or all that it tells."""
    lines, _ = played(script, file)
    return next((line for line in lines if "panic " in line), "\n".join(lines))


def assembled(text, file):
    """The digits that the word `asm` makes of a text."""
    return program.Program(file).run(["asm"], text).output

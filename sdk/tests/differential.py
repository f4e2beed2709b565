#!/usr/bin/env python3
"""Random programs, translated and run, against the same source on other machines.

A program is one of csmith or of dense.py, or edges.c. It is run under qemu-riscv32 (RV32IM, -O0) and on the host (-m32), and as an
image by machine.c; all have to leave the same checksum. Its number decides its kind, its level of optimisation, and whether it has
numbers of 64 bits. One in 50 is built as ta_cc.py builds, with the runtime as one program, and is run by the program FILE too, where
it is named.

It goes on from number FIRST until COUNT programs were compared, and prints each that differs, and at the end how many were compared,
and how many couldn't be: they have no end, or are too large. A line for each program goes to standard error with the word `all`,
and with `stop` the first that differs is the last.
Status: 0 where all are the same, 1 where one differs, 2 at other words, 3 where a program that is needed isn't there.
usage: differential.py [count=COUNT] [first=FIRST] [workers=N] [program=FILE] [all] [stop]
"""

import collections
import concurrent.futures
import itertools
import pathlib
import re
import resource
import shutil
import subprocess
import sys
import tempfile

HERE = pathlib.Path(__file__).resolve().parent
SDK = HERE.parent
sys.path[:0] = [str(SDK), str(HERE)]

import dense  # noqa: E402
from translator import Refused, build, toolchain  # noqa: E402
from tulgexar.words import BadWords, number, run  # noqa: E402

CSMITH = pathlib.Path("/usr/include/csmith")
PACKAGES = {"qemu-riscv32": "qemu-user", "gcc": "gcc-multilib", "csmith": "csmith"}
LEVELS, KINDS = ("s", "0", "1", "2", "3"), 4
SIZES = ("5 3 5", "3 4 5", "6 2 5", "2 2 8", "4 3 5", "3 2 6")  # of csmith: functions, depth of blocks, of expressions
OPTIONS = "--no-argc --no-float --max-array-dim 2 --max-array-len-per-dim 6"
SECONDS, MOST_STEPS = 2, 100_000_000
WHOLE = 50  # one of so many is built with the runtime as one program

COMMON = ["-w", "-Dmain=random_main", f"-I{HERE / 'csmith'}", f"-I{CSMITH}"]
OURS = [*COMMON, "-g0"]
RISCV = ["-march=rv32im", "-mabi=ilp32", "-O0", "-ffreestanding", "-nostdinc", f"-I{SDK / 'include'}"]
RISCV += ["-ffunction-sections", "-fno-builtin"]
RISCV_LINK = ["-nostdlib", "-static", "-Wl,--gc-sections", "-Wl,--no-relax", "-lgcc"]
HOST = ["-m32", "-O0", "-malign-double", "-funsigned-char", "-fwrapv", "-fno-strict-aliasing"]
UUID = "11111111-2222-3333-4444-555555555555"

# What came of a program: its number, one word, and more of it.
Verdict = collections.namedtuple("Verdict", "number word more")


class Fault(Exception):
    """What can't be compared, by one word, and why."""

    def __init__(self, word, why=""):
        super().__init__(why)
        self.word = word


def ran(command, seconds=60, text=None, folder=None):
    """What a command has printed, or None where it fails or takes more seconds of a processor."""

    def limit():
        resource.setrlimit(resource.RLIMIT_CPU, (seconds, seconds))

    command = [str(word) for word in command]
    done = subprocess.run(command, input=text, cwd=folder, capture_output=True, text=True, preexec_fn=limit, check=False)
    return done.stdout if done.returncode == 0 else None


class Bench:
    """A folder in which programs are built and run, with what all of them need."""

    def __init__(self, folder, program=None):
        self.folder, self.program = folder, program
        self.riscv_gcc = toolchain.tool("gcc")
        self.tools = toolchain.Build(folder / "common", HERE / "random", "s", OURS, is_quiet=True)
        self.tools.folder.mkdir()
        around = [HERE / "random/application.c", *toolchain.RUNTIME]
        self.around = self.tools.compile(around, is_whole=False)
        self.machine = folder / "machine"
        self.needed("cc", "-O2", "-o", self.machine, HERE / "machine.c")
        self.needed(self.riscv_gcc, *RISCV, "-DREFERENCE_RISCV", "-c", "-o", folder / "riscv.o", HERE / "random/reference.c")
        self.needed("gcc", *HOST, "-c", "-o", folder / "host.o", HERE / "random/reference.c")

    @staticmethod
    def needed(*command):
        if ran(command) is None:
            raise Refused(f"{command[0]} has refused {command[-1]}: {' and '.join(PACKAGES.values())} are needed")

    def compared(self, number):
        """The verdict on the program of a number."""
        folder = self.folder / str(number)
        folder.mkdir()
        try:
            return Verdict(number, "same", self.agreed(number, folder))
        except Fault as fault:
            return Verdict(number, fault.word, str(fault))
        finally:
            shutil.rmtree(folder)

    def agreed(self, number, folder):
        """What all machines have left of a program."""
        source = folder / "program.c"
        write_source(number, source)
        level = LEVELS[number % len(LEVELS)]
        wanted = self.wanted(source, folder)
        image = self.image(number, source, level, folder)
        came = self.by_machine(image)
        if came != wanted:
            raise Fault("DIFFERS", f"-O{level}: {wanted} is wanted, and {came} came")
        if self.program and number % WHOLE == 0 and self.by_program(image) != wanted:
            raise Fault("DIFFERS", f"-O{level}: the program gives {self.by_program(image)} where {wanted} is wanted")
        return f"{wanted} -O{level}"

    def wanted(self, source, folder):
        """The checksum of the other machines, which have to agree."""
        riscv, host = folder / "riscv", folder / "host"
        riscv_command = [self.riscv_gcc, *RISCV, *COMMON, "-o", riscv, source, self.folder / "riscv.o", *RISCV_LINK]
        if ran(riscv_command) is None or ran(["gcc", *HOST, *COMMON, "-o", host, source, self.folder / "host.o"]) is None:
            raise Fault("unbuilt", "a compiler of the other machines refuses it")
        on_host = ran([host], SECONDS)
        if on_host is None:
            raise Fault("endless")
        by_riscv = ran(["qemu-riscv32", riscv], SECONDS)
        if by_riscv is None:
            raise Fault("endless")
        if on_host != by_riscv:
            raise Fault("undecided", f"qemu gives {by_riscv.strip()}, the host {on_host.strip()}")
        return by_riscv.strip()

    def image(self, number, source, level, folder):
        """The image's file."""
        tools = toolchain.Build(folder, HERE / "random", level, OURS, is_quiet=True)
        is_whole = number % WHOLE == 0
        try:
            around = [HERE / "random/application.c", *toolchain.RUNTIME] if is_whole else []
            objects = tools.compile([source, *around], is_whole=is_whole)
            built = build.linked(tools, objects + ([] if is_whole else self.around))
        except Refused as refused:
            raise Fault("too-large" if "more than" in str(refused) else "REFUSED", str(refused)) from refused
        file = folder / "image.hex"
        file.write_text(build.image(built).hex() + "\n")
        return file

    def by_machine(self, image):
        done = subprocess.run([self.machine, image, str(MOST_STEPS)], capture_output=True, text=True, check=False)
        if done.stdout.startswith("long"):
            raise Fault("long")
        if done.stdout.startswith("panic 4 "):
            raise Fault("too-deep")
        value = re.match(r"value (\w{8}) ", done.stdout)
        return value[1] if value else done.stdout.strip()

    def by_program(self, image):
        """The checksum by a client's script, which the program plays."""
        script = f"boot 1 2 64\nta {UUID} {image.read_text().strip()}\nopen s {UUID}\ninvoke s 0 vio:0:0\nclose s\n"
        printed = ran([self.program, "client"], 600, script) or ""
        value = re.search(r"^invoke s 00000000 00000004 v:(\w{8}):", printed, re.MULTILINE)
        return value[1] if value else printed


def write_source(number, source):
    """Writes the program of a number."""
    if number == 0:
        source.write_text((HERE / "edges.c").read_text())
    elif number % KINDS == 0:
        source.write_text(dense.Writer(number).program())
    else:
        functions, blocks, expressions = SIZES[number % len(SIZES)].split()
        sizes = f"--max-funcs {functions} --max-block-depth {blocks} --max-expr-complexity {expressions}"
        narrow = "--no-longlong" if number // len(LEVELS) % 2 else ""
        words = f"{OPTIONS} {sizes} {narrow} --seed {number} -o {source}".split()
        if ran(["csmith", *words], SECONDS, folder=source.parent) is None:  # which leaves a file there
            raise Fault("unwritten")


def is_fault(verdict):
    return verdict.word.isupper()


def verdicts(bench, count, first, workers, stops):
    """The verdicts on programs from a number on, until as many were compared, or up to one that differs."""
    compared = 0
    with concurrent.futures.ProcessPoolExecutor(workers) as pool:
        for start in itertools.count(first, 4 * workers):
            numbers = range(start, start + 4 * workers)
            for verdict in pool.map(bench.compared, numbers):
                yield verdict
                compared += verdict.word == "same"
                if stops and is_fault(verdict):
                    return
            if compared >= count:
                return


def check_needed():
    """That what the programs are run by is there."""
    for name, package in PACKAGES.items():
        if shutil.which(name) is None:
            raise Refused(f"there is no {name}: `apt-get install {package}` brings it")
    if not (CSMITH / "safe_math.h").is_file():
        raise Refused("there is no /usr/include/csmith/safe_math.h: `apt-get install libcsmith-dev` brings it")


def words_of(words):
    given = {"count": 1000, "first": 0, "workers": 1, "program": None, "all": False, "stop": False}
    for word in words:
        name, equals, value = word.partition("=")
        if word in ("all", "stop"):
            given[word] = True
        elif equals and name in given and name not in ("all", "stop"):
            given[name] = pathlib.Path(value).resolve() if name == "program" else number(value)
        else:
            raise BadWords(f"{word} isn't served")
    return given


def main(words):
    given = words_of(words)
    counts = collections.Counter()
    try:
        check_needed()
        with tempfile.TemporaryDirectory() as folder:
            bench = Bench(pathlib.Path(folder), given["program"])
            for verdict in verdicts(bench, given["count"], given["first"], given["workers"], given["stop"]):
                counts[verdict.word] += 1
                if is_fault(verdict) or verdict.word in ("undecided", "unbuilt"):
                    print(*verdict, flush=True)
                elif given["all"]:
                    print(*verdict, file=sys.stderr, flush=True)
    except Refused as refused:
        print(f"differential.py: {refused}", file=sys.stderr)
        return 3
    others = ", ".join(f"{count} {word}" for word, count in sorted(counts.items()) if word != "same")
    print(f"{counts['same']} compared and the same; of the others: {others or 'none'}")
    return 1 if counts["DIFFERS"] or counts["REFUSED"] else 0


if __name__ == "__main__":
    run(main, __doc__)

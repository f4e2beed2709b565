#!/usr/bin/env python3
"""Mistakes in command lines and in files, and what ta_cc.py says of each: the status, one line of its own, no traceback, and no
file that it has written or touched.

Status: 0 where all is as wanted, 1 where something isn't, 2 at other words.
usage: refusals.py
"""

import os
import pathlib
import re
import subprocess
import sys
import tempfile

import bench
from tulgexar.words import BadWords, run

HEADER = (bench.TESTS / "random/user_ta_header_defines.h").read_text()
APPLICATION = (bench.TESTS / "random/application.c").read_text()
APPLICATION = APPLICATION.replace("int random_main(void);", "#define random_main() (checksum = 1)")
LARGE = "const unsigned table[9000] = {\n" + "".join(f"{k * 2654435761 % 2**32}u,\n" for k in range(1, 9001)) + "};\n"

# Words that aren't served, each with a part of what is said.
WORDS = {
    "": "a file of C is wanted",
    "-x good.c": "-x isn't served",
    "--pages": "--pages wants a word behind it",
    "good.c -o": "-o wants a word behind it",
    "-O9 good.c": "-O9 is none of",
    "-O -- good.c": "-O-- is none of",
    "--pages 0 good.c": "0 pages aren't 1 to 64",
    "--pages 65 good.c": "65 pages aren't 1 to 64",
    "--pages many good.c": "many is no number",
    "good.py": "good.py is neither a file of C nor an object",
    "good": "good is neither a file of C nor an object",
}

# Programs, each as another text of the application or of its header, with a part of what is said.
PROGRAMS = {
    "a file that isn't there": ("missing.c", {}, "missing.c: No such file or directory"),
    "a folder in the place of a file": ("folder.c", {}, "folder.c: Is a directory"),
    "no header": ("alone/good.c", {}, "user_ta_header_defines.h isn't there"),
    "an error of C": ("bad.c", {"bad.c": "int x = ;\n"}, "the compiler has refused bad.c"),
    "a function that isn't there": (
        "bad.c",
        {"bad.c": APPLICATION + "void f(void) { TEE_GenerateRandom(0, 0); }\n"},
        "the compiler has refused bad.c",
    ),
    "a function that nobody defines": (
        "bad.c",
        {"bad.c": "void g(void);\n" + APPLICATION.replace("(checksum = 1)", "g()")},
        "the linker has refused the program",
    ),
    "no entry point": ("bad.c", {"bad.c": "int x;\n"}, "the linker has refused the program"),
    "no UUID": ("good.c", {"user_ta_header_defines.h": HEADER.replace("TA_UUID", "TA_ID")}, "the compiler has refused header.c"),
    "another flag": (
        "good.c",
        {"user_ta_header_defines.h": HEADER.replace("TA_FLAG_EXEC_DDR", "0x100")},
        "TA_FLAGS has the bits 0x100",
    ),
    "an object that is none": ("bad.o", {"bad.o": "text\n"}, "bad.o is no ELF file of 32 bits for RISC-V"),
    "an object of another machine": ("host.o", {}, "host.o is no ELF file of 32 bits for RISC-V"),
    "an object cut short": ("cut.o", {}, "cut.o is cut short, or no ELF file of 32 bits"),
    "an instruction that isn't served": (
        "bad.c",
        {"bad.c": APPLICATION.replace("(checksum = 1)", '__asm__ volatile("ecall")')},
        r"\+0x[0-9a-f]+: the instruction 00000073 isn't served",
    ),
    "an image that is too large": (
        "bad.c",
        {"bad.c": LARGE + APPLICATION.replace("(checksum = 1)", "(checksum = ((volatile const unsigned *)table)[checksum])")},
        "[0-9]+ instructions are more than 8192",
    ),
    "a memory that is too large": (
        "good.c",
        {"user_ta_header_defines.h": HEADER.replace("TA_DATA_SIZE 0", "TA_DATA_SIZE 300000")},
        "[0-9]+ bytes, more than 64 pages",
    ),
    "a memory above the pages that are wanted": ("--pages 3 good.c", {}, "[0-9]+ bytes, more than 3 pages"),
    "a stack that is too small": (
        "bad.c",
        {"bad.c": APPLICATION.replace("(checksum = 1)", "({ volatile char room[70000]; room[checksum] = 1; })")},
        "calls need [0-9]+ bytes of stack, and TA_STACK_SIZE gives 65536",
    ),
    "a place that can't be written": ("-o nowhere/good good.c", {}, "nowhere/good.hex: No such file or directory"),
    "a place in a file": ("-o good.c/good good.c", {}, "good.c/good.hex: Not a directory"),
    "a linked program that can't be written": ("--keep nowhere/good.elf good.c", {}, "nowhere/good.elf: No such file or directory"),
}


def fill(folder, texts):
    """Writes the files that stand for all, and those of one row."""
    (folder / "alone").mkdir()
    (folder / "folder.c").mkdir()
    for name, text in {"good.c": APPLICATION, "alone/good.c": APPLICATION, "user_ta_header_defines.h": HEADER, **texts}.items():
        (folder / name).write_text(text)
    words = ["-w", f"-I{bench.SDK / 'include'}", "-c", folder / "good.c", "-o"]
    riscv = ["riscv64-unknown-elf-gcc", "-march=rv32em", "-mabi=ilp32e", "-nostdinc"]
    for command in (["cc", *words, folder / "host.o"], [*riscv, *words, folder / "whole.o"]):
        subprocess.run(command, capture_output=True, check=False)
    (folder / "cut.o").write_bytes((folder / "whole.o").read_bytes()[:200])


def files_in(folder):
    return {file: (file.stat().st_mtime_ns, file.read_bytes() if file.is_file() else b"") for file in folder.rglob("*")}


def check_row(report, what, words, texts, status, wanted, environment=None):
    with tempfile.TemporaryDirectory() as name:
        folder = pathlib.Path(name)
        fill(folder, texts)
        (folder / "good.hex").write_text("before\n")
        before = files_in(folder)
        done = bench.built(*words.split(), folder=folder, environment=environment)
        lines = done.stderr.splitlines()
        own = [line for line in lines if line.startswith("ta_cc.py: ")] if status == 1 else lines[:-1]
        report.check(done.returncode == status, f"{what}: the status is {status}", f"{done.returncode} {done.stderr[-300:]}")
        report.check(len(own) == 1 and re.search(wanted, own[0]), f"{what}: {wanted}", done.stderr[-300:])
        report.check("Traceback" not in done.stderr and not done.stdout, f"{what}: no traceback", done.stderr[-300:])
        report.check(files_in(folder) == before, f"{what}: no file is written")
        if status == 2:
            report.check(lines[-1:] and lines[-1].startswith("usage: ta_cc.py "), f"{what}: the usage line", done.stderr)


def check_no_compiler(report):
    """Without the compiler the package is named."""
    environment = os.environ | {"PATH": "/nowhere"}
    check_row(report, "no compiler", "good.c", {}, 1, "apt-get install gcc-riscv64-unknown-elf", environment)


def main(words):
    if words:
        raise BadWords()
    report = bench.Report("refusals.py")
    for given, wanted in WORDS.items():
        check_row(report, f"`{given}`", given, {}, 2, re.escape(wanted))
    for what, (given, texts, wanted) in PROGRAMS.items():
        check_row(report, what, given, texts, 1, wanted)
    check_no_compiler(report)
    return report.end()


if __name__ == "__main__":
    sys.exit(run(main, __doc__))

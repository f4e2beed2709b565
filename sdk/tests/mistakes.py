#!/usr/bin/env python3
"""Mistakes that are put into the translator, each of which the random programs have to find.

For each a copy of the sdk is made with the edit, and differential.py compares programs there until one differs, at most COUNT.
Status: 0 where each is found, 1 where one isn't, 2 at other words, 3 where a program that is needed isn't there.
usage: mistakes.py [count=COUNT]
"""

import pathlib
import shutil
import subprocess
import sys
import tempfile

import bench
from tulgexar.words import BadWords, number, run

# By its name: the file, what stands there, and what is put in its place.
MISTAKES = {
    "a comparison with signs is made without them": (
        "lowering.py",
        'self.put("bltu" if name == "blt" else "bgeu", a=first, b=second, imm=label)',
        'self.put("bltu" if name == "blt" else "bgeu", a=a, b=b, imm=label)',
    ),
    "the sign of a halfword is looked for at another bit": (
        "lowering.py",
        '0x80 if name == "lb" else 0x8000',
        '0x80 if name == "lb" else 0x4000',
    ),
    "a number is taken to be in its register behind a call": (
        "code.py",
        'return {"helper": SPARES, "setup": 0}.get(one.callee, CHANGED_BY_CALLS)',
        'return {"helper": SPARES, "setup": 0}.get(one.callee, CHANGED_BY_CALLS & ~0x1F0)',
    ),
    "what a called function reads is left out as dead": (
        "flow.py",
        "behind = 0 if step.callee is None else live[step.callee]",
        "behind = 0",
    ),
    "a high product loses a carry": ("helpers.py", "    shr 2 1 3\n    add X X 2\n", "    shr 2 1 3\n"),
    "a loop begins with what its first round knows": (
        "lowering.py",
        "is_from_anywhere = address in self.program.functions or address in self.program.taken or address in self.reached_backward",
        "is_from_anywhere = address in self.program.functions or address in self.program.taken",
    ),
    "a function that keeps registers on the stack has no frame": (
        "lowering.py",
        "return not (is_keeping or is_frame)",
        'return not (is_keeping or is_frame or one.name in ("lw", "sw"))',
    ),
    "an arithmetic shift by a number turns the sign back too far": (
        "lowering.py",
        "self.number(SIGN >> imm))",
        "self.number(SIGN >> imm - 1))",
    ),
    "a store of a halfword leaves its upper byte": (
        "lowering.py",
        'self.put("storeb", a=base, b=upper, imm=offset + 1)',
        'self.put("storeb", a=base, b=upper, imm=offset)',
    ),
}


def found_by(name, count):
    """What differential.py prints of a copy with a mistake, and its status."""
    file, old, new = MISTAKES[name]
    with tempfile.TemporaryDirectory() as folder:
        copy = pathlib.Path(folder, "sdk")
        shutil.copytree(bench.SDK, copy, ignore=shutil.ignore_patterns("__pycache__", "examples"))
        pathlib.Path(folder, "python").symlink_to(bench.ROOT / "python")
        edited = copy / "translator" / file
        text = edited.read_text()
        if text.count(old) != 1:
            raise BadWords(f"{file} doesn't have once: {old}")
        edited.write_text(text.replace(old, new))
        command = [sys.executable, copy / "tests/differential.py", f"count={count}", "stop"]
        done = subprocess.run(command, capture_output=True, text=True, check=False)
    return done.returncode, done.stdout + done.stderr


def main(words):
    counts = [number(word[6:]) for word in words if word.startswith("count=")]
    if len(counts) < len(words):
        raise BadWords()
    report = bench.Report("mistakes.py")
    for name in MISTAKES:
        status, said = found_by(name, counts[-1] if counts else 60)
        if status == 3:
            print(said, file=sys.stderr)
            return 3
        first = said.splitlines()[0] if said else ""
        print(f"{name}: {first[:150]}", flush=True)
        report.check(status == 1, f"{name} is found", said[-300:])
    return report.end()


if __name__ == "__main__":
    sys.exit(run(main, __doc__))

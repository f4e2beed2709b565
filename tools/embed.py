#!/usr/bin/env python3
"""Builds the library of crates/core_c and, with a C compiler, the programs of embed/ that use it, and compares what these print.

It needs a C compiler: the one that CC names, or else cc, gcc or clang. Where there is none it says so, and does nothing
else. What is built lies in a folder of its own, and goes away.
Status: 0 where all that is printed is what is wanted, or there is no compiler; 1 where something isn't, or there is no `rt`; 2 at words.
usage: embed.py
"""

import os
import pathlib
import shutil
import subprocess
import sys
import tempfile

import packaged  # noqa: F401  (where tulgexar is)
import shipped
from tulgexar.words import BadWords, run

EMBED = shipped.ROOT / "embed"
CRATE = shipped.ROOT / "crates/core_c"


def compiler():
    """The command of a C compiler, or None."""
    names = [os.environ.get("CC"), "cc", "gcc", "clang"]
    return next((name for name in names if name and shutil.which(name)), None)


def main(words):
    if words:
        raise BadWords()
    cc = compiler()
    if cc is None:
        print("no C compiler: nothing was built")
        return 0
    if shutil.which("rt") is None:
        print("embed.py: rt, the command of the toolchain that builds the library, isn't in PATH", file=sys.stderr)
        return 1
    subprocess.run(["rt", "lib"], cwd=CRATE, check=True, stdout=sys.stderr)
    with tempfile.TemporaryDirectory() as folder:
        subprocess.run(["make", "-s", f"CC={cc}", f"OUT={folder}"], cwd=EMBED, check=True)
        differing = [name for name in ("bench", "misuses") if not prints_as_wanted(pathlib.Path(folder, name))]
    for name in differing:
        print(f"embed/{name} prints something else than embed/{name}.out")
    print(f"2 compared, {len(differing)} differ")
    return 1 if differing else 0


def prints_as_wanted(program):
    done = subprocess.run([program], capture_output=True, check=False)
    return done.returncode == 0 and done.stdout == (EMBED / f"{program.name}.out").read_bytes()


if __name__ == "__main__":
    run(main, __doc__)

"""Runs scripts of a client as tests: those cases of bench_test.py, whatever their names.

SCRIPT is a script for the word `client`, or one from which lift.py makes such a script, so that an image may be named by its
file; `-` is standard input. FOLDER has several, also in folders in it, whose names end with `.client`. A comment line `#= LINE`, behind a call,
says what the call has to print; result and origin may be names of docs/formats.md:
    invoke s 0 vio:5:7
    #= invoke s SUCCESS TRUSTED_APP v:0000000c:00000000
A call without such a line may print anything. What is printed and the status are those of bench_test.py. The program is
FILE, the one that TULGEXAR_RUN names, or what `rt run` has built in crates/optee_run.
usage: client_test.py [program=FILE] SCRIPT|FOLDER..
"""

import os
import pathlib
import sys

from tulgexar import bench_test, program
from tulgexar.words import BadWords, refuse_absent, refuse_options, run

SUFFIX = ".client"


def scripts_of(names):
    """The scripts that the words name, those of a folder in the order of their names."""
    for name in names:
        folder = pathlib.Path(name)
        yield from (str(path) for path in bench_test.files_in(folder) if path.suffix == SUFFIX) if os.path.isdir(name) else [name]


def main(words):
    words = list(words)
    file = program.taken_from(words)
    refuse_options(words, "program=FILE")
    if not words:
        raise BadWords()
    programs = bench_test.Programs(program.found("optee_run", file), None)
    for name in words:
        if name != "-":
            refuse_absent(name)
    scripts = list(scripts_of(words))
    if not scripts:
        print(f"no script was found: their names end with {SUFFIX}", file=sys.stderr)
    cases = (bench_test.tested(path, programs, SUFFIX) for path in scripts)
    return bench_test.status_of(list(bench_test.told_cases(cases)))


if __name__ == "__main__":
    run(main, __doc__)

"""Counts the instructions of a program's run, by callgrind, and the bytes on its heap, by massif."""

import re
import subprocess
import sys
import tempfile

# The functions that make an entry and an exit of the core, with the granted steps between them.
SERVING = "entering::enter", "Work::run", "going_out::leave"


def counted(program, *words, given=b""):
    """How many instructions the program needs for these words and this input, and what it prints."""
    with tempfile.TemporaryDirectory() as folder:
        run = subprocess.run(
            ["valgrind", "--tool=callgrind", f"--callgrind-out-file={folder}/out", program, *words],
            input=given, capture_output=True, check=True,
        )
    return int(re.search(rb"Collected : (\d+)", run.stderr).group(1)), run.stdout


def costs(program, *words, given=b""):
    """How many instructions the program needs for these words and this input, in all and in each function with what it
    calls, and what it prints."""
    with tempfile.TemporaryDirectory() as folder:
        run = subprocess.run(
            ["valgrind", "--tool=callgrind", f"--callgrind-out-file={folder}/out", program, *words],
            input=given, capture_output=True, check=True,
        )
        told = subprocess.run(
            ["callgrind_annotate", "--inclusive=yes", "--threshold=100", "--show-percs=no", f"{folder}/out"],
            capture_output=True, check=True, text=True,
        ).stdout
    total = int(re.search(rb"Collected : (\d+)", run.stderr).group(1))
    found = re.findall(r"^ *([\d,]+) +\S*?:(\S+)", told, re.MULTILINE)
    return total, {name: int(cost.replace(",", "")) for cost, name in found}, run.stdout


def cost_of(functions, *ends):
    """What the functions with these ends of their names cost, of those that `costs` has found: each has to be there, as one that the compiler
    has put into its callers would count as nothing."""
    found = {end: [cost for name, cost in functions.items() if name.split("::<")[0].endswith(end)] for end in ends}
    missing = [end for end, some in found.items() if not some]
    if missing:
        sys.exit(f"no function's name ends with {' or '.join(missing)}: it has another name now, or stands in its callers")
    return sum(cost for some in found.values() for cost in some)


def most_heap(program, *words, given=b""):
    """The most bytes that the program has on the heap at once for these words and this input."""
    with tempfile.TemporaryDirectory() as folder:
        subprocess.run(
            ["valgrind", "--tool=massif", f"--massif-out-file={folder}/out", program, *words],
            input=given, capture_output=True, check=True,
        )
        with open(f"{folder}/out") as told:
            return max(int(taken) for taken in re.findall(r"^mem_heap_B=(\d+)$", told.read(), re.MULTILINE))

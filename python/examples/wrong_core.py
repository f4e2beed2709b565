#!/usr/bin/env python3
"""Stands for the program of a conversation whose core is wrong, to see that tests find it: it hands each line on to the right program, and
changes some answers.

Mistakes:
    resume    a resume of thread 1 for another client is answered OK, not ERESUME
    limit     a call for which no thread is free is answered OK, not ETHREAD_LIMIT
    result    an invoke in session 2 has its sum and 1
Without words the mistake is the one that WRONG_CORE names, and the program that of TULGEXAR_LIVE: so it stands for a program by itself.
usage: wrong_core.py [MISTAKE PROGRAM]
"""

import os
import subprocess
import sys

OK, ETHREAD_LIMIT, ERESUME = "00000000", "00000001", "00000003"
RPCS, RETURN_FROM_RPC = ("ffff0000", "ffff0002", "ffff0004", "ffff0005"), "32000003"
INVOKE, SUM_AT = 1, 40
CLOSED = ("ok", "bad", "full")


def resume(line, told):
    """Changes the answer to a resume of thread 1, where a call is suspended there."""
    words = line.split(" ")
    is_resume = words[0] == "smc" and words[3] == RETURN_FROM_RPC and words[6] == "1"
    return answered(told, ERESUME, OK) if is_resume and "1" in suspended else told


def limit(line, told):
    """Changes the answer to a call for which no thread is free."""
    return answered(told, ETHREAD_LIMIT, OK)


def result(line, told):
    """Changes the argument of an invoke in session 2 where it is shown."""
    if not told.startswith("mem "):
        return told
    head, _, digits = told.rpartition(" ")
    data = bytearray.fromhex(digits)
    if len(data) > SUM_AT and (data[0], data[8], data[20]) == (INVOKE, 2, 0):
        data[SUM_AT] = (data[SUM_AT] + 1) % 256
    return f"{head} {data.hex()}"


def answered(told, code, other):
    """A line `ret` with another code in the place of one."""
    words = told.split(" ")
    if words[0] == "ret" and words[2] == code:
        words[2] = other
    return " ".join(words)


suspended = set()  # threads in which calls are, by the answers


def note(told):
    """Keeps which threads have calls."""
    words = told.split(" ")
    if words[0] == "ret" and words[2] in RPCS:
        suspended.add(str(int(words[5], 16)))


def main(mistake, program):
    with subprocess.Popen([program], stdin=subprocess.PIPE, stdout=subprocess.PIPE, text=True, encoding="latin-1") as right:
        for line in sys.stdin:
            right.stdin.write(line)
            right.stdin.flush()
            told = ""
            while told.split(" ")[0] not in CLOSED:
                told = right.stdout.readline().rstrip("\n")
                print(MISTAKES[mistake](line.rstrip("\n"), told))
                note(told)
            sys.stdout.flush()
        right.stdin.close()
    return right.returncode


MISTAKES = {"resume": resume, "limit": limit, "result": result}

if __name__ == "__main__":
    words = sys.argv[1:] or [os.environ.get("WRONG_CORE", ""), os.environ.get("TULGEXAR_LIVE", "")]
    if len(words) != 2 or words[0] not in MISTAKES or not words[1]:
        sys.exit(f"no mistake of {', '.join(MISTAKES)} and no program: {' '.join(words)}\n{__doc__.splitlines()[-1]}")
    sys.exit(main(*words))

"""Translates a linked program for RISC-V (RV32EM) into an image for the machine of docs/formats.md.

    elf         the linked program's sections, symbols and relocations
    riscv       its instructions, functions and targets
    flow        which registers are read later
    code        instructions of the machine, as text and as an image
    lowering    one instruction of RISC-V becomes one to a few of the machine
    helpers     what is too long for that: signed division, high products
    cleanup     what is left out again
    stack       how deep calls go, and how much stack they need
    toolchain   the compiler, the linker, and lines of the source
"""

import pathlib
import sys

# The tables of docs/formats.md are those of the package tulgexar, on which the tools stand.
sys.path.insert(1, str(pathlib.Path(__file__).resolve().parents[2] / "python"))


class Refused(Exception):
    """A program that can't be built; the text says why, in one line."""

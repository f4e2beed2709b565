"""A linked ELF file of 32 bits for RISC-V: sections, symbols and relocations."""

import collections
import struct

from . import Refused

MAGIC, RISCV = b"\x7fELF\x01\x01", 243
SYMBOLS, RELOCATIONS, NO_BYTES = 2, 4, 8  # kinds of sections
ALLOCATED = 2  # the flag of a section that is in memory
FUNCTION = 2  # the kind of a symbol
ADDRESS_RELOCATIONS = (1, 23, 26, 35)  # R_RISCV_32, PCREL_HI20, HI20 and ADD32: the address of a symbol is taken

Section = collections.namedtuple("Section", "name kind flags address offset size link info")
Symbol = collections.namedtuple("Symbol", "name value kind")


def is_elf(data):
    """Whether bytes begin as an ELF file of 32 bits for RISC-V does."""
    return data[:6] == MAGIC and len(data) >= 52 and struct.unpack_from("<H", data, 18)[0] == RISCV


class Elf:
    """An ELF file, of which all is in memory."""

    def __init__(self, data, name):
        if not is_elf(data):
            raise Refused(f"{name} is no ELF file of 32 bits for RISC-V")
        self.data = data
        try:
            self.sections = self.read_sections()
            self.symbols = self.read_symbols()
        except (struct.error, IndexError, ValueError) as error:
            raise Refused(f"{name} is cut short, or no ELF file of 32 bits") from error

    def read_sections(self):
        (start,) = struct.unpack_from("<I", self.data, 32)
        size, count, names_at = struct.unpack_from("<3H", self.data, 46)
        heads = [struct.unpack_from("<10I", self.data, start + size * k) for k in range(count)]
        names = self.data[heads[names_at][4] :]
        return [Section(text_at(names, head[0]), *head[1:8]) for head in heads]

    def read_symbols(self):
        found = []
        for section in self.sections:
            if section.kind == SYMBOLS:
                names = self.bytes_of(self.sections[section.link])
                for name, value, _, info, _, _ in struct.iter_unpack("<IIIBBH", self.bytes_of(section)):
                    found.append(Symbol(text_at(names, name), value, info & 15))
        return found

    def bytes_of(self, section):
        return b"" if section.kind == NO_BYTES else self.data[section.offset : section.offset + section.size]

    def section(self, name):
        """The address and the bytes of a section, 0 and none where there is no such one."""
        found = next((section for section in self.sections if section.name == name), None)
        return (found.address, self.bytes_of(found)) if found else (0, b"")

    def addresses_taken(self):
        """The addresses that the program's code and data take, by the relocations of what is in memory."""
        found = set()
        for section in self.sections:
            if section.kind == RELOCATIONS and self.sections[section.info].flags & ALLOCATED:
                for _, info, addend in struct.iter_unpack("<IIi", self.bytes_of(section)):
                    if info & 255 in ADDRESS_RELOCATIONS:
                        found.add(self.symbols[info >> 8].value + addend & 0xFFFFFFFF)
        return found


def text_at(names, offset):
    return names[offset : names.index(b"\0", offset)].decode("latin-1")

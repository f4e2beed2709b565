"""The compiler and the linker of RISC-V, and which line of the source an address is of."""

import collections
import os
import pathlib
import shutil
import subprocess
import sys

from . import Refused
from .elf import Elf, is_elf

SDK = pathlib.Path(__file__).resolve().parent.parent
TOOLS = "riscv64-unknown-elf-"
RUNTIME = sorted((SDK / "runtime").glob("*.c"))
HEADER, MEMORY = SDK / "runtime/header.c", SDK / "runtime/memory.c"

# A function at an address, and where its code was written: 0 and no file where that isn't known.
Frame = collections.namedtuple("Frame", "function file line")

MACHINE = ["-march=rv32em", "-mabi=ilp32e"]
# A word of the machine has any alignment. A function isn't parted, and no caller knows more of one than the calling convention says,
# so that more registers are free for numbers.
CODE = "-ffreestanding -ffunction-sections -fdata-sections -fno-common -fno-jump-tables -fno-ipa-ra -fno-stack-protector".split()
CODE += "-fno-unwind-tables -fno-asynchronous-unwind-tables -fno-reorder-blocks-and-partition".split()
CODE += "-mno-strict-align -mtune=thead-c906".split()
LANGUAGE = "-std=gnu11 -nostdinc -gdwarf-4 -Wall -Werror=implicit-function-declaration".split()
WHOLE_PROGRAM, APART = ["-flto"], ["-fno-lto", "-fno-tree-loop-distribute-patterns"]
LINK = "-nostdlib -static -flto-partition=one -Wl,--gc-sections -Wl,--no-warn-rwx-segments -Wl,--emit-relocs".split()


def tool(name):
    """The path of a tool of the compiler."""
    found = shutil.which(TOOLS + name)
    if found is None:
        package = "gcc-riscv64-unknown-elf" if name == "gcc" else "binutils-riscv64-unknown-elf"
        raise Refused(f"there is no {TOOLS}{name}: `apt-get install {package}` brings it")
    return found


def started(command):
    return subprocess.Popen([str(word) for word in command], stdin=subprocess.DEVNULL, stderr=subprocess.PIPE)


def ended(process, what, is_quiet):
    """Waits for a process, and passes on what it has said."""
    said = process.communicate()[1].decode(errors="replace")
    if process.returncode or not is_quiet:
        sys.stderr.write(said)
    if process.returncode:
        raise Refused(f"the compiler has refused {what}" if what else "the linker has refused the program")


class Build:
    """Compiles and links into a folder, with what the words of the command say besides: a level, folders and macros. What the
    compiler warns of is passed on, unless it is to be quiet."""

    def __init__(self, folder, application, level, options, is_quiet=False):
        self.folder, self.application, self.gcc, self.is_quiet = folder, application, tool("gcc"), is_quiet
        self.flags = [*MACHINE, *CODE, *LANGUAGE, "-I", SDK / "include", "-I", application, *options]
        self.level = f"-O{level}"

    def compile(self, files, is_whole=True):
        """The objects of C files, which are compiled side by side, and those that are objects already. The linker makes one program
        of them and optimises it as a whole, unless they are to be what they are."""
        objects, running = [file for file in files if file.suffix == ".o"], []
        for file in objects:
            check_object(file)
        for number, file in enumerate(file for file in files if file.suffix != ".o"):
            objects.append(self.folder / f"{number}.o")
            mode = WHOLE_PROGRAM if is_whole and file not in (HEADER, MEMORY) else APART
            level = "-Os" if file in RUNTIME else self.level
            running.append((started([self.gcc, *self.flags, level, *mode, "-c", "-o", objects[-1], file]), file.name))
        for process, name in running:
            ended(process, name, self.is_quiet)
        return objects

    def link(self, objects, numbers, file):
        """The linked program, with the values of symbols that the linker's script takes."""
        symbols = [f"-Wl,--defsym={name}={value}" for name, value in numbers.items()]
        options = [*LINK, *symbols, "-Wl,-T", SDK / "application.ld", "-o", file]
        ended(started([self.gcc, *self.flags, self.level, *WHOLE_PROGRAM, *options, *objects, "-lgcc"]), None, self.is_quiet)
        return Elf(file.read_bytes(), file.name)


def check_object(file):
    try:
        data = file.read_bytes()
    except OSError as error:
        raise Refused(f"{file}: {error.strerror}") from error
    if not is_elf(data):
        raise Refused(f"{file} is no ELF file of 32 bits for RISC-V")


def lines_of(file, addresses, application):
    """The function, the file and the line of each address of a linked program. Of code of the runtime that was put into a function
    of the application these are the application's. Files of the application are named from its folder, those of the runtime behind
    `sdk/runtime/`."""
    asked = "".join(f"{address:#x}\n" for address in addresses)
    command = [tool("addr2line"), "-a", "-i", "-f", "-e", str(file)]
    said = subprocess.run(command, input=asked, capture_output=True, text=True, check=False).stdout
    frames = {address: [] for address in addresses}
    words = collections.deque(said.splitlines())
    while words:
        if words[0].startswith("0x"):
            here = frames[int(words.popleft(), 16)]
        else:
            here.append(frame_of(words.popleft(), words.popleft(), application))
    homes = {frame.function: frame.file for found in frames.values() for frame in found if frame.file}
    return {address: told_of(found, homes) for address, found in frames.items()}


def frame_of(function, place, application):
    """A frame as addr2line tells it; what the compiler has made itself has no file."""
    name, _, line = place.partition(" (")[0].rpartition(":")
    number = int(line) if line.isdecimal() else 0
    if "<" in name or name.startswith("?"):
        return Frame(function, "", number)
    path = pathlib.Path(os.path.normpath(SDK / name))
    if path.is_relative_to(SDK / "runtime"):
        return Frame(function, f"sdk/runtime/{path.name}", number)
    return Frame(function, os.path.relpath(path, application) if path.is_file() else path.name, number)


def told_of(frames, homes):
    """The innermost frame of the application, or of the runtime's functions, or the innermost one."""
    placed = [frame._replace(file=frame.file or homes.get(frame.function, "")) for frame in frames]
    own = [frame for frame in placed if frame.file and not frame.file.startswith("sdk/")]
    calling = [frame for frame in placed if not frame.file.endswith("machine.h")]
    return (own or calling or placed)[0]

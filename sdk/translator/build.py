"""From C to an image: compiled, linked, translated, and what is told of it."""

import collections
import struct

from tulgexar import formats

from . import Refused, cleanup, code, lowering, stack, toolchain
from .elf import Elf
from .riscv import Program

MOST_PINNED = 4

# What a build takes beside its files. `pages` is 0 for as many as are needed.
Options = collections.namedtuple("Options", "level include define pages", defaults=("s", (), (), 0))

# What user_ta_header_defines.h says.
Header = collections.namedtuple("Header", "flags stack heap uuid")

# What is built: instructions with labels, the head of the image, and what the program needs.
# `file` is the linked program, and `application` the folder of its source.
Built = collections.namedtuple("Built", "items header pages depth data_bytes program file application")


def build(files, options, folder):
    """Builds an application of C files and objects; the first one's folder has user_ta_header_defines.h."""
    application = files[0].resolve().parent
    header = application / "user_ta_header_defines.h"
    if not header.is_file():
        raise Refused(f"{header} isn't there: it names the application's UUID, flags, stack and heap")
    words = [f"-I{one}" for one in options.include] + [f"-D{one}" for one in options.define]
    tools = toolchain.Build(folder, application, options.level, words)
    return linked(tools, tools.compile([*files, *toolchain.RUNTIME]), options.pages)


def linked(tools, objects, wanted_pages=0):
    """Links objects, of which one is that of the header, and translates the program."""
    header = header_of(objects)
    file = tools.folder / "program.elf"
    elf = tools.link(objects, {"__stack": header.stack, "__heap": header.heap, "__pages": wanted_pages}, file)
    program = Program(elf)
    pages = pages_of(program, wanted_pages)
    items, frameless = smallest(program)
    entries = [program.names[f"__ta_{name}"] for name in formats.ENTRIES]
    depth = stack.depth_of(program, items, frameless, entries)
    built = Built(items, header, pages, depth, len(elf.section(".data")[1]), program, file, tools.application)
    check(built)
    return built


def header_of(objects):
    """What the header's object says."""
    for file in objects:
        numbers = Elf(file.read_bytes(), file.name).section(".ta_header")[1]
        if numbers:
            flags, size, heap, low, mid, high = struct.unpack_from("<4I2H", numbers)
            rest = numbers[20:28].hex()
            if flags & ~formats.FLAGS:
                raise Refused(f"TA_FLAGS has the bits {flags & ~formats.FLAGS:#x}, for which the machine has nothing")
            return Header(flags, size + 15 & ~15, heap, f"{low:08x}-{mid:04x}-{high:04x}-{rest[:4]}-{rest[4:]}")
    raise Refused("no object has the application's header")


def pages_of(program, wanted):
    """The pages of the instance's memory."""
    needed = -(-program.names["__needed"] // lowering.PAGE)
    most = wanted or formats.MOST_PAGES
    if needed > most:
        raise Refused(f"stack, data and heap are {program.names['__needed']} bytes, more than {most} pages of {lowering.PAGE}")
    return wanted or needed


def smallest(program):
    """The translation, with those numbers in registers for good by which it becomes smaller; and the functions without a frame."""
    live, pinned = program.live(), {}
    items = translated(program, pinned, live)
    for register in lowering.unused(program)[-MOST_PINNED:][::-1]:
        value = most_loaded(items, pinned)
        if value is None:
            break
        tried = pinned | {register: value}
        better = translated(program, tried, live)
        if len(code.instructions_of(better)) >= len(code.instructions_of(items)):
            break
        pinned, items = tried, better
    return items, lowering.frameless_functions(program)


def translated(program, pinned, live):
    return cleanup.cleaned(lowering.lowered(program, pinned, live), {code.ZERO: 0} | pinned)


def most_loaded(items, pinned):
    """The number that is loaded most often, or None."""
    loads = [one.imm for one in code.instructions_of(items) if one.op == "const" and isinstance(one.source, int)]
    counts = collections.Counter(value for value in loads if value and value not in pinned.values())
    return counts.most_common(1)[0][0] if counts else None


def check(built):
    """Refuses what the machine can't have."""
    count = len(code.instructions_of(built.items))
    if count > formats.MOST_INSTRUCTIONS:
        raise Refused(f"{count} instructions are more than {formats.MOST_INSTRUCTIONS}")
    needed = built.depth.stack
    if needed is not None and needed > built.header.stack:
        raise Refused(f"calls need {needed} bytes of stack, and TA_STACK_SIZE gives {built.header.stack}")


def warnings(built):
    """What may end in a panic when it is run."""
    if built.depth.cycle:
        ends = f"calls may go deeper than {stack.MOST_CALLS}, which is panic 4, or need more stack, which is panic 1"
        yield f"{ends}: {built.depth.cycle}"
    elif built.depth.calls > stack.MOST_CALLS:
        yield f"calls go {built.depth.calls} deep, and a call with {stack.MOST_CALLS} on the stack is panic 4"
    for function in built.depth.unsized:
        yield f"the stack of {function} has no fixed size, and one that is too small is panic 1"


def figures(built):
    """A line of what the image needs."""
    count, depth = len(code.instructions_of(built.items)), built.depth
    told = [f"{count} instructions of {formats.MOST_INSTRUCTIONS}, for {len(built.program.code)} of RISC-V"]
    told[0] += f" and {built.data_bytes} bytes of data"
    if not depth.cycle:
        told.append(f"calls {depth.calls} deep of {stack.MOST_CALLS}, stack {depth.stack} of {built.header.stack}")
    return "; ".join([*told, f"{built.pages} page{'s' if built.pages > 1 else ''}"])


# What is written.


def text_and_map(built):
    """The assembler text, with a comment where another line of the source begins, and the map of the image's places."""
    instructions = code.instructions_of(built.items)
    addresses = sorted({one.source for one in instructions if isinstance(one.source, int)})
    lines = toolchain.lines_of(built.file, addresses, built.application)
    told, before = {}, None
    for place, one in enumerate(instructions):
        here = told_at(lines[one.source]) if isinstance(one.source, int) else f"({one.source})"
        if here != before:
            told[place], before = here, here
    head = [f"# UUID {built.header.uuid}", f".flags {built.header.flags}", f".pages {built.pages}"]
    head += [f".entry {name} entry_{name}" for name in formats.ENTRIES]
    return code.text_of(built.items, head, told), "".join(f"{place} {text}\n" for place, text in told.items())


def told_at(frame):
    """A frame in words: the function, and the file and the line where they are known."""
    return f"{frame.function} {frame.file}:{frame.line}" if frame.file else frame.function


def image(built):
    return code.image_of(built.items, built.header.flags, built.pages)

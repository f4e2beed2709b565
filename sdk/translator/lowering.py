"""From instructions of RISC-V to those of the machine, from the first to the last.

The machine has no operands that are numbers: a number stands in a register. Most of the work here is to know which registers hold
which numbers, to take one that does, and else to load the number into a register that nobody reads later.
"""

from tulgexar import formats

from . import Refused, helpers
from .code import (
    CHANGED_BY_CALLS,
    FIRST_SPARE,
    REGISTER_OF,
    RETURN,
    SECOND_SPARE,
    STACK,
    ZERO,
    Instruction,
    changes,
)
from .flow import mask
from .riscv import NAMES_OF_BRANCHES, RA, SP, WORD

SIGN = 0x80000000
TRAP, NO_FUNCTION = 16, 17  # codes of panics: a trap that the compiler put in, and a call of what is no function
FAR = 1 << 30  # a place behind all others
PAGE = 4096

SAME = {"mul": "mul", "divu": "div", "remu": "rem", "and": "and", "or": "or", "xor": "xor", "sll": "shl", "srl": "shr"}
WITH_NUMBER = {"andi": "and", "ori": "or", "xori": "xor", "slli": "shl", "srli": "shr"}
BY_HELPER = ("div", "rem", "mulh", "mulhsu", "mulhu")
LOADS = ("lb", "lh", "lw", "lbu", "lhu")
STORES = ("sb", "sh", "sw")

# The registers that may hold a number for a while, where nobody reads later what they have.
POOL = (SECOND_SPARE, FIRST_SPARE, *range(11))


class Lowering:
    """The code of a program, which is gathered in `items`: instructions, and labels as texts. `pinned` has the numbers that some
    registers hold for good, from the setup on, and `live` the registers of RISC-V that are read later, in front of each address."""

    def __init__(self, program, pinned, live):
        self.program, self.pinned = program, pinned
        self.live = {address: machine_mask(registers) for address, registers in live.items()}
        self.pool = [register for register in POOL if register not in pinned]
        self.items, self.helpers, self.skipped = [], set(), set()
        self.always = {ZERO: 0} | pinned
        self.known = dict(self.always)
        self.known_at, self.busy, self.source = {}, 0, ""
        self.labels = 0
        self.scratch = program.names["__scratch"]
        self.frameless = frameless_functions(program)
        self.reached_backward = {one.imm for address, one in program.code.items() if is_backward(address, one)}
        self.rewritten = self.places_of_rewriting()

    # What the code is made of.

    def put(self, op, d=0, a=0, b=0, imm=0, callee=""):
        """Emits an instruction. What it writes isn't taken for a number before the end of the instruction of RISC-V."""
        one = Instruction(op, d, a, b, imm & WORD if isinstance(imm, int) else imm, self.source, callee)
        self.items.append(one)
        changed = changes(one)
        self.busy |= changed if op not in ("call", "jump") else 0
        self.forget(changed)
        if op == "const":
            self.known[d] = one.imm

    def forget(self, registers):
        self.known = {register: value for register, value in self.known.items() if not registers >> register & 1} | self.always

    def holder(self, value):
        """A register that holds a number already, one for good before others, or None."""
        value &= WORD
        return next((register for register, held in {**self.always, **self.known}.items() if held == value), None)

    def number(self, value):
        """A register that holds the number: one that does already, or one that nobody reads later."""
        found = self.holder(value)
        return self.load_number(value) if found is None else found

    def load_number(self, value):
        register = self.free()
        self.items.append(Instruction("const", register, imm=value & WORD, source=self.source))
        self.known[register] = value & WORD
        return register

    def free(self, *others, spared=None):
        """A register for a number or for a part of a result, of which nobody reads what it has: that which keeps it for longest.
        The one that is spared is taken last."""
        taken = self.busy | self.live_here | mask(*others)
        free = [register for register in self.pool if not taken >> register & 1]
        if not free:
            raise Refused(f"{self.program.where(self.address)}: no register is left for a number")
        ahead = {register: self.rewritten[register][self.address] for register in free}
        return max(free, key=lambda register: (register != spared, register not in self.known, ahead[register]))

    def part(self, *others, spared=None):
        """A register for a part of a result; it keeps it to the end of the instruction of RISC-V."""
        register = self.free(*others, spared=spared)
        self.busy |= mask(register)
        return register

    def label(self):
        self.labels += 1
        return f"S{self.labels}"

    def places_of_rewriting(self):
        """For each register and address, the number of instructions until the register gets another value."""
        found = {register: {} for register in self.pool}
        ahead = dict.fromkeys(self.pool, FAR)
        for address in reversed(self.program.code):
            one = self.program.code[address]
            ahead = {register: count + 1 for register, count in ahead.items()}
            written = CHANGED_BY_CALLS if one.name in ("jal", "jalr") else mask(REGISTER_OF.get(one.rd, ZERO))
            for register in self.pool:
                if written >> register & 1:
                    ahead[register] = 0
                found[register][address] = ahead[register]
        return found

    # From the first instruction to the last.

    def lower(self):
        for address, one in self.program.code.items():
            self.address, self.source = address, address
            if address in self.program.targets:
                self.arrive(address)
            if address not in self.skipped:
                self.busy, self.live_here = 0, self.live[address] | mask(*operands_of(one))
                self.instruction(address, one)
            if falls_through(one):
                self.meet(address + 4)
            else:
                self.known = dict(self.always)
        return self.items

    def arrive(self, address):
        """A place that is reached from elsewhere: what is known is what all ways to it know."""
        self.entries(address)
        self.items.append(label_of(self.program, address))
        is_from_anywhere = address in self.program.functions or address in self.program.taken or address in self.reached_backward
        self.known = dict(self.always) if is_from_anywhere else self.known_at.get(address, dict(self.always))

    def entries(self, address):
        """The entry points that begin at a function: each sets up the registers, and goes on into it."""
        named = [name for name in formats.ENTRIES if self.program.names[f"__ta_{name}"] == address]
        if "create" in named:  # the first of them
            self.items.append("entry_create")
            self.data()
        self.items += [f"entry_{name}" for name in named if name != "create"]
        if named:
            self.items.append(Instruction("call", imm="setup", source="setup", callee="setup"))

    def data(self):
        """Stores the program's data: zeros are there already, and words of one number stand behind each other."""
        start, data = self.program.elf.section(".data")
        words = [int.from_bytes(data[at : at + 4], "little") for at in range(0, len(data), 4)]
        held = None
        for value, place in sorted((value, start + 4 * k) for k, value in enumerate(words) if value):
            if value != held:
                self.items.append(Instruction("const", FIRST_SPARE, imm=value, source="data"))
            self.items.append(Instruction("storew", a=ZERO, b=FIRST_SPARE, imm=place, source="data"))
            held = value

    def meet(self, address):
        """What is known here is known at an address that may follow, where all other ways to it know it too."""
        if address in self.program.targets:
            before = self.known_at.get(address, self.known)
            self.known_at[address] = {register: value for register, value in before.items() if self.known.get(register) == value}

    def setup(self):
        """What each entry point begins with: the stack, and the numbers that are there for good."""
        self.items.append("setup")
        self.items.append(Instruction("const", STACK, imm=self.program.names["__stack"], source="setup"))
        for register, value in self.pinned.items():
            self.items.append(Instruction("const", register, imm=value, source="setup"))
        self.items.append(Instruction("ret", source="setup"))

    def instruction(self, address, one):
        name, d = one.name, REGISTER_OF[one.rd]
        a, b = self.stand_in(REGISTER_OF[one.rs1]), self.stand_in(REGISTER_OF[one.rs2])
        if self.is_left_out(address, one):
            return
        if name in ("jal", "jalr"):
            self.jump(address, one, a)
        elif name in NAMES_OF_BRANCHES:
            self.branch(name, a, b, label_of(self.program, one.imm))
            self.meet(one.imm)
        elif name in STORES:
            self.store(name, a, b, one.imm)
        elif name == "sys":
            self.put("sys", imm=one.imm)
        elif name == "trap":
            self.panic(TRAP)
        elif name in LOADS:
            self.load(name, d if one.rd else self.part(), a, one.imm)
        elif one.rd:
            self.value(address, name, d, a, b, one.imm)

    def stand_in(self, register):
        """A register that holds the same number for good, so that nobody may need to load it, or the register itself."""
        value = self.known.get(register)
        held = next((other for other, held in self.always.items() if held == value), None)
        return register if value is None or held is None else held

    def is_left_out(self, address, one):
        """Whether the machine needs nothing of an instruction: ra is kept and brought back by the machine itself, and a function
        that keeps nothing else on the stack has no frame."""
        if one.name == "nop":
            return True
        if one.name == "addi" and one.rd == one.rs1 == SP and self.program.function_at(address) in self.frameless:
            return True
        return not self.program.uses_ra and one.name in ("lw", "sw", "li") and RA in (one.rd, one.rs2)

    def panic(self, code):
        self.put("const", 0, imm=code)
        self.put("sys", imm=1)

    # Values.

    def value(self, address, name, d, a, b, imm):
        if name == "li":
            self.put("const", d, imm=imm)
        elif name == "addi":
            self.add_number(d, a, imm)
        elif name in ("add", "sub"):
            self.add(name, d, a, b)
        elif name in SAME:
            self.put(SAME[name], d, a, b)
        elif name == "slli" and self.is_widening(address, imm):
            self.widen(address, d, a, imm)
        elif name in WITH_NUMBER:
            self.put(WITH_NUMBER[name], d, a, self.number(imm))
        elif name in ("sra", "srai"):
            self.shift_signed(d, a, b if name == "sra" else None, imm)
        elif name in BY_HELPER:
            self.by_helper(name, d, a, b)
        else:
            self.compare(name, d, a, b, imm)

    def add_number(self, d, a, imm):
        if a in self.known:
            if self.known.get(d) != self.known[a] + imm & WORD:
                self.put("const", d, imm=self.known[a] + imm)
        elif imm == 0:
            self.move(d, a)
        elif self.holder(imm) is None and (self.holder(-imm) is not None or imm < 0):
            self.put("sub", d, a, self.number(-imm))
        else:
            self.put("add", d, a, self.number(imm))

    def move(self, d, a):
        if d != a:
            self.put("move", d, a)

    def add(self, name, d, a, b):
        if name == "add" and ZERO in (a, b):
            self.move(d, b if a == ZERO else a)
        elif name == "sub" and b == ZERO:
            self.move(d, a)
        else:
            self.put(name, d, a, b)

    def shift_signed(self, d, a, b, imm):
        """An arithmetic shift: that of the number with its sign turned, less that of the sign."""
        if b is None and imm == 31:
            self.put("shr", d, a, self.number(31))
            self.put("sub", d, ZERO, d)
        elif b is None:
            self.put("xor", d, a, self.number(SIGN))
            self.put("shr", d, d, self.number(imm))
            self.put("sub", d, d, self.number(SIGN >> imm))
        else:
            sign = self.number(SIGN)
            first = self.part(sign)
            self.put("xor", first, a, sign)
            second = self.part(spared=sign)
            self.put("shr", second, sign, b)
            self.put("shr", first, first, b)
            self.put("sub", d, first, second)

    def is_widening(self, address, imm):
        """Whether the next instruction shifts back what this one shifts to the left."""
        one, following = self.program.code[address], self.program.code.get(address + 4)
        if following is None or address + 4 in self.program.targets or following.name not in ("srli", "srai"):
            return False
        return following.rd == one.rd == following.rs1 and following.imm == imm

    def widen(self, address, d, a, imm):
        self.skipped.add(address + 4)
        self.put("and", d, a, self.number(WORD >> imm))
        if self.program.code[address + 4].name == "srai":
            self.extend(d, SIGN >> imm)

    def extend(self, d, sign):
        """Extends the sign of a number below twice its sign bit."""
        half = self.number(sign)
        self.put("xor", d, d, half)
        self.put("sub", d, d, half)

    def by_helper(self, name, d, a, b):
        """A helper takes its operands in the two spare registers, and gives its result in the first."""
        self.helpers.add(name)
        self.move(FIRST_SPARE, a)
        self.move(SECOND_SPARE, b)
        self.put("call", imm=helpers.label_of(name), callee="helper")
        self.move(d, FIRST_SPARE)

    # Comparisons.

    def compare(self, name, d, a, b, imm):
        """d = 1 where the first is below the second, else 0."""
        if name in ("slt", "slti"):
            first, second = self.compared(a, b if name == "slt" else None, imm)
        else:
            first, second = a, b if name == "sltu" else self.number(imm)
        end = self.label()
        if first == ZERO and d == second:
            self.put("beq", a=d, b=ZERO, imm=end)
            self.put("const", d, imm=1)
        else:
            made = d if d not in (first, second) else self.part(second)
            self.put("const", made, imm=1)
            self.put("bltu", a=first, b=second, imm=end)
            self.put("const", made, imm=0)
            self.items.append(end)
            self.forget(mask(made))
            return self.move(d, made)
        self.items.append(end)
        return self.forget(mask(d))

    def compared(self, a, b, imm=0):
        """Registers whose order without signs is that of two numbers with signs; the second is a number where b is None."""
        first = self.flipped(a)
        return first, self.flipped(b) if b is not None else self.number(imm ^ SIGN)

    def flipped(self, register):
        """A register with a number whose sign bit is turned."""
        if register in self.known:
            made = self.number(self.known[register] ^ SIGN)
            self.busy |= mask(made)
        else:
            sign = self.number(SIGN)
            made = self.part(spared=sign)
            self.put("xor", made, register, sign)
        return made

    def branch(self, name, a, b, label):
        if name in ("blt", "bge") and b == ZERO:
            self.put("bgeu" if name == "blt" else "bltu", a=a, b=self.number(SIGN), imm=label)
        elif name in ("blt", "bge"):
            first, second = self.compared(a, b)
            self.put("bltu" if name == "blt" else "bgeu", a=first, b=second, imm=label)
        else:
            self.put(name, a=a, b=b, imm=label)

    # Memory. A word of the machine has any alignment; a halfword is read as a word where that is known to lie in memory.

    def place(self, a, imm):
        """A base and an offset."""
        return (ZERO, self.known[a] + imm & WORD) if a in self.known else (a, imm)

    def load(self, name, d, a, imm):
        base, offset = self.place(a, imm)
        if name in ("lw", "lbu", "lb"):
            self.put("loadw" if name == "lw" else "loadb", d, base, imm=offset)
        else:
            self.load_half(d, base, offset)
        if name in ("lb", "lh"):
            self.extend(d, 0x80 if name == "lb" else 0x8000)

    def load_half(self, d, base, offset):
        if base == STACK or base == ZERO and offset + 4 <= self.program.names["__heap_start"]:
            self.put("loadw", d, base, imm=offset)
            return self.put("and", d, d, self.number(0xFFFF))
        upper = self.part()
        self.put("loadb", upper, base, imm=offset + 1)
        self.put("shl", upper, upper, self.number(8))
        lower = d if d != upper else self.part()
        self.put("loadb", lower, base, imm=offset)
        return self.put("or", d, upper, lower)

    def store(self, name, a, b, imm):
        base, offset = self.place(a, imm)
        self.put("storew" if name == "sw" else "storeb", a=base, b=b, imm=offset)
        if name == "sh":
            upper = b if b == ZERO else self.part()
            if b != ZERO:
                self.put("shr", upper, b, self.number(8))
            self.put("storeb", a=base, b=upper, imm=offset + 1)

    # Calls.

    def jump(self, address, one, a):
        if one.rd not in (0, RA):
            raise Refused(f"{self.program.where(address)}: a call that keeps its way back in another register than ra isn't served")
        op = "call" if one.rd else "jump"
        if one.name == "jalr" and one.rs1 == RA and one.rd == 0:
            return self.put("ret")
        target = one.imm if one.name == "jal" else self.program.far_target(address, one)
        if target is not None:
            self.put(op, imm=label_of(self.program, target))
            return self.meet(target)
        self.helpers.add("dispatch")
        self.add_number(FIRST_SPARE, a, one.imm)
        return self.put(op, imm="dispatch", callee="pointer")

    # What the program needs beside its own code.

    def needed(self):
        """The setup, and the helpers that are called."""
        self.setup()
        if "dispatch" in self.helpers:
            self.dispatch()
        for name in sorted(self.helpers & set(helpers.TEXTS)):
            self.items += helpers.items_of(name, self.scratch)
        return self.items

    def dispatch(self):
        """Goes to the function whose address is in the first spare register, where that is the address of one."""
        self.source, self.known = "dispatch", dict(self.always)
        self.items.append("dispatch")
        for address in self.program.taken:
            self.put("const", SECOND_SPARE, imm=address)
            self.put("beq", a=FIRST_SPARE, b=SECOND_SPARE, imm=label_of(self.program, address))
        self.panic(NO_FUNCTION)


def label_of(program, address):
    return f"L{(address - program.start) // 4}"


def machine_mask(registers):
    """A mask of registers of RISC-V as one of the machine's."""
    return mask(*(here for there, here in REGISTER_OF.items() if registers >> there & 1))


def operands_of(one):
    return REGISTER_OF[one.rs1], REGISTER_OF[one.rs2]


def is_backward(address, one):
    return (one.name == "jal" or one.name in NAMES_OF_BRANCHES) and one.imm <= address


def falls_through(one):
    return not (one.name in ("jal", "jalr") and one.rd == 0 or one.name == "trap" or one.name == "sys" and one.imm in (0, 1))


def frameless_functions(program):
    """The functions that use the stack's pointer for nothing but to keep ra, which they needn't, and into which nobody goes."""
    if program.uses_ra:
        return set()
    using = {program.function_at(address) for address, one in program.code.items() if is_use_of_stack(one)}
    for address, one in program.code.items():
        if one.name == "jal" or one.name in NAMES_OF_BRANCHES:
            here, there = program.function_at(address), program.function_at(one.imm)
            if here != there and one.imm != there:
                using |= {here, there}
    taken = {program.function_at(address) for address in program.taken if address not in program.functions}
    return set(program.starts) - using - taken


def is_use_of_stack(one):
    """Whether an instruction uses the stack's pointer for more than a frame's size and the keeping of ra."""
    if SP not in (one.rd, one.rs1, one.rs2):
        return False
    is_keeping = one.name == "sw" and one.rs1 == SP and one.rs2 == RA or one.name == "lw" and one.rs1 == SP and one.rd == RA
    is_frame = one.name == "addi" and one.rd == one.rs1 == SP
    return not (is_keeping or is_frame)


def unused(program):
    """The registers of the machine that nothing in a program uses."""
    used = mask(*(REGISTER_OF[register] for one in program.code.values() for register in (one.rd, one.rs1, one.rs2)))
    used |= mask(0, 1, 2, STACK, ZERO, FIRST_SPARE, SECOND_SPARE)
    if not program.uses_ra:
        used &= ~mask(RETURN)
    return [register for register in range(formats.REGISTERS) if not used >> register & 1]


def lowered(program, pinned, live):
    """All items of a program."""
    lowering = Lowering(program, pinned, live)
    lowering.lower()
    return lowering.needed()

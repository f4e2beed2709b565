#!/usr/bin/env python3
"""Writes a random C program that is dense in operations of all widths and signs, without undefined behaviour.

An odd SEED gives one without 64 bits. The program is a function random_main, which leaves a number in `checksum`.
usage: dense.py SEED
"""

import random
import sys

TYPES = {f"{sign}int{bits}_t": bits for bits in (8, 16, 32, 64) for sign in ("", "u")}
EDGES = (0, 1, 2, 3, 7, 10, 127, 128, 255, 256, 1000, 32767, 32768, 65535, 0x7FFFFFFF, 0x80000000, 0xFFFFFFFF)
FUNCTIONS, NUMBERS, POINTERS = 10, 6, 3
READ = ["b8[{} & 63]", "s8[{} & 63]", "h16[{} & 31]", "s16[{} & 31]", "w32[{} & 15]"]
READ += ["odd[{} & 7].h", "odd[{} & 7].w", "odd[{} & 7].bits"]
WRITTEN = [*READ, "odd[{} & 7].b"]
HEAD = """#include <stdint.h>
extern uint32_t checksum;
static volatile uint32_t in[16] = { %s };
static uint8_t b8[64];
static int8_t s8[64] = { 1, -1, 2, -2, 127, -128 };
static uint16_t h16[32] = { 65535, 1 };
static int16_t s16[32] = { -1, 5 };
static uint32_t w32[16];
static struct __attribute__((packed)) { uint8_t b; int16_t h; uint32_t w; int bits : 11; unsigned more : 21; } odd[8];
static void mix(uint64_t v)
{
\tchecksum = (checksum << 5 | checksum >> 27) ^ (uint32_t)v;
\tchecksum = checksum * 2654435761u + (uint32_t)(v >> 32);
}
"""
TAIL = """int random_main(void)
{
\tfor (int n = 0; n < 4; n++) {
%s
\t\tin[n + 4] = checksum;
\t}
\tfor (int k = 0; k < 64; k++)
\t\tmix(b8[k] + s8[k] * 3 + h16[k & 31] + (uint32_t)s16[k & 31] + w32[k & 15]);
\treturn 0;
}
"""


class Writer:
    """Writes the program of a seed."""

    def __init__(self, seed):
        self.random = random.Random(seed)
        self.types = [name for name, bits in TYPES.items() if bits < 64 or seed % 2 == 0]

    def one_of(self, *choices):
        return self.random.choice(choices)

    def type(self):
        return self.random.choice(self.types)

    def number(self):
        return f"{self.one_of(*EDGES, self.random.getrandbits(32), self.random.getrandbits(12))}U"

    def variable(self):
        return f"v{self.random.randrange(NUMBERS)}"

    # Expressions: of a type, and as deep as is said.

    def leaf(self, of):
        variables = [self.variable() for _ in range(3)]
        return f"({of})" + self.one_of(self.number(), *variables, f"in[{self.random.randrange(16)}]")

    def value(self, of, deep):
        if deep == 0 or self.random.random() < 0.12:
            return self.leaf(of)
        x, y = self.value(of, deep - 1), self.value(of, deep - 1)
        kinds = [self.sum] * 4 + [self.product, self.quotient, self.shift, self.shift_by_number, self.comparison, self.choice]
        return self.random.choice([*kinds, self.conversion, self.element, self.turned])(of, x, y, deep - 1)

    def sum(self, of, x, y, _):
        return f"({of})(({unsigned(of)})({x}) {self.one_of(*'+-&|^')} ({unsigned(of)})({y}))"

    def product(self, of, x, y, _):
        wide = "uint64_t" if TYPES[of] == 64 else "uint32_t"
        return f"({of})(({wide})({x}) * ({wide})({y}))"

    def quotient(self, of, x, y, _):
        below_0 = self.one_of(f"((({y}) & 63) + 2)", f"(-((({y}) & 31) + 2))")
        return f"({of})(({x}) {self.one_of(*'/%')} {below_0 if of[0] == 'i' else f'(({y}) | 1)'})"

    def shift(self, of, x, y, _):
        return self.shifted(of, x, f"(({y}) & {TYPES[of] - 1})")

    def shift_by_number(self, of, x, *_):
        return self.shifted(of, x, self.random.randrange(TYPES[of]))

    def shifted(self, of, x, amount):
        return f"({of})(({x}) >> {amount})" if self.random.random() < 0.6 else f"({of})(({unsigned(of)})({x}) << {amount})"

    def compared(self, deep):
        of = self.type()
        return f"(({self.value(of, deep)}) {self.one_of('<', '<=', '>', '>=', '==', '!=')} ({self.leaf(of)}))"

    def comparison(self, of, _, __, deep):
        return f"({of}){self.compared(deep)}"

    def choice(self, _, x, y, deep):
        return f"({self.compared(deep)} ? ({x}) : ({y}))"

    def conversion(self, of, _, __, deep):
        return f"({of})({self.value(self.type(), deep)})"

    def element(self, of, _, __, deep):
        index = self.value("uint32_t", deep)
        return f"({of}){self.random.choice(READ).format(f'({index})')}"

    def turned(self, of, x, *_):
        return f"({of})({self.one_of('-', '~')}({unsigned(of)})({x}))"

    # Statements, of the function of a number. Calls stand alone, since they change what other operands would read.

    def statement(self, function, deep):
        kinds = [self.call, self.call_by_pointer, self.store, self.assignment, self.assignment]
        return self.random.choice(kinds + ([self.condition, self.loop, self.switch] if deep else []))(function, deep)

    def block(self, function, deep):
        return [line for _ in range(self.random.randrange(1, 4)) for line in self.statement(function, deep)]

    def assignment(self, *_):
        return [f"{self.variable()} = {self.value(self.type(), 3)};"]

    def store(self, *_):
        index = self.value("uint32_t", 1)
        place = self.random.choice(WRITTEN).format(f"({index})")
        return [f"{place} = {self.value(self.type(), 2)};"]

    def call(self, function, *_):
        if function + 1 >= FUNCTIONS:
            return self.assignment()
        return self.call_of(f"f{self.random.randrange(function + 1, FUNCTIONS)}")

    def call_by_pointer(self, function, *_):
        if function >= FUNCTIONS - POINTERS:
            return self.assignment()
        return self.call_of(f"table[({self.value('uint32_t', 1)}) % {POINTERS}]")

    def call_of(self, called):
        return [f"{self.variable()} = {called}({self.value('int32_t', 2)}, {self.value('uint32_t', 1)});"]

    def condition(self, function, deep):
        blocks = self.block(function, deep - 1), self.block(function, deep - 1)
        return [f"if ({self.value(self.type(), 2)}) {{", *blocks[0], "} else {", *blocks[1], "}"]

    def loop(self, function, deep):
        name = f"i{deep}{self.random.randrange(1000)}"
        head = f"for (int {name} = 0; {name} < {self.random.randrange(1, 5)}; {name}++) {{"
        return [head, *self.block(function, deep - 1), f"{self.variable()} += {name};", "}"]

    def switch(self, function, _):
        lines = [f"switch ((int)({self.value('uint32_t', 1)} & 15)) {{"]
        for case in self.random.sample(range(-3, 12), 6):
            lines += [f"case {case}:", *self.block(function, 0)[:2], self.one_of("break;", "break;", "")]
        return [*lines, f"default: {self.variable()}--;", "}"]

    # The program.

    def function(self, number):
        head = f"{self.one_of('', '__attribute__((noinline)) ')}static uint32_t f{number}(int32_t v0, uint32_t v1)"
        variables = [f"{self.type()} v{k} = in[{self.random.randrange(16)}];" for k in range(2, NUMBERS)]
        body = [line for _ in range(4) for line in self.statement(number, 2)]
        return [head, "{", *variables, *body, *(f"mix(v{k});" for k in range(2, NUMBERS)), "return v0 ^ v1;", "}"]

    def program(self):
        lines = [f"static uint32_t f{number}(int32_t v0, uint32_t v1);" for number in range(FUNCTIONS)]
        pointers = ", ".join(f"f{FUNCTIONS - 1 - k}" for k in range(POINTERS))
        lines.append(f"static uint32_t (*const table[{POINTERS}])(int32_t, uint32_t) = {{ {pointers} }};")
        lines += [line for number in range(FUNCTIONS) for line in self.function(number)]
        calls = "\n".join(f"\t\tmix(f{number}(in[n], in[15 - n]));" for number in range(0, FUNCTIONS, 3))
        return HEAD % ", ".join(self.number() for _ in range(16)) + "\n".join(lines) + "\n" + TAIL % calls


def unsigned(of):
    return of if of[0] == "u" else f"u{of}"


if __name__ == "__main__":
    if len(sys.argv) != 2 or not sys.argv[1].isdecimal():
        sys.exit("usage: dense.py SEED")
    print(Writer(int(sys.argv[1])).program(), end="")

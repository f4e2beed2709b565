/*
 * Runs an image by the tables of docs/formats.md ("Image", "Machine"), faster than tools/step.py: its create, its open, and an invoke of
 * function 0 with one value in and out, 0 and 0. Of system calls it has those that such an application makes.
 * It prints `value A steps N` for the value behind the invoke, `panic CODE at PLACE`, or `long` where it has made the most steps.
 * usage: machine IMAGE.hex MOST_STEPS
 */
#include <inttypes.h>
#include <stdint.h>
#include <stdio.h>
#include <stdlib.h>
#include <string.h>

#define HEAD 36
#define MOST_INSTRUCTIONS 8192
#define MOST_CALLS 64
#define PAGE 4096

enum operation {
	CONST = 1, MOVE, ADD, SUB, MUL, DIV, REM, AND, OR, XOR, SHL, SHR, LOADB, LOADW, STOREB, STOREW, BEQ, BNE, BLTU, BGEU, JUMP, CALL, RET,
	SYS,
};
enum system_call { SYS_RETURN, SYS_PANIC, SYS_TYPES, SYS_VALUE, SYS_SET_VALUE };
enum panic { BAD_ADDRESS = 1, PAST_THE_END, DIVISION_BY_0, CALLS, NO_PARAMETER };
enum entry { CREATE, OPEN, INVOKE, ENTRIES = 5 };

struct instruction {
	uint8_t op, d, a, b;
	uint32_t imm;
};

struct image {
	uint32_t pages, count, entries[ENTRIES];
	struct instruction code[MOST_INSTRUCTIONS];
};

struct machine {
	const struct image *image;
	uint32_t place, registers[16], stack[MOST_CALLS], depth, values[2];
	uint8_t memory[64 * PAGE];
	uint64_t steps, most;
};

static struct image image;
static struct machine machine;

static void panic(uint32_t code)
{
	printf("panic %" PRIu32 " at %" PRIu32 "\n", code, machine.place);
	exit(1);
}

static uint8_t *at(uint32_t address, uint32_t length)
{
	if ((uint64_t)address + length > (uint64_t)PAGE * machine.image->pages)
		panic(BAD_ADDRESS);
	return machine.memory + address;
}

static uint32_t word_at(uint32_t address)
{
	uint32_t word;

	memcpy(&word, at(address, sizeof(word)), sizeof(word));
	return word;
}

/* The result of an operation on two registers. */
static uint32_t made(const struct instruction *one, uint32_t a, uint32_t b)
{
	switch (one->op) {
	case CONST: return one->imm;
	case MOVE: return a;
	case ADD: return a + b;
	case SUB: return a - b;
	case MUL: return a * b;
	case DIV: if (!b) panic(DIVISION_BY_0); return a / b;
	case REM: if (!b) panic(DIVISION_BY_0); return a % b;
	case AND: return a & b;
	case OR: return a | b;
	case XOR: return a ^ b;
	case SHL: return a << (b & 31);
	case SHR: return a >> (b & 31);
	case LOADB: return *at(a + one->imm, 1);
	default: return word_at(a + one->imm);
	}
}

static int is_taken(const struct instruction *one, uint32_t a, uint32_t b)
{
	switch (one->op) {
	case BEQ: return a == b;
	case BNE: return a != b;
	case BLTU: return a < b;
	case BGEU: return a >= b;
	default: return 1;
	}
}

/* Whether the entry point goes on. */
static int system_call(uint32_t number)
{
	uint32_t *r = machine.registers;

	switch (number) {
	case SYS_RETURN: return 0;
	case SYS_PANIC: panic(r[0]); return 0;
	case SYS_VALUE:
		memcpy(r, machine.values, sizeof(machine.values));
		break;
	case SYS_SET_VALUE:
		memcpy(machine.values, r + 1, sizeof(machine.values));
		break;
	default:
		printf("system call %" PRIu32 " isn't served\n", number);
		exit(3);
	}
	machine.place++;
	return 1;
}

static int step(void)
{
	const struct instruction *one = &image.code[machine.place];
	uint32_t a = machine.registers[one->a], b = machine.registers[one->b], next = machine.place + 1;

	if (one->op <= LOADW) {
		machine.registers[one->d] = made(one, a, b);
	} else if (one->op == STOREB) {
		*at(a + one->imm, 1) = b;
	} else if (one->op == STOREW) {
		memcpy(at(a + one->imm, sizeof(b)), &b, sizeof(b));
	} else if (one->op <= JUMP) {
		next = is_taken(one, a, b) ? one->imm : next;
	} else if (one->op == CALL) {
		if (machine.depth == MOST_CALLS)
			panic(CALLS);
		machine.stack[machine.depth++] = next;
		next = one->imm;
	} else if (one->op == RET) {
		if (!machine.depth)
			panic(CALLS);
		next = machine.stack[--machine.depth];
	} else {
		return system_call(one->imm);
	}
	machine.place = next;
	return 1;
}

static void run(enum entry entry)
{
	memset(machine.registers, 0, sizeof(machine.registers));
	machine.place = image.entries[entry];
	machine.depth = 0;
	machine.registers[1] = entry == INVOKE ? 3 : 0; /* one value, in and out */
	do {
		if (machine.place >= image.count)
			panic(PAST_THE_END);
		if (machine.steps++ == machine.most) {
			printf("long\n");
			exit(2);
		}
	} while (step());
}

static void read_image(const char *name)
{
	static uint8_t data[HEAD + sizeof(image.code)];
	FILE *file = fopen(name, "r");
	uint32_t length = 0, byte;

	while (file && length < sizeof(data) && fscanf(file, "%2" SCNx32, &byte) == 1)
		data[length++] = byte;
	memcpy(&image.pages, data + 8, 4);
	memcpy(&image.count, data + 12, 4);
	memcpy(image.entries, data + 16, sizeof(image.entries));
	if (length < HEAD || length != HEAD + sizeof(image.code[0]) * image.count) {
		printf("no image\n");
		exit(3);
	}
	memcpy(image.code, data + HEAD, length - HEAD);
}

int main(int argc, char **argv)
{
	if (argc != 3)
		return 2;
	read_image(argv[1]);
	machine.image = &image;
	machine.most = strtoull(argv[2], NULL, 10);
	run(CREATE);
	run(OPEN);
	machine.steps = 0;
	run(INVOKE);
	printf("value %08" PRIx32 " steps %" PRIu64 "\n", machine.values[0], machine.steps);
	return 0;
}

/* What random programs seldom meet: quotients and high products of numbers at their bounds, halfwords at each alignment, 64 bits, calls by
 * pointers, computed jumps, structures by value, and many arguments. */
#include <stdarg.h>
#include <stdint.h>

extern uint32_t checksum;

static volatile int32_t numbers[] = {
	0, 1, -1, 2, -2, 3, 7, -7, 127, -128, 255, 256, 32767, -32768, 65535, 65536, INT32_MAX, INT32_MIN, INT32_MIN + 1, 0x12345678,
	(int32_t)0xDEADBEEF, 1000000007,
};
#define COUNT (sizeof(numbers) / sizeof(numbers[0]))
#define APART __attribute__((noinline, noclone))

static uint8_t bytes[64];

struct __attribute__((packed, may_alias)) odd {
	uint8_t byte;
	int16_t half;
	uint16_t unsigned_half;
	int32_t word;
};

struct three {
	int32_t first;
	uint16_t second;
	int64_t third;
};

typedef int16_t __attribute__((may_alias)) Half;
typedef uint16_t __attribute__((may_alias)) UnsignedHalf;

static void mix(uint32_t value)
{
	checksum = (checksum << 5 | checksum >> 27) ^ value;
	checksum = checksum * 2654435761U + 1;
}

static void mix_wide(uint64_t value)
{
	mix(value);
	mix(value >> 32);
}

static APART int is_less(int a, int b) { return a < b; }
static APART int is_below(int a, int b) { return (uint32_t)a < (uint32_t)b; }
static APART int shifted(int a, int b) { return a >> (b & 31); }
static APART int shifted_without_sign(int a, int b) { return (uint32_t)a >> (b & 31); }
static APART int difference(int a, int b) { return a <= b ? (uint32_t)a - b : (uint32_t)b ^ a; }
static APART int is_same(int a, int b) { return a == b; }

static APART int tests(int a, int b)
{
	return (a != 0) + 2 * (b == 0) + 4 * (a < 0) + 8 * (b > 0) + 16 * (a < 100) + 32 * ((uint32_t)b < 100) + 64 * (a >= b) + 128 * (b >= -5);
}

static int (*const functions[])(int, int) = { is_less, is_below, shifted, shifted_without_sign, difference, is_same, tests };
#define FUNCTIONS (sizeof(functions) / sizeof(functions[0]))

static APART int computed_jump(int place, int value)
{
	static void *const places[] = { &&add, &&turn, &&triple, &&take };
	uint32_t x = value;

	goto *places[place & 3];
add:
	return x + 1;
turn:
	x ^= 0x55;
triple:
	x *= 3;
take:
	return x - 7;
}

static APART int chosen(int value)
{
	switch (value) {
	case 0: return 5;
	case 1: return 9;
	case 2: return -3;
	case 3: return 77;
	case 4: return 12;
	case 7: return 1;
	case 255: return 4;
	case -128: return 8;
	default: return value;
	}
}

static APART struct three turned(struct three given)
{
	return (struct three){ given.third, given.first, (int64_t)given.second << 33 };
}

static APART int32_t summed(int count, ...)
{
	va_list list;
	uint32_t sum = 0;

	va_start(list, count);
	while (count--)
		sum = sum * 31 + va_arg(list, int32_t);
	va_end(list);
	return sum;
}

static void quotients(int32_t a, int32_t b)
{
	if (b && !(a == INT32_MIN && b == -1)) {
		mix(a / b);
		mix(a % b);
	}
	if (b) {
		mix((uint32_t)a / (uint32_t)b);
		mix((uint32_t)a % (uint32_t)b);
	}
	mix(a / 10);
	mix(a % 10);
	mix((uint32_t)a / 1000);
	mix(a / 8);
	mix(a % 16);
	mix(a / -7);
}

static void products(int32_t a, int32_t b)
{
	int32_t result;

	mix_wide((uint64_t)(uint32_t)a * (uint32_t)b);
	mix_wide((int64_t)a * b);
	mix_wide((int64_t)a * (uint32_t)b);
	mix(__builtin_add_overflow(a, b, &result));
	mix(result);
	mix(__builtin_mul_overflow(a, b, &result));
	mix(result);
}

static void wide_numbers(int32_t a, int32_t b, uint32_t shift)
{
	int64_t wide = (int64_t)((uint64_t)(uint32_t)a << 32 ^ (uint32_t)b), other = (int64_t)b * 77 + 3;

	mix_wide(wide / other);
	mix_wide(wide % other);
	mix_wide((uint64_t)wide / (uint64_t)other);
	mix_wide((uint64_t)wide % (uint64_t)other);
	mix_wide(wide >> (shift & 63));
	mix_wide((uint64_t)wide << (shift & 63));
	mix_wide((uint64_t)wide >> (shift & 63));
	mix(wide < other);
	mix((uint64_t)wide < (uint64_t)other);
}

static void narrow_numbers(int32_t a, int32_t b)
{
	mix((int8_t)a);
	mix((int16_t)b);
	mix((uint16_t)a);
	mix((uint8_t)b);
	mix(a >> 3);
	mix(a >> 31);
	mix(__builtin_popcount(a));
	mix(a ? __builtin_clz(a) : 9);
	mix(b ? __builtin_ctz(b) : 9);
	mix(__builtin_bswap32(a));
}

static void memory(int32_t a, int32_t b, uint32_t i, uint32_t j)
{
	struct odd *odd = (void *)(bytes + (i + j) % 40);
	Half *halves = (Half *)(bytes + 2 * (j % 20));

	odd->half = a;
	odd->unsigned_half = b;
	odd->word = a ^ b;
	odd->byte = j;
	mix(odd->half);
	mix(odd->unsigned_half);
	mix(odd->word);
	mix(odd->byte);
	halves[1] += a;
	mix(halves[1]);
	mix(((UnsignedHalf *)halves)[0]);
}

static void calls(int32_t a, int32_t b)
{
	struct three three = turned((struct three){ a, b, (int64_t)a * 3 });

	for (uint32_t k = 0; k < FUNCTIONS; k++)
		mix(functions[k](a, b));
	mix(computed_jump(a, b));
	mix(chosen(a));
	mix(three.first);
	mix(three.second);
	mix_wide(three.third);
	mix(summed(8, a, b, 3, a, 5, b, 7, 8));
}

int random_main(void)
{
	for (uint32_t i = 0; i < COUNT; i++) {
		for (uint32_t j = 0; j < COUNT; j++) {
			int32_t a = numbers[i], b = numbers[j];

			quotients(a, b);
			products(a, b);
			wide_numbers(a, b, i + 3 * j);
			narrow_numbers(a, b);
			memory(a, b, i, j);
			calls(a, b);
		}
	}
	for (uint32_t k = 0; k < sizeof(bytes); k++)
		mix(bytes[k]);
	return 0;
}

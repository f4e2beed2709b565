/* Runs a random program on another machine, and prints its checksum: without a library under qemu-riscv32 (REFERENCE_RISCV), and on the
 * host. */
#include <stdint.h>

uint32_t checksum;
int random_main(void);

#ifdef REFERENCE_RISCV

#define WRITE 64
#define EXIT 93

static void system_call(uint32_t number, uint32_t x, uint32_t y, uint32_t z)
{
	register uint32_t a0 __asm__("a0") = x, a1 __asm__("a1") = y, a2 __asm__("a2") = z, a7 __asm__("a7") = number;
	__asm__ volatile("ecall" : "+r"(a0) : "r"(a1), "r"(a2), "r"(a7) : "memory");
}

void *memset(void *to, int byte, unsigned size)
{
	for (char *d = to; size--;)
		*d++ = byte;
	return to;
}

void *memcpy(void *to, const void *from, unsigned size)
{
	const char *s = from;

	for (char *d = to; size--;)
		*d++ = *s++;
	return to;
}

void _start(void)
{
	char text[9];

	random_main();
	for (int k = 0; k < 8; k++)
		text[k] = "0123456789abcdef"[checksum >> (28 - 4 * k) & 15];
	text[8] = '\n';
	system_call(WRITE, 1, (uint32_t)text, sizeof(text));
	for (;;)
		system_call(EXIT, 0, 0, 0);
}

#else

#include <stdio.h>

int main(void)
{
	random_main();
	printf("%08x\n", checksum);
	return 0;
}

#endif

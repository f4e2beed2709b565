/* What the compiler may call by itself: so it is compiled apart from the program. A word of the machine has any alignment. */
#include <stdint.h>
#include <string.h>

typedef uint32_t __attribute__((aligned(1), may_alias)) Word;

void *memcpy(void *to, const void *from, size_t size)
{
	char *d = to;
	const char *s = from;

	for (; size >= sizeof(Word); size -= sizeof(Word), d += sizeof(Word), s += sizeof(Word))
		*(Word *)d = *(const Word *)s;
	while (size--)
		*d++ = *s++;
	return to;
}

void *memmove(void *to, const void *from, size_t size)
{
	char *d = to;
	const char *s = from;

	if ((size_t)(d - s) >= size)
		return memcpy(to, from, size);
	for (; size >= sizeof(Word); size -= sizeof(Word))
		*(Word *)(d + size - sizeof(Word)) = *(const Word *)(s + size - sizeof(Word));
	while (size--)
		d[size] = s[size];
	return to;
}

void *memset(void *to, int byte, size_t size)
{
	char *d = to;
	uint32_t word = (uint8_t)byte * 0x01010101U;

	for (; size >= sizeof(Word); size -= sizeof(Word), d += sizeof(Word))
		*(Word *)d = word;
	while (size--)
		*d++ = byte;
	return to;
}

int memcmp(const void *first, const void *second, size_t size)
{
	const uint8_t *a = first, *b = second;

	for (; size; size--, a++, b++)
		if (*a != *b)
			return *a - *b;
	return 0;
}

/* Memory by the standard's names, and what C programs use of string.h and stdlib.h. */
#include <stdlib.h>
#include <string.h>
#include <tee_internal_api.h>

#include "machine.h"

void TEE_MemMove(void *to, const void *from, uint32_t size)
{
	memmove(to, from, size);
}

int32_t TEE_MemCompare(const void *first, const void *second, uint32_t size)
{
	return memcmp(first, second, size);
}

void TEE_MemFill(void *to, uint32_t byte, uint32_t size)
{
	memset(to, byte, size);
}

/* Whether bytes of one owner may be read or written: those of the instance's memory, or of a parameter of this call. */
TEE_Result TEE_CheckMemoryAccessRights(uint32_t flags, void *buffer, uint32_t size)
{
	extern char __heap_end[];
	uint32_t start = ADDRESS(buffer), number = start >> 28, type, end;

	if (size == 0 || (start <= ADDRESS(__heap_end) && size <= ADDRESS(__heap_end) - start))
		return TEE_SUCCESS;
	if (!(flags & TEE_MEMORY_ACCESS_ANY_OWNER) || number == 0 || number > TEE_NUM_PARAMS)
		return TEE_ERROR_ACCESS_DENIED;
	type = TEE_PARAM_TYPE_GET(sys_types(), number - 1);
	if (type < TEE_PARAM_TYPE_MEMREF_INPUT || (type == TEE_PARAM_TYPE_MEMREF_INPUT && flags & TEE_MEMORY_ACCESS_WRITE))
		return TEE_ERROR_ACCESS_DENIED;
	end = sys_size(number - 1);
	start -= ADDRESS(BUFFER(number - 1));
	return start <= end && size <= end - start ? TEE_SUCCESS : TEE_ERROR_ACCESS_DENIED;
}

void *memchr(const void *bytes, int byte, size_t size)
{
	for (const uint8_t *at = bytes; size; size--, at++)
		if (*at == (uint8_t)byte)
			return (void *)at;
	return NULL;
}

size_t strlen(const char *text)
{
	const char *end = text;

	while (*end)
		end++;
	return end - text;
}

size_t strnlen(const char *text, size_t most)
{
	size_t length = 0;

	while (length < most && text[length])
		length++;
	return length;
}

int strcmp(const char *first, const char *second)
{
	for (; *first && *first == *second; first++, second++)
		;
	return (uint8_t)*first - (uint8_t)*second;
}

int strncmp(const char *first, const char *second, size_t most)
{
	for (; most && *first && *first == *second; most--, first++, second++)
		;
	return most ? (uint8_t)*first - (uint8_t)*second : 0;
}

char *strchr(const char *text, int byte)
{
	for (; *text != (char)byte; text++)
		if (!*text)
			return NULL;
	return (char *)text;
}

char *strrchr(const char *text, int byte)
{
	const char *found = NULL;

	do {
		if (*text == (char)byte)
			found = text;
	} while (*text++);
	return (char *)found;
}

int abs(int value)
{
	return value < 0 ? -value : value;
}

static void swap(char *first, char *second, size_t size)
{
	for (; size; size--, first++, second++) {
		char byte = *first;

		*first = *second;
		*second = byte;
	}
}

/* Lets an element sink to its place among those below it, of which a heap has `count`. */
static void sink(char *base, size_t root, size_t count, size_t size, int (*compare)(const void *, const void *))
{
	size_t child;

	while ((child = 2 * root + 1) < count) {
		if (child + 1 < count && compare(base + size * child, base + size * (child + 1)) < 0)
			child++;
		if (compare(base + size * root, base + size * child) >= 0)
			return;
		swap(base + size * root, base + size * child, size);
		root = child;
	}
}

void qsort(void *base, size_t count, size_t size, int (*compare)(const void *, const void *))
{
	for (size_t root = count / 2; root--;)
		sink(base, root, count, size, compare);
	while (count > 1) {
		count--;
		swap(base, (char *)base + size * count, size);
		sink(base, 0, count, size, compare);
	}
}

/*
 * The heap: blocks behind one another, each with a word of its size in front, whose lowest bit says that the block is in use. The first
 * word is 0 before the first use.
 */
#include <stdlib.h>
#include <string.h>
#include <tee_internal_api.h>

#define IN_USE 1U
#define LARGEST 0x40000 /* the memory of an instance */

extern char __heap_start[], __heap_end[];

static uint32_t *behind(uint32_t *block)
{
	return (uint32_t *)((char *)block + (*block & ~IN_USE));
}

static uint32_t *heap_end(void)
{
	return (uint32_t *)__heap_end;
}

/* Joins a free block with the free ones behind it. */
static void join(uint32_t *block)
{
	for (uint32_t *next = behind(block); next < heap_end() && !(*next & IN_USE); next = behind(block))
		*block += *next;
}

/* Takes the first bytes of a block that is large enough. */
static void *taken(uint32_t *block, uint32_t bytes)
{
	uint32_t rest = *block - bytes;

	*block = bytes;
	if (rest)
		*behind(block) = rest;
	*block |= IN_USE;
	return memset(block + 1, 0, bytes - sizeof(*block));
}

void *TEE_Malloc(uint32_t size, uint32_t hint)
{
	uint32_t *block = (uint32_t *)__heap_start, bytes = (size + 11) & ~7U;

	(void)hint;
	if (size > LARGEST)
		return NULL;
	if (block < heap_end() && !*block)
		*block = (uint32_t)(__heap_end - __heap_start) & ~7U;
	for (; block < heap_end(); block = behind(block)) {
		if (*block & IN_USE)
			continue;
		join(block);
		if (*block >= bytes)
			return taken(block, bytes);
	}
	return NULL;
}

void TEE_Free(void *buffer)
{
	if (buffer)
		((uint32_t *)buffer)[-1] &= ~IN_USE;
}

void *TEE_Realloc(void *buffer, uint32_t size)
{
	uint32_t old = buffer ? (((uint32_t *)buffer)[-1] & ~IN_USE) - sizeof(uint32_t) : 0;
	void *made;

	if (buffer && size <= old)
		return buffer;
	made = TEE_Malloc(size, TEE_MALLOC_FILL_ZERO);
	if (made) {
		memcpy(made, buffer, old);
		TEE_Free(buffer);
	}
	return made;
}

void *malloc(size_t size)
{
	return TEE_Malloc(size, TEE_MALLOC_FILL_ZERO);
}

void *calloc(size_t count, size_t size)
{
	size_t bytes;

	return __builtin_mul_overflow(count, size, &bytes) ? NULL : malloc(bytes);
}

void *realloc(void *block, size_t size)
{
	return TEE_Realloc(block, size);
}

void free(void *block)
{
	TEE_Free(block);
}

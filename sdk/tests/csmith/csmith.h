/* In the place of csmith's own header: a checksum by the same function over the same numbers, without printing; it is left in
 * `checksum`. safe_math.h is that of libcsmith-dev. */
#ifndef RANDOM_RUNTIME_H
#define RANDOM_RUNTIME_H
#pragma GCC system_header

#include <limits.h>
#include <stdint.h>

#define printf(...) ((void)0)
#define assert(x) ((void)0)
#define STATIC static
#define UNDEFINED(x) (x)
#define LOG_INDEX
#define LOG_EXEC
#define FUNC_NAME(x) (safe_##x)
#define fabsf __builtin_fabsf
#define fabs __builtin_fabs
#define FLT_MAX __FLT_MAX__
#define DBL_MAX __DBL_MAX__
#include "safe_math.h"

extern uint32_t checksum;

static uint32_t crc32_context = 0xFFFFFFFFU;

static void crc32_gentab(void)
{
}

static void crc32_byte(uint8_t byte)
{
	crc32_context ^= byte;
	for (int bit = 0; bit < 8; bit++)
		crc32_context = crc32_context & 1 ? (crc32_context >> 1) ^ 0xEDB88320U : crc32_context >> 1;
}

static void transparent_crc(uint64_t value, char *name, int flag)
{
	(void)name;
	(void)flag;
	for (int shift = 0; shift < 64; shift += 8)
		crc32_byte(value >> shift);
}

static void transparent_crc_bytes(char *bytes, int count, char *name, int flag)
{
	(void)name;
	(void)flag;
	while (count--)
		crc32_byte(*bytes++);
}

static void platform_main_begin(void)
{
}

static void platform_main_end(uint32_t crc, int flag)
{
	(void)flag;
	checksum = crc;
}

#endif

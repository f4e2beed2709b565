/*
 * The machine's system calls (docs/formats.md, "Machine"). A call is an instruction of RISC-V's custom space, of which the translator
 * makes `sys N`; a0 to a2 are the machine's r0 to r2, and a register that a call doesn't name keeps its value.
 */
#ifndef MACHINE_H
#define MACHINE_H

#include <stdint.h>

#define CALL(number) ".insn i 0x0b, 0, x0, x0, " #number
#define R(number) __asm__("a" #number)
#define INLINE static inline __attribute__((always_inline))

/* The buffer of parameter k. */
#define BUFFER(k) ((void *)(((k) + 1) << 28))
/* An address as the machine has it. */
#define ADDRESS(pointer) ((uint32_t)(pointer))

typedef struct {
	uint32_t r0, r1;
} Pair;

/* A call that takes r0 and gives r0. */
#define ONE(name, number)                                                                                                                \
	INLINE uint32_t name(uint32_t x)                                                                                                 \
	{                                                                                                                                \
		register uint32_t r0 R(0) = x;                                                                                           \
		__asm__ volatile(CALL(number) : "+r"(r0) : : "memory");                                                                  \
		return r0;                                                                                                               \
	}

/* One that takes nothing and gives r0. */
#define NOTHING(name, number)                                                                                                            \
	INLINE uint32_t name(void)                                                                                                       \
	{                                                                                                                                \
		register uint32_t r0 R(0);                                                                                               \
		__asm__ volatile(CALL(number) : "=r"(r0));                                                                               \
		return r0;                                                                                                               \
	}

/* One that takes r0 and r1 and gives both. */
#define TWO(name, number)                                                                                                                \
	INLINE Pair name(uint32_t x, uint32_t y)                                                                                         \
	{                                                                                                                                \
		register uint32_t r0 R(0) = x, r1 R(1) = y;                                                                              \
		__asm__ volatile(CALL(number) : "+r"(r0), "+r"(r1) : : "memory");                                                        \
		return (Pair){ r0, r1 };                                                                                                 \
	}

ONE(sys_size, 5)
ONE(sys_login, 7)
NOTHING(sys_cancelled, 8)
NOTHING(sys_mask, 9)
NOTHING(sys_unmask, 10)
ONE(sys_wait, 12)
TWO(sys_create, 13)
TWO(sys_open, 14)
ONE(sys_close, 18)
ONE(sys_delete, 19)
NOTHING(sys_types, 2)

INLINE __attribute__((noreturn)) void sys_return(uint32_t result, uint32_t context)
{
	register uint32_t r0 R(0) = result, r1 R(1) = context;
	__asm__ volatile(CALL(0) : : "r"(r0), "r"(r1) : "memory");
	__builtin_unreachable();
}

/* Ends an entry point whose context isn't looked at. */
INLINE __attribute__((noreturn)) void sys_end(uint32_t result)
{
	register uint32_t r0 R(0) = result;
	__asm__ volatile(CALL(0) : : "r"(r0) : "memory");
	__builtin_unreachable();
}

INLINE __attribute__((noreturn)) void sys_panic(uint32_t code)
{
	register uint32_t r0 R(0) = code;
	__asm__ volatile(CALL(1) : : "r"(r0));
	__builtin_unreachable();
}

INLINE Pair sys_value(uint32_t k)
{
	register uint32_t r0 R(0) = k, r1 R(1);
	__asm__ volatile(CALL(3) : "+r"(r0), "=r"(r1));
	return (Pair){ r0, r1 };
}

INLINE void sys_set_value(uint32_t k, uint32_t a, uint32_t b)
{
	register uint32_t r0 R(0) = k, r1 R(1) = a, r2 R(2) = b;
	__asm__ volatile(CALL(4) : : "r"(r0), "r"(r1), "r"(r2));
}

INLINE void sys_set_size(uint32_t k, uint32_t size)
{
	register uint32_t r0 R(0) = k, r1 R(1) = size;
	__asm__ volatile(CALL(6) : : "r"(r0), "r"(r1));
}

/* The result, and the time in seconds and milliseconds. */
INLINE uint32_t sys_time(uint32_t *seconds, uint32_t *millis)
{
	register uint32_t r0 R(0), r1 R(1), r2 R(2);
	__asm__ volatile(CALL(11) : "=r"(r0), "=r"(r1), "=r"(r2));
	*seconds = r1;
	*millis = r2;
	return r0;
}

/* The result, and how many bytes were read. */
INLINE Pair sys_read(uint32_t handle, void *to, uint32_t size)
{
	register uint32_t r0 R(0) = handle, r1 R(1) = ADDRESS(to), r2 R(2) = size;
	__asm__ volatile(CALL(15) : "+r"(r0), "+r"(r1) : "r"(r2) : "memory");
	return (Pair){ r0, r1 };
}

INLINE uint32_t sys_write(uint32_t handle, const void *from, uint32_t size)
{
	register uint32_t r0 R(0) = handle, r1 R(1) = ADDRESS(from), r2 R(2) = size;
	__asm__ volatile(CALL(16) : "+r"(r0) : "r"(r1), "r"(r2) : "memory");
	return r0;
}

INLINE uint32_t sys_seek(uint32_t handle, uint32_t position)
{
	register uint32_t r0 R(0) = handle, r1 R(1) = position;
	__asm__ volatile(CALL(17) : "+r"(r0) : "r"(r1));
	return r0;
}

#endif

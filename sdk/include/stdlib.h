#ifndef STDLIB_H
#define STDLIB_H

#include <stddef.h>

/* Of the heap of TA_DATA_SIZE bytes. Blocks begin as zeros. */
void *malloc(size_t size);
void *calloc(size_t count, size_t size);
void *realloc(void *block, size_t size);
void free(void *block);

/* Sorts in place, without recursion; equal elements may change places. */
void qsort(void *base, size_t count, size_t size, int (*compare)(const void *, const void *));
int abs(int value);

/* Ends in a panic with code 16. Each use has a place of its own in the image, so that its line can be told. */
void abort(void) __attribute__((noreturn));
#define abort() __extension__({ __asm__ volatile("ebreak # %0" : : "i"(__LINE__)); __builtin_unreachable(); })

#endif

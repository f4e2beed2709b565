// To be preloaded: refuses the allocation whose number, counted from 1, the variable REFUSE has, and writes `refused` to
// standard error then.
#include <stdlib.h>
#include <unistd.h>

extern void *__libc_malloc(size_t);
extern void *__libc_realloc(void *, size_t);

static unsigned long number, count;

__attribute__((constructor)) static void begin(void) {
    const char *text = getenv("REFUSE");
    number = text ? strtoul(text, NULL, 10) : 0;
    count = 0;
}

static int is_refused(void) {
    return ++count == number && write(2, "refused\n", 8) == 8;
}

void *malloc(size_t size) {
    return is_refused() ? NULL : __libc_malloc(size);
}

void *realloc(void *block, size_t size) {
    return is_refused() ? NULL : __libc_realloc(block, size);
}

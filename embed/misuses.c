/* What a bench can do wrong at the border, and how each is refused. The status is compared with the one that is wanted,
 * and what is in the buffer is printed. */
#include "../include/tulgexar.h"

#include <inttypes.h>
#include <stdio.h>
#include <stdlib.h>
#include <string.h>

#define BOOT "boot 1 1 1\n"
#define REGISTERS " b200000f 0 0 0 0 0 0 0\n"

/* The longest input that may be, and one byte more: one comment line. */
enum { LONGEST = 1 << 24 };

struct misuse {
    const char *what, *words, *input;
    uint32_t wanted;
};

static const struct misuse misuses[] = {
    {"no words", "", BOOT, TULGEXAR_USAGE},
    {"a word in capitals", "RUN", BOOT, TULGEXAR_USAGE},
    {"a space behind the word", "run ", BOOT, TULGEXAR_USAGE},
    {"a byte that is no text", "run\xff", BOOT, TULGEXAR_USAGE},
    {"a number with a leading zero", "work 01 1", "", TULGEXAR_USAGE},
    {"too many made calls", "work 1 65537", "", TULGEXAR_USAGE},
    {"a processor that isn't below the count", "run", BOOT "smc 1 1" REGISTERS, TULGEXAR_BAD_TRACE},
    {"a processor that is inside", "run", BOOT "enter 0 1" REGISTERS "smc 0 1" REGISTERS, TULGEXAR_BAD_TRACE},
    {"a processor that isn't inside", "run", BOOT "leave 0\n", TULGEXAR_BAD_TRACE},
    {"no steps", "run", BOOT "smc 0 0" REGISTERS, TULGEXAR_BAD_TRACE},
    {"more than a million steps", "run", BOOT "smc 0 1000001" REGISTERS, TULGEXAR_BAD_TRACE},
    {"an address before RAM", "run", BOOT "show 0 3fffffff 1\n", TULGEXAR_BAD_TRACE},
    {"bytes that leave RAM", "run", BOOT "write 0 403fffff 0000\n", TULGEXAR_BAD_TRACE},
    {"a trace that is cut off", "run", BOOT "smc 0 1", TULGEXAR_BAD_TRACE},
    {"text as records", "run-binary", BOOT, TULGEXAR_BAD_TRACE},
};

static int differ;

/* Makes a call into a buffer of this capacity, and prints what came of it. */
static void call(const char *what, const char *words, const char *input, size_t length, size_t capacity, uint32_t wanted) {
    /* One byte more than the buffer has, to see that it stays. */
    char *output = malloc(capacity + 1);
    size_t written = 0;
    if (output == NULL) exit(1);
    memset(output, '.', capacity + 1);
    uint32_t status = tulgexar_run((const uint8_t *)words, strlen(words), (const uint8_t *)input, length,
                                   (uint8_t *)output, capacity, &written);
    if (status != wanted || output[capacity] != '.') differ++;
    size_t held = written < capacity ? written : capacity;
    printf("%s: status %" PRIu32 ", %zu bytes: %.*s", what, status, written, (int)held, output);
    if (held == 0 || output[held - 1] != '\n') printf("\n");
    free(output);
}

int main(void) {
    for (size_t i = 0; i < sizeof misuses / sizeof *misuses; i++) {
        const struct misuse *m = &misuses[i];
        call(m->what, m->words, m->input, strlen(m->input), 256, m->wanted);
    }
    const char *counts = BOOT "smc 0 1" REGISTERS;
    call("a buffer that is too small", "run", counts, strlen(counts), 10, TULGEXAR_CUT);
    call("a buffer of no bytes", "run", counts, strlen(counts), 0, TULGEXAR_CUT);
    call("a buffer that just suffices", "run", counts, strlen(counts), 78, TULGEXAR_OK);

    char *comment = malloc(LONGEST + 1);
    if (comment == NULL) return 1;
    memset(comment, '#', LONGEST + 1);
    comment[LONGEST - 1] = '\n';
    call("the longest input", "run", comment, LONGEST, 256, TULGEXAR_OK);
    call("an input that is too long", "run", comment, LONGEST + 1, 256, TULGEXAR_TOO_LONG);
    free(comment);
    printf("%d differ\n", differ);
    return differ != 0;
}

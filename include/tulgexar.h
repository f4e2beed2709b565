/* The core of a TEE kernel in a process of your own. docs/embedding.md says how to build and link it, what is proved of
 * it, and what is not. Nothing checks this header against the library's source, crates/core_c/src/lib.rt. */
#ifndef TULGEXAR_H
#define TULGEXAR_H

#include <stddef.h>
#include <stdint.h>

/* Which calls this header tells of. It rises where a call that was right before is answered otherwise or no longer
 * allowed, and not where words or statuses come in addition. */
#define TULGEXAR_VERSION 1

#ifdef __cplusplus
extern "C" {
#endif

/* How a call ends. The numbers are those of the program's statuses. 4 and 5, a fault of reading or writing, never come:
 * bytes in memory have none. */
enum tulgexar_status {
    /* The input was read to its end, and all of its text is in the buffer. */
    TULGEXAR_OK = 0,
    /* The words ask for nothing that there is. The usage line is in the buffer. */
    TULGEXAR_USAGE = 2,
    /* The input leaves its grammar. The line `bad trace PLACE KIND` of its first fault is in the buffer. */
    TULGEXAR_BAD_TRACE = 3,
    /* Want of memory. A part from the front of the text is in the buffer, also nothing. The same call may be made again. */
    TULGEXAR_MEMORY = 6,
    /* The input has more than 2^24 bytes, or more than 65,536 lines `smc` and `enter`, by "client" more than 512 calls,
     * and the buffer has nothing. Or its entries would have read more than 2^28 bytes of RAM, or by "client" an SMC had no
     * room, being the 32,769th or one that would have read so much: then what came before is in the buffer, by "client" the
     * lines of the calls before. */
    TULGEXAR_TOO_LONG = 7,
    /* The output is longer than the buffer, which its front fills. The same call with a buffer of *written bytes has
     * all of it, and then tells how it ended. */
    TULGEXAR_CUT = 8
};

/* Does what the program `optee_run` does: it reads the input in the grammar that the words name, plays it on a core of
 * its own, and puts what it prints into a buffer. It keeps nothing: each call begins with a core where nothing has
 * happened, and equal calls print the same.
 *
 *   words, words_length   the words, parted by single spaces, of UTF-8 and without a zero at the end:
 *                         "run", "run-binary", "asm", "record", "audit", "notify", "client", "compare ID",
 *                         "compare UUID" or "work SEED COUNT" with decimal numbers, of which ID is below 2^32, SEED below
 *                         2^64 and COUNT at most 65,536, and a UUID in the hyphenated form; docs/formats.md has the
 *                         grammars
 *   input, input_length   the input, in bytes; "work" reads none of it
 *   output, capacity      the buffer, and how many bytes it has
 *   written               gets the length of the whole output in bytes, also where it is longer than the buffer
 *
 * It answers one of the statuses above. The buffer's bytes behind the output are as they were.
 *
 * A call that boots a core takes 4 MiB of RAM for each processor of the boot and clears them, whatever its input does
 * with them; "client" does so for one processor alone, and "audit" and "compare" for one each time that they go through a
 * journal.
 *
 * The caller keeps to this, and nothing tests it:
 *   - no pointer is null, also where its length is 0; each points to as many bytes as are said, below 2^63;
 *   - output and *written are the caller's alone until the call returns, and overlap neither each other nor words nor
 *     input; no other thread writes words or input meanwhile;
 *   - *written has a value before the call, any one;
 *   - malloc, realloc and free are of one allocator, and align a block to each power of two up to 16 that divides its
 *     size;
 *   - it isn't called from a signal handler, nor in the forked child of a process with threads.
 * Calls of several threads at once are independent. */
uint32_t tulgexar_run(const uint8_t *words, size_t words_length, const uint8_t *input, size_t input_length,
                      uint8_t *output, size_t capacity, size_t *written);

#ifdef __cplusplus
}
#endif

#endif

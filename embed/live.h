/* A core of a TEE kernel that is kept in a process beside yours, the program `optee_live`: it answers each call before the
 * next one is made. docs/conversation.md has what it is told and answers, docs/formats.md what registers and messages mean,
 * docs/embedding.md how this is built. */
#ifndef LIVE_H
#define LIVE_H

#include <stdbool.h>
#include <stddef.h>
#include <stdint.h>
#include <sys/types.h>

#ifdef __cplusplus
extern "C" {
#endif

/* A conversation with a core of its own. */
struct live;

/* How a call was answered. */
enum live_end {
    /* It was taken. */
    LIVE_OK,
    /* It breaks a rule, and has changed nothing: `kind` has the word for it. */
    LIVE_BAD,
    /* Its entry would bring the bytes that all entries have read above 2^28, and did not come in: `copied` has how many they
     * have read. No entry does where no history is kept. */
    LIVE_FULL,
    /* The program has ended, or has said something that is no answer. All calls but live_close are answered so from then on. */
    LIVE_OVER
};

/* What a boot says, in this order. */
enum live_part { LIVE_OF_OPTIONS, LIVE_OF_SIZES, LIVE_OF_APPLICATION, LIVE_OF_KEY };

struct live_answer {
    enum live_end end;
    /* Of live_smc and live_leave, at LIVE_OK: a0 to a7. */
    uint32_t a[8];
    /* Of the same, behind live_watch: whether the call has ended in a panic, and its code. */
    bool has_panicked;
    uint32_t panic;
    /* At LIVE_BAD: `range`, `cpu`, `inside` and others, by docs/formats.md, and `long`; of live_watch `memory` besides. */
    char kind[16];
    /* At LIVE_FULL. */
    uint64_t copied;
    /* Of live_boot, at LIVE_BAD: what was refused, and at LIVE_OF_APPLICATION which one, from 0 on. */
    enum live_part part;
    size_t application;
};

/* An application: its UUID in the hyphenated form, and its image in hexadecimal digits, as the word `asm` prints it. Each is
 * taken up to its first line feed. */
struct live_application {
    const char *uuid, *image;
};

/* Options of a boot, each a line that is said before the others. A program that doesn't know one answers `bad item`. */
enum live_option {
    LIVE_HISTORY_OFF = 1 /* the core keeps no history, for a life without a limit: events are counted alone */
};

/* What a core is booted with. */
struct live_core {
    unsigned cpus, threads, frames; /* 1 to 8 processors, 1 to 16 threads, 1 to 1024 pages for applications */
    const struct live_application *applications;
    size_t application_count; /* at most 16 */
    const uint8_t *key;       /* 32 bytes, or null for zeros */
    unsigned options;         /* of live_option, 0 for none */
};

/* Starts the program of this path. Null where that fails, with the cause in errno. */
struct live *live_open(const char *program);

/* From now on an answer may take so many milliseconds, 1 to 2^31 - 1: then its call, and all later ones, are LIVE_OVER. At 0, as at
 * first, it may take for ever. */
void live_limit(struct live *live, unsigned milliseconds);

/* Boots the core, once and before all calls but live_watch: first its options, then its sizes, its applications one by one, and its
 * key. Where one of these isn't taken, those before it are, and nothing behind it is said. */
struct live_answer live_boot(struct live *live, const struct live_core *core);

/* A processor enters with these registers, and is granted 1 to 1,000,000 steps. It stays inside. */
struct live_answer live_enter(struct live *live, unsigned cpu, uint32_t steps, const uint32_t a[8]);

/* A processor that is inside exits. */
struct live_answer live_leave(struct live *live, unsigned cpu);

/* A processor enters and exits. */
struct live_answer live_smc(struct live *live, unsigned cpu, uint32_t steps, const uint32_t a[8]);

/* A processor's RAM: each has its own. */
enum { LIVE_RAM_START = 0x40000000, LIVE_RAM_BYTES = 0x400000 };

/* Reads bytes of a processor's RAM. `bytes` is complete at LIVE_OK alone. */
struct live_answer live_read(struct live *live, unsigned cpu, uint64_t address, void *bytes, size_t length);

/* Writes bytes into a processor's RAM: all of them, or none. */
struct live_answer live_write(struct live *live, unsigned cpu, uint64_t address, const void *bytes, size_t length);

/* Bytes that are written into RAM, and bytes that are read of it. */
struct live_source {
    uint64_t address;
    const void *bytes;
    size_t length;
};
struct live_target {
    uint64_t address;
    void *bytes;
    size_t length; /* at most LIVE_MOST_SHOWN */
};
enum { LIVE_MOST_SHOWN = 4096, LIVE_MOST_PIECES = 16 };

/* A write, an entry, its exit and a read. */
struct live_turn {
    unsigned cpu;
    uint32_t steps, a[8];
    const struct live_source *sources; /* at most LIVE_MOST_PIECES, written in this order */
    size_t source_count;
    const struct live_target *targets; /* at most as many, read behind the exit */
    size_t target_count;
};

/* A turn in one round trip: the answer is that of its entry. Pieces of no bytes are passed over. Where a piece doesn't lie in RAM
 * (`range`), there are too many (`count`), or there is no such processor (`cpu`) or no core yet (`place`), it is LIVE_BAD, and nothing
 * was said. Where the entry is refused, what is written stays written, and the targets are read. They are complete but at these and at
 * LIVE_OVER. */
struct live_answer live_turn(struct live *live, const struct live_turn *turn);

/* The hardware signals this value, 1 to 63. */
struct live_answer live_signal(struct live *live, unsigned value);

/* Whether the program answers: an empty line, which changes nothing. */
struct live_answer live_check(struct live *live);

/* Keeps a copy of each processor's RAM from now on, which behind each call is what the core sees, but behind LIVE_OVER. It is
 * `memory` where there is no room for the copies, 4 MiB for each of eight processors. Where it isn't LIVE_OK none is kept. */
struct live_answer live_watch(struct live *live);

/* The copy of a processor's RAM, LIVE_RAM_BYTES from 40000000 (hexadecimal) on: it stands until live_close, and changes by each
 * call. Null where none is kept. */
const uint8_t *live_ram(const struct live *live, unsigned cpu);

/* How far the call of a thread slot has come. */
enum live_phase { LIVE_FREE, LIVE_ACTIVE, LIVE_RUNS, LIVE_ASKS, LIVE_WAITS, LIVE_ENDS };

struct live_slot {
    enum live_phase phase;
    uint32_t cpu; /* at LIVE_ACTIVE: who works on it */
    /* Behind LIVE_ACTIVE: whose call it is, and its session and instance, 0 where it has none. */
    uint32_t client, session, instance;
    char wants[8]; /* at LIVE_ASKS: `time`, `suspend`, `read` and others, by docs/conversation.md */
    bool has_buffer, is_cancelled;
    /* At LIVE_RUNS and LIVE_ASKS: its application has masked cancellation. An older program doesn't tell it. */
    bool is_masked;
    uint64_t address, cookie; /* of its buffer */
};

struct live_instance {
    uint32_t number, users; /* its sessions, opened or being opened */
    char uuid[37];
    bool is_held, is_dead;
    uint32_t holder; /* the slot of the call that holds it */
};

/* What a core keeps. */
struct live_state {
    unsigned slot_count, instance_count;
    struct live_slot slots[16];
    bool is_inside[8];
    struct live_instance instances[80];
    /* Sessions, registered buffers, pages that no instance has, entries and exits so far, and bytes that entries have read. */
    uint64_t sessions, buffers, pages, events, copied;
};

/* What the core keeps, behind live_boot. It is complete at LIVE_OK alone, and changes nothing. Lines of kinds that aren't known are
 * passed over. */
struct live_answer live_state(struct live *live, struct live_state *state);

/* The process of the program, for who ends one that doesn't answer: the call that waits is then answered by LIVE_OVER. */
pid_t live_process(const struct live *live);

/* Ends the conversation, waits for the program, and frees what was taken. Its status, 0 where all was well; the negative number
 * of the signal that has ended it; or LIVE_UNKNOWN where the process doesn't learn it. With a limit of time, a program that hasn't
 * ended behind it is killed. */
int live_close(struct live *live);
enum { LIVE_UNKNOWN = 255 };

/* In a forked child, of a conversation of its parent: its descriptors are closed, and what was taken is freed. The parent's goes on. */
void live_forget(struct live *live);

/* The caller keeps to this, and nothing tests it:
 *   - no pointer is null but where it is said, and each points to as much as is said; a text ends with a zero;
 *   - one thread at a time makes calls of a conversation; those of several conversations are independent;
 *   - live_watch comes before live_boot: a copy that begins later hasn't what was written before;
 *   - nobody else waits for the process of a conversation, and it ends by live_close, or in a forked child by live_forget.
 * The program isn't trusted: what it says that is no answer ends the conversation, and nothing of it is written outside of what was
 * handed in. A call waits until the program has answered, or for the limit. SIGPIPE isn't raised by it, and none is left pending. */

#ifdef __cplusplus
}
#endif

#endif

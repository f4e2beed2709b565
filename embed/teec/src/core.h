/* A kept core, shared by the contexts of one description, and the calls of several threads on it: who has the turn speaks with the core;
 * all others wait for their turn, for a slot, for another call, or for the time. */
#ifndef CORE_H
#define CORE_H

#include "description.h"
#include "files.h"
#include "live.h"
#include "parts.h"
#include "ram.h"

#include <pthread.h>
#include <time.h>

struct waiter {
    pthread_cond_t cond;
    bool is_woken;
    struct waiter *next;
};

enum { MOST_SHOWN_OF_CALL = 1024 };

/* A call in the line for a slot, or inside. Its block in RAM has its argument, its area, and memory for input and for output. */
struct seat {
    struct call *call;
    uint32_t client, block;
    size_t front_bytes, block_bytes; /* that are written before it enters; of all */
    size_t places[CALL_PARAMETERS];  /* of memory in the block */
    size_t shown_bytes;              /* at the front of the block, read behind each exit */
    uint8_t shown[MOST_SHOWN_OF_CALL];
    struct argument request; /* and the reply to it */
    uint32_t slot;           /* once it has asked for something */
    struct waiter waiter;
    bool is_inside, sleeps, waits; /* it has a slot; it sleeps there; it waits for the time `until` */
    uint64_t until;                /* of virtual time, in milliseconds */
    struct seat *next;
};

struct core {
    struct core *next;
    unsigned users; /* contexts */
    char *name;
    struct description description;
    struct live *live;
    struct files *files;
    /* The turn: who has it may use all that stands below. */
    pthread_mutex_t mutex;
    bool is_taken;
    struct waiter *turns, *line; /* for the turn; for a slot */
    bool is_over;                /* the conversation has ended, or is that of the process that has forked this one */
    struct timespec heard;       /* when the program has answered last */
    struct ram ram;
    uint32_t lent, cancel_place; /* pages that are lent to the slots, one each; the argument of a cancel */
    unsigned slots, running;     /* free slots for calls; calls inside that don't sleep */
    struct seat *seats;          /* inside */
    struct seat *sleepers[MOST_THREADS]; /* by their keys */
    uint64_t virtual_now;        /* milliseconds */
    uint32_t last_cookie;
};

/* ---- turn.c */

void waiter_begin(struct waiter *waiter);
void waiter_end(struct waiter *waiter);
void waiter_append(struct waiter **line, struct waiter *waiter);
void waiter_remove(struct waiter **line, struct waiter *waiter);
void turn_take(struct core *core);
void turn_leave(struct core *core);
/* Lets others have a turn, where some wait for it. */
void turn_yield(struct core *core);
/* With the turn: wakes a waiter, or none where it is null. */
void turn_wake(struct core *core, struct waiter *waiter);
/* Gives the turn away until the waiter is woken, until a time, where it isn't null, or until the conversation has ended. */
void turn_sleep(struct core *core, struct waiter *waiter, const struct timespec *until);

/* ---- talk.c: the conversation, with the turn. Each says whether it goes on. */

bool core_is_well(struct core *core, struct live_answer answer);
bool core_fails(struct core *core, const char *cause);
/* A third of the limit, in milliseconds: for so long the program may be silent until it is looked after, and then it may take as long to
 * answer. The last third is for threads to come to their turn. */
unsigned core_third(const struct core *core);
/* Looks after the program, where it has been silent for so long. */
void core_checks(struct core *core);
bool core_reads(struct core *core, uint32_t address, void *bytes, size_t length);
bool core_writes(struct core *core, uint32_t address, const void *bytes, size_t length);

/* ---- sleep.c: calls that sleep inside, with the turn. */

void seat_wake(struct core *core, struct seat *seat);
void seat_suspend(struct core *core, struct seat *seat, uint32_t milliseconds);
void seat_sleep(struct core *core, struct seat *seat, uint64_t key);
void core_wake_key(struct core *core, uint64_t key);
/* Where all calls inside sleep, virtual time goes on to the first end of a wait. */
void core_advance(struct core *core);

/* ---- requests.c */

enum { AREA_BYTES = 160, REQUEST_BYTES = HEAD_BYTES + 3 * PARAMETER_BYTES, RET_AT = 20 };

/* Serves the request of a call, with the turn, and says whether the conversation goes on. `reply` becomes what is to be written of the
 * reply, from RET_AT on, or stays empty where there is none. */
bool core_serves(struct core *core, struct seat *seat, struct live_source *reply);
uint32_t core_lent(const struct core *core, uint32_t slot);
size_t argument_bytes(const struct call *call);

/* ---- seat.c: calls with the turn, from the line for a slot to their end. */

TEEC_Result seat_call(struct core *core, struct seat *seat, uint32_t *origin);
void seat_cancel(struct core *core, struct seat *seat);
/* The slots for calls: one is left for cancels, where there are two. */
unsigned core_slots(const struct core *core);

/* ---- shared.c: shared memory, with the turn. */

TEEC_Result shared_begin(struct core *core, struct shared *shared, uint32_t client);
void shared_end(struct core *core, struct shared *shared, uint32_t client);
/* The number by which the core knows it. */
uint32_t shared_cookie(const struct shared *shared);
/* Copies between shared memory and the pages that stand for it, and says whether the conversation goes on. */
bool shared_copies(struct core *core, const struct memref *memory, size_t size, bool is_in);

#endif

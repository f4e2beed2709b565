/* The parts of the library below the API. */
#ifndef PARTS_H
#define PARTS_H

#include "tee_client_api.h"

#include <stdbool.h>
#include <stdio.h>

/* What the library says on standard error, a line each. */
#define SAY(...) (fprintf(stderr, "teec: " __VA_ARGS__), fputc('\n', stderr))

/* ---- Calls, between the API (teec.c) and what serves it. Numbers are those of optee_msg.h. */

enum { CALL_PARAMETERS = 6, HEAD_BYTES = 32, PARAMETER_BYTES = 32 };
/* Bytes of one parameter, and of all shared memory: no block is larger than RAM. */
enum { MOST_MEMORY = 65536, MOST_SHARED = 4 << 20 };
enum { CMD_OPEN, CMD_INVOKE, CMD_CLOSE, CMD_CANCEL, CMD_REGISTER, CMD_UNREGISTER };
/* Attributes: of values 1 to 3, and of memory these for input, and one and two more for output and for both. */
enum { ATTR_RMEM = 5, ATTR_TMEM = 9, ATTR_META = 0x100, ATTR_NONCONTIG = 0x200 };

/* An argument as it lies in RAM. */
struct argument {
    uint32_t cmd, func, session, cancel_id, pad, ret, origin, count;
    struct {
        uint64_t attr, p, q, s;
    } parameters[CALL_PARAMETERS];
};

/* A block of shared memory. */
struct shared {
    struct shared *next;
    uint32_t number, flags;
    uint8_t *host;
    bool is_own; /* the library has allocated the host's bytes */
    size_t size;
    unsigned users; /* calls */
    void *place;    /* what stands for it below */
};

/* Memory of a parameter: the host's bytes, or null for the null reference. */
struct memref {
    uint8_t *host;
    size_t size;
    bool is_in, is_out;
    struct shared *shared; /* where it is part of one, or null */
    size_t offset;         /* in that */
};

struct call {
    struct argument argument;
    struct memref memory[CALL_PARAMETERS];
    uint32_t group; /* of an open by a login with a group */
    bool is_cancelled;
    struct seat *seat; /* what the call has below, while it is served */
    /* Of the API. */
    TEEC_Operation *operation;
    unsigned cancels; /* that go on */
    struct call *next;
};

/* ---- What serves a context: a kept core (core.c), or Linux's driver (embed/linux). */

struct tee;

/* Begins to serve a context, whose number tells it from others of this process. */
TEEC_Result tee_begin(struct tee **tee, const char *name, uint32_t context);
void tee_end(struct tee *tee);
/* Makes a call: the result, and its origin. The argument and the host's memory have what the application has put out where the origin
 * is its own. */
TEEC_Result tee_call(struct tee *tee, struct call *call, uint32_t *origin);
/* Asks for the end of a call that was begun, whether it is served yet or not. */
void tee_cancel(struct tee *tee, struct call *call);
/* Shared memory, with its number, flags, size and host, of at least one byte. */
TEEC_Result tee_share(struct tee *tee, struct shared *shared);
void tee_unshare(struct tee *tee, struct shared *shared);
/* Lets other threads go on for a moment. */
void tee_rest(void);
/* Before a fork nobody changes anything below; behind it others go on in the parent, and in the child each context is over. */
void tee_before_fork(void);
void tee_behind_fork(bool is_child);

/* ---- login.c: who the client is. */

/* The octets of the client's UUID, by the rules of Linux's driver for OP-TEE. */
TEEC_Result login_octets(uint32_t method, const void *data, uint8_t octets[16]);
void octets_of_uuid(const TEEC_UUID *uuid, uint8_t octets[16]);

#endif

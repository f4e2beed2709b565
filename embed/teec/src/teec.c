/* The functions of the TEE Client API. Objects of the host have numbers alone, which are looked up each time: one that is closed, or was
 * never opened, is no danger. The registry's mutex is held for a moment only, and never while a call is made. */
#include "operation.h"
#include "parts.h"

#include <pthread.h>
#include <stdlib.h>
#include <string.h>

struct session {
    struct session *next;
    uint32_t number;
};

struct context {
    struct context *next;
    uint32_t number;
    unsigned users; /* the host, until it finalizes it, and calls */
    struct tee *tee;
    struct session *sessions;
    struct shared *shared;
    struct call *calls; /* operations that have begun */
};

static struct {
    pthread_mutex_t mutex;
    pthread_once_t once;
    struct context *contexts;
    uint32_t last_context, last_shared, last_operation;
} registry = {.mutex = PTHREAD_MUTEX_INITIALIZER, .once = PTHREAD_ONCE_INIT};

/* `started` of an operation that has begun, and of one that was cancelled before it did. */
enum { STARTED = 1, CANCELLED_BEFORE = 0x434e434c };

static void lock(void) {
    pthread_mutex_lock(&registry.mutex);
}

static void unlock(void) {
    pthread_mutex_unlock(&registry.mutex);
}

static TEEC_Result answer(uint32_t *origin, uint32_t value, TEEC_Result result) {
    if (origin) *origin = value;
    return result;
}

/* ---- Forks: nothing changes while one is made. In the child no call goes on. */

static void before_fork(void) {
    lock();
    tee_before_fork();
}

static void behind_fork_in_parent(void) {
    tee_behind_fork(false);
    unlock();
}

static void behind_fork_in_child(void) {
    tee_behind_fork(true);
    for (struct context *context = registry.contexts; context; context = context->next) {
        context->users = 1, context->calls = NULL;
        for (struct shared *shared = context->shared; shared; shared = shared->next) shared->users = 0;
    }
    unlock();
}

static void watch_forks(void) {
    pthread_atfork(before_fork, behind_fork_in_parent, behind_fork_in_child);
}

/* ---- Contexts. */

/* A context, which stays until it is given back, or null. */
static struct context *context_of(uint32_t number) {
    lock();
    struct context *context = registry.contexts;
    while (context && context->number != number) context = context->next;
    if (context) context->users++;
    unlock();
    return context;
}

static void clean(struct context *context);

/* The last user ends it. */
static void give_back(struct context *context) {
    lock();
    bool is_last = --context->users == 0;
    unlock();
    if (!is_last) return;
    clean(context); /* of what was opened meanwhile */
    tee_end(context->tee);
    free(context);
}

TEEC_Result TEEC_InitializeContext(const char *name, TEEC_Context *context) {
    if (context == NULL) return TEEC_ERROR_BAD_PARAMETERS;
    context->imp.number = 0;
    pthread_once(&registry.once, watch_forks);
    struct context *new = calloc(1, sizeof *new);
    if (new == NULL) return TEEC_ERROR_OUT_OF_MEMORY;
    lock();
    new->number = ++registry.last_context, new->users = 1;
    unlock();
    TEEC_Result result = tee_begin(&new->tee, name, new->number);
    if (result) {
        free(new);
        return result;
    }
    lock();
    new->next = registry.contexts, registry.contexts = new;
    unlock();
    context->imp.number = new->number;
    return TEEC_SUCCESS;
}

static void close_session(struct context *context, uint32_t number);
static void release(struct context *context, struct shared *shared);

/* Closes and releases what the host has left open. Nobody finds the context any more. */
static void clean(struct context *context) {
    struct session *session;
    struct shared *shared;
    for (;;) {
        lock();
        session = context->sessions, shared = context->shared;
        if (session) context->sessions = session->next;
        else if (shared) context->shared = shared->next;
        unlock();
        if (session) close_session(context, session->number), free(session);
        else if (shared) release(context, shared);
        else return;
    }
}

void TEEC_FinalizeContext(TEEC_Context *context) {
    struct context *found = NULL;
    if (context == NULL) return;
    lock();
    for (struct context **at = &registry.contexts; *at && !found; at = found ? at : &(*at)->next)
        if ((*at)->number == context->imp.number) found = *at, *at = found->next;
    unlock();
    context->imp.number = 0;
    if (found == NULL) return;
    clean(found);
    give_back(found);
}

/* ---- Operations. */

/* An operation begins, and can be cancelled from now on. Whether it wasn't cancelled before. */
static bool begin_operation(struct context *context, struct call *call, TEEC_Operation *operation) {
    lock();
    call->operation = operation;
    call->argument.cancel_id = ++registry.last_operation;
    call->next = context->calls, context->calls = call;
    unlock();
    if (operation == NULL) return true;
    __atomic_store_n(&operation->imp.context, context->number, __ATOMIC_RELAXED);
    __atomic_store_n(&operation->imp.number, call->argument.cancel_id, __ATOMIC_RELAXED);
    return __atomic_exchange_n(&operation->started, STARTED, __ATOMIC_ACQ_REL) != CANCELLED_BEFORE;
}

/* Behind it no cancel names the call. */
static void end_operation(struct context *context, struct call *call) {
    lock();
    struct call **at = &context->calls;
    while (*at != call) at = &(*at)->next;
    *at = call->next;
    while (call->cancels > 0) unlock(), tee_rest(), lock();
    unlock();
}

/* The call of an operation, which stays until its cancel is over, or null. */
static struct call *call_to_cancel(struct context *context, const TEEC_Operation *operation, uint32_t number) {
    lock();
    struct call *call = context->calls;
    while (call && (call->operation != operation || call->argument.cancel_id != number)) call = call->next;
    if (call) call->cancels++;
    unlock();
    return call;
}

static void cancel_begun(const TEEC_Operation *operation) {
    uint32_t number = __atomic_load_n(&operation->imp.number, __ATOMIC_RELAXED);
    struct context *context = context_of(__atomic_load_n(&operation->imp.context, __ATOMIC_RELAXED));
    if (context == NULL) return;
    struct call *call = call_to_cancel(context, operation, number);
    if (call) {
        tee_cancel(context->tee, call);
        lock();
        call->cancels--;
        unlock();
    }
    give_back(context);
}

/* An operation that hasn't begun is marked, and then doesn't. */
void TEEC_RequestCancellation(TEEC_Operation *operation) {
    uint32_t not_yet = 0;
    if (operation == NULL) return;
    if (__atomic_compare_exchange_n(&operation->started, &not_yet, CANCELLED_BEFORE, false, __ATOMIC_ACQ_REL, __ATOMIC_ACQUIRE)) return;
    if (not_yet == STARTED) cancel_begun(operation);
}

static struct shared *shared_of(void *of, uint32_t number) {
    struct shared *shared = ((struct context *)of)->shared;
    while (shared && shared->number != number) shared = shared->next;
    return shared;
}

/* Makes a call with the parameters of an operation behind those that it has. */
static TEEC_Result operate(struct context *context, struct call *call, TEEC_Operation *operation, uint32_t *origin) {
    uint32_t first = call->argument.count;
    *origin = TEEC_ORIGIN_API;
    lock();
    bool is_well = operation_takes(call, operation, shared_of, context);
    unlock();
    TEEC_Result result = is_well ? tee_call(context->tee, call, origin) : TEEC_ERROR_BAD_PARAMETERS;
    if (operation && *origin == TEEC_ORIGIN_TRUSTED_APP) operation_told(call, first, operation);
    lock();
    operation_gives(call);
    unlock();
    return result;
}

/* ---- Sessions. */

static struct session **session_at(struct context *context, uint32_t number) {
    struct session **at = &context->sessions;
    while (*at && (*at)->number != number) at = &(*at)->next;
    return at;
}

static bool has_session(struct context *context, uint32_t number) {
    lock();
    bool is_there = *session_at(context, number) != NULL;
    unlock();
    return is_there;
}

/* Has the core close a session. Its result tells nobody anything. */
static void close_session(struct context *context, uint32_t number) {
    struct call call = {.argument = {.cmd = CMD_CLOSE, .session = number}};
    uint32_t origin;
    tee_call(context->tee, &call, &origin);
}

/* The two parameters of an open that stand before those of its operation: the application, and the client with its login. */
static TEEC_Result name_both(struct call *call, const TEEC_UUID *destination, uint32_t method, const void *data) {
    uint8_t octets[16];
    TEEC_Result result = login_octets(method, data, octets);
    if (result) return result;
    if (method == TEEC_LOGIN_GROUP) memcpy(&call->group, data, sizeof call->group);
    call->argument.count = 2;
    call->argument.parameters[0].attr = call->argument.parameters[1].attr = ATTR_META | TEEC_VALUE_INPUT;
    memcpy(&call->argument.parameters[1].p, octets, sizeof octets);
    call->argument.parameters[1].s = method;
    octets_of_uuid(destination, octets);
    memcpy(&call->argument.parameters[0].p, octets, sizeof octets);
    return TEEC_SUCCESS;
}

static TEEC_Result open_session(struct context *context, struct call *call, TEEC_Operation *operation, uint32_t *origin) {
    struct session *new = calloc(1, sizeof *new);
    if (new == NULL) return TEEC_ERROR_OUT_OF_MEMORY;
    TEEC_Result result = operate(context, call, operation, origin);
    if (result) {
        free(new);
        return result;
    }
    lock();
    *new = (struct session){context->sessions, call->argument.session};
    context->sessions = new;
    unlock();
    return TEEC_SUCCESS;
}

TEEC_Result TEEC_OpenSession(TEEC_Context *context, TEEC_Session *session, const TEEC_UUID *destination, uint32_t connectionMethod,
                             const void *connectionData, TEEC_Operation *operation, uint32_t *returnOrigin) {
    struct call call = {.argument = {.cmd = CMD_OPEN}};
    uint32_t origin = TEEC_ORIGIN_API;
    if (session) session->imp.context = session->imp.number = 0;
    struct context *found = context && session && destination ? context_of(context->imp.number) : NULL;
    if (found == NULL) return answer(returnOrigin, TEEC_ORIGIN_API, TEEC_ERROR_BAD_PARAMETERS);
    TEEC_Result result = begin_operation(found, &call, operation) ? TEEC_SUCCESS : TEEC_ERROR_CANCEL;
    if (result == TEEC_SUCCESS) result = name_both(&call, destination, connectionMethod, connectionData);
    if (result == TEEC_SUCCESS) result = open_session(found, &call, operation, &origin);
    if (result == TEEC_SUCCESS) session->imp.context = found->number, session->imp.number = call.argument.session;
    end_operation(found, &call);
    give_back(found);
    return answer(returnOrigin, origin, result);
}

void TEEC_CloseSession(TEEC_Session *session) {
    struct context *context = session ? context_of(session->imp.context) : NULL;
    if (context == NULL) return;
    lock();
    struct session **at = session_at(context, session->imp.number), *closed = *at;
    if (closed) *at = closed->next;
    unlock();
    if (closed) close_session(context, closed->number);
    free(closed);
    give_back(context);
    session->imp.context = session->imp.number = 0;
}

TEEC_Result TEEC_InvokeCommand(TEEC_Session *session, uint32_t commandID, TEEC_Operation *operation, uint32_t *returnOrigin) {
    struct context *context = session ? context_of(session->imp.context) : NULL;
    uint32_t origin = TEEC_ORIGIN_API;
    if (context == NULL) return answer(returnOrigin, TEEC_ORIGIN_API, TEEC_ERROR_BAD_PARAMETERS);
    struct call call = {.argument = {.cmd = CMD_INVOKE, .func = commandID, .session = session->imp.number}};
    TEEC_Result result = begin_operation(context, &call, operation) ? TEEC_ERROR_BAD_PARAMETERS : TEEC_ERROR_CANCEL;
    if (result != TEEC_ERROR_CANCEL && has_session(context, call.argument.session)) result = operate(context, &call, operation, &origin);
    end_operation(context, &call);
    give_back(context);
    return answer(returnOrigin, origin, result);
}

/* ---- Shared memory. */

/* Takes it away once no call uses it. It is in no list any more. */
static void release(struct context *context, struct shared *shared) {
    lock();
    while (shared->users > 0) unlock(), tee_rest(), lock();
    unlock();
    if (shared->place) tee_unshare(context->tee, shared);
    if (shared->is_own) free(shared->host);
    free(shared);
}

/* A block for these bytes of the host, or for bytes of its own where they are null. */
static struct shared *new_shared(const TEEC_SharedMemory *memory, uint8_t *host) {
    struct shared *shared = memory->size <= MOST_SHARED ? calloc(1, sizeof *shared) : NULL;
    if (shared == NULL) return NULL;
    *shared = (struct shared){.flags = memory->flags, .size = memory->size, .is_own = host == NULL, .host = host};
    if (shared->is_own) shared->host = calloc(1, memory->size + (memory->size == 0));
    if (shared->host) return shared;
    free(shared);
    return NULL;
}

static TEEC_Result share(struct context *context, struct shared *shared, TEEC_SharedMemory *memory) {
    lock();
    shared->number = ++registry.last_shared;
    unlock();
    TEEC_Result result = shared->size > 0 ? tee_share(context->tee, shared) : TEEC_SUCCESS;
    if (result) return result;
    lock();
    shared->next = context->shared, context->shared = shared;
    unlock();
    memory->buffer = shared->host;
    memory->imp.context = context->number, memory->imp.number = shared->number;
    return TEEC_SUCCESS;
}

static TEEC_Result share_of_host(TEEC_Context *context, TEEC_SharedMemory *memory, uint8_t *host) {
    struct context *found = context_of(context->imp.number);
    if (found == NULL) return TEEC_ERROR_BAD_PARAMETERS;
    struct shared *shared = new_shared(memory, host);
    TEEC_Result result = shared ? share(found, shared, memory) : TEEC_ERROR_OUT_OF_MEMORY;
    if (result && shared) {
        if (shared->is_own) free(shared->host);
        free(shared);
    }
    give_back(found);
    return result;
}

static bool has_flags(const TEEC_SharedMemory *memory) {
    return memory->flags != 0 && (memory->flags & ~(uint32_t)(TEEC_MEM_INPUT | TEEC_MEM_OUTPUT)) == 0;
}

TEEC_Result TEEC_RegisterSharedMemory(TEEC_Context *context, TEEC_SharedMemory *sharedMem) {
    if (context == NULL || sharedMem == NULL) return TEEC_ERROR_BAD_PARAMETERS;
    sharedMem->imp.context = sharedMem->imp.number = 0;
    if (!has_flags(sharedMem) || sharedMem->buffer == NULL) return TEEC_ERROR_BAD_PARAMETERS;
    return share_of_host(context, sharedMem, sharedMem->buffer);
}

TEEC_Result TEEC_AllocateSharedMemory(TEEC_Context *context, TEEC_SharedMemory *sharedMem) {
    if (context == NULL || sharedMem == NULL) return TEEC_ERROR_BAD_PARAMETERS;
    sharedMem->imp.context = sharedMem->imp.number = 0;
    sharedMem->buffer = NULL;
    return has_flags(sharedMem) ? share_of_host(context, sharedMem, NULL) : TEEC_ERROR_BAD_PARAMETERS;
}

void TEEC_ReleaseSharedMemory(TEEC_SharedMemory *sharedMemory) {
    struct context *context = sharedMemory ? context_of(sharedMemory->imp.context) : NULL;
    if (context == NULL) return;
    lock();
    struct shared **at = &context->shared, *shared;
    while (*at && (*at)->number != sharedMemory->imp.number) at = &(*at)->next;
    shared = *at;
    if (shared) *at = shared->next;
    unlock();
    if (shared && shared->is_own) sharedMemory->buffer = NULL;
    if (shared) release(context, shared);
    give_back(context);
    sharedMemory->imp.context = sharedMemory->imp.number = 0;
}

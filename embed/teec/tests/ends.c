/* Cores that are killed, stand still or end by themselves, under many callers: each is told so within the limit, and nothing is left. And
 * hosts that fork. */
#include "test.h"

#include <signal.h>
#include <sys/stat.h>
#include <sys/wait.h>

enum { CALLERS = 12, LIMIT = 2000 };
/* Seconds: the limit, and what a busy machine takes. */
#define IN_TIME (LIMIT / 1e3 + 3)

static TEEC_Context ctx;
static uint32_t origin;
static int ready;

static const char *with_limit(int milliseconds) {
    char limit[30];
    snprintf(limit, sizeof limit, "limit %d", milliseconds);
    return described((const char *[]){limit, NULL});
}

static pid_t child(void) {
    pid_t all[8];
    CHECK(children(all, 8) == 1);
    return all[0];
}

/* ---- Callers. */

enum task { WAITS, WORKS };
struct caller {
    pthread_t thread;
    enum task task;
};

/* Calls until a call fails, which has to be by the way to the core. */
static void *calls(void *of) {
    const struct caller *caller = of;
    TEEC_UUID uuid = caller->task == WAITS ? WAIT : HELLO;
    TEEC_Session session;
    uint32_t from = API;
    TEEC_Result result = TEEC_OpenSession(&ctx, &session, &uuid, TEEC_LOGIN_PUBLIC, NULL, NULL, &from);
    __atomic_add_fetch(&ready, 1, __ATOMIC_RELAXED);
    while (result == TEEC_SUCCESS) {
        TEEC_Operation op = operation(caller->task == WAITS ? TEEC_NONE : TEEC_VALUE_INOUT, TEEC_NONE, TEEC_NONE, TEEC_NONE);
        result = TEEC_InvokeCommand(&session, caller->task == WAITS ? 600000 : 0, &op, &from);
    }
    CHECK(result == TEEC_ERROR_COMMUNICATION && from == COMMS);
    if (result != TEEC_ERROR_COMMUNICATION || from != COMMS) printf("   came %08x of %u\n", result, from);
    TEEC_CloseSession(&session);
    return NULL;
}

/* Starts so many callers that wait, and the others work. */
static void start(struct caller callers[CALLERS], int waiting) {
    ready = 0;
    for (int i = 0; i < CALLERS; i++) {
        callers[i].task = i < waiting ? WAITS : WORKS;
        pthread_create(&callers[i].thread, NULL, calls, &callers[i]);
    }
    /* Where all wait, only three come in; their opens were before. */
    while (__atomic_load_n(&ready, __ATOMIC_RELAXED) < (waiting == CALLERS ? 3 : CALLERS)) usleep(1000);
    usleep(100000);
}

static void join(struct caller callers[CALLERS], double begin) {
    for (int i = 0; i < CALLERS; i++) pthread_join(callers[i].thread, NULL);
    CHECK(now() - begin < IN_TIME);
}

/* A signal comes to the core, with this limit, while so many callers wait. */
static void signals(int signal, int waiting, int limit) {
    struct caller callers[CALLERS];
    TEEC_Session session;
    int before = descriptors();
    pid_t all[8];
    CHECK(TEEC_InitializeContext(with_limit(limit), &ctx) == TEEC_SUCCESS);
    start(callers, waiting);
    double begin = now();
    kill(child(), signal);
    join(callers, begin);
    GIVES(TEEC_OpenSession(&ctx, &session, &HELLO, 0, NULL, NULL, &origin), TEEC_ERROR_COMMUNICATION, COMMS);
    TEEC_SharedMemory memory = {.size = 100, .flags = TEEC_MEM_INPUT};
    CHECK(TEEC_AllocateSharedMemory(&ctx, &memory) == TEEC_ERROR_COMMUNICATION);
    /* A new context has a new core, while the old one is still there. */
    TEEC_Context fresh;
    CHECK(TEEC_InitializeContext(described_path, &fresh) == TEEC_SUCCESS);
    session = opened(&fresh, HELLO);
    TEEC_CloseSession(&session);
    begin = now();
    TEEC_FinalizeContext(&ctx), TEEC_FinalizeContext(&fresh);
    CHECK(now() - begin < IN_TIME);
    CHECK(children(all, 8) == 0 && descriptors() == before);
}

/* A program that ends by itself behind so many lines. */
static void ends_by_itself(void) {
    struct caller callers[CALLERS];
    char name[] = "/tmp/teec_live_XXXXXX", *live = strdup(getenv("TULGEXAR_LIVE"));
    int file = mkstemp(name);
    dprintf(file, "#!/bin/sh\nsed -u 400q | \"%s\"\n", live);
    fchmod(file, 0700), close(file);
    setenv("TULGEXAR_LIVE", name, 1);
    CHECK(TEEC_InitializeContext(with_limit(LIMIT), &ctx) == TEEC_SUCCESS);
    double begin = now();
    ready = 0;
    for (int i = 0; i < CALLERS; i++) callers[i].task = i < 2 ? WAITS : WORKS, pthread_create(&callers[i].thread, NULL, calls, &callers[i]);
    for (int i = 0; i < CALLERS; i++) pthread_join(callers[i].thread, NULL);
    CHECK(now() - begin < 10 + IN_TIME);
    TEEC_FinalizeContext(&ctx);
    setenv("TULGEXAR_LIVE", live, 1);
    free(live), unlink(name);
}

/* A program that stands still at its boot. */
static void stands_still_at_boot(void) {
    char name[] = "/tmp/teec_live_XXXXXX", *live = strdup(getenv("TULGEXAR_LIVE"));
    int file = mkstemp(name);
    dprintf(file, "#!/bin/sh\nkill -STOP $$\n");
    fchmod(file, 0700), close(file);
    setenv("TULGEXAR_LIVE", name, 1);
    double begin = now();
    CHECK(TEEC_InitializeContext(with_limit(LIMIT), &ctx) == TEEC_ERROR_COMMUNICATION);
    CHECK(now() - begin < IN_TIME);
    setenv("TULGEXAR_LIVE", live, 1);
    free(live), unlink(name);
}

/* ---- Forks. */

#ifndef __SANITIZE_THREAD__
static int stops;

static void *works(void *of) {
    TEEC_Session session = opened(&ctx, HELLO);
    (void)of;
    while (!__atomic_load_n(&stops, __ATOMIC_RELAXED)) {
        TEEC_Operation op = operation(TEEC_VALUE_INOUT, TEEC_NONE, TEEC_NONE, TEEC_NONE);
        CHECK(TEEC_InvokeCommand(&session, 0, &op, NULL) == TEEC_SUCCESS && op.params[0].value.a == 1);
    }
    TEEC_CloseSession(&session);
    return NULL;
}

/* The contexts of the parent are over here, and a new one is begun. */
static int in_child(TEEC_Session *session) {
    TEEC_Context context;
    TEEC_Operation op = operation(TEEC_VALUE_INOUT, TEEC_NONE, TEEC_NONE, TEEC_NONE);
    faults = 0;
    GIVES(TEEC_InvokeCommand(session, 0, &op, &origin), TEEC_ERROR_COMMUNICATION, COMMS);
    TEEC_CloseSession(session);
    CHECK(TEEC_InitializeContext(described_path, &context) == TEEC_SUCCESS);
    TEEC_Session own = opened(&context, HELLO);
    op.params[0].value.a = 41;
    GIVES(TEEC_InvokeCommand(&own, 0, &op, &origin), TEEC_SUCCESS, APP);
    CHECK(op.params[0].value.a == 42);
    TEEC_FinalizeContext(&context), TEEC_FinalizeContext(&ctx);
    return faults > 0;
}

/* Forks while eight threads call. */
static void forks(void) {
    pthread_t threads[8];
    CHECK(TEEC_InitializeContext(with_limit(LIMIT), &ctx) == TEEC_SUCCESS);
    TEEC_Session session = opened(&ctx, HELLO);
    for (int i = 0; i < 8; i++) pthread_create(&threads[i], NULL, works, NULL);
    for (int i = 0; i < 20; i++) {
        int status = -1;
        pid_t forked = fork();
        if (forked == 0) _exit(in_child(&session));
        CHECK(waitpid(forked, &status, 0) == forked && status == 0);
    }
    __atomic_store_n(&stops, 1, __ATOMIC_RELAXED);
    for (int i = 0; i < 8; i++) pthread_join(threads[i], NULL);
    TEEC_FinalizeContext(&ctx);
}

/* A child that stays keeps nothing open: the core sees the end of its parent's conversation, and isn't waited for. */
static void fork_that_stays(void) {
    CHECK(TEEC_InitializeContext(described((const char *[]){"limit 15000", NULL}), &ctx) == TEEC_SUCCESS);
    TEEC_Session session = opened(&ctx, HELLO);
    pid_t forked = fork();
    if (forked == 0) pause(), _exit(0);
    TEEC_Operation op = operation(TEEC_VALUE_INOUT, TEEC_NONE, TEEC_NONE, TEEC_NONE);
    GIVES(TEEC_InvokeCommand(&session, 0, &op, &origin), TEEC_SUCCESS, APP);
    double begin = now();
    TEEC_FinalizeContext(&ctx);
    CHECK(now() - begin < 4);
    kill(forked, SIGKILL), waitpid(forked, NULL, 0);
}
#else
static void forks(void) {}
static void fork_that_stays(void) {}
#endif

int main(void) {
    /* Where somebody works all are told at once, however long the limit is. */
    signals(SIGKILL, 2, 60000), signals(SIGTERM, 0, 60000);
    signals(SIGKILL, CALLERS, LIMIT), signals(SIGSTOP, 2, LIMIT), signals(SIGSTOP, CALLERS, LIMIT);
    ends_by_itself(), stands_still_at_boot(), forks(), fork_that_stays();
    unlink(described_path);
    return ended("ends");
}

/* What a host does wrong, and a program that is missing or none. */
#include "test.h"

static uint32_t origin;

static void contexts(void) {
    TEEC_Context ctx;
    char *live = strdup(getenv("TULGEXAR_LIVE")), *boot = strdup(getenv("TULGEXAR_BOOT"));
    CHECK(TEEC_InitializeContext(NULL, NULL) == TEEC_ERROR_BAD_PARAMETERS);
    CHECK(TEEC_InitializeContext("hosts/nowhere.txt", &ctx) == TEEC_ERROR_ITEM_NOT_FOUND);
    CHECK(TEEC_InitializeContext("hosts", &ctx) != TEEC_SUCCESS);
    unsetenv("TULGEXAR_BOOT");
    CHECK(TEEC_InitializeContext(NULL, &ctx) == TEEC_ERROR_ITEM_NOT_FOUND);
    setenv("TULGEXAR_BOOT", boot, 1);
    setenv("TULGEXAR_LIVE", "hosts/nowhere", 1);
    CHECK(TEEC_InitializeContext(NULL, &ctx) == TEEC_ERROR_ITEM_NOT_FOUND);
    setenv("TULGEXAR_LIVE", "/bin/true", 1);
    CHECK(TEEC_InitializeContext(NULL, &ctx) == TEEC_ERROR_COMMUNICATION);
    setenv("TULGEXAR_LIVE", "/bin/cat", 1);
    CHECK(TEEC_InitializeContext(NULL, &ctx) == TEEC_ERROR_COMMUNICATION);
    setenv("TULGEXAR_LIVE", live, 1);
    TEEC_FinalizeContext(NULL), TEEC_FinalizeContext(&ctx);
    free(live), free(boot);
}

/* Null, wild and foreign objects. */
static void sessions(void) {
    TEEC_Context ctx, other;
    TEEC_Session session, copied, wild;
    TEEC_Operation op = operation(TEEC_VALUE_INOUT, TEEC_NONE, TEEC_NONE, TEEC_NONE);
    CHECK(TEEC_InitializeContext(NULL, &ctx) == TEEC_SUCCESS && TEEC_InitializeContext(NULL, &other) == TEEC_SUCCESS);
    GIVES(TEEC_OpenSession(NULL, &session, &HELLO, 0, NULL, NULL, &origin), TEEC_ERROR_BAD_PARAMETERS, API);
    GIVES(TEEC_OpenSession(&ctx, NULL, &HELLO, 0, NULL, NULL, &origin), TEEC_ERROR_BAD_PARAMETERS, API);
    GIVES(TEEC_OpenSession(&ctx, &session, NULL, 0, NULL, NULL, &origin), TEEC_ERROR_BAD_PARAMETERS, API);
    CHECK(TEEC_OpenSession(&ctx, NULL, NULL, 0, NULL, NULL, NULL) == TEEC_ERROR_BAD_PARAMETERS);
    GIVES(TEEC_InvokeCommand(NULL, 0, &op, &origin), TEEC_ERROR_BAD_PARAMETERS, API);
    memset(&wild, 0x5a, sizeof wild);
    GIVES(TEEC_InvokeCommand(&wild, 0, &op, &origin), TEEC_ERROR_BAD_PARAMETERS, API);
    TEEC_CloseSession(&wild), TEEC_CloseSession(NULL);
    session = opened(&ctx, HELLO), copied = session;
    /* A session of another context. */
    wild = session, wild.imp.context = other.imp.number;
    GIVES(TEEC_InvokeCommand(&wild, 0, &op, &origin), TEEC_ERROR_BAD_PARAMETERS, API);
    GIVES(TEEC_InvokeCommand(&session, 0, &op, &origin), TEEC_SUCCESS, APP);
    TEEC_CloseSession(&session), TEEC_CloseSession(&session), TEEC_CloseSession(&copied);
    GIVES(TEEC_InvokeCommand(&session, 0, &op, &origin), TEEC_ERROR_BAD_PARAMETERS, API);
    GIVES(TEEC_InvokeCommand(&copied, 0, &op, &origin), TEEC_ERROR_BAD_PARAMETERS, API);
    TEEC_FinalizeContext(&ctx), TEEC_FinalizeContext(&other);
}

static void shared_memory(void) {
    TEEC_Context ctx;
    TEEC_SharedMemory memory = {.size = 10, .flags = TEEC_MEM_INPUT}, bad = {.size = 10};
    CHECK(TEEC_InitializeContext(NULL, &ctx) == TEEC_SUCCESS);
    CHECK(TEEC_AllocateSharedMemory(NULL, &memory) == TEEC_ERROR_BAD_PARAMETERS);
    CHECK(TEEC_AllocateSharedMemory(&ctx, NULL) == TEEC_ERROR_BAD_PARAMETERS);
    CHECK(TEEC_RegisterSharedMemory(&ctx, &memory) == TEEC_ERROR_BAD_PARAMETERS); /* no buffer */
    CHECK(TEEC_AllocateSharedMemory(&ctx, &bad) == TEEC_ERROR_BAD_PARAMETERS);    /* no flags */
    bad.flags = 4, CHECK(TEEC_AllocateSharedMemory(&ctx, &bad) == TEEC_ERROR_BAD_PARAMETERS);
    memory.size = (size_t)-1, CHECK(TEEC_AllocateSharedMemory(&ctx, &memory) == TEEC_ERROR_OUT_OF_MEMORY);
    memory.size = 10, CHECK(TEEC_AllocateSharedMemory(&ctx, &memory) == TEEC_SUCCESS);
    TEEC_SharedMemory twice = memory;
    TEEC_ReleaseSharedMemory(&memory), TEEC_ReleaseSharedMemory(&memory), TEEC_ReleaseSharedMemory(&twice), TEEC_ReleaseSharedMemory(NULL);
    TEEC_FinalizeContext(&ctx);
}

/* What is left open the context closes; then its sessions are none, and another context goes on. */
static void finalized(void) {
    TEEC_Context ctx, other;
    TEEC_SharedMemory memory = {.size = 10, .flags = TEEC_MEM_INPUT};
    TEEC_Operation op = operation(TEEC_VALUE_INOUT, TEEC_NONE, TEEC_NONE, TEEC_NONE);
    CHECK(TEEC_InitializeContext(NULL, &ctx) == TEEC_SUCCESS && TEEC_InitializeContext(NULL, &other) == TEEC_SUCCESS);
    TEEC_RequestCancellation(NULL);
    TEEC_Session session = opened(&ctx, HELLO);
    CHECK(TEEC_AllocateSharedMemory(&ctx, &memory) == TEEC_SUCCESS);
    TEEC_FinalizeContext(&ctx), TEEC_FinalizeContext(&ctx);
    GIVES(TEEC_InvokeCommand(&session, 0, &op, &origin), TEEC_ERROR_BAD_PARAMETERS, API);
    TEEC_CloseSession(&session), TEEC_ReleaseSharedMemory(&memory);
    GIVES(TEEC_OpenSession(&ctx, &session, &HELLO, 0, NULL, NULL, &origin), TEEC_ERROR_BAD_PARAMETERS, API);
    session = opened(&other, HELLO);
    GIVES(TEEC_InvokeCommand(&session, 0, &op, &origin), TEEC_SUCCESS, APP);
    CHECK(op.params[0].value.a == 1);
    TEEC_FinalizeContext(&other);
}

/* A core that keeps its history reads 2^28 bytes in its life. */
__attribute__((unused)) static void reads_all(void) {
    TEEC_Context ctx;
    static uint8_t bytes[65536];
    CHECK(TEEC_InitializeContext(described((const char *[]){"history on", NULL}), &ctx) == TEEC_SUCCESS);
    TEEC_Session session = opened(&ctx, HELLO);
    TEEC_Operation op = operation(TEEC_MEMREF_TEMP_INPUT, TEEC_MEMREF_TEMP_INPUT, TEEC_MEMREF_TEMP_INPUT, TEEC_MEMREF_TEMP_INPUT);
    for (int i = 0; i < 4; i++) op.params[i].tmpref = (TEEC_TempMemoryReference){bytes, sizeof bytes};
    int count = 0;
    TEEC_Result result;
    double begin = now();
    while ((result = TEEC_InvokeCommand(&session, 0, &op, &origin)) == TEEC_ERROR_BAD_PARAMETERS && count < 2000) count++;
    fprintf(stderr, "%d calls with 262,144 bytes in %.1f s, then %08x of %u\n", count, now() - begin, result, origin);
    CHECK(count == 1023 && result == TEEC_ERROR_COMMUNICATION && origin == COMMS);
    TEEC_FinalizeContext(&ctx);
    unlink(described_path);
}

int main(void) {
    contexts(), sessions(), shared_memory(), finalized();
#ifndef __SANITIZE_THREAD__ /* it has one thread, and would take a minute */
    reads_all();
#endif
    return ended("misuse");
}

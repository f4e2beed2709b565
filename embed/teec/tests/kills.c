/* Kills the program of a core at random moments under many callers, each of which has to be told so in time, and nothing may be left.
 *
 * usage: kills ROUNDS THREADS */
#include "test.h"

#include <fcntl.h>
#include <signal.h>

enum { LIMIT = 2000, MOST_CALLERS = 64 };

static TEEC_Context ctx;

static uint32_t next(uint32_t *seed) {
    *seed = *seed * 1664525 + 1013904223;
    return *seed >> 8;
}

static TEEC_Result mixed(TEEC_Session *session, uint32_t kind, uint32_t *from) {
    static uint8_t bytes[5000];
    TEEC_Operation op = operation(TEEC_VALUE_INOUT, TEEC_NONE, TEEC_NONE, TEEC_NONE);
    if (kind == 1) {
        op = operation(TEEC_MEMREF_TEMP_INPUT, TEEC_NONE, TEEC_NONE, TEEC_NONE);
        op.params[0].tmpref = (TEEC_TempMemoryReference){bytes, sizeof bytes};
    }
    if (kind == 2) op = operation(TEEC_NONE, TEEC_NONE, TEEC_NONE, TEEC_NONE);
    TEEC_Result result = TEEC_InvokeCommand(session, kind == 2 ? 600000 : 0, &op, from);
    /* Memory isn't what the application wants. */
    return kind == 1 && result == TEEC_ERROR_BAD_PARAMETERS && *from == APP ? TEEC_SUCCESS : result;
}

static void *calls(void *of) {
    uint32_t seed = (uint32_t)(size_t)of, kind = next(&seed) % 3, from = API;
    TEEC_UUID uuid = kind == 2 ? WAIT : HELLO;
    TEEC_Session session;
    TEEC_SharedMemory memory = {.size = 6000, .flags = TEEC_MEM_INPUT};
    bool is_shared = kind == 1 && next(&seed) % 4 == 0 && TEEC_AllocateSharedMemory(&ctx, &memory) == TEEC_SUCCESS;
    TEEC_Result result = TEEC_OpenSession(&ctx, &session, &uuid, TEEC_LOGIN_USER, NULL, NULL, &from);
    while (result == TEEC_SUCCESS) result = mixed(&session, kind, &from);
    CHECK(result == TEEC_ERROR_COMMUNICATION && from == COMMS);
    if (result != TEEC_ERROR_COMMUNICATION || from != COMMS) printf("   came %08x of %u\n", result, from);
    TEEC_CloseSession(&session);
    if (is_shared) TEEC_ReleaseSharedMemory(&memory);
    return NULL;
}

/* One round: its longest wait, from the kill to the last caller's end, in seconds. */
static double round_of(uint32_t *seed, int threads) {
    pthread_t all[MOST_CALLERS];
    pid_t pids[8] = {0};
    CHECK(TEEC_InitializeContext(described_path, &ctx) == TEEC_SUCCESS);
    CHECK(children(pids, 8) == 1);
    for (int i = 0; i < threads; i++) pthread_create(&all[i], NULL, calls, (void *)(size_t)next(seed));
    usleep(next(seed) % 40000);
    double begin = now();
    kill(pids[0], next(seed) % 8 ? SIGKILL : SIGSTOP);
    for (int i = 0; i < threads; i++) pthread_join(all[i], NULL);
    double seconds = now() - begin;
    TEEC_FinalizeContext(&ctx);
    return seconds;
}

int main(int count, char **words) {
    if (count != 3) return 2;
    int rounds = atoi(words[1]), threads = atoi(words[2]), before = descriptors();
    char limit[30];
    uint32_t seed = 1;
    double longest = 0;
    pid_t pids[8];
    snprintf(limit, sizeof limit, "limit %d", LIMIT);
    described((const char *[]){limit, NULL});
    int told = dup(2), nowhere = open("/dev/null", O_WRONLY);
    dup2(nowhere, 2), close(nowhere); /* each kill is told there */
    for (int i = 0; i < rounds; i++) {
        double seconds = round_of(&seed, threads < MOST_CALLERS ? threads : MOST_CALLERS);
        if (seconds > longest) longest = seconds;
    }
    dup2(told, 2), close(told);
    CHECK(longest < LIMIT / 1e3 + 3);
    CHECK(children(pids, 8) == 0 && descriptors() == before);
    unlink(described_path);
    printf("%d kills under %d threads, the longest wait behind one %.3f s of %.3f s\n", rounds, threads, longest, LIMIT / 1e3);
    return ended("kills");
}

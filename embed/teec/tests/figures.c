/* What calls take: each figure is the best of some rounds, and behind it the median.
 *
 * usage: figures ROUNDS */
#include "test.h"

#include <sys/resource.h>

enum { MOST_ROUNDS = 100, CALLS = 20000, MOST_BYTES = 65536, BYTES_CALLS = 200 };

static TEEC_Context ctx;
static double measured[MOST_ROUNDS];

static int rising(const void *one, const void *other) {
    double difference = *(const double *)one - *(const double *)other;
    return difference < 0 ? -1 : difference > 0;
}

/* Prints the best and the median of so many rounds, of which less is better, or more. */
static void print(const char *what, int rounds, bool is_less, const char *unit) {
    qsort(measured, (size_t)rounds, sizeof measured[0], rising);
    printf("%s: %.0f %s at best, %.0f in the median of %d\n", what, measured[is_less ? 0 : rounds - 1], unit, measured[rounds / 2], rounds);
    fflush(stdout);
}

/* The processor's time that this process has used, in microseconds. */
static double used(void) {
    struct rusage usage;
    getrusage(RUSAGE_SELF, &usage);
    return 1e6 * (double)(usage.ru_utime.tv_sec + usage.ru_stime.tv_sec) + (double)(usage.ru_utime.tv_usec + usage.ru_stime.tv_usec);
}

static long resident(pid_t process) {
    char path[60], line[200];
    long kilobytes = -1;
    snprintf(path, sizeof path, "/proc/%d/status", (int)process);
    FILE *file = fopen(path, "r");
    while (file && fgets(line, sizeof line, file)) sscanf(line, "VmRSS: %ld", &kilobytes);
    if (file) fclose(file);
    return kilobytes;
}

/* Calls with a value in and out. */
static void *hurries(void *of) {
    TEEC_Session session = opened(&ctx, HELLO);
    for (long i = 0; i < (long)of; i++) {
        TEEC_Operation op = operation(TEEC_VALUE_INOUT, TEEC_NONE, TEEC_NONE, TEEC_NONE);
        CHECK(TEEC_InvokeCommand(&session, 0, &op, NULL) == TEEC_SUCCESS);
    }
    TEEC_CloseSession(&session);
    return NULL;
}

static void rates(int rounds, int threads) {
    pthread_t all[64];
    char what[40];
    for (int round = 0; round < rounds; round++) {
        double begin = now();
        for (int i = 0; i < threads; i++) pthread_create(&all[i], NULL, hurries, (void *)(long)(CALLS / threads));
        for (int i = 0; i < threads; i++) pthread_join(all[i], NULL);
        measured[round] = CALLS / (now() - begin);
    }
    snprintf(what, sizeof what, "%d thread%s", threads, threads > 1 ? "s" : "");
    print(what, rounds, false, "calls a second");
}

/* From the start of the program to the answer of the first invoke, and to its end. */
static void first_answers(int rounds) {
    double all[MOST_ROUNDS];
    for (int round = 0; round < rounds; round++) {
        TEEC_Context context;
        TEEC_Operation op = operation(TEEC_VALUE_INOUT, TEEC_NONE, TEEC_NONE, TEEC_NONE);
        double begin = now();
        CHECK(TEEC_InitializeContext(NULL, &context) == TEEC_SUCCESS);
        TEEC_Session session = opened(&context, HELLO);
        CHECK(TEEC_InvokeCommand(&session, 0, &op, NULL) == TEEC_SUCCESS);
        measured[round] = 1e6 * (now() - begin);
        TEEC_FinalizeContext(&context);
        all[round] = 1e6 * (now() - begin);
    }
    print("start to first answer", rounds, true, "us");
    memcpy(measured, all, sizeof all);
    print("start to end", rounds, true, "us");
}

/* 64 KiB in, which the application refuses without a look, and 64 KiB out. */
static void bytes(int rounds, uint32_t type, const char *what) {
    static uint8_t memory[MOST_BYTES];
    TEEC_Session session = opened(&ctx, HELLO);
    double here[MOST_ROUNDS];
    char whole[80];
    for (int round = 0; round < rounds; round++) {
        double begin = now(), before = used();
        for (int i = 0; i < BYTES_CALLS; i++) {
            TEEC_Operation op = operation(type, TEEC_NONE, TEEC_NONE, TEEC_NONE);
            op.params[0].tmpref = (TEEC_TempMemoryReference){memory, sizeof memory};
            CHECK(TEEC_InvokeCommand(&session, 0, &op, NULL) == TEEC_ERROR_BAD_PARAMETERS);
        }
        measured[round] = 1e6 * (now() - begin) / BYTES_CALLS, here[round] = (used() - before) / BYTES_CALLS;
    }
    print(what, rounds, true, "us a call");
    memcpy(measured, here, sizeof here);
    snprintf(whole, sizeof whole, "%s, in the host", what);
    print(whole, rounds, true, "us of processor");
    TEEC_CloseSession(&session);
}

int main(int count, char **words) {
    int rounds = count == 2 ? atoi(words[1]) : 0;
    pid_t pids[8] = {0};
    if (rounds < 1 || rounds > MOST_ROUNDS) return 2;
    first_answers(rounds);
    long before = resident(getpid());
    CHECK(TEEC_InitializeContext(NULL, &ctx) == TEEC_SUCCESS && children(pids, 8) == 1);
    TEEC_Session session = opened(&ctx, HELLO);
    printf("a context: %ld KiB in the host, %ld KiB in the core\n", resident(getpid()) - before, resident(pids[0]));
    TEEC_CloseSession(&session);
    rates(rounds, 1), rates(rounds, 8), rates(rounds, 32);
    bytes(rounds, TEEC_MEMREF_TEMP_INPUT, "64 KiB in"), bytes(rounds, TEEC_MEMREF_TEMP_OUTPUT, "64 KiB out");
    TEEC_FinalizeContext(&ctx);
    return ended("figures");
}

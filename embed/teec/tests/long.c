/* Many calls in one context: how many there are a second, and the memory of the core's process.
 *
 * usage: long CALLS */
#include "test.h"

enum { PARTS = 10 };

/* The resident memory of a process, in KiB. */
static long memory_of(pid_t process) {
    char path[60], line[200];
    long kilobytes = -1;
    snprintf(path, sizeof path, "/proc/%d/status", (int)process);
    FILE *file = fopen(path, "r");
    while (file && fgets(line, sizeof line, file)) sscanf(line, "VmRSS: %ld", &kilobytes);
    if (file) fclose(file);
    return kilobytes;
}

int main(int count, char **words) {
    if (count != 2) return 2;
    long calls = atol(words[1]), first = 0, last = 0;
    TEEC_Context ctx;
    pid_t pids[8] = {0};
    CHECK(TEEC_InitializeContext(NULL, &ctx) == TEEC_SUCCESS && children(pids, 8) == 1);
    TEEC_Session session = opened(&ctx, HELLO);
    for (int part = 0; part < PARTS; part++) {
        double begin = now();
        for (long i = 0; i < calls / PARTS; i++) {
            TEEC_Operation op = operation(TEEC_VALUE_INOUT, TEEC_NONE, TEEC_NONE, TEEC_NONE);
            op.params[0].value.a = (uint32_t)i;
            TEEC_Result result = TEEC_InvokeCommand(&session, 0, &op, NULL);
            CHECK(result == TEEC_SUCCESS && op.params[0].value.a == (uint32_t)i + 1);
            if (result) return ended("long");
        }
        last = memory_of(pids[0]);
        if (part == 0) first = last;
        double rate = (double)(calls / PARTS) / (now() - begin);
        printf("%9ld calls: %6.0f a second, ", (part + 1) * (calls / PARTS), rate);
        printf("%ld KiB in the core, %ld here\n", last, memory_of(getpid()));
        fflush(stdout);
    }
    CHECK(last <= first + first / 10); /* it stays */
    TEEC_FinalizeContext(&ctx);
    return ended("long");
}

/* What the tests share. They run in the folder above, with TULGEXAR_LIVE and TULGEXAR_BOOT=hosts/boot.txt. */
#include <dirent.h>
#include <limits.h>
#include <pthread.h>
#include <stdbool.h>
#include <stdio.h>
#include <stdlib.h>
#include <string.h>
#include <tee_client_api.h>
#include <time.h>
#include <unistd.h>

static int checks, faults;

enum { MOST_TOLD = 30 };

/* Counts a check, and tells the first of those that fail. */
__attribute__((unused)) static bool checked(bool holds, const char *file, int line, const char *fact) {
    __atomic_add_fetch(&checks, 1, __ATOMIC_RELAXED);
    if (!holds && __atomic_fetch_add(&faults, 1, __ATOMIC_RELAXED) < MOST_TOLD) printf("%s:%d: %s\n", file, line, fact);
    return holds;
}
#define CHECK(fact) checked((fact), __FILE__, __LINE__, #fact)
/* A result, and behind it its origin. */
#define GIVES(call, result, from)                                                                    \
    do {                                                                                             \
        TEEC_Result it = (call);                                                                     \
        if (!CHECK(it == (TEEC_Result)(result) && origin == (from))) printf("   came %08x of %u\n", it, origin); \
    } while (0)

#define API TEEC_ORIGIN_API
#define COMMS TEEC_ORIGIN_COMMS
#define TEE TEEC_ORIGIN_TEE
#define APP TEEC_ORIGIN_TRUSTED_APP

static const TEEC_UUID HELLO = {0x8aaaf200, 0x2450, 0x11e4, {0xab, 0xe2, 0x00, 0x02, 0xa5, 0xd5, 0xc5, 0x1b}};
#define MADE(last) {0x33333333, 0x4444, 0x5555, {0x66, 0x66, 0x77, 0x77, 0x77, 0x77, 0x77, last}}
static const TEEC_UUID WAIT = MADE(0x77), MASKED = MADE(0x78), TURNSTILE = MADE(0x79), COPY = MADE(0x7a), MEMORY = MADE(0x7b);
static const TEEC_UUID LOGIN = MADE(0x7c), PANIC = MADE(0x7d), CLOCK = MADE(0x7e), SPIN = MADE(0x7f), NONE = MADE(0x00);
/* In C: sdk/examples/countdown. */
static const TEEC_UUID COUNTDOWN = {0x6f2a1c00, 0x31d5, 0x4b7e, {0x9c, 0x41, 0x0d, 0x5e, 0x8a, 0x77, 0x21, 0x05}};

__attribute__((unused)) static double now(void) {
    struct timespec at;
    clock_gettime(CLOCK_MONOTONIC, &at);
    return (double)at.tv_sec + (double)at.tv_nsec / 1e9;
}

__attribute__((unused)) static TEEC_Operation operation(uint32_t p0, uint32_t p1, uint32_t p2, uint32_t p3) {
    TEEC_Operation it;
    memset(&it, 0, sizeof it);
    it.paramTypes = TEEC_PARAM_TYPES(p0, p1, p2, p3);
    return it;
}

__attribute__((unused)) static TEEC_Session opened(TEEC_Context *context, TEEC_UUID uuid) {
    TEEC_Session session;
    uint32_t origin;
    TEEC_Result result = TEEC_OpenSession(context, &session, &uuid, TEEC_LOGIN_PUBLIC, NULL, NULL, &origin);
    if (result) printf("open: %08x of %u\n", result, origin);
    CHECK(result == TEEC_SUCCESS);
    return session;
}

/* ---- Descriptions. */

static char described_path[40];

/* Whether two lines begin with the same word. */
static bool has_same_word(const char *one, const char *other) {
    size_t length = strcspn(one, " ");
    return length == strcspn(other, " ") && strncmp(one, other, length) == 0;
}

/* A file like hosts/boot.txt, but with these lines, up to a null one, in the place of those that begin with their words. */
__attribute__((unused)) static const char *described(const char *const *lines) {
    char line[200], image[PATH_MAX], name[40], path[100];
    snprintf(described_path, sizeof described_path, "/tmp/teec_%d.txt", (int)getpid());
    FILE *from = fopen("hosts/boot.txt", "r"), *to = fopen(described_path, "w");
    while (fgets(line, sizeof line, from)) {
        bool is_replaced = false;
        for (const char *const *at = lines; *at; at++) is_replaced |= has_same_word(*at, line);
        if (is_replaced) continue;
        if (sscanf(line, "image %39s %93s", name, path + 6) != 2) fputs(line, to);
        else if (realpath((memcpy(path, "hosts/", 6), path), image)) fprintf(to, "image %s %s\n", name, image);
    }
    for (const char *const *at = lines; *at; at++) fprintf(to, "%s\n", *at);
    fclose(from), fclose(to);
    return described_path;
}

/* ---- Processes and descriptors. */

/* The processes that this one has started, at most so many, and how many these are. */
__attribute__((unused)) static int children(pid_t *all, int most) {
    int count = 0;
    DIR *tasks = opendir("/proc/self/task");
    for (struct dirent *entry; (entry = readdir(tasks));) {
        char path[300];
        snprintf(path, sizeof path, "/proc/self/task/%s/children", entry->d_name);
        FILE *file = fopen(path, "r");
        while (file && count < most && fscanf(file, "%d", &all[count]) == 1) count++;
        if (file) fclose(file);
    }
    closedir(tasks);
    return count;
}

/* How many descriptors are open. */
__attribute__((unused)) static int descriptors(void) {
    int count = 0;
    DIR *all = opendir("/proc/self/fd");
    for (struct dirent *entry; (entry = readdir(all));) count += entry->d_name[0] != '.';
    closedir(all);
    return count - 1;
}

static int ended(const char *name) {
    printf("%s: %d checks, %d faults\n", name, checks, faults);
    return faults > 0;
}

/* So that each test may leave some of these. */
__attribute__((unused)) static const void *const all_of_them[] = {&HELLO, &WAIT,  &MASKED, &TURNSTILE, &COPY, &MEMORY,
                                                                  &LOGIN, &PANIC, &CLOCK,  &SPIN,      &NONE, &COUNTDOWN};

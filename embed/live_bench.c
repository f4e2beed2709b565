/* A bench in conversation with a core: two processors are inside at once. One calls an application that waits, the other one
 * that counts in a file. The bench serves the wait and the file, and each next call depends on the last answer: sessions and
 * threads by their numbers, how long the wait is, and whether there is a next call.
 *
 * usage: live_bench PROGRAM FOLDER, that of the conversation, and the folder of the applications' images */
#include "live.h"

#include <inttypes.h>
#include <stdbool.h>
#include <stdio.h>
#include <stdlib.h>
#include <string.h>

/* Calls and answers in a0, commands of arguments, requests and results, by docs/formats.md. */
#define CALL_WITH_ARG 0x32000004u
#define RETURN_FROM_RPC 0x32000003u
#define RPC_ALLOC 0xffff0000u
#define RPC_FREE 0xffff0002u
#define RPC_CMD 0xffff0005u
enum { OPEN_SESSION = 0, INVOKE_COMMAND = 1, CLOSE_SESSION = 2 };
enum { FS = 2, SUSPEND = 5 };
enum { FS_OPEN = 0, FS_CREATE = 1, FS_CLOSE = 2, FS_READ = 3, FS_WRITE = 4 };
#define NOT_SUPPORTED 0xffff000au
#define ITEM_NOT_FOUND 0xffff0008u
#define BAD_PARAMETERS 0xffff0006u

/* An argument: its head, and parameters of an attribute and three numbers. */
enum { HEAD = 32, PARAMETER = 32, RET = 20, VALUE_OUT = 2, META_VALUE_IN = 0x101 };
/* In each processor's RAM: the argument of its call, and the buffer that it lends, with a request and its payload. */
enum { ARGUMENT = 0x40000000, BUFFER = 0x40010000, PAYLOAD = 512, MOST_PAYLOAD = 3584 };
enum { STEPS = 1000 };

/* A call on its processor, which has that number: the registers with which it comes in next, and its session. */
struct call {
    const char *name;
    unsigned cpu;
    uint32_t next[8];
    bool has_ended;
    uint32_t session;
};

static struct live *live;
/* The file of the count. Its descriptor is 0. */
static char file_name[162];
static uint8_t file[2 * MOST_PAYLOAD];
static size_t file_length;

/* Goes on where a line was taken. */
static struct live_answer taken(struct live_answer answer) {
    if (answer.end == LIVE_OK) return answer;
    fprintf(stderr, "live_bench: end %d %s\n", (int)answer.end, answer.kind);
    exit(1);
}

static void put(uint8_t *at, int bytes, uint64_t number) {
    for (int i = 0; i < bytes; i++) at[i] = (uint8_t)(number >> 8 * i);
}

static uint64_t get(const uint8_t *at, int bytes) {
    uint64_t number = 0;
    for (int i = 0; i < bytes; i++) number |= (uint64_t)at[i] << 8 * i;
    return number;
}

static uint64_t get_ram(unsigned cpu, uint32_t address, int bytes) {
    uint8_t data[8];
    taken(live_read(live, cpu, address, data, (size_t)bytes));
    return get(data, bytes);
}

static void put_ram(unsigned cpu, uint32_t address, int bytes, uint64_t number) {
    uint8_t data[8];
    put(data, bytes, number);
    taken(live_write(live, cpu, address, data, (size_t)bytes));
}

/* Where the numbers of a parameter stand: p, q and s. */
static int place(int parameter, int number) {
    return HEAD + PARAMETER * parameter + 8 + 8 * number;
}

/* ---- Requests. */

/* The name of an open or a create: whether it is that of the file. */
static bool is_file(const uint8_t *name, size_t length) {
    return length == strlen(file_name) && memcmp(name, file_name, length) == 0;
}

/* Serves a request of a file, and gives its result. */
static uint32_t serve_file(unsigned cpu, const uint8_t *request) {
    uint64_t what = get(request + place(0, 0), 8), offset = get(request + place(0, 2), 8);
    size_t length = get(request + place(1, 1), 8);
    uint8_t data[MOST_PAYLOAD];
    if (length > sizeof data || offset > sizeof file - sizeof data) return BAD_PARAMETERS;
    if (what != FS_CLOSE) taken(live_read(live, cpu, BUFFER + PAYLOAD, data, length));
    switch (what) {
    case FS_OPEN:
        printf("    open %.*s\n", (int)length, (const char *)data);
        return is_file(data, length) ? 0 : ITEM_NOT_FOUND;
    case FS_CREATE:
        printf("    create %.*s\n", (int)length, (const char *)data);
        snprintf(file_name, sizeof file_name, "%.*s", (int)length, (const char *)data);
        return 0;
    case FS_READ: {
        size_t count = offset < file_length ? file_length - offset : 0;
        if (count > length) count = length;
        printf("    read %zu bytes at %" PRIu64 ": %zu\n", length, offset, count);
        taken(live_write(live, cpu, BUFFER + PAYLOAD, file + offset, count));
        put_ram(cpu, BUFFER + (uint32_t)place(1, 1), 8, count);
        return 0;
    }
    case FS_WRITE:
        printf("    write %zu bytes at %" PRIu64 "\n", length, offset);
        memcpy(file + offset, data, length);
        if (offset + length > file_length) file_length = offset + length;
        return 0;
    default:
        printf("    close\n");
        return what == FS_CLOSE ? 0 : NOT_SUPPORTED;
    }
}

/* Serves the request in a processor's buffer: its reply. */
static void serve(unsigned cpu) {
    uint8_t request[HEAD + 3 * PARAMETER];
    uint32_t result = 0;
    taken(live_read(live, cpu, BUFFER, request, sizeof request));
    switch (get(request, 4)) {
    case FS:
        result = serve_file(cpu, request);
        break;
    case SUSPEND:
        printf("    wait %" PRIu64 " ms\n", get(request + place(0, 0), 8));
        break;
    default:
        result = NOT_SUPPORTED;
    }
    put_ram(cpu, BUFFER + RET, 4, result);
}

/* ---- Calls. */

/* Takes the answer to a call, serves what it asks for, and has it come in again, unless it has ended. */
static void go_on(struct call *call, const uint32_t a[8]) {
    uint32_t next[8] = {RETURN_FROM_RPC, 0, 0, a[3], 0, 0, 0, a[7]};
    printf("  cpu %u %-5s  a0 %08" PRIx32 "  a1 %08" PRIx32 "  a2 %08" PRIx32 "  a3 %08" PRIx32 "\n", call->cpu, call->name, a[0],
           a[1], a[2], a[3]);
    switch (a[0]) {
    case RPC_ALLOC:
        next[2] = BUFFER, next[5] = 0x70 + call->cpu; /* its cookie */
        break;
    case RPC_CMD:
        serve(call->cpu);
        break;
    case RPC_FREE:
        break;
    default:
        call->has_ended = true;
    }
    memcpy(call->next, next, sizeof next);
}

/* Makes the calls of both processors to their ends. Those that haven't ended are inside together, and go out in turn. */
static void make(struct call calls[2]) {
    while (!calls[0].has_ended || !calls[1].has_ended) {
        for (int i = 0; i < 2; i++)
            if (!calls[i].has_ended) taken(live_enter(live, calls[i].cpu, STEPS, calls[i].next));
        for (int i = 0; i < 2; i++)
            if (!calls[i].has_ended) go_on(&calls[i], taken(live_leave(live, calls[i].cpu)).a);
    }
    for (int i = 0; i < 2; i++)
        printf("  cpu %u %s: result %08" PRIx64 ", origin %" PRIu64 "\n", calls[i].cpu, calls[i].name,
               get_ram(calls[i].cpu, ARGUMENT + RET, 4), get_ram(calls[i].cpu, ARGUMENT + RET + 4, 4));
}

/* Begins a call with an argument of so many parameters, each an attribute and two numbers. */
static void begin(struct call *call, uint32_t command, uint32_t function, uint32_t count, const uint64_t parameters[][3]) {
    uint8_t bytes[HEAD + 2 * PARAMETER] = {0};
    put(bytes, 4, command), put(bytes + 4, 4, function), put(bytes + 8, 4, call->session), put(bytes + 28, 4, count);
    for (uint32_t i = 0; i < count; i++)
        for (int k = 0; k < 3; k++) put(bytes + HEAD + PARAMETER * i + 8 * k, 8, parameters[i][k]);
    taken(live_write(live, call->cpu, ARGUMENT, bytes, HEAD + PARAMETER * count));
    uint32_t next[8] = {CALL_WITH_ARG, 0, ARGUMENT, 0, 0, 0, 0, 5 + call->cpu}; /* its client */
    memcpy(call->next, next, sizeof next);
    call->has_ended = false;
}

/* Opens a session of the application whose UUID has this octet sixteen times. */
static void begin_open(struct call *call, uint8_t octet) {
    uint64_t half = 0x0101010101010101u * octet;
    begin(call, OPEN_SESSION, 0, 2, (const uint64_t[][3]){{META_VALUE_IN, half, half}, {META_VALUE_IN, 0, 0}});
}

/* The image of an application, as text. */
static char *image(const char *folder, const char *name) {
    static char text[2][4096];
    static int count;
    char path[4096];
    snprintf(path, sizeof path, "%s/%s.hex", folder, name);
    FILE *source = fopen(path, "r");
    if (source == NULL || fgets(text[count], sizeof text[count], source) == NULL) perror(path), exit(1);
    fclose(source);
    return text[count++];
}

int main(int count, char **words) {
    struct call calls[2] = {{.name = "WAIT", .cpu = 0}, {.name = "COUNT", .cpu = 1}};
    if (count != 3) return 2;
    struct live_application applications[] = {{"11111111-1111-1111-1111-111111111111", image(words[2], "wait")},
                                              {"22222222-2222-2222-2222-222222222222", image(words[2], "counter")}};
    uint8_t key[32]; /* of the file's tag */
    for (int i = 0; i < 32; i++) key[i] = (uint8_t)(0xf0 + i);
    live = live_open(words[1]);
    if (live == NULL) return perror(words[1]), 1;
    struct live_core core = {.cpus = 2, .threads = 2, .frames = 2, .applications = applications, .application_count = 2, .key = key};
    taken(live_boot(live, &core));

    printf("opens\n");
    begin_open(&calls[0], 0x11);
    begin_open(&calls[1], 0x22);
    make(calls);
    for (int i = 0; i < 2; i++) calls[i].session = (uint32_t)get_ram(calls[i].cpu, ARGUMENT + 8, 4);

    for (uint32_t counted = 0; counted < 3; counted = (uint32_t)get_ram(1, ARGUMENT + (uint32_t)place(0, 0), 4)) {
        printf("%" PRIu32 " so far\n", counted);
        begin(&calls[0], INVOKE_COMMAND, 100 * (counted + 1), 0, NULL);
        begin(&calls[1], INVOKE_COMMAND, 0, 1, (const uint64_t[][3]){{VALUE_OUT, 0, 0}});
        make(calls);
    }

    printf("closes\n");
    for (int i = 0; i < 2; i++) begin(&calls[i], CLOSE_SESSION, 0, 0, NULL);
    make(calls);
    printf("%s ", file_name);
    for (size_t i = 0; i < file_length; i++) printf("%02x", file[i]);
    printf("\nstatus %d\n", live_close(live));
    return 0;
}

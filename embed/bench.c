/* A bench over the core: two applications are booted and opened, one call is suspended and resumed, another's wait is
 * served, and each answer is printed.
 *
 * The core keeps nothing between calls. So the bench writes its trace as it goes, and plays it anew at each step: equal
 * traces print the same, so what is new stands behind what was there before. */
#include "../include/tulgexar.h"

#include <inttypes.h>
#include <stdarg.h>
#include <stdio.h>
#include <stdlib.h>
#include <string.h>

#if TULGEXAR_VERSION != 1
#error "written for version 1 of tulgexar.h"
#endif

enum { CALL_WITH_ARG = 0x32000004, RETURN_FROM_RPC = 0x32000003 };
enum { OPEN = 0, INVOKE = 1, CLOSE = 2 };
/* Two arguments, a page each, and the buffer that the bench lends. The client's number goes in a7. */
enum { FIRST = 0x40000000, SECOND = 0x40001000, BUFFER = 0x40010000, COOKIE = 0x77, CLIENT = 5 };
enum { ADD = 0x11, WAIT = 0x22 };

static char trace[1 << 16];
static size_t trace_length;
static char output[1 << 16];
static size_t seen;

/* Adds a line to the trace. */
static void add(const char *form, ...) {
    va_list words;
    va_start(words, form);
    int length = vsnprintf(trace + trace_length, sizeof trace - trace_length, form, words);
    va_end(words);
    if (length < 0 || (size_t)length >= sizeof trace - trace_length) exit(1);
    trace_length += (size_t)length;
}

/* Plays the trace, and gives the line that its last line has printed. */
static const char *play(void) {
    size_t written = 0;
    uint32_t status = tulgexar_run((const uint8_t *)"run", 3, (const uint8_t *)trace, trace_length, (uint8_t *)output,
                                   sizeof output - 1, &written);
    if (status != TULGEXAR_OK) {
        fprintf(stderr, "bench: status %" PRIu32 "\n", status);
        exit(1);
    }
    output[written] = 0;
    const char *line = output + seen;
    seen = written;
    return line;
}

/* A processor comes in with these registers and steps, and goes out. a has what it was answered. */
static void smc(const char *name, unsigned steps, const uint32_t in[8], uint32_t a[8]) {
    add("smc 0 %u", steps);
    for (int i = 0; i < 8; i++) add(" %" PRIx32, in[i]);
    add("\n");
    const char *line = play() + strlen("ret 0");
    for (int i = 0; i < 8; i++, line += 9) a[i] = (uint32_t)strtoul(line, NULL, 16);
    printf("%-22s a0 %08" PRIx32 "  a1 %08" PRIx32 "  a2 %08" PRIx32 "  a3 %08" PRIx32 "\n", name, a[0], a[1], a[2], a[3]);
}

/* A new call with an argument. */
static void call(const char *name, unsigned steps, uint32_t argument, uint32_t a[8]) {
    smc(name, steps, (uint32_t[8]){CALL_WITH_ARG, 0, argument, 0, 0, 0, 0, CLIENT}, a);
}

/* A return to the call of a thread, which was lent a buffer, or nothing. */
static void resume(const char *name, unsigned steps, uint32_t thread, uint32_t buffer, uint32_t cookie, uint32_t a[8]) {
    smc(name, steps, (uint32_t[8]){RETURN_FROM_RPC, 0, buffer, thread, 0, cookie, 0, CLIENT}, a);
}

static void put(uint8_t *at, int bytes, uint64_t number) {
    for (int i = 0; i < bytes; i++) at[i] = (uint8_t)(number >> 8 * i);
}

/* A number of RAM, least significant byte first. */
static uint64_t get(uint32_t address, int bytes) {
    add("show 0 %" PRIx32 " %d\n", address, bytes);
    const char *digits = play() + strlen("mem 0 40000000 ");
    uint64_t number = 0;
    for (int i = 0; i < bytes; i++) {
        unsigned byte = 0;
        sscanf(digits + 2 * i, "%2x", &byte);
        number |= (uint64_t)byte << 8 * i;
    }
    return number;
}

/* The bytes of RAM from an address on. */
static void write_ram(uint32_t address, const uint8_t *bytes, size_t length) {
    add("write 0 %" PRIx32 " ", address);
    for (size_t i = 0; i < length; i++) add("%02x", bytes[i]);
    add("\n");
}

/* An argument: a head of 32 bytes, and 32 bytes for each of at most two parameters of an attribute and two numbers. */
static void argument(uint32_t address, uint32_t command, uint32_t function, uint32_t session, uint32_t count,
                     const uint64_t parameters[][3]) {
    uint8_t bytes[96] = {0};
    put(bytes, 4, command), put(bytes + 4, 4, function), put(bytes + 8, 4, session), put(bytes + 28, 4, count);
    for (uint32_t i = 0; i < count; i++)
        for (uint32_t k = 0; k < 3; k++) put(bytes + 32 + 32 * i + 8 * k, 8, parameters[i][k]);
    write_ram(address, bytes, 32 + 32 * count);
}

/* An open of the application whose UUID has this octet sixteen times, by the client with the UUID of zeros. */
static uint32_t open_session(const char *name, uint32_t address, uint8_t octet) {
    uint32_t a[8];
    uint64_t half = 0x0101010101010101u * octet;
    argument(address, OPEN, 0, 0, 2, (const uint64_t[][3]){{0x101, half, half}, {0x101, 0, 0}});
    call(name, 1000, address, a);
    return (uint32_t)get(address + 8, 4);
}

static void result(const char *name, uint32_t address) {
    printf("  %s: result %08" PRIx64 ", origin %" PRIu64 "\n", name, get(address + 20, 4), get(address + 24, 4));
}

/* The UUID of an application, and its image. examples/applications has their texts. */
static void boot(void) {
    add("boot 1 2 2\n");
    add("ta 11111111-1111-1111-1111-111111111111 4f54544100000000010000000700000000000000000000000100000000000000000000"
        "001800000000000000010000000000000018000000030000000301000100000000010000000000000018000000040000001800000000000000"
        "\n");
    add("ta 22222222-2222-2222-2222-222222222222 4f54544100000000010000000300000000000000000000000100000000000000000000"
        "001800000000000000180000000c0000001800000000000000\n");
}

int main(void) {
    uint32_t a[8];
    boot();
    uint32_t adds = open_session("open ADD", FIRST, ADD);
    uint32_t waits = open_session("open WAIT", SECOND, WAIT);
    printf("  sessions %" PRIu32 " and %" PRIu32 "\n", adds, waits);

    /* The sum takes six steps. One is granted, so its call is suspended, as by an interrupt, in this thread. */
    argument(FIRST, INVOKE, 0, adds, 1, (const uint64_t[][3]){{3, 5, 7}});
    call("invoke ADD, one step", 1, FIRST, a);
    uint32_t adding = a[3];

    /* Meanwhile the other application asks for a buffer, then for a wait of 250 milliseconds, then it gives the buffer back. */
    argument(SECOND, INVOKE, 250, waits, 0, NULL);
    call("invoke WAIT", 9, SECOND, a);
    uint32_t waiting = a[3];
    resume("lend a buffer", 9, waiting, BUFFER, COOKIE, a);
    printf("  command %" PRIu64 " in the buffer of cookie %" PRIx32 ": wait %" PRIu64 " ms\n", get(BUFFER, 4), a[2], get(BUFFER + 40, 8));
    resume("the wait is over", 9, waiting, 0, 0, a);
    resume("the buffer is back", 9, waiting, 0, 0, a);
    result("WAIT", SECOND);

    resume("resume ADD", 9, adding, 0, 0, a);
    printf("  5 + 7 = %" PRIu64 "\n", get(FIRST + 40, 8));
    result("ADD", FIRST);

    argument(FIRST, CLOSE, 0, adds, 0, NULL);
    call("close ADD", 1000, FIRST, a);
    argument(FIRST, INVOKE, 0, adds, 1, (const uint64_t[][3]){{3, 5, 7}});
    call("invoke ADD, closed", 1000, FIRST, a);
    result("ADD", FIRST);
    resume("resume nobody", 9, adding, 0, 0, a);
    return 0;
}

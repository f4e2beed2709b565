/* A bench that watches a core from its first exit on: it makes a call that waits and one that panics, prints what the core keeps behind
 * them, and compares its copy of RAM with what the core shows.
 *
 * usage: live_shown PROGRAM FOLDER, that of the conversation, and the folder of the applications' images */
#include "live.h"

#include <inttypes.h>
#include <stdio.h>
#include <stdlib.h>
#include <string.h>

/* Calls in a0, by docs/formats.md, and where the argument of the call and its buffer lie. */
#define CALL_WITH_ARG 0x32000004u
#define RETURN_FROM_RPC 0x32000003u
enum { RAM = 0x40000000, ARGUMENT = 0x40000000, BUFFER = 0x40010000, COOKIE = 0x77, STEPS = 1000 };
/* The bytes that the conversation writes. */
enum { BLOCK = 64 };

static struct live *live;

/* Goes on where a line was taken. */
static struct live_answer taken(struct live_answer answer) {
    if (answer.end == LIVE_OK) return answer;
    fprintf(stderr, "live_shown: end %d %s\n", (int)answer.end, answer.kind);
    exit(1);
}

static void print_slot(unsigned number, const struct live_slot *slot) {
    static const char *const phases[] = {"free", "active", "runs", "asks", "waits", "ends"};
    printf("  slot %u %s", number, phases[slot->phase]);
    if (slot->phase > LIVE_ACTIVE) printf(", client %" PRIu32 ", session %" PRIu32, slot->client, slot->session);
    if (slot->wants[0]) printf(", wants %s", slot->wants);
    if (slot->has_buffer) printf(", buffer %" PRIx64 " of cookie %" PRIx64, slot->address, slot->cookie);
    if (slot->is_masked) printf(", masked");
    printf("\n");
}

static void print_instance(const struct live_instance *instance) {
    printf("  instance %" PRIu32 " of %s, users %" PRIu32, instance->number, instance->uuid, instance->users);
    if (instance->is_held) printf(", held by slot %u", instance->holder);
    if (instance->is_dead) printf(", dead");
    printf("\n");
}

/* Prints what the core keeps. */
static void print_state(const char *when) {
    static struct live_state state;
    taken(live_state(live, &state));
    printf("%s: sessions %" PRIu64 ", pages %" PRIu64 ", events %" PRIu64 ", copied %" PRIu64 "\n", when, state.sessions, state.pages,
           state.events, state.copied);
    for (unsigned i = 0; i < state.slot_count; i++) print_slot(i, &state.slots[i]);
    for (unsigned i = 0; i < state.instance_count; i++) print_instance(&state.instances[i]);
}

/* Says whether the copy has at this address what the core shows there. */
static void compare(const char *what, uint32_t address) {
    uint8_t shown[BLOCK];
    taken(live_read(live, 0, address, shown, sizeof shown));
    printf("%s: %s\n", what, memcmp(shown, live_ram(live, 0) + (address - RAM), sizeof shown) ? "the copy differs" : "the copy is right");
}

static void call(uint32_t function, uint32_t address, uint32_t cookie) {
    const uint32_t a[8] = {function, 0, address, 0, 0, cookie};
    struct live_answer answer = taken(live_smc(live, 0, STEPS, a));
    printf("answered %08" PRIx32, answer.a[0]);
    if (answer.has_panicked) printf(", panic %08" PRIx32, answer.panic);
    printf("\n");
}

/* Makes a call whose argument has these bytes. */
static void call_with(const uint8_t *argument, size_t length) {
    taken(live_write(live, 0, ARGUMENT, argument, length));
    call(CALL_WITH_ARG, ARGUMENT, 0);
}

/* Closes session 1, opens one of the application that panics, and lets it. */
static void panic(void) {
    static const uint8_t closes[32] = {[0] = 2, [8] = 1};
    static const uint8_t opens[96] = {[28] = 2, [32] = 1, 1, [40] = 0x21, 0x11, 0x11, 0x11, 0x22, 0x22, 0x33, 0x33, 0x44, 0x44,
                                      0x55, 0x55, 0x55, 0x55, 0x55, 0x55, [64] = 1, 1};
    static const uint8_t panics[32] = {[0] = 1, [4] = 0xef, 0xbe, 0xad, 0xde, [8] = 2};
    call_with(closes, sizeof closes);
    call_with(opens, sizeof opens);
    call_with(panics, sizeof panics);
    compare("panicked", ARGUMENT);
    print_state("panicked");
}

static char *image_in(const char *folder, const char *name) {
    char path[4096], *image = calloc(1, 0x10000);
    snprintf(path, sizeof path, "%s/%s.hex", folder, name);
    FILE *from = fopen(path, "r");
    if (from == NULL || image == NULL || fread(image, 1, 0xffff, from) == 0) {
        fprintf(stderr, "live_shown: no image in %s\n", path);
        exit(1);
    }
    fclose(from);
    return image;
}

int main(int count, char **words) {
    /* An open with its two META parameters, and an invoke that waits for 250 ms, of session 1. */
    static const uint8_t opens[96] = {[28] = 2, [32] = 1, 1, [40] = 0x11, 0x11, 0x11, 0x11, 0x22, 0x22, 0x33, 0x33, 0x44, 0x44,
                                      0x55, 0x55, 0x55, 0x55, 0x55, 0x55, [64] = 1, 1};
    static const uint8_t waits[32] = {[0] = 1, [4] = 250, [8] = 1};
    if (count != 3) return fprintf(stderr, "usage: live_shown PROGRAM FOLDER\n"), 2;
    char *wait = image_in(words[2], "wait"), *panics = image_in(words[2], "panic");
    const struct live_application applications[] = {{"11111111-2222-3333-4444-555555555555", wait},
                                                    {"21111111-2222-3333-4444-555555555555", panics}};
    const struct live_core core = {.cpus = 1, .threads = 2, .frames = 1, .applications = applications, .application_count = 2};
    live = live_open(words[1]);
    if (live == NULL) return perror("live_shown"), 1;
    taken(live_watch(live));
    taken(live_boot(live, &core));
    print_state("booted");
    call_with(opens, sizeof opens);
    compare("opened", ARGUMENT);
    call_with(waits, sizeof waits);
    print_state("asked for a buffer");
    call(RETURN_FROM_RPC, BUFFER, COOKIE);
    compare("asked for a wait", BUFFER);
    print_state("asked for a wait");
    call(RETURN_FROM_RPC, 0, 0);
    print_state("ended");
    call(RETURN_FROM_RPC, 0, 0);
    compare("told", ARGUMENT);
    print_state("told");
    panic();
    free(wait), free(panics);
    return live_close(live);
}

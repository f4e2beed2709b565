/* What a bench can do wrong in a conversation, and how a program can fail it: each is printed with how it is answered.
 *
 * usage: live_misuses PROGRAM FOLDER, that of the conversation, and the folder of the applications' images */
#define _GNU_SOURCE
#include "live.h"

#include <errno.h>
#include <fcntl.h>
#include <inttypes.h>
#include <signal.h>
#include <stdio.h>
#include <stdlib.h>
#include <string.h>
#include <sys/stat.h>
#include <sys/wait.h>
#include <unistd.h>

enum { RAM = 0x40000000, RAM_BYTES = 4 << 20 };
enum { OPEN_SESSION = 0, INVOKE_COMMAND = 1, MEMORY_IN = 9, MOST_BYTES = 65536 };

static const char *path;
static const uint32_t threads[8] = {0xb200000f}; /* how many threads there are */
static const uint32_t call[8] = {0x32000004, 0, RAM}; /* with an argument at the beginning of RAM */

static void tell(const char *what, struct live_answer answer) {
    printf("%s: ", what);
    switch (answer.end) {
    case LIVE_OK:
        printf("ok\n");
        break;
    case LIVE_BAD:
        printf("bad %s\n", answer.kind);
        break;
    case LIVE_FULL:
        printf("full %" PRIu64 "\n", answer.copied);
        break;
    case LIVE_OVER:
        printf("over\n");
    }
}

/* Asks for the number of threads. */
static void ask(const char *what, struct live *live, unsigned cpu) {
    struct live_answer answer = live_smc(live, cpu, 1, threads);
    tell(what, answer);
    if (answer.end == LIVE_OK) printf("  a0 %" PRIx32 ", a1 %" PRIx32 "\n", answer.a[0], answer.a[1]);
}

static void told_status(struct live *live) {
    printf("  status %d\n", live_close(live));
}

static struct live *open_or_exit(const char *program) {
    struct live *live = live_open(program);
    if (live == NULL) perror(program), exit(1);
    return live;
}

/* A core of two processors and three threads. */
static const struct live_core usual = {.cpus = 2, .threads = 3, .frames = 4};

/* A core of one processor with these applications. */
static struct live_core core_of(const struct live_application *applications, size_t count, const uint8_t *key) {
    return (struct live_core){.cpus = 1, .threads = 1, .frames = 1, .applications = applications, .application_count = count, .key = key};
}

/* A conversation with the usual core. */
static struct live *opened(void) {
    struct live *live = open_or_exit(path);
    tell("a boot", live_boot(live, &usual));
    return live;
}

/* ---- What can't be started. */

static void try_no_program(void) {
    printf("a file that isn't there: %s\n", live_open("no_such_file") == NULL && errno == ENOENT ? "none" : "some");
    printf("a folder: %s\n", live_open("/") == NULL && errno == EACCES ? "none" : "some");
}

/* ---- Calls that break rules: the conversation goes on. */

static void try_boot(const char *what, struct live_core core) {
    struct live *live = open_or_exit(path);
    tell(what, live_boot(live, &core));
    told_status(live);
}

static void try_boots(const char *image) {
    static const char uuid[] = "11111111-1111-1111-1111-111111111111";
    struct live_application applications[17], twice[] = {{uuid, image}, {uuid, image}};
    char uuids[17][37];
    uint8_t key[32] = {1};
    for (int i = 0; i < 17; i++) {
        snprintf(uuids[i], sizeof uuids[i], "%08x-1111-1111-1111-111111111111", i);
        applications[i] = (struct live_application){uuids[i], image};
    }
    try_boot("nine processors", (struct live_core){.cpus = 9, .threads = 1, .frames = 1});
    try_boot("no thread", (struct live_core){.cpus = 1, .threads = 0, .frames = 1});
    try_boot("a UUID that is none", core_of(&(struct live_application){"1111", image}, 1, NULL));
    try_boot("an image that is none", core_of(&(struct live_application){uuid, "00"}, 1, NULL));
    try_boot("one application twice", core_of(twice, 2, NULL));
    try_boot("sixteen applications and a key", core_of(applications, 16, key));
    try_boot("seventeen applications", core_of(applications, 17, key));
}

static void try_lines(void) {
    struct live *live = open_or_exit(path);
    ask("a call before the boot", live, 0);
    tell("a boot", live_boot(live, &usual));
    tell("a second boot", live_boot(live, &(struct live_core){.cpus = 1, .threads = 1, .frames = 1}));
    ask("a processor that there isn't", live, 2);
    tell("no steps", live_smc(live, 0, 0, threads));
    tell("too many steps", live_smc(live, 0, 1000001, threads));
    tell("a leave of a processor that isn't inside", live_leave(live, 0));
    tell("an enter", live_enter(live, 0, 1, threads));
    tell("an enter of a processor that is inside", live_enter(live, 0, 1, threads));
    ask("a call of the other processor", live, 1);
    tell("a leave", live_leave(live, 0));
    tell("no signal", live_signal(live, 0));
    tell("the highest signal", live_signal(live, 63));
    tell("a signal that there isn't", live_signal(live, 64));
    tell("an enter", live_enter(live, 1, 1, threads));
    told_status(live);
}

/* Where exits are watched, and what the core keeps. */
static void try_questions(void) {
    static struct live_state state;
    struct live *live = open_or_exit(path);
    tell("a state before the boot", live_state(live, &state));
    tell("watched", live_watch(live));
    tell("a boot", live_boot(live, &usual));
    tell("a write that leaves RAM", live_write(live, 0, RAM + RAM_BYTES - 1, "ab", 2));
    tell("no bytes", live_write(live, 0, 0, "", 0));
    tell("a write of the other processor", live_write(live, 1, RAM + RAM_BYTES - 1, "a", 1));
    printf("  at the end of the copies %02x %02x, and %s\n", live_ram(live, 0)[RAM_BYTES - 1], live_ram(live, 1)[RAM_BYTES - 1],
           live_ram(live, 8) ? "a ninth one" : "no ninth one");
    tell("an enter", live_enter(live, 1, 1, threads));
    tell("a state", live_state(live, &state));
    printf("  slots %u, inside %d %d, pages %" PRIu64 ", events %" PRIu64 "\n", state.slot_count, state.is_inside[0], state.is_inside[1],
           state.pages, state.events);
    told_status(live);
}

static void try_ram(void) {
    static uint8_t bytes[RAM_BYTES + 108], read[RAM_BYTES + 1];
    struct live *live = opened();
    for (size_t i = 0; i < RAM_BYTES; i++) bytes[i] = (uint8_t)(i * 7 >> 3);
    tell("a write of all RAM", live_write(live, 1, RAM, bytes, RAM_BYTES));
    tell("a read of all RAM", live_read(live, 1, RAM, read, RAM_BYTES));
    printf("  %s\n", memcmp(bytes, read, RAM_BYTES) == 0 ? "the same" : "something else");
    tell("a read of the other processor's", live_read(live, 0, RAM, read, RAM_BYTES));
    printf("  %s\n", memcmp(bytes + RAM_BYTES, read, 100) == 0 ? "zeros" : "something else");
    tell("a read before RAM", live_read(live, 1, RAM - 1, read, 2));
    tell("a read that leaves RAM", live_read(live, 1, RAM, read, RAM_BYTES + 1));
    tell("a write that leaves RAM", live_write(live, 1, RAM, bytes + 8, RAM_BYTES + 1));
    tell("a line that is too long", live_write(live, 1, RAM, bytes + 8, RAM_BYTES + 100));
    tell("no bytes", live_write(live, 1, 0, bytes, 0));
    tell("a read of all RAM", live_read(live, 1, RAM, read, RAM_BYTES));
    printf("  %s\n", memcmp(bytes, read, RAM_BYTES) == 0 ? "as it was" : "something else");
    told_status(live);
}

static void put(uint8_t *at, int bytes, uint64_t number) {
    for (int i = 0; i < bytes; i++) at[i] = (uint8_t)(number >> 8 * i);
}

/* Boots a core with these options, and opens a session whose invokes read as much as one can: 32 + 128 bytes of an argument, and four
 * times 65,536 of memory. */
static struct live *opened_for_memory(const char *image, unsigned options) {
    struct live_application application = {"11111111-1111-1111-1111-111111111111", image};
    struct live *live = open_or_exit(path);
    uint8_t opens[96] = {0}, invokes[160] = {[0] = INVOKE_COMMAND, [8] = 1, [28] = 4};
    uint64_t half = 0x1111111111111111u;
    put(opens + 28, 4, 2), put(opens + 32, 8, 0x101), put(opens + 40, 8, half), put(opens + 48, 8, half), put(opens + 64, 8, 0x101);
    for (int i = 0; i < 4; i++) {
        uint8_t *parameter = invokes + 32 + 32 * i;
        put(parameter, 8, MEMORY_IN), put(parameter + 8, 8, RAM + MOST_BYTES), put(parameter + 16, 8, MOST_BYTES);
    }
    struct live_core one = core_of(&application, 1, NULL);
    one.options = options;
    tell("a boot", live_boot(live, &one));
    tell("an argument", live_write(live, 0, RAM, opens, sizeof opens));
    tell("an open", live_smc(live, 0, 1000, call));
    tell("an argument", live_write(live, 0, RAM, invokes, sizeof invokes));
    return live;
}

/* Invokes that come in, up to so many. The answer to the next one. */
static struct live_answer invoke_up_to(struct live *live, unsigned most) {
    unsigned taken = 0;
    struct live_answer answer;
    while ((answer = live_smc(live, 0, 1000, call)).end == LIVE_OK && taken < most) taken++;
    printf("%u invokes\n", taken);
    return answer;
}

/* 2^28 bytes are 1,023 invokes. */
static void try_full(const char *image) {
    struct live *live = opened_for_memory(image, 0);
    tell("one more", invoke_up_to(live, 2000));
    tell("one by an enter", live_enter(live, 0, 1000, call));
    tell("which isn't inside", live_leave(live, 0));
    ask("a call that reads nothing", live, 0);
    told_status(live);
}

/* Without history no entry is refused: what all have read, 96 + 2,001 * 262,304 bytes, and that they were 2,002 is counted. */
static void try_history_off(const char *image) {
    static struct live_state state;
    struct live_core again = usual;
    again.options = LIVE_HISTORY_OFF;
    struct live *live = opened_for_memory(image, LIVE_HISTORY_OFF);
    tell("one more", invoke_up_to(live, 2000));
    tell("a state", live_state(live, &state));
    printf("  events %" PRIu64 ", copied %" PRIu64 "\n", state.events, state.copied);
    struct live_answer answer = live_boot(live, &again);
    tell("history off once more", answer);
    printf("  %s\n", answer.part == LIVE_OF_OPTIONS ? "of the options" : "of something else");
    ask("a call that reads nothing", live, 0);
    told_status(live);
}

/* ---- Programs that fail. */

/* Sends a signal to a process behind so many milliseconds, from another process. */
static pid_t send_later(pid_t to, int signal, unsigned milliseconds) {
    pid_t sender = fork();
    if (sender != 0) return sender;
    usleep(1000 * milliseconds);
    kill(to, signal);
    _exit(0);
}

static void try_killed(void) {
    struct live *live = opened();
    tell("an enter", live_enter(live, 0, 1, threads));
    kill(live_process(live), SIGKILL);
    tell("a leave, the program having been killed", live_leave(live, 0));
    ask("another call", live, 1);
    uint8_t byte;
    tell("a read", live_read(live, 1, RAM, &byte, 1));
    told_status(live);

    live = opened();
    kill(live_process(live), SIGSTOP);
    pid_t sender = send_later(live_process(live), SIGKILL, 100);
    ask("a call, the program being killed meanwhile", live, 1);
    waitpid(sender, NULL, 0);
    told_status(live);
}

static void try_stopped(void) {
    struct live *live = opened();
    kill(live_process(live), SIGSTOP);
    pid_t sender = send_later(live_process(live), SIGCONT, 200);
    ask("a call, the program standing still meanwhile", live, 0);
    waitpid(sender, NULL, 0);
    told_status(live);
}

/* Starts a program that is a script of the shell, in which LIVE is the program of the conversation. */
static struct live *open_script(const char *what, const char *commands) {
    char name[] = "/tmp/live_misuses.XXXXXX";
    int file = mkostemp(name, O_CLOEXEC);
    if (file < 0 || dprintf(file, "#!/bin/sh\n%s\n", commands) < 0 || fchmod(file, 0700) || close(file)) perror(name), exit(1);
    printf("%s\n", what);
    struct live *live = open_or_exit(name);
    tell("  a boot", live_boot(live, &usual));
    unlink(name);
    return live;
}

/* With two calls. */
static void try_script(const char *what, const char *commands) {
    struct live *live = open_script(what, commands);
    ask("  a call", live, 0);
    ask("  another", live, 0);
    told_status(live);
}

/* With exits that are watched from behind the boot on, and a call. */
static void try_writes(const char *what, const char *commands) {
    struct live *live = open_script(what, commands);
    tell("  watched", live_watch(live));
    ask("  a call", live, 0);
    printf("  the copy begins with %02x\n", live_ram(live, 0)[0]);
    told_status(live);
}

/* With a look at what the core keeps. */
static void try_state(const char *what, const char *commands) {
    static struct live_state state;
    struct live *live = open_script(what, commands);
    struct live_answer answer = live_state(live, &state);
    tell("  the state", answer);
    if (answer.end == LIVE_OK) printf("  slots %u, sessions %" PRIu64 "\n", state.slot_count, state.sessions);
    told_status(live);
}

/* The boot is answered, and the next line is read; likewise behind that a line that watches exits. */
#define BOOTED "read -r line; echo ok; read -r line; "
#define WATCHED BOOTED "echo ok; read -r line; "
#define REGISTER " 00000000"
#define REGISTERS REGISTER REGISTER REGISTER REGISTER REGISTER REGISTER REGISTER REGISTER

/* Registers, and behind them this, with a zero of as many digits as it says. */
#define BLOCKS(said) "printf 'ret 0" REGISTERS "\n" said "' 0; read -r line"

static void try_scripts(void) {
    try_script("byte by byte", "\"$LIVE\" | dd bs=1 status=none");
    try_script("an end at once", "exit 3");
    try_script("an end behind the first answer", "read -r line; echo ok; exit 4");
    try_script("an end within the second answer", BOOTED "printf 'ret 0" REGISTER " 0000'");
    try_script("an end within the line that ends it", BOOTED "printf 'ret 0" REGISTERS "\nok'");
    try_script("killed within it", BOOTED "printf 'ret 0" REGISTER " 0000'; kill -9 $$");
    try_script("what is said is given back", "exec cat");
    try_script("a line without end", "head -c 20000 /dev/zero; read -r line");
    try_script("registers of another processor", BOOTED "printf 'ret 1" REGISTERS "\nok\n'; read -r line");
    try_script("a register less", BOOTED "printf 'ret 0" REGISTER "\nok\n'; read -r line");
    try_script("a register of nine digits", BOOTED "printf 'ret 0" REGISTERS "0\nok\n'; read -r line");
    try_script("registers before bad", BOOTED "printf 'ret 0" REGISTERS "\nbad range\n'; read -r line");
    try_script("no registers before ok", BOOTED "echo ok; read -r line");
    try_script("a line that begins as ok does", "read -r line; echo okay; read -r line");
    try_script("an answer more", "read -r line; printf 'ok\nok\n'; read -r line");
    try_script("a block, without exits that are watched", BOOTED BLOCKS("wrote 0 40000000 ab%0126d\nok\n"));
}

static void try_watched_scripts(void) {
    try_writes("a block", WATCHED BLOCKS("wrote 0 40000000 ab%0126d\nok\n"));
    try_writes("a block before RAM", WATCHED BLOCKS("wrote 0 3fffffc0 ab%0126d\nok\n"));
    try_writes("a block that leaves RAM", WATCHED BLOCKS("wrote 0 403fffff ab%0126d\nok\n"));
    try_writes("a block of another processor", WATCHED BLOCKS("wrote 1 40000000 ab%0126d\nok\n"));
    try_writes("a block of a digit less", WATCHED BLOCKS("wrote 0 40000000 ab%0125d\nok\n"));
    try_writes("a block of a digit more", WATCHED BLOCKS("wrote 0 40000000 ab%0127d\nok\n"));
    try_writes("an end within a block", WATCHED "printf 'ret 0" REGISTERS "\nwrote 0 40000000 ab'");
    try_writes("an end behind a block", WATCHED "printf 'ret 0" REGISTERS "\nwrote 0 40000000 ab%0126d\n' 0");
    try_state("a state with a line that isn't known", BOOTED "printf 'slot 0 free\nthreads 9\nsessions 7\nok\n'; read -r line");
    try_state("a slot that is left out", BOOTED "printf 'slot 1 free\nok\n'; read -r line");
    try_state("a slot of half a line", BOOTED "printf 'slot 0 asks client 0\nok\n'; read -r line");
    try_state("a slot that goes on", BOOTED "printf 'slot 0 free now\nok\n'; read -r line");
    /* By one write: else it depends on the moment of the close whether a signal ends the program. */
    try_state("seventeen slots", BOOTED "slots=; for i in 0 1 2 3 4 5 6 7 8 9 10 11 12 13 14 15 16; do slots=\"${slots}slot $i free\n\"; done; "
                                        "printf '%s' \"${slots}ok\n\"; read -r line");
    try_state("a mask of a slot that there isn't", BOOTED "printf 'slot 0 free\nmasked 1\nok\n'; read -r line");
    try_state("a processor that there isn't", BOOTED "printf 'inside 8\nok\n'; read -r line");
    try_state("an instance of half a line", BOOTED "printf 'instance 1 1111 users 1\nok\n'; read -r line");
    try_state("a count that is none", BOOTED "printf 'sessions many\nok\n'; read -r line");
    try_state("an end within a state", BOOTED "printf 'slot 0 free\nslot 1'");
}

/* ---- Two conversations. */

static void try_two(void) {
    struct live *one = opened(), *other = opened();
    tell("an enter of the one", live_enter(one, 0, 1, threads));
    ask("a call of the other", other, 0);
    told_status(one);
    ask("a call of the other", other, 0);
    told_status(other);
}

int main(int count, char **words) {
    static char image[4096];
    char name[4096];
    if (count != 3) return 2;
    path = words[1];
    setenv("LIVE", path, 1);
    snprintf(name, sizeof name, "%s/counter.hex", words[2]);
    FILE *source = fopen(name, "r");
    if (source == NULL || fgets(image, sizeof image, source) == NULL) return perror(name), 1;
    fclose(source);
    setvbuf(stdout, NULL, _IOLBF, 0);
    try_no_program();
    try_boots(image);
    try_lines();
    try_questions();
    try_ram();
    try_full(image);
    try_history_off(image);
    try_killed();
    try_stopped();
    try_scripts();
    try_watched_scripts();
    try_two();
    return 0;
}

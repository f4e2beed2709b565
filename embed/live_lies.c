/* Programs that lie, are silent or never end, in the place of the one of a conversation: each is printed with how its handle answers.
 * None of them may make it write out of bounds or wait for ever.
 *
 * usage: live_lies PROGRAM, that of the conversation */
#define _GNU_SOURCE
#include "live.h"

#include <errno.h>
#include <fcntl.h>
#include <inttypes.h>
#include <signal.h>
#include <stdio.h>
#include <stdlib.h>
#include <string.h>
#include <sys/stat.h>
#include <sys/wait.h>
#include <unistd.h>

/* Milliseconds for a program that answers, and for one that is silent. */
enum { RAM = LIVE_RAM_START, PATIENCE = 20000, LIMIT = 300 };

static const char *path;
static const uint32_t threads[8] = {0xb200000f}; /* how many threads there are */
static const struct live_core usual = {.cpus = 2, .threads = 3, .frames = 4};

static const char *const ends[] = {"ok", "bad", "full", "over"};

static void tell(const char *what, struct live_answer answer) {
    printf("  %s: %s", what, ends[answer.end]);
    if (answer.end == LIVE_BAD) printf(" %s", answer.kind);
    if (answer.end == LIVE_FULL) printf(" %" PRIu64, answer.copied);
    printf("\n");
}

static struct live *open_or_exit(const char *program) {
    struct live *live = live_open(program);
    if (live == NULL) perror(program), exit(1);
    return live;
}

/* ---- Programs that lie. */

/* What is asked of a program. */
enum asked { A_CALL, A_WRITE, A_WRITE_OUT_OF_RAM, A_WRITE_OF_CPU_8, A_WATCH, A_STATE, A_TURN };

/* The boot is answered, and the next line is read; likewise behind that a line that watches exits. */
#define BOOTED "read -r line; echo ok; read -r line; "
#define WATCHED BOOTED "echo ok; read -r line; "
#define REGISTER " 00000000"
#define SEVEN_REGISTERS REGISTER REGISTER REGISTER REGISTER REGISTER REGISTER REGISTER
#define REGISTERS REGISTER SEVEN_REGISTERS
#define RET "ret 0" REGISTERS "\n"
/* It ends at the next line, or says nothing up to the end of its input. */
#define ENDS "; read -r line"
#define IS_SILENT "; while read -r line; do :; done"

static const struct lie {
    const char *what;
    bool is_watched;
    enum asked asked;
    const char *says;
} lies[] = {
    {"ok to a write out of RAM", true, A_WRITE_OUT_OF_RAM, WATCHED "echo ok" ENDS},
    {"ok to a write of processor 8", true, A_WRITE_OF_CPU_8, WATCHED "echo ok" ENDS},
    {"ok to a write out of RAM, without copies", false, A_WRITE_OUT_OF_RAM, BOOTED "echo ok" ENDS},
    {"a number that is none behind full", false, A_CALL, BOOTED "echo full x" ENDS},
    {"a number below 0 behind full", false, A_CALL, BOOTED "echo full -1" ENDS},
    {"no number behind full", false, A_CALL, BOOTED "echo 'full '" ENDS},
    {"more behind full", false, A_CALL, BOOTED "echo full 1 2" ENDS},
    {"2^64 - 1 behind full", false, A_CALL, BOOTED "echo full 18446744073709551615" ENDS},
    {"2^64 behind full", false, A_CALL, BOOTED "echo full 18446744073709551616" ENDS},
    {"no kind behind bad", false, A_CALL, BOOTED "echo 'bad '" ENDS},
    {"a kind of sixteen letters", false, A_CALL, BOOTED "echo bad abcdefghijklmnop" ENDS},
    {"a byte of zero in the line that ends it", false, A_WRITE, BOOTED "printf 'ok\\000x\\n'" ENDS},
    {"a byte of zero behind the registers", false, A_CALL, BOOTED "printf 'ret 0" REGISTERS "\\000\\nok\\n'" ENDS},
    {"a register in capitals", false, A_CALL, BOOTED "printf 'ret 0 0000000A" SEVEN_REGISTERS "\\nok\\n'" ENDS},
    {"a watch that is refused", true, A_WATCH, BOOTED "echo bad item" ENDS},
    {"blocks without an end", true, A_CALL, WATCHED "printf '" RET "'; yes \"wrote 0 40000000 $(printf %0128d 0)\""},
    {"a state without an end", false, A_STATE, BOOTED "yes threads 9"},
    {"a count of 2^64", false, A_STATE, BOOTED "printf 'copied 18446744073709551616\\nok\\n'" ENDS},
    {"a masked slot that there isn't", false, A_STATE, BOOTED "printf 'slot 0 free\\nmasked 1\\nok\\n'" ENDS},
    {"a masked slot with more behind it", false, A_STATE, BOOTED "printf 'slot 0 free\\nmasked 0 1\\nok\\n'" ENDS},
    {"nothing", false, A_CALL, BOOTED "true" IS_SILENT},
    {"half of an answer", false, A_CALL, BOOTED "printf 'ret 0 0000'" IS_SILENT},
    {"a state that stands still", false, A_STATE, BOOTED "echo slot 0 free" IS_SILENT},
    {"a byte now and then", false, A_CALL, BOOTED "while :; do printf r; sleep 0.05; done"},
    {"a turn whose write is refused", false, A_TURN, BOOTED "printf 'bad range\\n" RET "ok\\nmem 0 40000000 00\\nok\\n'" ENDS},
    {"a turn without registers", false, A_TURN, BOOTED "printf 'ok\\nok\\nmem 0 40000000 00\\nok\\n'" ENDS},
    {"a turn whose read is refused", false, A_TURN, BOOTED "printf 'ok\\n" RET "ok\\nbad range\\n'" ENDS},
    {"a turn that reads elsewhere", false, A_TURN, BOOTED "printf 'ok\\n" RET "ok\\nmem 0 40000001 00\\nok\\n'" ENDS},
    {"a turn that reads more", false, A_TURN, BOOTED "printf 'ok\\n" RET "ok\\nmem 0 40000000 0000\\nok\\n'" ENDS},
    {"a turn with an answer more", false, A_TURN, BOOTED "printf 'ok\\n" RET "ok\\nmem 0 40000000 00\\nok\\nok\\n'" ENDS},
};

/* A program that is a script of the shell, with a limit of time. */
static struct live *open_script(const char *commands) {
    char name[] = "/tmp/live_lies.XXXXXX";
    int file = mkostemp(name, O_CLOEXEC);
    if (file < 0 || dprintf(file, "#!/bin/sh\n%s\n", commands) < 0 || fchmod(file, 0700) || close(file)) perror(name), exit(1);
    struct live *live = open_or_exit(name);
    live_limit(live, PATIENCE);
    tell("a boot", live_boot(live, &usual));
    unlink(name);
    return live;
}

static struct live_answer ask_turn(struct live *live) {
    uint8_t byte = 1, shown;
    struct live_source source = {RAM, &byte, 1};
    struct live_target target = {RAM, &shown, 1};
    return live_turn(live, &(struct live_turn){.steps = 1, .sources = &source, .source_count = 1, .targets = &target, .target_count = 1});
}

static struct live_answer ask(struct live *live, enum asked asked) {
    static struct live_state state;
    static const uint8_t bytes[64];
    switch (asked) {
    case A_CALL:
        return live_smc(live, 0, 1, threads);
    case A_WRITE:
        return live_write(live, 0, RAM, bytes, sizeof bytes);
    case A_WRITE_OUT_OF_RAM:
        return live_write(live, 1, (uint64_t)RAM + 8 * LIVE_RAM_BYTES, bytes, sizeof bytes);
    case A_WRITE_OF_CPU_8:
        return live_write(live, 8, RAM, bytes, sizeof bytes);
    case A_STATE:
        return live_state(live, &state);
    case A_TURN:
        return ask_turn(live);
    default:
        return live_check(live);
    }
}

static void try_lie(const struct lie *lie) {
    printf("%s\n", lie->what);
    struct live *live = open_script(lie->says);
    bool is_silent = strstr(lie->says, IS_SILENT) != NULL || strstr(lie->says, "sleep") != NULL;
    if (lie->is_watched) tell("a watch", live_watch(live));
    live_limit(live, is_silent ? LIMIT : PATIENCE);
    if (lie->asked == A_WATCH) printf("  %s\n", live_ram(live, 0) ? "a copy" : "no copy");
    else tell("an answer", ask(live, lie->asked));
    tell("another", live_check(live));
    live_close(live);
}

/* ---- Limits of time, with the program. */

/* The program with a core, standing still. */
static struct live *open_still(const char *what) {
    printf("%s\n", what);
    struct live *live = open_or_exit(path);
    live_limit(live, PATIENCE);
    tell("a boot", live_boot(live, &usual));
    tell("a check", live_check(live));
    kill(live_process(live), SIGSTOP);
    live_limit(live, LIMIT);
    return live;
}

static void try_limits(void) {
    static uint8_t bytes[LIVE_RAM_BYTES];
    struct live *live = open_still("the program stands still");
    tell("a check", live_check(live));
    printf("  status %d\n", live_close(live));
    live = open_still("it stands still at the end");
    printf("  status %d\n", live_close(live));
    live = open_still("it takes nothing");
    tell("a write of all RAM", live_write(live, 0, RAM, bytes, sizeof bytes));
    printf("  status %d\n", live_close(live));
}

/* ---- Signals, descriptors and processes. */

static bool is_pending(void) {
    sigset_t pending;
    sigpending(&pending);
    return sigismember(&pending, SIGPIPE);
}

/* The program has ended, and SIGPIPE is blocked: none is left, and one that was there stays. */
static void try_broken_pipe(bool was_there) {
    sigset_t broken, before;
    sigemptyset(&broken), sigaddset(&broken, SIGPIPE);
    sigprocmask(SIG_BLOCK, &broken, &before);
    struct live *live = open_or_exit("/bin/true");
    waitpid(live_process(live), NULL, 0);
    if (was_there) raise(SIGPIPE);
    printf("SIGPIPE is blocked%s\n", was_there ? ", and pending" : "");
    tell("a check", live_check(live));
    printf("  %s, and status %d\n", is_pending() ? "one is pending" : "none is pending", live_close(live));
    if (is_pending()) sigtimedwait(&broken, NULL, &(struct timespec){0});
    sigprocmask(SIG_SETMASK, &before, NULL);
}

static void in_child(void (*tries)(void)) {
    fflush(stdout);
    pid_t child = fork();
    int status;
    if (child == 0) tries(), fflush(stdout), _exit(0);
    if (waitpid(child, &status, 0) < 0 || status != 0) printf("  the child has failed\n");
}

static int told; /* where a child tells, whose descriptors are closed */

static void try_without_descriptors(void) {
    told = fcntl(1, F_DUPFD, 10);
    for (int i = 0; i < 3; i++) close(i);
    struct live *live = open_or_exit(path);
    bool is_well = live_boot(live, &usual).end == LIVE_OK && live_smc(live, 1, 1, threads).end == LIVE_OK && live_close(live) == 0;
    dprintf(told, "  %s\n", is_well ? "a core was booted and asked" : "no core");
}

static struct live *parents;

static void try_forgotten(void) {
    live_forget(parents);
    struct live *live = open_or_exit(path);
    tell("a boot of the child", live_boot(live, &usual));
    printf("  status %d\n", live_close(live));
}

static void try_processes(void) {
    printf("without descriptors 0, 1 and 2\n");
    in_child(try_without_descriptors);
    printf("a child that forgets\n");
    parents = open_or_exit(path);
    tell("a boot", live_boot(parents, &usual));
    in_child(try_forgotten);
    tell("a check of the parent", live_check(parents));
    printf("  status %d\n", live_close(parents));
}

/* ---- Turns and boots, with the program. */

static void try_turns(void) {
    uint8_t written[3] = {1, 2, 3}, read[4096];
    struct live_source sources[LIVE_MOST_PIECES + 1] = {{RAM + 1, written, 3}, {RAM + 2, written, 1}, {0, "", 0}};
    struct live_target targets[LIVE_MOST_PIECES + 1] = {{RAM, read, 5}, {RAM + LIVE_RAM_BYTES - 1, read + 5, 1}};
    struct live_turn turn = {1, 1, {0xb200000f}, sources, 3, targets, 2};
    struct live *live = open_or_exit(path);
    printf("turns\n");
    tell("before the boot", live_turn(live, &turn));
    tell("watched", live_watch(live));
    tell("a boot", live_boot(live, &usual));
    struct live_answer answer = live_turn(live, &turn);
    tell("a turn", answer);
    printf("  a1 %u, read", answer.a[1]);
    for (int i = 0; i < 6; i++) printf(" %d", read[i]);
    printf(", in the copy %d\n", live_ram(live, 1)[2]);
    turn.cpu = 2, tell("a processor that there isn't", live_turn(live, &turn)), turn.cpu = 1;
    targets[1].length = 2, tell("a read that leaves RAM", live_turn(live, &turn)), targets[1].length = 1;
    targets[0].length = 4097, tell("a read of 4097 bytes", live_turn(live, &turn)), targets[0].length = 4096;
    sources[0].address = RAM - 1, tell("a write before RAM", live_turn(live, &turn)), sources[0].address = UINT64_MAX;
    tell("a write at the end of all", live_turn(live, &turn)), sources[0].address = RAM;
    turn.source_count = LIVE_MOST_PIECES + 1, tell("too many pieces", live_turn(live, &turn)), turn.source_count = 1;
    tell("an enter", live_enter(live, 1, 1, threads));
    written[0] = 9;
    tell("a processor that is inside", live_turn(live, &turn));
    printf("  read %d\n", read[0]);
    tell("a leave", live_leave(live, 1));
    printf("  status %d\n", live_close(live));
}

static void try_boots(void) {
    struct live_application applications[] = {{"11111111-1111-1111-1111-111111111111", "4f"}, {"x", ""}};
    static const char *const parts[] = {"options", "sizes", "application", "key"};
    struct live_core cores[] = {{.cpus = 9, .threads = 1, .frames = 1},
                                {.cpus = 1, .threads = 1, .frames = 1, .applications = applications, .application_count = 1},
                                {.cpus = 1, .threads = 1, .frames = 1, .applications = applications + 1, .application_count = 1}};
    printf("boots that are refused\n");
    for (size_t i = 0; i < sizeof cores / sizeof cores[0]; i++) {
        struct live *live = open_or_exit(path);
        struct live_answer answer = live_boot(live, &cores[i]);
        printf("  %s %zu: %s %s\n", parts[answer.part], answer.application, ends[answer.end], answer.kind);
        live_close(live);
    }
}

int main(int count, char **words) {
    if (count != 2) return 2;
    path = words[1];
    setvbuf(stdout, NULL, _IOLBF, 0);
    for (size_t i = 0; i < sizeof lies / sizeof lies[0]; i++) try_lie(&lies[i]);
    try_limits();
    try_broken_pipe(false);
    try_broken_pipe(true);
    try_processes();
    try_turns();
    try_boots();
    return 0;
}

/* Lines to the program of a conversation, and its answers, over two pipes. */
#define _GNU_SOURCE
#include "live.h"

#include <errno.h>
#include <fcntl.h>
#include <inttypes.h>
#include <limits.h>
#include <poll.h>
#include <signal.h>
#include <spawn.h>
#include <stdarg.h>
#include <stdbool.h>
#include <stdio.h>
#include <stdlib.h>
#include <string.h>
#include <sys/wait.h>
#include <time.h>
#include <unistd.h>

/* Bytes of RAM that one line shows, and room for that line. Bytes that one line of an exit has written. */
enum { MOST_SHOWN = LIVE_MOST_SHOWN, LINE_ROOM = 3 * MOST_SHOWN, BLOCK = 64 };
enum { MOST_CPUS = 8, MOST_SLOTS = 16, MOST_INSTANCES = 80, RAM_START = LIVE_RAM_START };
/* Lines that one answer to `state` may have; a core has some hundred of the kinds that are known. */
enum { MOST_STATE_LINES = 4096 };
enum { SAYING_ROOM = 1 << 15 };

struct live {
    pid_t process;
    int to, from;
    bool is_over;
    unsigned cpus; /* of the core that was booted, or 0 */
    unsigned limit; /* milliseconds for an answer, or 0 for no limit */
    struct timespec until; /* of the answer that is waited for, where there is a limit */
    uint8_t *ram; /* the copies of all processors' RAM, or null */
    size_t said; /* bytes that aren't written yet */
    char saying[SAYING_ROOM];
    size_t heard_from, heard_to; /* what was read, and not taken yet */
    char hearing[LINE_ROOM];
};

/* ---- The program. */

static int spawn(pid_t *process, const char *program, int input, int output) {
    posix_spawn_file_actions_t actions;
    char *words[] = {(char *)program, NULL};
    int cause = posix_spawn_file_actions_init(&actions);
    if (cause) return cause;
    cause = posix_spawn_file_actions_adddup2(&actions, input, 0);
    if (!cause) cause = posix_spawn_file_actions_adddup2(&actions, output, 1);
    if (!cause) cause = posix_spawn(process, program, &actions, NULL, words, environ);
    posix_spawn_file_actions_destroy(&actions);
    return cause;
}

/* Moves a descriptor above the three standard ones, whichever of these are open. */
static bool move_up(int *descriptor) {
    if (*descriptor > STDERR_FILENO) return true;
    int moved = fcntl(*descriptor, F_DUPFD_CLOEXEC, STDERR_FILENO + 1);
    if (moved < 0) return false;
    close(*descriptor);
    *descriptor = moved;
    return true;
}

/* A pipe whose ends no other program that is started gets: it would keep the pipe open. The cause where there is none. */
static int make_pipe(int ends[2]) {
    if (pipe2(ends, O_CLOEXEC)) return errno;
    if (move_up(&ends[0]) && move_up(&ends[1])) return 0;
    int cause = errno;
    close(ends[0]), close(ends[1]);
    return cause;
}

/* Starts the program on two pipes. The cause where that fails. */
static int start(struct live *live, const char *program) {
    int input[2], output[2], cause = make_pipe(input);
    if (cause) return cause;
    cause = make_pipe(output);
    if (cause) {
        close(input[0]), close(input[1]);
        return cause;
    }
    cause = spawn(&live->process, program, input[0], output[1]);
    close(input[0]), close(output[1]);
    live->to = input[1], live->from = output[0];
    /* A write takes what there is room for, so that the limit of time holds. */
    if (!cause && fcntl(live->to, F_SETFL, O_NONBLOCK)) cause = errno;
    if (cause) close(live->to), close(live->from);
    return cause;
}

struct live *live_open(const char *program) {
    struct live *live = calloc(1, sizeof *live);
    if (live == NULL) return NULL;
    int cause = start(live, program);
    if (cause) {
        free(live);
        errno = cause;
        return NULL;
    }
    return live;
}

pid_t live_process(const struct live *live) {
    return live->process;
}

void live_limit(struct live *live, unsigned milliseconds) {
    live->limit = milliseconds;
}

static pid_t wait_for(pid_t process, int *status, int options) {
    pid_t ended;
    do ended = waitpid(process, status, options);
    while (ended < 0 && errno == EINTR);
    return ended;
}

/* The milliseconds that are left up to the end of the limit. */
static int milliseconds_left(const struct live *live) {
    struct timespec now;
    clock_gettime(CLOCK_MONOTONIC, &now);
    int64_t left = (int64_t)(live->until.tv_sec - now.tv_sec) * 1000 + (live->until.tv_nsec - now.tv_nsec + 999999) / 1000000;
    return left < 0 ? 0 : left > INT_MAX ? INT_MAX : (int)left;
}

/* An answer is waited for from now on. */
static void begin(struct live *live) {
    if (live->limit == 0) return;
    clock_gettime(CLOCK_MONOTONIC, &live->until);
    live->until.tv_sec += live->limit / 1000, live->until.tv_nsec += live->limit % 1000 * 1000000L;
    if (live->until.tv_nsec >= 1000000000L) live->until.tv_sec++, live->until.tv_nsec -= 1000000000L;
}

/* Waits for the end of the program, within the limit where there is one; then it is killed. */
static pid_t await_end(struct live *live, int *status) {
    if (live->limit == 0) return wait_for(live->process, status, 0);
    begin(live);
    for (long pause = 50000; milliseconds_left(live) > 0; pause = pause < 5000000 ? 2 * pause : pause) {
        pid_t ended = wait_for(live->process, status, WNOHANG);
        if (ended != 0) return ended;
        nanosleep(&(struct timespec){.tv_nsec = pause}, NULL);
    }
    kill(live->process, SIGKILL);
    return wait_for(live->process, status, 0);
}

int live_close(struct live *live) {
    int status = 0;
    close(live->to), close(live->from);
    pid_t ended = await_end(live, &status);
    free(live->ram);
    free(live);
    if (ended < 0) return LIVE_UNKNOWN;
    return WIFEXITED(status) ? WEXITSTATUS(status) : -WTERMSIG(status);
}

void live_forget(struct live *live) {
    close(live->to), close(live->from);
    free(live->ram);
    free(live);
}

/* ---- What is said. */

/* Whether SIGPIPE waits for this thread or its process. */
static bool is_broken_pipe_pending(void) {
    sigset_t pending;
    return sigpending(&pending) == 0 && sigismember(&pending, SIGPIPE) == 1;
}

/* Writes. Where nobody reads any more SIGPIPE is raised for this thread: it is kept from the process, but one that was pending stays. */
static ssize_t write_quietly(int to, const char *bytes, size_t length) {
    sigset_t broken, before;
    sigemptyset(&broken), sigaddset(&broken, SIGPIPE);
    pthread_sigmask(SIG_BLOCK, &broken, &before);
    bool was_pending = is_broken_pipe_pending();
    ssize_t count = write(to, bytes, length);
    int cause = errno;
    if (count < 0 && cause == EPIPE && !was_pending) sigtimedwait(&broken, NULL, &(struct timespec){0});
    pthread_sigmask(SIG_SETMASK, &before, NULL);
    errno = cause;
    return count;
}

/* Waits for one of these events of a descriptor, and says whether it came within the limit. */
static bool awaits(const struct live *live, int descriptor, short events) {
    struct pollfd one = {.fd = descriptor, .events = events};
    int count;
    do count = poll(&one, 1, live->limit ? milliseconds_left(live) : -1);
    while (count < 0 && errno == EINTR);
    return count > 0;
}

static void flush(struct live *live) {
    size_t done = 0;
    /* What was said before it was asked for is no answer. */
    if (live->said > 0 && live->heard_from < live->heard_to) live->is_over = true;
    while (done < live->said && !live->is_over) {
        ssize_t count = write_quietly(live->to, live->saying + done, live->said - done);
        if (count > 0) done += (size_t)count;
        else if (errno == EAGAIN) live->is_over = !awaits(live, live->to, POLLOUT);
        else if (errno != EINTR) live->is_over = true;
    }
    live->said = 0;
}

static void say_bytes(struct live *live, const char *bytes, size_t length) {
    while (length > 0) {
        if (live->said == sizeof live->saying) flush(live);
        size_t room = sizeof live->saying - live->said;
        size_t part = length < room ? length : room;
        memcpy(live->saying + live->said, bytes, part);
        live->said += part, bytes += part, length -= part;
    }
}

/* Says words of at most 100 bytes. */
static void say(struct live *live, const char *form, ...) {
    char text[100];
    va_list words;
    va_start(words, form);
    int length = vsnprintf(text, sizeof text, form, words);
    va_end(words);
    say_bytes(live, text, (size_t)length);
}

/* Says a text, up to its first line feed. */
static void say_text(struct live *live, const char *text) {
    say_bytes(live, text, strcspn(text, "\n"));
}

/* The two digits of each byte, one behind the other. */
#define ROW(d) d "0" d "1" d "2" d "3" d "4" d "5" d "6" d "7" d "8" d "9" d "a" d "b" d "c" d "d" d "e" d "f"
static const char digit_pairs[] = ROW("0") ROW("1") ROW("2") ROW("3") ROW("4") ROW("5") ROW("6") ROW("7") ROW("8") ROW("9") ROW("a")
    ROW("b") ROW("c") ROW("d") ROW("e") ROW("f");
#undef ROW

static void say_digits(struct live *live, const uint8_t *bytes, size_t length) {
    while (length > 0) {
        if (sizeof live->saying - live->said < 2) flush(live);
        size_t room = (sizeof live->saying - live->said) / 2, part = length < room ? length : room;
        for (size_t i = 0; i < part; i++) memcpy(live->saying + live->said + 2 * i, digit_pairs + 2 * bytes[i], 2);
        live->said += 2 * part, bytes += part, length -= part;
    }
}

static void say_entry(struct live *live, const char *word, unsigned cpu, uint32_t steps, const uint32_t a[8]) {
    say(live, "%s %u %" PRIu32, word, cpu, steps);
    for (int i = 0; i < 8; i++) say(live, " %" PRIx32, a[i]);
    say(live, "\n");
}

/* ---- What is heard. */

static struct live_answer over(struct live *live) {
    live->is_over = true;
    return (struct live_answer){.end = LIVE_OVER};
}

/* Reads more behind what isn't taken yet. */
static void read_more(struct live *live) {
    live->heard_to -= live->heard_from;
    memmove(live->hearing, live->hearing + live->heard_from, live->heard_to);
    live->heard_from = 0;
    if (live->limit && !awaits(live, live->from, POLLIN)) {
        live->is_over = true;
        return;
    }
    /* A line for which there is no room is none of an answer; then nothing is read. */
    ssize_t count = read(live->from, live->hearing + live->heard_to, sizeof live->hearing - live->heard_to);
    if (count > 0) live->heard_to += (size_t)count;
    else if (count == 0 || errno != EINTR) live->is_over = true;
}

/* The next line, which stands until another one is heard, or null where none comes. */
static const char *hear(struct live *live) {
    flush(live);
    while (!live->is_over) {
        char *line = live->hearing + live->heard_from;
        char *end = memchr(line, '\n', live->heard_to - live->heard_from);
        if (end) {
            /* A line with a byte of zero is none of an answer: it would count up to that byte alone. */
            live->is_over = memchr(line, 0, (size_t)(end - line)) != NULL;
            *end = 0;
            live->heard_from = (size_t)(end + 1 - live->hearing);
            return live->is_over ? NULL : line;
        }
        read_more(live);
    }
    return NULL;
}

/* What stands behind a word at the front of a text, or null. */
static const char *behind(const char *text, const char *word) {
    return strncmp(text, word, strlen(word)) == 0 ? text + strlen(word) : NULL;
}

/* Takes a number in decimal behind a word from the front of a text, and says whether both stand there. */
static bool takes_number(const char **text, const char *word, uint64_t *number) {
    const char *digits = behind(*text, word);
    if (digits == NULL || *digits < '0' || *digits > '9') return false;
    for (*number = 0; *digits >= '0' && *digits <= '9'; digits++) {
        uint64_t digit = (uint64_t)(*digits - '0');
        if (*number > (UINT64_MAX - digit) / 10) return false;
        *number = 10 * *number + digit;
    }
    *text = digits;
    return true;
}

/* The line that ends an answer. */
static struct live_answer ended_by(struct live *live, const char *line) {
    struct live_answer answer = {.end = LIVE_OK};
    if (line == NULL) return over(live);
    if (strcmp(line, "ok") == 0) return answer;
    const char *kind = behind(line, "bad ");
    if (kind && *kind && strlen(kind) < sizeof answer.kind) {
        answer.end = LIVE_BAD;
        strcpy(answer.kind, kind);
        return answer;
    }
    if (takes_number(&line, "full ", &answer.copied) && *line == 0) {
        answer.end = LIVE_FULL;
        return answer;
    }
    return over(live);
}

static struct live_answer hear_end(struct live *live) {
    return ended_by(live, hear(live));
}

/* What a hexadecimal digit stands for and one more, 0 where a byte is none. */
static const uint8_t digit_values[256] = {['0'] = 1, ['1'] = 2, ['2'] = 3, ['3'] = 4, ['4'] = 5, ['5'] = 6, ['6'] = 7, ['7'] = 8,
                                          ['8'] = 9, ['9'] = 10, ['a'] = 11, ['b'] = 12, ['c'] = 13, ['d'] = 14, ['e'] = 15, ['f'] = 16};

/* Takes a number of so many hexadecimal digits from the front of a text, and says whether it stands there. */
static bool takes(const char **text, int count, uint32_t *number) {
    for (*number = 0; count > 0; count--, ++*text) {
        unsigned value = digit_values[(uint8_t)**text];
        if (value == 0) return false;
        *number = *number << 4 | (value - 1);
    }
    return true;
}

/* Takes so many bytes, of two digits each. */
static bool takes_bytes(const char **text, uint8_t *bytes, size_t length) {
    const uint8_t *digit = (const uint8_t *)*text;
    for (size_t i = 0; i < length; i++, digit += 2) {
        unsigned high = digit_values[digit[0]], low = high ? digit_values[digit[1]] : 0;
        if (low == 0) return false;
        bytes[i] = (uint8_t)((high - 1) << 4 | (low - 1));
    }
    *text = (const char *)digit;
    return true;
}

/* Whether a line is `ret CPU A0 .. A7`: then the registers. */
static bool are_registers(const char *line, unsigned cpu, uint32_t a[8]) {
    char start[20];
    snprintf(start, sizeof start, "ret %u", cpu);
    const char *text = behind(line, start);
    for (int i = 0; text && i < 8; i++)
        if (*text++ != ' ' || !takes(&text, 8, &a[i])) return false;
    return text && *text == 0;
}

/* Whether a line is `mem CPU ADDRESS HEX` with so many bytes: then these. */
static bool are_bytes(const char *line, unsigned cpu, uint64_t address, uint8_t *bytes, size_t length) {
    char start[40];
    snprintf(start, sizeof start, "mem %u %08" PRIx64 " ", cpu, address);
    const char *text = behind(line, start);
    return text && takes_bytes(&text, bytes, length) && *text == 0;
}

/* Whether so many bytes from an address on lie in RAM. */
static bool is_in_ram(uint64_t address, size_t length) {
    if (length == 0) return true;
    return address >= RAM_START && length <= LIVE_RAM_BYTES && address - RAM_START <= LIVE_RAM_BYTES - length;
}

static uint8_t *copy_of(const struct live *live, unsigned cpu, uint64_t address) {
    return live->ram + (size_t)cpu * LIVE_RAM_BYTES + (address - RAM_START);
}

/* Whether a line is `wrote CPU ADDRESS HEX` of a block of this processor: then it stands in its copy. */
static bool is_written(struct live *live, const char *line, unsigned cpu) {
    char start[20];
    uint32_t address;
    snprintf(start, sizeof start, "wrote %u ", cpu);
    const char *text = behind(line, start);
    if (text == NULL || !takes(&text, 8, &address) || !is_in_ram(address, BLOCK) || *text++ != ' ') return false;
    return takes_bytes(&text, copy_of(live, cpu, address), BLOCK) && *text == 0;
}

/* Whether a line is `panic CODE`: then the code. */
static bool is_panic(const char *line, uint32_t *code) {
    const char *text = behind(line, "panic ");
    return text && takes(&text, 8, code) && *text == 0;
}

/* The first line behind those of what an exit has written, which stand in the copy then, and before them behind that of a panic,
 * which stands in the answer. */
static const char *behind_exit(struct live *live, unsigned cpu, struct live_answer *answer) {
    const char *line = hear(live);
    if (live->ram && line && is_panic(line, &answer->panic)) answer->has_panicked = true, line = hear(live);
    if (live->ram == NULL || cpu >= MOST_CPUS) return line;
    for (int count = 0; count < LIVE_RAM_BYTES / BLOCK && line && is_written(live, line, cpu); count++) line = hear(live);
    return line;
}

/* An answer that ends with this line, where data of its call stand before it just where it is taken. */
static struct live_answer rest(struct live *live, const char *line, bool is_data) {
    struct live_answer answer = ended_by(live, line);
    return is_data == (answer.end == LIVE_OK) ? answer : over(live);
}

static struct live_answer hear_registers(struct live *live, unsigned cpu) {
    struct live_answer told = {.end = LIVE_OK};
    const char *line = hear(live);
    bool is_data = line && are_registers(line, cpu, told.a);
    if (is_data) line = behind_exit(live, cpu, &told);
    struct live_answer answer = rest(live, line, is_data);
    return answer.end == LIVE_OK ? told : answer;
}

/* ---- Calls. */

static struct live_answer say_options(struct live *live, unsigned options) {
    if (!(options & LIVE_HISTORY_OFF)) return (struct live_answer){.end = LIVE_OK};
    begin(live);
    say(live, "history off\n");
    return hear_end(live);
}

static struct live_answer say_sizes(struct live *live, const struct live_core *core) {
    begin(live);
    say(live, "boot %u %u %u\n", core->cpus, core->threads, core->frames);
    struct live_answer answer = hear_end(live);
    if (answer.end != LIVE_OK) return answer;
    if (core->cpus > MOST_CPUS) return over(live); /* a core takes no more */
    live->cpus = core->cpus;
    return answer;
}

static struct live_answer say_application(struct live *live, const struct live_application *application) {
    begin(live);
    say(live, "ta "), say_text(live, application->uuid);
    say(live, " "), say_text(live, application->image), say(live, "\n");
    return hear_end(live);
}

static struct live_answer say_key(struct live *live, const uint8_t *key) {
    begin(live);
    say(live, "key "), say_digits(live, key, 32), say(live, "\n");
    return hear_end(live);
}

/* Says a part of a boot, of which there may be several. */
static struct live_answer say_part(struct live *live, const struct live_core *core, enum live_part part, size_t number) {
    switch (part) {
    case LIVE_OF_OPTIONS:
        return say_options(live, core->options);
    case LIVE_OF_SIZES:
        return say_sizes(live, core);
    case LIVE_OF_APPLICATION:
        return say_application(live, &core->applications[number]);
    default:
        return say_key(live, core->key);
    }
}

struct live_answer live_boot(struct live *live, const struct live_core *core) {
    const size_t counts[] = {1, 1, core->application_count, core->key != NULL};
    struct live_answer answer = {.end = LIVE_OK};
    for (int part = LIVE_OF_OPTIONS; part <= LIVE_OF_KEY; part++)
        for (size_t i = 0; i < counts[part] && answer.end == LIVE_OK; i++) {
            answer = say_part(live, core, (enum live_part)part, i);
            answer.part = (enum live_part)part, answer.application = i;
        }
    return answer;
}

struct live_answer live_enter(struct live *live, unsigned cpu, uint32_t steps, const uint32_t a[8]) {
    begin(live);
    say_entry(live, "enter", cpu, steps, a);
    return hear_end(live);
}

struct live_answer live_leave(struct live *live, unsigned cpu) {
    begin(live);
    say(live, "leave %u\n", cpu);
    return hear_registers(live, cpu);
}

struct live_answer live_smc(struct live *live, unsigned cpu, uint32_t steps, const uint32_t a[8]) {
    begin(live);
    say_entry(live, "smc", cpu, steps, a);
    return hear_registers(live, cpu);
}

static size_t least(size_t one, size_t other) {
    return one < other ? one : other;
}

static void say_show(struct live *live, unsigned cpu, uint64_t address, size_t length) {
    say(live, "show %u %" PRIx64 " %zu\n", cpu, address, length);
}

/* The answer to a line `show` of so many bytes. */
static struct live_answer hear_bytes(struct live *live, unsigned cpu, uint64_t address, uint8_t *bytes, size_t length) {
    const char *line = hear(live);
    bool is_data = line && are_bytes(line, cpu, address, bytes, length);
    return rest(live, is_data ? hear(live) : line, is_data);
}

/* Reads in one round trip what so many lines show. The answer is that of the first line that isn't taken, if there is one. */
static struct live_answer read_round(struct live *live, unsigned cpu, uint64_t address, uint8_t *bytes, size_t length) {
    struct live_answer first = {.end = LIVE_OK};
    begin(live);
    for (size_t at = 0; at < length; at += MOST_SHOWN) say_show(live, cpu, address + at, least(length - at, MOST_SHOWN));
    for (size_t at = 0; at < length && first.end != LIVE_OVER; at += MOST_SHOWN) {
        struct live_answer answer = hear_bytes(live, cpu, address + at, bytes + at, least(length - at, MOST_SHOWN));
        if (first.end == LIVE_OK || answer.end == LIVE_OVER) first = answer;
    }
    return first;
}

struct live_answer live_read(struct live *live, unsigned cpu, uint64_t address, void *bytes, size_t length) {
    struct live_answer answer = {.end = live->is_over ? LIVE_OVER : LIVE_OK};
    for (size_t done = 0, part; done < length && answer.end == LIVE_OK; done += part) {
        part = least(length - done, LIVE_MOST_PIECES * MOST_SHOWN);
        answer = read_round(live, cpu, address + done, (uint8_t *)bytes + done, part);
    }
    return answer;
}

static void say_write(struct live *live, unsigned cpu, uint64_t address, const void *bytes, size_t length) {
    say(live, "write %u %" PRIx64 " ", cpu, address);
    say_digits(live, bytes, length);
    say(live, "\n");
}

/* The answer to a line `write`, whose bytes stand in the copy where they were taken. A program that takes what lies out of RAM lies. */
static struct live_answer hear_written(struct live *live, unsigned cpu, uint64_t address, const void *bytes, size_t length) {
    struct live_answer answer = hear_end(live);
    if (live->ram == NULL || answer.end != LIVE_OK) return answer;
    if (cpu >= MOST_CPUS || !is_in_ram(address, length)) return over(live);
    memcpy(copy_of(live, cpu, address), bytes, length);
    return answer;
}

struct live_answer live_write(struct live *live, unsigned cpu, uint64_t address, const void *bytes, size_t length) {
    if (length == 0) return (struct live_answer){.end = live->is_over ? LIVE_OVER : LIVE_OK};
    begin(live);
    say_write(live, cpu, address, bytes, length);
    return hear_written(live, cpu, address, bytes, length);
}

/* ---- Turns. */

static struct live_answer refuse(const char *kind) {
    struct live_answer answer = {.end = LIVE_BAD};
    strcpy(answer.kind, kind);
    return answer;
}

/* Whether each piece of a turn can be taken, so that nothing of it is refused once it is said, but the entry. */
static struct live_answer check_turn(const struct live *live, const struct live_turn *turn) {
    if (live->is_over) return (struct live_answer){.end = LIVE_OVER};
    if (live->cpus == 0) return refuse("place");
    if (turn->cpu >= live->cpus) return refuse("cpu");
    if (turn->source_count > LIVE_MOST_PIECES || turn->target_count > LIVE_MOST_PIECES) return refuse("count");
    for (size_t i = 0; i < turn->source_count; i++)
        if (!is_in_ram(turn->sources[i].address, turn->sources[i].length)) return refuse("range");
    for (size_t i = 0; i < turn->target_count; i++)
        if (!is_in_ram(turn->targets[i].address, turn->targets[i].length) || turn->targets[i].length > MOST_SHOWN) return refuse("range");
    return (struct live_answer){.end = LIVE_OK};
}

static void say_turn(struct live *live, const struct live_turn *turn) {
    begin(live);
    for (size_t i = 0; i < turn->source_count; i++) {
        const struct live_source *source = &turn->sources[i];
        if (source->length > 0) say_write(live, turn->cpu, source->address, source->bytes, source->length);
    }
    say_entry(live, "smc", turn->cpu, turn->steps, turn->a);
    for (size_t i = 0; i < turn->target_count; i++)
        if (turn->targets[i].length > 0) say_show(live, turn->cpu, turn->targets[i].address, turn->targets[i].length);
    flush(live);
}

struct live_answer live_turn(struct live *live, const struct live_turn *turn) {
    struct live_answer answer = check_turn(live, turn);
    if (answer.end != LIVE_OK) return answer;
    say_turn(live, turn);
    for (size_t i = 0; i < turn->source_count; i++) {
        const struct live_source *source = &turn->sources[i];
        if (source->length == 0) continue;
        if (hear_written(live, turn->cpu, source->address, source->bytes, source->length).end != LIVE_OK) return over(live);
    }
    answer = hear_registers(live, turn->cpu);
    for (size_t i = 0; i < turn->target_count && answer.end != LIVE_OVER; i++) {
        const struct live_target *target = &turn->targets[i];
        if (target->length == 0) continue;
        if (hear_bytes(live, turn->cpu, target->address, target->bytes, target->length).end != LIVE_OK) return over(live);
    }
    return answer;
}

/* ---- Signals, and whether the program is there. */

struct live_answer live_signal(struct live *live, unsigned value) {
    begin(live);
    say(live, "signal %u\n", value);
    return hear_end(live);
}

struct live_answer live_check(struct live *live) {
    begin(live);
    say(live, "\n");
    return hear_end(live);
}

/* ---- What is watched, and what is kept. */

struct live_answer live_watch(struct live *live) {
    bool is_new = live->ram == NULL;
    if (is_new) live->ram = calloc(MOST_CPUS, LIVE_RAM_BYTES);
    if (live->ram == NULL) return refuse("memory");
    begin(live);
    say(live, "watch on\n");
    struct live_answer answer = hear_end(live);
    /* What isn't watched has no copy. */
    if (is_new && answer.end != LIVE_OK) free(live->ram), live->ram = NULL;
    return answer;
}

const uint8_t *live_ram(const struct live *live, unsigned cpu) {
    return live->ram && cpu < MOST_CPUS ? copy_of(live, cpu, RAM_START) : NULL;
}

/* Takes a number of 32 bits in decimal behind a word, likewise. */
static bool takes_short(const char **text, const char *word, uint32_t *number) {
    uint64_t wide;
    if (!takes_number(text, word, &wide) || wide > UINT32_MAX) return false;
    *number = (uint32_t)wide;
    return true;
}

/* Takes a word from the front of a text, and says whether it stands there. */
static bool takes_word(const char **text, const char *word) {
    const char *rest = behind(*text, word);
    if (rest) *text = rest;
    return rest != NULL;
}

/* Takes what stands up to a space, with an end, and says whether there is room for it. */
static bool takes_part(const char **text, char *part, size_t room) {
    size_t length = strcspn(*text, " ");
    if (length == 0 || length >= room) return false;
    memcpy(part, *text, length), part[length] = 0;
    *text += length;
    return true;
}

/* Takes a buffer, its address and its cookie. */
static bool takes_buffer(const char **text, struct live_slot *slot) {
    uint32_t address, high, low;
    if (!takes(text, 8, &address) || !takes_word(text, " ") || !takes(text, 8, &high) || !takes(text, 8, &low)) return false;
    slot->address = address, slot->cookie = (uint64_t)high << 32 | low;
    return slot->has_buffer = true;
}

/* Takes a call that is to be resumed. */
static bool takes_call(const char **text, struct live_slot *slot) {
    static const char *const phases[] = {"runs", "asks", "waits", "ends"};
    for (int i = 0; i < 4 && slot->phase == LIVE_FREE; i++)
        if (takes_word(text, phases[i])) slot->phase = (enum live_phase)(LIVE_RUNS + i);
    if (slot->phase == LIVE_FREE || !takes_short(text, " client ", &slot->client)) return false;
    if (!takes_short(text, " session ", &slot->session) || !takes_short(text, " instance ", &slot->instance)) return false;
    if (takes_word(text, " wants ") && !takes_part(text, slot->wants, sizeof slot->wants)) return false;
    if (takes_word(text, " buffer ") && !takes_buffer(text, slot)) return false;
    slot->is_cancelled = takes_word(text, " cancelled");
    return true;
}

static bool takes_slot(const char *text, struct live_state *state) {
    uint32_t number;
    if (!takes_short(&text, "", &number) || number != state->slot_count || number >= MOST_SLOTS) return false;
    struct live_slot *slot = &state->slots[state->slot_count++];
    if (!takes_word(&text, " ")) return false;
    if (takes_word(&text, "free")) return *text == 0;
    if (takes_short(&text, "active ", &slot->cpu)) {
        slot->phase = LIVE_ACTIVE;
        return *text == 0;
    }
    return takes_call(&text, slot) && *text == 0;
}

/* Takes the number of a slot whose call's application has masked its cancellation. */
static bool takes_masked(const char *text, struct live_state *state) {
    uint32_t number;
    if (!takes_short(&text, "", &number) || number >= state->slot_count) return false;
    return state->slots[number].is_masked = *text == 0;
}

static bool takes_inside(const char *text, struct live_state *state) {
    uint32_t cpu;
    if (!takes_short(&text, "", &cpu) || cpu >= MOST_CPUS) return false;
    return state->is_inside[cpu] = *text == 0;
}

static bool takes_instance(const char *text, struct live_state *state) {
    if (state->instance_count >= MOST_INSTANCES) return false;
    struct live_instance *instance = &state->instances[state->instance_count++];
    if (!takes_short(&text, "", &instance->number) || !takes_word(&text, " ")) return false;
    if (!takes_part(&text, instance->uuid, sizeof instance->uuid) || !takes_short(&text, " users ", &instance->users)) return false;
    instance->is_held = takes_short(&text, " held ", &instance->holder);
    if (!instance->is_held && !takes_word(&text, " idle")) return false;
    instance->is_dead = takes_word(&text, " dead");
    return (instance->is_dead || takes_word(&text, " alive")) && *text == 0;
}

/* Takes a line of what a core keeps, and says whether it is of its form. One of a word that isn't known is passed over. */
static bool takes_line(const char *line, struct live_state *state) {
    const struct {
        const char *word;
        uint64_t *count;
    } counts[] = {{"sessions ", &state->sessions},
                  {"buffers ", &state->buffers},
                  {"pages ", &state->pages},
                  {"events ", &state->events},
                  {"copied ", &state->copied}};
    const char *text;
    if ((text = behind(line, "slot "))) return takes_slot(text, state);
    if ((text = behind(line, "masked "))) return takes_masked(text, state);
    if ((text = behind(line, "inside "))) return takes_inside(text, state);
    if ((text = behind(line, "instance "))) return takes_instance(text, state);
    for (size_t i = 0; i < sizeof counts / sizeof counts[0]; i++)
        if (behind(line, counts[i].word)) return takes_number(&line, counts[i].word, counts[i].count) && *line == 0;
    return true;
}

/* Whether a line ends an answer. */
static bool is_end(const char *line) {
    return strcmp(line, "ok") == 0 || behind(line, "bad ") || behind(line, "full ");
}

struct live_answer live_state(struct live *live, struct live_state *state) {
    memset(state, 0, sizeof *state);
    begin(live);
    say(live, "state\n");
    const char *line = hear(live);
    for (int count = 0; line && !is_end(line) && takes_line(line, state) && count < MOST_STATE_LINES; count++) line = hear(live);
    return ended_by(live, line);
}

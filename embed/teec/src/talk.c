/* The conversation with the core. Where it ends all calls are woken. */
#include "core.h"

#include <signal.h>

bool core_fails(struct core *core, const char *cause) {
    if (core->is_over) return false;
    SAY("%s: %s", core->name, cause);
    core->is_over = true;
    /* It may stand still: then it wouldn't end by itself. Its number is its own until the conversation is closed. */
    kill(live_process(core->live), SIGKILL);
    for (struct seat *seat = core->seats; seat; seat = seat->next) seat_wake(core, seat);
    for (struct waiter *waiter = core->line; waiter; waiter = waiter->next) turn_wake(core, waiter);
    return false;
}

bool core_is_well(struct core *core, struct live_answer answer) {
    switch (answer.end) {
    case LIVE_OK:
        clock_gettime(CLOCK_MONOTONIC, &core->heard);
        return true;
    case LIVE_BAD:
        return core_fails(core, answer.kind);
    case LIVE_FULL:
        return core_fails(core, "the core keeps its history, and has read 2^28 bytes: it reads no more");
    default:
        return core_fails(core, "the core's program has ended, or hasn't answered in time");
    }
}

unsigned core_third(const struct core *core) {
    return (core->description.limit + 2) / 3;
}

void core_checks(struct core *core) {
    struct timespec now;
    clock_gettime(CLOCK_MONOTONIC, &now);
    long since = (now.tv_sec - core->heard.tv_sec) * 1000 + (now.tv_nsec - core->heard.tv_nsec) / 1000000;
    if (!core->is_over && since >= (long)core_third(core)) core_is_well(core, live_check(core->live));
}

bool core_reads(struct core *core, uint32_t address, void *bytes, size_t length) {
    if (core->is_over) return false;
    return length == 0 || core_is_well(core, live_read(core->live, 0, address, bytes, length));
}

bool core_writes(struct core *core, uint32_t address, const void *bytes, size_t length) {
    if (core->is_over) return false;
    return length == 0 || core_is_well(core, live_write(core->live, 0, address, bytes, length));
}

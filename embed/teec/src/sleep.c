/* Calls that sleep inside: until a time, or until another call wakes them. */
#include "core.h"

/* A call that is woken runs from then on, also before it has the turn. */
static void rouse(struct core *core, struct seat *seat) {
    if (seat->sleeps) seat->sleeps = seat->waits = false, core->running++;
}

void seat_wake(struct core *core, struct seat *seat) {
    rouse(core, seat);
    turn_wake(core, &seat->waiter);
}

void core_advance(struct core *core) {
    struct seat *first = NULL;
    if (!core->description.is_virtual || core->running > 0) return;
    for (struct seat *seat = core->seats; seat; seat = seat->next)
        if (seat->waits && (first == NULL || seat->until < first->until)) first = seat;
    if (first == NULL) return;
    if (first->until > core->virtual_now) core->virtual_now = first->until;
    seat_wake(core, first);
}

static void sleep_inside(struct core *core, struct seat *seat, const struct timespec *until) {
    seat->sleeps = true, core->running--;
    core_advance(core);
    turn_sleep(core, &seat->waiter, until);
    rouse(core, seat);
}

void seat_suspend(struct core *core, struct seat *seat, uint32_t milliseconds) {
    struct timespec until;
    seat->waits = true;
    if (core->description.is_virtual) {
        seat->until = core->virtual_now + milliseconds;
        sleep_inside(core, seat, NULL);
        return;
    }
    clock_gettime(CLOCK_MONOTONIC, &until);
    until.tv_sec += milliseconds / 1000, until.tv_nsec += milliseconds % 1000 * 1000000L;
    if (until.tv_nsec >= 1000000000L) until.tv_sec++, until.tv_nsec -= 1000000000L;
    sleep_inside(core, seat, &until);
}

/* No wake comes before its sleep: the call has asked for the sleep in this turn, and another one has to have a turn to wake it. */
void seat_sleep(struct core *core, struct seat *seat, uint64_t key) {
    if (key >= MOST_THREADS) return;
    core->sleepers[key] = seat;
    sleep_inside(core, seat, NULL);
    core->sleepers[key] = NULL;
}

void core_wake_key(struct core *core, uint64_t key) {
    if (key >= MOST_THREADS) return;
    if (core->sleepers[key]) seat_wake(core, core->sleepers[key]);
}

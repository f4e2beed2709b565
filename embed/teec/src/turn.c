/* The turn: one thread at a time has it, in the order of their coming. */
#include "core.h"

#include <errno.h>

void waiter_begin(struct waiter *waiter) {
    pthread_condattr_t monotonic;
    *waiter = (struct waiter){.is_woken = false};
    pthread_condattr_init(&monotonic);
    pthread_condattr_setclock(&monotonic, CLOCK_MONOTONIC);
    pthread_cond_init(&waiter->cond, &monotonic);
    pthread_condattr_destroy(&monotonic);
}

void waiter_end(struct waiter *waiter) {
    pthread_cond_destroy(&waiter->cond);
}

void waiter_append(struct waiter **line, struct waiter *waiter) {
    while (*line) line = &(*line)->next;
    waiter->next = NULL, *line = waiter;
}

void waiter_remove(struct waiter **line, struct waiter *waiter) {
    while (*line != waiter) line = &(*line)->next;
    *line = waiter->next;
}

static void wake_locked(struct waiter *waiter) {
    waiter->is_woken = true;
    pthread_cond_signal(&waiter->cond);
}

static void take_locked(struct core *core) {
    struct waiter self;
    if (!core->is_taken) {
        core->is_taken = true;
        return;
    }
    waiter_begin(&self);
    waiter_append(&core->turns, &self);
    while (!self.is_woken) pthread_cond_wait(&self.cond, &core->mutex);
    waiter_end(&self);
}

/* The next one in line has the turn. */
static void leave_locked(struct core *core) {
    struct waiter *next = core->turns;
    if (next) core->turns = next->next, wake_locked(next);
    else core->is_taken = false;
}

void turn_take(struct core *core) {
    pthread_mutex_lock(&core->mutex);
    take_locked(core);
    pthread_mutex_unlock(&core->mutex);
}

void turn_leave(struct core *core) {
    pthread_mutex_lock(&core->mutex);
    leave_locked(core);
    pthread_mutex_unlock(&core->mutex);
}

void turn_yield(struct core *core) {
    pthread_mutex_lock(&core->mutex);
    if (core->turns) leave_locked(core), take_locked(core);
    pthread_mutex_unlock(&core->mutex);
}

void turn_wake(struct core *core, struct waiter *waiter) {
    if (waiter == NULL) return;
    pthread_mutex_lock(&core->mutex);
    wake_locked(waiter);
    pthread_mutex_unlock(&core->mutex);
}

static bool is_before(const struct timespec *one, const struct timespec *other) {
    return one->tv_sec != other->tv_sec ? one->tv_sec < other->tv_sec : one->tv_nsec < other->tv_nsec;
}

/* Gives the turn away until the waiter is woken or until a time, and says whether it was woken. All wakes up to its next turn are one. */
static bool rests_until(struct core *core, struct waiter *waiter, const struct timespec *until) {
    pthread_mutex_lock(&core->mutex);
    leave_locked(core);
    while (!waiter->is_woken && pthread_cond_timedwait(&waiter->cond, &core->mutex, until) != ETIMEDOUT) {}
    take_locked(core);
    bool was_woken = waiter->is_woken;
    waiter->is_woken = false;
    pthread_mutex_unlock(&core->mutex);
    return was_woken;
}

/* When the program is to be looked after again. */
static struct timespec next_check(const struct core *core) {
    struct timespec next = core->heard;
    unsigned third = core_third(core);
    next.tv_sec += third / 1000, next.tv_nsec += third % 1000 * 1000000L;
    if (next.tv_nsec >= 1000000000L) next.tv_sec++, next.tv_nsec -= 1000000000L;
    return next;
}

void turn_sleep(struct core *core, struct waiter *waiter, const struct timespec *until) {
    while (!core->is_over) {
        struct timespec next = next_check(core);
        bool is_last = until && !is_before(&next, until);
        if (rests_until(core, waiter, is_last ? until : &next) || is_last) return;
        core_checks(core);
    }
}

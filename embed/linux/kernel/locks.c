/* Locks, completions and counts, each of which stops where it is used wrongly. */
#include "tasks.h"

static const char mutex_is_ready[] = "mutex";
static const char mutex_is_destroyed[] = "destroyed mutex";
static const char spin_lock_is_ready[] = "spin lock";
static const char completion_is_ready[] = "completion";

void mutex_init(struct mutex *mutex)
{
	mutex->owner = NULL;
	mutex->state = mutex_is_ready;
}

void mutex_destroy(struct mutex *mutex)
{
	if (mutex->owner)
		stop("a mutex is destroyed while it is held by %s", mutex->owner->name);
	if (mutex->state != mutex_is_ready)
		stop("a mutex is destroyed that wasn't made");
	mutex->state = mutex_is_destroyed;
}

/* As with CONFIG_DEBUG_MUTEXES, the use of a mutex that was destroyed is an error of the log, and goes on. */
void mutex_lock(struct mutex *mutex)
{
	might_sleep_at("mutex_lock");
	if (mutex->state == mutex_is_destroyed)
		log_line(LEVEL_ERROR, "WARNING: a mutex is used that was destroyed");
	else if (mutex->state != mutex_is_ready)
		stop("a mutex is used that wasn't made");
	may_be_preempted();
	if (mutex->owner == this_task())
		stop("%s locks a mutex that it holds", this_task()->name);
	while (mutex->owner)
		task_wait(mutex, UNINTERRUPTIBLE, "mutex");
	mutex->owner = this_task();
}

void mutex_unlock(struct mutex *mutex)
{
	if (mutex->owner != this_task())
		stop("%s unlocks a mutex that it doesn't hold", this_task()->name);
	mutex->owner = NULL;
	task_wake(mutex);
	may_be_preempted();
}

void spin_lock_init(spinlock_t *lock)
{
	lock->owner = NULL;
	lock->state = spin_lock_is_ready;
}

void spin_lock(spinlock_t *lock)
{
	if (!lock->state)
		stop("a spin lock is used that wasn't made");
	may_be_preempted();
	if (lock->owner)
		stop("a spin lock is held while another task runs");
	lock->owner = this_task();
	this_task()->atomic++;
	this_task()->spinning++;
}

void spin_unlock(spinlock_t *lock)
{
	if (lock->owner != this_task())
		stop("%s unlocks a spin lock that it doesn't hold", this_task()->name);
	lock->owner = NULL;
	this_task()->atomic--;
	this_task()->spinning--;
	may_be_preempted();
}

/* ---- Completions */

static void must_be_ready(const struct completion *completion)
{
	if (completion->state != completion_is_ready)
		stop("a completion is used that wasn't made");
}

void init_completion(struct completion *completion)
{
	completion->done = 0;
	completion->state = completion_is_ready;
}

void reinit_completion(struct completion *completion)
{
	must_be_ready(completion);
	completion->done = 0;
}

void complete(struct completion *completion)
{
	must_be_ready(completion);
	completion->done++;
	task_wake(completion);
	may_be_preempted();
}

bool completion_done(struct completion *completion)
{
	must_be_ready(completion);
	return completion->done > 0;
}

static int wait_for(struct completion *completion, enum wait_mode mode, const char *where)
{
	must_be_ready(completion);
	might_sleep_at(where);
	while (!completion->done)
		if (!task_wait(completion, mode, where) && !completion->done)
			return -ERESTARTSYS;
	completion->done--;
	return 0;
}

void wait_for_completion(struct completion *completion)
{
	wait_for(completion, UNINTERRUPTIBLE, "completion");
}

int wait_for_completion_interruptible(struct completion *completion)
{
	return wait_for(completion, INTERRUPTIBLE, "interruptible completion");
}

int wait_for_completion_killable(struct completion *completion)
{
	return wait_for(completion, KILLABLE, "killable completion");
}

unsigned long wait_for_completion_timeout(struct completion *completion, unsigned long ticks)
{
	stop("a wait with a limit, which this core asks for nowhere");
}

/* ---- Counts */

void refcount_set(refcount_t *count, unsigned int value)
{
	count->count = value;
}

void refcount_inc(refcount_t *count)
{
	if (count->count == 0)
		stop("a count of references goes up from 0");
	count->count++;
}

bool refcount_dec_and_test(refcount_t *count)
{
	if (count->count == 0)
		stop("a count of references goes below 0");
	return --count->count == 0;
}

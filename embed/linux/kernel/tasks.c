/*
 * Tasks on two processors. One runs at a time, and goes on until it waits; with a seed it may be preempted at some places, and
 * others run while it is inside the secure world. A task needs a processor with nobody inside.
 */
#include "tasks.h"

static struct task *tasks, *running;
static struct task *inside[PROCESSORS];
static unsigned int inside_most;
static u64 seed, random_state, clock, waits;
static bool time_stands;
static unsigned int user_id, group_id;
static struct mm_struct mm;

/* ---- Choices by the seed (splitmix64) */

unsigned long world_random(unsigned long below)
{
	u64 z = random_state += 0x9e3779b97f4a7c15;

	z = (z ^ (z >> 30)) * 0xbf58476d1ce4e5b9;
	z = (z ^ (z >> 27)) * 0x94d049bb133111eb;
	return (z ^ (z >> 31)) % below;
}

bool world_has_seed(void)
{
	return seed != 0;
}

void world_time_stands(int stands)
{
	time_stands = stands;
}

unsigned long long world_clock(void)
{
	return clock;
}

struct task *this_task(void)
{
	return running;
}

struct task_struct *current_task(void)
{
	return &running->as_current;
}

struct task *task_of_request(int id)
{
	struct task *found = NULL;

	for (struct task *task = tasks; task; task = task->next) {
		if (!task->lent || !task->requests || task->request != id)
			continue;
		if (found)
			stop("two tasks have made request %d", id);
		found = task;
	}
	return found;
}

void request_is_over(const struct idr *requests, int id)
{
	for (struct task *task = tasks; task; task = task->next)
		if (task->requests == requests && task->request == id)
			task->requests = NULL;
}

/* ---- Choosing who runs */

static void add_task(struct task *task)
{
	struct task **at = &tasks;

	while (*at)
		at = &(*at)->next;
	*at = task;
}

static struct task *new_task(const char *name)
{
	static struct task room[64];
	struct task *task = room;

	while (task < room + ARRAY_SIZE(room) && task->name)
		task++;
	if (task == room + ARRAY_SIZE(room))
		stop("too many tasks");
	memset(task, 0, sizeof(*task));
	task->name = name;
	task->as_current.mm = &mm;
	add_task(task);
	return task;
}

static int free_processors(int *cpus)
{
	int count = 0;

	for (int cpu = 0; cpu < PROCESSORS; cpu++)
		if (!inside[cpu])
			cpus[count++] = cpu;
	return count;
}

/* The tasks that can go on: those inside, and where a processor is free those that are ready. */
static int candidates(struct task **list, int room, int free)
{
	int count = 0;

	for (struct task *task = tasks; task; task = task->next) {
		bool can = task->state == INSIDE || (task->state == READY && free > 0);

		if (can && count == room)
			stop("too many tasks");
		if (can)
			list[count++] = task;
	}
	return count;
}

/* The clock goes to the first who sleeps until then: whether anyone does. */
static bool let_time_pass(void)
{
	struct task *first = NULL;

	for (struct task *task = tasks; task; task = task->next)
		if (task->state == SLEEPING && (!first || task->wake_at < first->wake_at))
			first = task;
	if (!first)
		return false;
	if (first->wake_at > clock)
		clock = first->wake_at;
	first->state = READY;
	return true;
}

static void nobody_can_go_on(void)
{
	char text[600] = "";
	size_t size = 0;

	for (struct task *task = tasks; task; task = task->next)
		if (task->state == WAITING && size < sizeof(text) - 80)
			size += scnprintf(text + size, sizeof(text) - size, " %s at %s;", task->name, task->where);
	stop("nobody can go on:%s", text);
}

/* Who runs next. Without a seed the one that has waited longest. */
static struct task *choose(void)
{
	struct task *list[64];
	int cpus[PROCESSORS], free = free_processors(cpus), count;
	struct task *task;

	clock += 1000;
	if (seed && !time_stands && world_random(16) == 0)
		let_time_pass();
	while ((count = candidates(list, ARRAY_SIZE(list), free)) == 0)
		if (!let_time_pass())
			nobody_can_go_on();
	task = list[seed ? world_random(count) : 0];
	if (!seed)
		for (int i = 1; i < count; i++)
			if (list[i]->since < task->since)
				task = list[i];
	if (task->state == READY)
		task->cpu = cpus[seed ? world_random(free) : 0];
	return task;
}

static void run_another(void)
{
	struct task *from = running, *to;

	from->since = ++waits;
	to = choose();
	to->state = READY;
	running = to;
	thread_switch(from->thread, to->thread);
}

/* ---- Tasks */

static void begin_task(void *argument)
{
	struct task *task = argument, *to;

	task->run(task->argument);
	if (task->atomic)
		stop("%s ends while atomic", task->name);
	task->state = ENDED;
	while (task_wake(task))
		;
	to = choose();
	to->state = READY;
	running = to;
	thread_end(to->thread);
}

struct task *task_start(const char *name, void (*run)(void *argument), void *argument)
{
	struct task *task = new_task(name);

	task->run = run;
	task->argument = argument;
	task->state = READY;
	task->since = ++waits;
	task->thread = thread_new(begin_task, task);
	return task;
}

static void remove_task(struct task *task)
{
	struct task **at = &tasks;

	while (*at != task)
		at = &(*at)->next;
	*at = task->next;
}

void task_join(struct task *task)
{
	while (task->state != ENDED)
		task_wait(task, UNINTERRUPTIBLE, "join");
	remove_task(task);
	task->name = NULL;
}

/* Its place isn't used again, since its thread is still there. */
void task_forget(struct task *task)
{
	if (task->state != WAITING)
		stop("%s doesn't wait, and is to be forgotten", task->name);
	remove_task(task);
}

static void must_not_be_atomic(const char *where)
{
	if (running->atomic)
		stop("%s may sleep at %s while atomic", running->name, where);
}

void might_sleep_at(const char *where)
{
	must_not_be_atomic(where);
}

void task_yield(void)
{
	must_not_be_atomic("yield");
	running->state = READY;
	run_another();
}

void may_be_preempted(void)
{
	if (seed && !running->atomic && world_random(4) == 0)
		task_yield();
}

void cond_resched(void)
{
	must_not_be_atomic("cond_resched");
	may_be_preempted();
}

static bool signal_ends(const struct task *task)
{
	return (task->mode == INTERRUPTIBLE && task->signal) || (task->mode == KILLABLE && task->signal == SIGNAL_KILL);
}

bool task_wait(const void *on, enum wait_mode mode, const char *where)
{
	must_not_be_atomic(where);
	running->mode = mode;
	if (signal_ends(running))
		return false;
	running->waits_on = on;
	running->where = where;
	running->state = WAITING;
	run_another();
	running->waits_on = NULL;
	running->where = NULL;
	return !signal_ends(running);
}

static struct task *first_waiting(const void *on)
{
	struct task *first = NULL;

	for (struct task *task = tasks; task; task = task->next)
		if (task->state == WAITING && task->waits_on == on && (!first || task->since < first->since))
			first = task;
	return first;
}

bool task_wake(const void *on)
{
	struct task *first = first_waiting(on);

	if (first)
		first->state = READY;
	return first != NULL;
}

void task_signal(struct task *task, int signal)
{
	task->signal = signal;
	if ((task->state == WAITING || task->state == SLEEPING) && signal_ends(task))
		task->state = READY;
}

static bool sleep_for(u64 nanoseconds, enum wait_mode mode)
{
	must_not_be_atomic("sleep");
	running->mode = mode;
	if (signal_ends(running))
		return false;
	running->wake_at = clock + nanoseconds;
	running->where = "sleep";
	running->state = SLEEPING;
	run_another();
	running->where = NULL;
	return !signal_ends(running);
}

void task_sleep(unsigned int milliseconds)
{
	sleep_for((u64)milliseconds * 1000000, UNINTERRUPTIBLE);
}

unsigned long msleep_interruptible(unsigned int milliseconds)
{
	u64 end = clock + (u64)milliseconds * 1000000;

	if (sleep_for((u64)milliseconds * 1000000, INTERRUPTIBLE) || clock >= end)
		return 0;
	return (end - clock) / 1000000 + 1;
}

const char *task_waits_at(const struct task *task)
{
	bool waits = task->state == WAITING || task->state == SLEEPING;

	return waits && task->where ? task->where : "";
}

void task_until_waits(struct task *task, const char *where)
{
	for (int i = 0; i < 20000; i++) {
		if (!strcmp(task_waits_at(task), where))
			return;
		if (task->state == ENDED)
			stop("%s has ended and didn't wait at %s", task->name, where);
		task_yield();
	}
	stop("%s doesn't wait at %s", task->name, where);
}

/* ---- Inside the secure world */

void task_goes_inside(void)
{
	unsigned int count = 0;

	if (inside[running->cpu])
		stop("two tasks inside on processor %d", running->cpu);
	inside[running->cpu] = running;
	for (int cpu = 0; cpu < PROCESSORS; cpu++)
		count += inside[cpu] != NULL;
	inside_most = max(inside_most, count);
	if (seed) {
		running->state = INSIDE;
		run_another();
	}
	inside[running->cpu] = NULL;
}

unsigned int most_inside(void)
{
	return inside_most;
}

/* ---- The rest of the world */

void ktime_get_real_ts64(struct timespec64 *time)
{
	/* The world begins on the first of January 2026. */
	time->tv_sec = 1767225600 + clock / 1000000000;
	time->tv_nsec = clock % 1000000000;
}

void world_user(unsigned int user, unsigned int group)
{
	user_id = user;
	group_id = group;
}

kuid_t current_euid(void)
{
	return (kuid_t){ user_id };
}

bool in_egroup_p(kgid_t group)
{
	return group.val == group_id;
}

void tasks_begin(unsigned long with_seed)
{
	seed = with_seed;
	random_state = with_seed;
	running = new_task("scenario");
	running->thread = thread_adopt();
	running->state = READY;
}

void tasks_end(void)
{
	for (struct task *task = tasks; task; task = task->next)
		if (task != running)
			stop("%s is still there, at %s", task->name, task->where ? task->where : "work");
}

/* Tasks on two processors, of which one runs at a time. For the shim alone. */
#ifndef KERNEL_TASKS_H
#define KERNEL_TASKS_H

#include "shim.h"
#include "machine.h"
#include "world.h"

enum task_state { READY, WAITING, SLEEPING, INSIDE, ENDED };
enum wait_mode { UNINTERRUPTIBLE, KILLABLE, INTERRUPTIBLE };

struct task {
	const char *name;
	struct thread *thread;
	void (*run)(void *argument);
	void *argument;
	enum task_state state;
	int cpu;
	const void *waits_on;
	const char *where;
	enum wait_mode mode;
	int signal;
	u64 wake_at;
	u64 since;             /* the number of its wait, so that the first to wait is the first to be woken */
	unsigned int atomic;   /* spin locks that it holds, and 1 in an interrupt */
	unsigned int spinning; /* the spin locks alone */
	u32 answered;          /* a0 of its last secure monitor call */
	phys_addr_t lent;      /* the buffer that its call was lent */
	const struct idr *requests;  /* the numbers of which it took the last one, */
	int request;                 /* and that one, until it is given back or the task calls the core */
	struct task_struct as_current;
	struct task *next;
};

struct task *this_task(void);
/* The task whose request of the supplicant has this number, or null. */
struct task *task_of_request(int id);
void request_is_over(const struct idr *requests, int id);
bool world_has_seed(void);
/* Waits until it is woken, or by a signal. False where a signal ended it. */
bool task_wait(const void *on, enum wait_mode mode, const char *where);
/* Wakes the first of those that wait for this. */
bool task_wake(const void *on);
/* The task is inside on its processor: others run, until it is chosen to come out. */
void task_goes_inside(void);

#endif

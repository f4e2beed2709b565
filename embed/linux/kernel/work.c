/* Work queues and interrupts, each with a task of its own. */
#include "tasks.h"

/* ---- Work queues */

struct workqueue_struct {
	const char *name;
	struct list_head works;
	struct task *worker;
	bool ends;
};

static void run_works(void *argument)
{
	struct workqueue_struct *queue = argument;

	for (;;) {
		struct work_struct *work;

		while (list_empty(&queue->works) && !queue->ends)
			task_wait(queue, UNINTERRUPTIBLE, "work");
		if (list_empty(&queue->works))
			return;
		work = list_first_entry(&queue->works, struct work_struct, link);
		list_del(&work->link);
		work->queued = false;
		work->function(work);
	}
}

struct workqueue_struct *create_workqueue(const char *name)
{
	struct workqueue_struct *queue = kzalloc(sizeof(*queue), GFP_KERNEL);

	if (!queue)
		return NULL;
	queue->name = name;
	INIT_LIST_HEAD(&queue->works);
	queue->worker = task_start(name, run_works, queue);
	return queue;
}

bool queue_work(struct workqueue_struct *queue, struct work_struct *work)
{
	if (work->queued)
		return false;
	if (queue->ends)
		stop("work is queued on %s, which is destroyed", queue->name);
	work->queued = true;
	list_add_tail(&work->link, &queue->works);
	task_wake(queue);
	return true;
}

void destroy_workqueue(struct workqueue_struct *queue)
{
	might_sleep_at("destroy_workqueue");
	queue->ends = true;
	task_wake(queue);
	task_join(queue->worker);
	kfree(queue);
}

static struct workqueue_struct shared = { .name = "events" };

bool schedule_work(struct work_struct *work)
{
	if (!shared.worker) {
		INIT_LIST_HEAD(&shared.works);
		shared.worker = task_start(shared.name, run_works, &shared);
	}
	return queue_work(&shared, work);
}

bool cancel_work_sync(struct work_struct *work)
{
	might_sleep_at("cancel_work_sync");
	if (!work->queued)
		return false;
	list_del(&work->link);
	work->queued = false;
	return true;
}

/* The queue that all share is done with what it has, and ends. */
void finish_shared_work(void)
{
	if (!shared.worker)
		return;
	shared.ends = true;
	task_wake(&shared);
	task_join(shared.worker);
	shared.worker = NULL;
	shared.ends = false;
}

/* ---- Interrupts */

enum { LINES = 4 };

static struct line {
	irq_handler_t handler, thread;
	void *dev_id;
	struct task *hard, *soft;  /* they run the handler and the thread */
	bool raised, woken, ends, disposed;
} lines[LINES];

static void run_handler(struct line *line, int irq)
{
	irqreturn_t answer;

	this_task()->atomic++;
	answer = line->handler(irq, line->dev_id);
	this_task()->atomic--;
	if (answer == IRQ_NONE)
		stop("interrupt %d was nobody's", irq);
	if (answer == IRQ_WAKE_THREAD) {
		line->woken = true;
		task_wake(&line->woken);
	}
}

static void run_hard(void *argument)
{
	struct line *line = argument;

	for (;;) {
		while (!line->raised && !line->ends)
			task_wait(&line->raised, UNINTERRUPTIBLE, "interrupt");
		if (line->ends)
			return;
		line->raised = false;
		run_handler(line, line - lines);
	}
}

static void run_soft(void *argument)
{
	struct line *line = argument;

	for (;;) {
		while (!line->woken && !line->ends)
			task_wait(&line->woken, UNINTERRUPTIBLE, "bottom half");
		if (!line->woken)
			return;
		line->woken = false;
		line->thread(line - lines, line->dev_id);
	}
}

static struct line *line_of(unsigned int irq)
{
	if (irq == 0 || irq >= LINES)
		stop("there is no interrupt %u", irq);
	return lines + irq;
}

int request_threaded_irq(unsigned int irq, irq_handler_t handler, irq_handler_t thread,
			 unsigned long flags, const char *name, void *dev_id)
{
	struct line *line = line_of(irq);

	if (flags)
		stop("request_threaded_irq with flags");
	if (line->handler)
		return -EBUSY;
	memset(line, 0, sizeof(*line));
	line->handler = handler;
	line->thread = thread;
	line->dev_id = dev_id;
	line->hard = task_start("interrupt", run_hard, line);
	line->soft = task_start("bottom half", run_soft, line);
	return 0;
}

const void *free_irq(unsigned int irq, void *dev_id)
{
	struct line *line = line_of(irq);

	might_sleep_at("free_irq");
	if (!line->handler || line->dev_id != dev_id)
		stop("free_irq of an interrupt that wasn't requested");
	line->ends = true;
	task_wake(&line->raised);
	task_wake(&line->woken);
	task_join(line->hard);
	task_join(line->soft);
	line->handler = NULL;
	return NULL;
}

void irq_dispose_mapping(unsigned int irq)
{
	line_of(irq)->disposed = true;
}

/* The hardware raises an interrupt, which is lost where nobody has requested it. */
void raise_interrupt(unsigned int irq)
{
	struct line *line = line_of(irq);

	if (!line->handler || line->ends)
		return;
	line->raised = true;
	task_wake(&line->raised);
}

/* ---- Interrupts of one processor, of which there are none */

void *alloc_percpu_of(size_t size)
{
	stop("there is no interrupt of one processor");
}

void free_percpu(void *pointer)
{
	stop("there is no interrupt of one processor");
}

int request_percpu_irq(unsigned int irq, irq_handler_t handler, const char *name, void *dev_id)
{
	stop("there is no interrupt of one processor");
}

void free_percpu_irq(unsigned int irq, void *dev_id)
{
	stop("there is no interrupt of one processor");
}

void enable_percpu_irq(unsigned int irq, unsigned int type)
{
	stop("there is no interrupt of one processor");
}

void disable_percpu_irq(unsigned int irq)
{
	stop("there is no interrupt of one processor");
}

int cpuhp_setup_state(int state, const char *name, cpuhp_function_t startup, cpuhp_function_t teardown)
{
	stop("processors don't come and go");
}

void cpuhp_remove_state(int state)
{
	stop("processors don't come and go");
}

/* ---- Lists of functions that are told of something */

int blocking_notifier_chain_register(struct blocking_notifier_head *head, struct notifier_block *block)
{
	block->next = head->first;
	head->first = block;
	return 0;
}

int blocking_notifier_chain_unregister(struct blocking_notifier_head *head, struct notifier_block *block)
{
	struct notifier_block **at = &head->first;

	while (*at && *at != block)
		at = &(*at)->next;
	if (!*at)
		return -ENOENT;
	*at = block->next;
	return 0;
}

int blocking_notifier_call_chain(struct blocking_notifier_head *head, unsigned long action, void *data)
{
	for (struct notifier_block *block = head->first; block; block = block->next)
		block->notifier_call(block, action, data);
	return 0;
}

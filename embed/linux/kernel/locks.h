/* Tasks, and what they wait for. */
#ifndef KERNEL_LOCKS_H
#define KERNEL_LOCKS_H

struct task;

struct mm_struct { int readers; };
struct task_struct { struct mm_struct *mm; };
struct task_struct *current_task(void);
#define current current_task()

/* Where a task may be preempted, in a run with a seed. */
void may_be_preempted(void);
void cond_resched(void);
void might_sleep_at(const char *where);

struct mutex { struct task *owner; const char *state; };
void mutex_init(struct mutex *mutex);
void mutex_destroy(struct mutex *mutex);
void mutex_lock(struct mutex *mutex);
void mutex_unlock(struct mutex *mutex);

typedef struct { struct task *owner; const char *state; } spinlock_t;
#define DEFINE_SPINLOCK(name) spinlock_t name = { NULL, "spin lock" }
void spin_lock_init(spinlock_t *lock);
void spin_lock(spinlock_t *lock);
void spin_unlock(spinlock_t *lock);
#define spin_lock_irqsave(lock, flags) ((flags) = 0, spin_lock(lock))
#define spin_unlock_irqrestore(lock, flags) ((void)(flags), spin_unlock(lock))

struct completion { unsigned int done; const char *state; };
void init_completion(struct completion *completion);
void reinit_completion(struct completion *completion);
void complete(struct completion *completion);
void wait_for_completion(struct completion *completion);
int wait_for_completion_interruptible(struct completion *completion);
int wait_for_completion_killable(struct completion *completion);
unsigned long wait_for_completion_timeout(struct completion *completion, unsigned long ticks);
bool completion_done(struct completion *completion);

typedef struct { unsigned int count; } refcount_t;
#define REFCOUNT_INIT(n) { n }
void refcount_set(refcount_t *count, unsigned int value);
void refcount_inc(refcount_t *count);
bool refcount_dec_and_test(refcount_t *count);
/* Functions of <linux/kref.h> that nobody calls use these, and they aren't there. */
unsigned int refcount_read(const refcount_t *count);
bool refcount_dec_and_mutex_lock(refcount_t *count, struct mutex *mutex);
bool refcount_dec_and_lock(refcount_t *count, spinlock_t *lock);
bool refcount_inc_not_zero(refcount_t *count);

struct work_struct { struct list_head link; void (*function)(struct work_struct *work); bool queued; };
struct workqueue_struct;
#define INIT_WORK(work, f) ((work)->function = (f), (work)->queued = false)
struct workqueue_struct *create_workqueue(const char *name);
bool queue_work(struct workqueue_struct *queue, struct work_struct *work);
void destroy_workqueue(struct workqueue_struct *queue);
/* On a queue that all share. */
bool schedule_work(struct work_struct *work);
bool cancel_work_sync(struct work_struct *work);

typedef enum { IRQ_NONE, IRQ_HANDLED, IRQ_WAKE_THREAD } irqreturn_t;
typedef irqreturn_t (*irq_handler_t)(int irq, void *dev_id);
int request_threaded_irq(unsigned int irq, irq_handler_t handler, irq_handler_t thread,
			 unsigned long flags, const char *name, void *dev_id);
const void *free_irq(unsigned int irq, void *dev_id);
void irq_dispose_mapping(unsigned int irq);

/* Interrupts of one processor, of which there are none. */
typedef int (*cpuhp_function_t)(unsigned int cpu);
enum { IRQ_TYPE_NONE, CPUHP_AP_ONLINE_DYN };
#define irq_is_percpu_devid(irq) false
#define for_each_present_cpu(cpu) for ((cpu) = 0; (cpu) < 0; (cpu)++)
#define per_cpu_ptr(pointer, cpu) (pointer)
#define alloc_percpu(type) ((type *)alloc_percpu_of(sizeof(type)))
void *alloc_percpu_of(size_t size);
void free_percpu(void *pointer);
int request_percpu_irq(unsigned int irq, irq_handler_t handler, const char *name, void *dev_id);
void free_percpu_irq(unsigned int irq, void *dev_id);
void enable_percpu_irq(unsigned int irq, unsigned int type);
void disable_percpu_irq(unsigned int irq);
int cpuhp_setup_state(int state, const char *name, cpuhp_function_t startup, cpuhp_function_t teardown);
void cpuhp_remove_state(int state);

/* Lists of functions that are told of something. */
struct notifier_block {
	int (*notifier_call)(struct notifier_block *block, unsigned long action, void *data);
	struct notifier_block *next;
};
struct blocking_notifier_head { struct notifier_block *first; };
#define BLOCKING_NOTIFIER_INIT(name) { NULL }
int blocking_notifier_chain_register(struct blocking_notifier_head *head, struct notifier_block *block);
int blocking_notifier_chain_unregister(struct blocking_notifier_head *head, struct notifier_block *block);
int blocking_notifier_call_chain(struct blocking_notifier_head *head, unsigned long action, void *data);

struct timespec64 { time64_t tv_sec; long tv_nsec; };
void ktime_get_real_ts64(struct timespec64 *time);
unsigned long msleep_interruptible(unsigned int milliseconds);

#endif

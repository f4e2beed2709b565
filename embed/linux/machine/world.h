/*
 * What user space and the scenarios see of the world: tasks, files, memory, the hardware and the log. Plain C, for both sides of
 * the shim.
 */
#ifndef WORLD_H
#define WORLD_H

/* ---- The world. */

enum { PROCESSORS = 2 };

struct application {
	const char *uuid;
	const char *file;            /* its image as hexadecimal digits */
	int flags;                   /* in the place of the image's; below 0: the image's */
};

struct world {
	const char *program;         /* of the conversation */
	unsigned long seed;          /* 0: tasks run until they wait, and nobody comes in while a call is inside */
	unsigned int threads;        /* of the core */
	unsigned int frames;
	unsigned int steps;          /* granted by each entry; with a seed, 1 to so many */
	unsigned int hidden;         /* capabilities that the firmware keeps from the driver */
	const struct application *applications; /* up to one without a UUID */
	const char *logs;            /* a path without its ending, or null */
};

/* Boots the core, and makes the calling thread the first task. */
void world_begin(const struct world *world);
/* All of RAM is compared, and the conversation ended. */
void world_end(void);
/* A number below `below`, by the seed. */
unsigned long world_random(unsigned long below);

/* ---- Tasks. */

struct task;

struct task *task_start(const char *name, void (*run)(void *argument), void *argument);
void task_join(struct task *task);
/* A signal: of the first kind it ends waits that can be interrupted, of the second also those that can be killed. */
enum { SIGNAL_INTERRUPT = 1, SIGNAL_KILL = 2 };
void task_signal(struct task *task, int signal);
/* Others run. */
void task_yield(void);
void task_sleep(unsigned int milliseconds);
/* Where the task waits, or an empty text. */
const char *task_waits_at(const struct task *task);
/* A task that will never go on is forgotten. */
void task_forget(struct task *task);
/* Lets others run until the task waits at this place; if it never does, the scenario is stopped. */
void task_until_waits(struct task *task, const char *where);
/* Nanoseconds since the world began. */
unsigned long long world_clock(void);
/* Whether time passes only while nobody can go on, with a seed too. */
void world_time_stands(int stands);
/* Who the tasks are to the kernel. */
void world_user(unsigned int user, unsigned int group);

/* ---- Files and memory of user space. A result below 0 is an error number, negative. */

int user_open(const char *device);
long user_ioctl(int file, unsigned int command, void *argument);
int user_close(int file);
void *user_map(int file, unsigned long size);
/* Anonymous memory, whose pages lie apart. */
void *user_allocate(unsigned long size);
/* Memory of a device, which isn't to be shared. */
void *user_device_memory(unsigned long size);
void user_unmap(void *at, unsigned long size);
/* How many files are open. */
unsigned int user_files(void);

/* ---- Modules and hardware. */

/* Modules are loaded, and the device is probed: the probe's result. */
int load_tee(void);
/* 601 is 6.1, 612 is 6.12. */
unsigned int kernel_version(void);
int load_optee(void);
int unload_optee(void);
void unload_tee(void);
/* The device is taken from the driver, as by `unbind`, and given back: the result of the removal or of the probe. */
int unbind_optee(void);
int bind_optee(void);
void shut_optee_down(void);
/* The property `method` of the device, or null; the number of its interrupt, or a negative error. */
void device_method(const char *method);
void device_interrupt(int number);
/* The hardware signals a value to the core, and the core raises the interrupt. */
void hardware_signal(unsigned int value);
/* What a file of sysfs shows of a device. */
const char *device_shows(const char *device, const char *attribute);
/* Whether a device of this name is registered. */
int device_is_there(const char *device);

/* ---- What the shim knows. */

/* How many lines of the log have this text; of errors and warnings, all of them. */
unsigned int log_lines(const char *text);
unsigned int log_errors(void);
unsigned int log_warnings(void);
/* Objects and pages that are in use, of the kernel. */
unsigned int objects_in_use(void);
unsigned int kernel_pages_in_use(void);
/* The n-th allocation from now on fails, counted from 1; 0: none. Whether it came. */
void fail_allocation(unsigned int n);
int allocation_failed(void);
/* The buffer that the call of this request of the supplicant was lent, for the supplicant beside the driver. */
unsigned char *buffer_of_request(unsigned int id);
/* How many secure monitor calls were made; of them those with this function in a0, and those that came back with this a0. */
unsigned int calls_made(void);
unsigned int calls_of(unsigned int function);
unsigned int calls_answered(unsigned int a0);
/* The pages that nobody had when the core wrote to them, since the last time that this was asked. At the end there are none. */
unsigned int stray_pages(void);
/* The most processors that were inside at once. */
unsigned int most_inside(void);
void stop(const char *format, ...) __attribute__((noreturn, format(printf, 1, 2)));

#endif

/* Threads, memory and the log, by the host's C library. */
#include "machine.h"
#include <errno.h>
#include <pthread.h>
#include <semaphore.h>
#include <stdio.h>
#include <stdlib.h>
#include <string.h>
#include <sys/mman.h>
#include <unistd.h>

struct thread {
	sem_t turn;
	void (*run)(void *argument);
	void *argument;
};

static FILE *log_file;

void machine_log_to(const char *path)
{
	log_file = fopen(path, "w");
}

void machine_log(const char *line)
{
	if (!log_file)
		return;
	fprintf(log_file, "%s\n", line);
	fflush(log_file);
}

void machine_stop(const char *message)
{
	machine_log(message);
	fprintf(stdout, "    stopped: %s\n", message);
	fflush(stdout);
	_exit(3);
}

static void failed(const char *what)
{
	char message[200];

	snprintf(message, sizeof(message), "%s: %s", what, strerror(errno));
	machine_stop(message);
}

static void await_turn(struct thread *thread)
{
	while (sem_wait(&thread->turn))
		if (errno != EINTR)
			failed("sem_wait");
}

static struct thread *new_thread(void)
{
	struct thread *thread = calloc(1, sizeof(*thread));

	if (!thread || sem_init(&thread->turn, 0, 0))
		failed("a thread");
	return thread;
}

struct thread *thread_adopt(void)
{
	return new_thread();
}

static void *begin(void *argument)
{
	struct thread *thread = argument;

	await_turn(thread);
	thread->run(thread->argument);
	machine_stop("a thread returned");
}

struct thread *thread_new(void (*run)(void *argument), void *argument)
{
	struct thread *thread = new_thread();
	pthread_attr_t attributes;
	pthread_t id;

	thread->run = run;
	thread->argument = argument;
	pthread_attr_init(&attributes);
	pthread_attr_setdetachstate(&attributes, PTHREAD_CREATE_DETACHED);
	pthread_attr_setstacksize(&attributes, 256 * 1024);
	if (pthread_create(&id, &attributes, begin, thread))
		failed("pthread_create");
	return thread;
}

void thread_switch(struct thread *from, struct thread *to)
{
	if (from == to)
		return;
	sem_post(&to->turn);
	await_turn(from);
}

void thread_end(struct thread *to)
{
	sem_post(&to->turn);
	pthread_exit(NULL);
}

/* ---- Memory */

static int ram_file = -1;

static void *map(unsigned long at, unsigned long size, int flags, int file, unsigned long offset)
{
	void *mapped = mmap((void *)at, size, PROT_READ | PROT_WRITE, flags, file, (off_t)offset);

	if (mapped != (void *)at)
		failed("mmap");
	return mapped;
}

void *memory_map(unsigned long at, unsigned long size)
{
	return map(at, size, MAP_PRIVATE | MAP_ANONYMOUS | MAP_NORESERVE | MAP_FIXED_NOREPLACE, -1, 0);
}

void *ram_map(unsigned long at, unsigned long size)
{
	ram_file = memfd_create("ram", MFD_CLOEXEC);
	if (ram_file < 0 || ftruncate(ram_file, (off_t)size))
		failed("memfd_create");
	return map(at, size, MAP_SHARED | MAP_FIXED_NOREPLACE, ram_file, 0);
}

void ram_map_again(unsigned long at, unsigned long offset, unsigned long size)
{
	map(at, size, MAP_SHARED | MAP_FIXED_NOREPLACE, ram_file, offset);
}

void ram_unmap_again(unsigned long at, unsigned long size)
{
	munmap((void *)at, size);
}

unsigned long file_text(const char *path, char *text, unsigned long room)
{
	FILE *file = fopen(path, "r");
	size_t size;

	if (!file)
		failed(path);
	size = fread(text, 1, room - 1, file);
	fclose(file);
	while (size && text[size - 1] == '\n')
		size--;
	text[size] = 0;
	return size;
}

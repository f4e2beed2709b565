/*
 * The world of a host: the core of a boot description, the driver, and a supplicant that keeps files in a folder. The host itself is
 * linked as host_main.
 */
#include "description.h"
#include "../user/client.h"
#include "../user/supplicant.h"
#include <stdio.h>
#include <stdlib.h>
#include <string.h>
#include <unistd.h>

int host_main(void);
int host_thread_create(unsigned long *thread, const void *attributes, void *(*run)(void *argument), void *argument);
int host_thread_join(unsigned long thread, void **result);
int host_sleep(unsigned int microseconds);

/* ---- Threads of the host */

struct host_thread {
	void *(*run)(void *argument);
	void *argument, *result;
	struct task *task;
};

static void run_thread(void *of)
{
	struct host_thread *thread = of;

	thread->result = thread->run(thread->argument);
}

int host_thread_create(unsigned long *thread, const void *attributes, void *(*run)(void *argument), void *argument)
{
	struct host_thread *begun = calloc(1, sizeof(*begun));

	(void)attributes;
	if (!begun)
		return -1;
	begun->run = run;
	begun->argument = argument;
	begun->task = task_start("thread of the host", run_thread, begun);
	*thread = (unsigned long)begun;
	return 0;
}

int host_thread_join(unsigned long thread, void **result)
{
	struct host_thread *joined = (struct host_thread *)thread;

	task_join(joined->task);
	if (result)
		*result = joined->result;
	free(joined);
	return 0;
}

int host_sleep(unsigned int microseconds)
{
	task_sleep(microseconds / 1000);
	return 0;
}

/* ---- The world */

static const char usage[] = "usage: HOST LIVE DESCRIPTION FOLDER [SEED]\n";
static struct description description;
static struct application applications[MOST_APPLICATIONS + 1];
static char paths[MOST_APPLICATIONS][400];

/* The world reads images from files. */
static void write_images(const char *folder)
{
	for (size_t i = 0; i < description.application_count; i++) {
		FILE *file;

		snprintf(paths[i], sizeof(paths[i]), "%s/%zu.hex", folder, i);
		file = fopen(paths[i], "w");
		if (!file || fputs(description.applications[i].image, file) < 0 || fclose(file))
			stop("%s can't be written", paths[i]);
		applications[i] = (struct application){ description.applications[i].uuid, paths[i], -1 };
	}
}

static void end_driver(void)
{
	unload_optee();
	unload_tee();
	world_end();
}

int main(int count, char **words)
{
	struct supplicant supplicant;
	struct world world = { .applications = applications };
	static char files[400];
	int status;

	if (count < 4) {
		fputs(usage, stderr);
		return 2;
	}
	if (description_read(&description, words[2]) != TEEC_SUCCESS)
		return 1;
	write_images(words[3]);
	world.program = words[1];
	world.seed = count > 4 ? strtoul(words[4], NULL, 10) : 0;
	world.threads = description.threads;
	world.frames = description.frames;
	world.steps = description.steps;
	alarm(120);
	world_begin(&world);
	world_user(geteuid(), getegid());
	if (load_tee() || load_optee())
		stop("the driver doesn't find the core");
	snprintf(files, sizeof(files), "%s/files", words[3]);
	supplicant_start(&supplicant, files);
	status = host_main();
	supplicant_stop(&supplicant);
	end_driver();
	fflush(stdout);
	/* Threads of the world that wait are left. */
	_exit(status);
}

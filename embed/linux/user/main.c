/* Plays scenarios, each in a process of its own with a core of its own, and prints a line for each. */
#include "scenario.h"
#include <stdio.h>
#include <stdlib.h>
#include <sys/stat.h>
#include <sys/wait.h>
#include <unistd.h>

static const char usage[] = "usage: scenarios LIVE APPLICATIONS OWN LOGS SEED [NAME..]\n";

static const struct scenario *const all[] = { probe_scenarios, session_scenarios, memory_scenarios, waiting_scenarios,
					      storage_scenarios, notification_scenarios, removal_scenarios,
					      mixed_scenarios };

static const char *live, *shipped, *own, *logs;
static unsigned long seed;
static char folder[400];

unsigned long scenario_seed(void)
{
	return seed;
}

const char *folder_of(const char *name)
{
	snprintf(folder, sizeof(folder), "%s/%s.%lu.files", logs, name, seed);
	return folder;
}

/* ---- What scenarios use */

void expect_same(const char *file, int line, const char *what, unsigned long value, unsigned long wanted)
{
	if (value != wanted)
		stop("%s:%d: %s is %lx (hexadecimal), and not %lx", file, line, what, value, wanted);
}

void load_all(void)
{
	expect_is(load_tee(), 0);
	expect_is(load_optee(), 0);
}

static void unload_both(void)
{
	expect_is(user_files(), 0);
	expect_is(unload_optee(), 0);
	unload_tee();
	expect_is(objects_in_use(), 0);
	expect_is(kernel_pages_in_use(), 0);
}

void unload_all(unsigned int errors)
{
	unload_both();
	expect_is(log_errors(), errors);
}

void unload_all_with(const char *error)
{
	unload_both();
	expect_is(log_errors(), log_lines(error));
}

int open_client(void)
{
	int file = user_open("tee0");

	expect(file >= 0);
	return file;
}

struct outcome open_of(int file, const char *uuid)
{
	struct request request = { .uuid = uuid };

	return client_open(file, &request);
}

uint32_t open_session(int file, const char *uuid)
{
	struct outcome outcome = open_of(file, uuid);

	expect_is(outcome.error, 0);
	expect_is(outcome.result, SUCCESS);
	return outcome.session;
}

struct outcome invoke_of(int file, uint32_t session, uint32_t function)
{
	struct request request = { .session = session, .function = function };

	return client_invoke(file, &request);
}

struct outcome invoke_value_out(int file, uint32_t session, uint32_t function, uint32_t cancel_id)
{
	struct request request = { .session = session, .function = function, .cancel_id = cancel_id, .count = 1 };

	request.parameters[0] = value_out();
	return client_invoke(file, &request);
}

struct outcome invoke_sum(int file, uint32_t session, uint64_t a, uint64_t b)
{
	struct request request = { .session = session, .count = 1 };

	request.parameters[0] = value_inout(a, b);
	return client_invoke(file, &request);
}

void expect_result(struct outcome outcome, uint32_t result, uint32_t origin)
{
	expect_is(outcome.error, 0);
	expect_is(outcome.result, result);
	expect_is(outcome.origin, origin);
}

void expect_waits_for_threads(void)
{
	if (kernel_version() < 612)
		expect(calls_answered(ETHREAD_LIMIT) > 0);
	else
		expect_is(calls_answered(ETHREAD_LIMIT), 0);
}

static void run_caller(void *argument)
{
	struct caller *caller = argument;

	caller->outcome = client_invoke(caller->file, &caller->request);
}

void caller_start(struct caller *caller, const char *name, int file, uint32_t session, uint32_t function)
{
	caller->file = file;
	caller->request.session = session;
	caller->request.function = function;
	caller->task = task_start(name, run_caller, caller);
}

struct outcome caller_end(struct caller *caller)
{
	task_join(caller->task);
	return caller->outcome;
}

/* ---- Playing */

static const struct { const char *uuid, *file; int flags; } known[] = {
	{ ADD, "add", -1 }, { WAIT, "wait", -1 }, { WAIT_UNMASKED, "wait_unmasked", -1 }, { PANIC, "panic", -1 },
	{ MARK, "mark", -1 }, { SIZE, "size", -1 }, { STORE, "store", -1 }, { CLOCK, "clock", -1 },
	{ COUNTER, "counter", -1 }, { COPY, "copy", -1 }, { ROUNDS, "rounds", -1 }, { LOGIN, "login", -1 },
	{ SHARED_WAIT, "wait", 0x0c }, { SHARED_PANIC, "panic", 0x0c }, { LONE_MARK, "mark", 0x14 },
	{ DEVICES, "devices", -1 },
};
enum { KNOWN = sizeof(known) / sizeof(*known) };

/* The pseudo application of devices is there only in the scenarios that are about it. */
static void list_applications(struct application *list, int with_devices)
{
	static char paths[KNOWN][400];

	for (int i = 0; i < KNOWN - !with_devices; i++) {
		int of_own = !strcmp(known[i].file, "login") || !strcmp(known[i].file, "devices");

		snprintf(paths[i], sizeof(paths[i]), "%s/%s.hex", of_own ? own : shipped, known[i].file);
		*list++ = (struct application){ known[i].uuid, paths[i], known[i].flags };
	}
	*list = (struct application){ 0 };
}

static void play(const struct scenario *scenario)
{
	static struct application applications[KNOWN + 1];
	static char path[400];
	struct world world = {
		.program = live,
		.seed = seed,
		.threads = scenario->threads ? scenario->threads : 4,
		.frames = scenario->frames ? scenario->frames : 16,
		.steps = scenario->steps ? scenario->steps : seed ? 40 : 1000000,
		.hidden = scenario->hidden,
		.applications = applications,
		.logs = path,
	};

	list_applications(applications, strstr(scenario->name, "devices") != NULL);
	snprintf(path, sizeof(path), "%s/%s.%lu", logs, scenario->name, seed);
	alarm(300);
	world_begin(&world);
	scenario->run();
	world_end();
	printf("ok %s: %s (%u calls, %u at once)\n", scenario->name, scenario->shows, calls_made(), most_inside());
	fflush(stdout);
	_exit(0);
}

static int passes(const struct scenario *scenario)
{
	int status = -1;
	pid_t child;

	fflush(stdout);
	child = fork();
	if (child == 0)
		play(scenario);
	if (child < 0 || waitpid(child, &status, 0) < 0)
		return 0;
	if (WIFSIGNALED(status))
		printf("    ended by signal %d\n", WTERMSIG(status));
	return WIFEXITED(status) && WEXITSTATUS(status) == 0;
}

static int is_asked_for(const struct scenario *scenario, char **names)
{
	if (!*names)
		return !(scenario->takes_long && seed > 1);
	for (; *names; names++)
		if (!strcmp(scenario->name, *names))
			return 1;
	return 0;
}

int main(int count, char **words)
{
	unsigned int passed = 0, failed = 0;

	if (count < 6) {
		fputs(usage, stderr);
		return 2;
	}
	live = words[1];
	shipped = words[2];
	own = words[3];
	logs = words[4];
	seed = strtoul(words[5], NULL, 10);
	for (unsigned int i = 0; i < sizeof(all) / sizeof(*all); i++) {
		for (const struct scenario *scenario = all[i]; scenario->name; scenario++) {
			int ok;

			if (!is_asked_for(scenario, words + 6))
				continue;
			ok = passes(scenario);
			passed += ok;
			failed += !ok;
			if (!ok)
				printf("FAILED %s: %s\n", scenario->name, scenario->shows);
		}
	}
	printf("%u passed, %u failed\n", passed, failed);
	return failed ? 1 : 0;
}

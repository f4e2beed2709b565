/* The driver goes while clients are there. */
#include "scenario.h"

static void module_in_use(void)
{
	int file;

	load_all();
	file = open_client();
	expect_is(unload_optee(), -11);
	open_session(file, ADD);
	expect_is(unload_optee(), -11);
	user_close(file);
	unload_all(0);
}

static void unbind(void *argument)
{
	*(int *)argument = unbind_optee();
}

/* The device is unbound while a file is open, without sessions: the removal waits for its close. */
static void unbound_with_an_open_file(void)
{
	struct task *task;
	int file, rc = 1;

	load_all();
	file = open_client();
	task = task_start("unbinds", unbind, &rc);
	task_until_waits(task, "completion");
	expect_is(user_open("tee0"), -2);
	expect_is(rc, 1);
	user_close(file);
	task_join(task);
	expect_is(rc, 0);
	unload_all(0);
}

/* Memory of the client is there still: it goes with the file, and the removal waits for both. */
static void unbound_with_shared_memory(void)
{
	struct memory memory;
	struct task *task;
	int file, rc = 1;

	load_all();
	file = open_client();
	memory = memory_allocate(file, 4096);
	expect(memory.file >= 0);
	task = task_start("unbinds", unbind, &rc);
	task_until_waits(task, "completion");
	user_close(file);
	expect_is(rc, 1);
	memory_release(&memory);
	task_join(task);
	expect_is(rc, 0);
	unload_all(0);
}

/*
 * A session is there still. Its close needs an argument, for which the driver has freed its pages by then: it has one registered
 * anew, and nobody frees that. So the removal waits for ever. That is the driver's own: no answer of the core is in it.
 */
static void unbound_with_a_session(void)
{
	struct task *task;
	int file, rc = 1;

	load_all();
	file = open_client();
	open_session(file, ADD);
	task = task_start("unbinds", unbind, &rc);
	task_until_waits(task, "completion");
	user_close(file);
	for (int i = 0; i < 1000; i++)
		task_yield();
	expect(!strcmp(task_waits_at(task), "completion"));
	expect_is(log_errors(), 2);
	expect_is(log_lines(AFTER_THE_CACHE), 2);
	expect_is(kernel_pages_in_use(), 1);
	task_forget(task);
}

static void shut_down(void)
{
	int file;

	load_all();
	file = open_client();
	open_session(file, ADD);
	shut_optee_down();
	user_close(file);
	unload_all(0);
}

/* Without the capability the cache is what goes at a shutdown. */
static void shut_down_without_rpc_argument(void)
{
	unsigned int before;

	load_all();
	before = calls_of(DISABLE_SHM_CACHE);
	shut_optee_down();
	expect_is(calls_of(DISABLE_SHM_CACHE) - before, 1);
	unload_all(0);
}

const struct scenario removal_scenarios[] = {
	{ "module_in_use", "the module can't be unloaded while a client has its file", module_in_use },
	{ "unbound_with_an_open_file", "the device's removal waits for the file, and no new one opens", unbound_with_an_open_file },
	{ "unbound_with_shared_memory", "it waits for the client's memory too", unbound_with_shared_memory },
	{ "unbound_with_a_session", "the close of its session takes a page that the driver never gives back, and the removal doesn't end",
	  unbound_with_a_session },
	{ "shut_down", "at a shutdown nothing is asked of the core", shut_down },
	{ "shut_down_without_rpc_argument", "but to give back what it has cached", shut_down_without_rpc_argument,
	  .hidden = CAPABILITY_RPC_ARGUMENT },
	{ 0 }
};

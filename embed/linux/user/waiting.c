/* Calls that wait: for the time, for an instance, for a thread; and cancelling. */
#include "scenario.h"

static void wait_and_resume(void)
{
	unsigned long long before;
	uint32_t session;
	int file;

	load_all();
	file = open_client();
	session = open_session(file, WAIT);
	before = world_clock();
	expect_result(invoke_of(file, session, 250), SUCCESS, ORIGIN_APPLICATION);
	expect(world_clock() - before >= 250000000ull);
	expect(calls_answered(RPC_CMD) > 0);
	user_close(file);
	unload_all(0);
}

/* The application tells the time, waits, and tells it again: it is the driver's. */
static void time_of_the_driver(void)
{
	struct request request = { .function = 1500, .count = 2 };
	struct outcome told;
	uint64_t first, second;
	int file;

	load_all();
	file = open_client();
	request.session = open_session(file, CLOCK);
	request.parameters[0] = value_out();
	request.parameters[1] = value_out();
	told = client_invoke(file, &request);
	expect_result(told, SUCCESS, ORIGIN_APPLICATION);
	first = told.parameters[0].a * 1000 + told.parameters[0].b;
	second = told.parameters[1].a * 1000 + told.parameters[1].b;
	expect(told.parameters[0].a >= 1767225600 && told.parameters[0].a <= 1767225601);
	expect(second - first >= 1500 && second - first <= 1510);
	user_close(file);
	unload_all(0);
}

/* ---- Cancelling */

static void cancel_while_it_waits(void)
{
	struct caller caller = { .request = { .cancel_id = 7, .count = 1 } };
	struct outcome outcome;
	uint32_t session;
	int file;

	world_time_stands(1);
	load_all();
	file = open_client();
	session = open_session(file, ROUNDS);
	caller.request.parameters[0] = value_out();
	caller_start(&caller, "rounds", file, session, 5);
	task_until_waits(caller.task, "sleep");
	task_sleep(250);
	expect_is(client_cancel(file, session, 7), 0);
	outcome = caller_end(&caller);
	expect_result(outcome, CANCEL, ORIGIN_APPLICATION);
	expect(outcome.parameters[0].a >= 1 && outcome.parameters[0].a <= 2);
	user_close(file);
	unload_all(0);
}

static void cancel_with_another_id(void)
{
	struct caller caller = { .request = { .cancel_id = 7, .count = 1 } };
	struct outcome outcome;
	uint32_t session;
	int file;

	world_time_stands(1);
	load_all();
	file = open_client();
	session = open_session(file, ROUNDS);
	caller.request.parameters[0] = value_out();
	caller_start(&caller, "rounds", file, session, 3);
	task_until_waits(caller.task, "sleep");
	expect_is(client_cancel(file, session, 8), 0);
	outcome = caller_end(&caller);
	expect_result(outcome, SUCCESS, ORIGIN_APPLICATION);
	expect_is(outcome.parameters[0].a, 3);
	user_close(file);
	unload_all(0);
}

/* The application has masked cancelling, and the driver sleeps for as long as it was asked to. */
static void cancel_that_is_masked(void)
{
	struct caller caller = { .request = { .cancel_id = 7 } };
	unsigned long long before;
	uint32_t session;
	int file;

	world_time_stands(1);
	load_all();
	file = open_client();
	session = open_session(file, WAIT);
	before = world_clock();
	caller_start(&caller, "waits", file, session, 300);
	task_until_waits(caller.task, "sleep");
	expect_is(client_cancel(file, session, 7), 0);
	expect_result(caller_end(&caller), SUCCESS, ORIGIN_APPLICATION);
	expect(world_clock() - before >= 300000000ull);
	user_close(file);
	unload_all(0);
}

/* A signal of Linux ends the driver's sleep, and the call goes on in its thread. */
static void signal_while_it_waits(void)
{
	struct caller caller = { 0 };
	unsigned long long before;
	uint32_t session;
	int file;

	world_time_stands(1);
	load_all();
	file = open_client();
	session = open_session(file, WAIT);
	before = world_clock();
	caller_start(&caller, "waits", file, session, 1000000);
	task_until_waits(caller.task, "sleep");
	task_signal(caller.task, SIGNAL_INTERRUPT);
	expect_result(caller_end(&caller), SUCCESS, ORIGIN_APPLICATION);
	expect(world_clock() - before < 1000000000ull);
	user_close(file);
	unload_all(0);
}

/* ---- An instance that another call holds */

enum { CALLERS = 4 };

static void calls_on_one_instance(void)
{
	struct caller callers[CALLERS];
	uint32_t sessions[CALLERS];
	int file;

	load_all();
	memset(callers, 0, sizeof(callers));
	file = open_client();
	for (int i = 0; i < CALLERS; i++)
		sessions[i] = open_session(file, SHARED_WAIT);
	for (int i = 0; i < CALLERS; i++)
		caller_start(callers + i, "waits", file, sessions[i], 100);
	for (int i = 0; i < CALLERS; i++)
		expect_result(caller_end(callers + i), SUCCESS, ORIGIN_APPLICATION);
	/* One after the other. */
	expect(world_clock() >= CALLERS * 100000000ull);
	user_close(file);
	unload_all_with(AFTER_THE_CACHE);
}

/* The first holds the instance; the second sleeps in the driver, under the key of its thread, until the first wakes it. */
static void sleep_and_wake(void)
{
	struct caller first = { 0 }, second = { 0 };
	uint32_t sessions[2];
	int file;

	world_time_stands(1);
	load_all();
	file = open_client();
	sessions[0] = open_session(file, SHARED_WAIT);
	sessions[1] = open_session(file, SHARED_WAIT);
	caller_start(&first, "first", file, sessions[0], 400);
	task_until_waits(first.task, "sleep");
	caller_start(&second, "second", file, sessions[1], 0);
	task_until_waits(second.task, "completion");
	expect_result(caller_end(&first), SUCCESS, ORIGIN_APPLICATION);
	expect_result(caller_end(&second), SUCCESS, ORIGIN_APPLICATION);
	user_close(file);
	unload_all(0);
}

static void panic_while_another_waits(void)
{
	struct caller first = { 0 }, second = { 0 };
	uint32_t sessions[2];
	struct outcome outcomes[2];
	int file;

	load_all();
	file = open_client();
	sessions[0] = open_session(file, SHARED_PANIC);
	sessions[1] = open_session(file, SHARED_PANIC);
	caller_start(&first, "first", file, sessions[0], 9);
	caller_start(&second, "second", file, sessions[1], 9);
	outcomes[0] = caller_end(&first);
	outcomes[1] = caller_end(&second);
	expect_result(outcomes[0], TARGET_DEAD, ORIGIN_KERNEL);
	expect_result(outcomes[1], TARGET_DEAD, ORIGIN_KERNEL);
	user_close(file);
	unload_all(0);
}

/* A session is closed while one of its calls waits: by the file's other user, and the driver lets it. */
static void close_while_it_waits(void)
{
	struct caller caller = { 0 };
	uint32_t session;
	int file;

	world_time_stands(1);
	load_all();
	file = open_client();
	session = open_session(file, WAIT);
	caller_start(&caller, "waits", file, session, 300);
	task_until_waits(caller.task, "sleep");
	/* The close waits for the instance, and has it once the invoke has ended. */
	expect_is(client_close(file, session), 0);
	expect_result(caller_end(&caller), SUCCESS, ORIGIN_APPLICATION);
	user_close(file);
	unload_all(0);
}

/* ---- Threads of the core */

static void thread_limit(void)
{
	struct caller callers[6];
	int file;

	world_time_stands(1);
	load_all();
	memset(callers, 0, sizeof(callers));
	file = open_client();
	for (int i = 0; i < 6; i++) {
		uint32_t session = open_session(file, WAIT);

		caller_start(callers + i, "waits", file, session, 100);
		if (i == 0)
			task_until_waits(callers[0].task, "sleep");
	}
	for (int i = 0; i < 6; i++)
		expect_result(caller_end(callers + i), SUCCESS, ORIGIN_APPLICATION);
	expect_waits_for_threads();
	user_close(file);
	unload_all(0);
}

/* Each entry is granted two steps at most, and the driver comes back as often as it takes. */
static void interrupted_call(void)
{
	int file;
	uint32_t session;
	struct outcome outcome;

	load_all();
	file = open_client();
	session = open_session(file, ADD);
	outcome = invoke_sum(file, session, 40, 2);
	expect_result(outcome, SUCCESS, ORIGIN_APPLICATION);
	expect_is(outcome.parameters[0].a, 42);
	expect(calls_answered(RPC_INTERRUPT) >= 2);
	user_close(file);
	unload_all(0);
}

const struct scenario waiting_scenarios[] = {
	{ "wait_and_resume", "the driver sleeps for a call, and returns to it", wait_and_resume },
	{ "wait_without_rpc_argument", "the same by a buffer that the driver lends", wait_and_resume, .hidden = CAPABILITY_RPC_ARGUMENT },
	{ "time_of_the_driver", "the time before and behind a wait is the driver's", time_of_the_driver },
	{ "cancel_while_it_waits", "the call ends at its next resume", cancel_while_it_waits },
	{ "cancel_with_another_id", "the call goes on", cancel_with_another_id },
	{ "cancel_that_is_masked", "the wait is as long as it was asked to be", cancel_that_is_masked },
	{ "signal_while_it_waits", "a signal of Linux ends the driver's sleep early, and the call is resumed", signal_while_it_waits },
	{ "calls_on_one_instance", "four calls, one after the other", calls_on_one_instance },
	{ "calls_on_one_instance_without_both", "the same by a driver of before 2022", calls_on_one_instance, .hidden = ALL_CAPABILITIES_HIDDEN },
	{ "sleep_and_wake", "the second sleeps in the driver until the first wakes it", sleep_and_wake },
	{ "panic_while_another_waits", "both calls are TARGET_DEAD", panic_while_another_waits },
	{ "close_while_it_waits", "the close waits for the call", close_while_it_waits },
	{ "thread_limit", "two threads for six callers, who queue in the driver", thread_limit, .threads = 2 },
	{ "one_thread", "one thread for six callers", thread_limit, .threads = 1 },
	{ "interrupted_call", "a call with a step or two at a time", interrupted_call, .steps = 2 },
	{ 0 }
};

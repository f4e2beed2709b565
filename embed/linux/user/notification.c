/* Asynchronous notifications, and their bottom half. */
#include "scenario.h"

static void let_interrupts_run(void)
{
	for (int i = 0; i < 200; i++)
		task_yield();
}

static void notification_of_a_value(void)
{
	unsigned int asked;

	load_all();
	asked = calls_of(GET_ASYNC_NOTIF_VALUE);
	hardware_signal(20);
	let_interrupts_run();
	expect_is(calls_of(GET_ASYNC_NOTIF_VALUE) - asked, 1);
	expect_is(calls_of(CALL_WITH_RPC_ARG) + calls_of(CALL_WITH_REGD_ARG), 2);
	unload_all(0);
}

/* Three pend before the interrupt is served: the handler asks until none is left. */
static void several_values(void)
{
	unsigned int asked;

	load_all();
	asked = calls_of(GET_ASYNC_NOTIF_VALUE);
	hardware_signal(20);
	hardware_signal(21);
	hardware_signal(20);
	hardware_signal(63);
	let_interrupts_run();
	expect_is(calls_of(GET_ASYNC_NOTIF_VALUE) - asked, 3);
	unload_all(0);
}

/* Value 1 has a driver in the core: it pends as 0, and the driver of Linux has its bottom half done, by an argument. */
static void bottom_half(void)
{
	unsigned int calls;

	load_all();
	calls = calls_of(CALL_WITH_REGD_ARG);
	hardware_signal(1);
	let_interrupts_run();
	expect_is(calls_of(CALL_WITH_REGD_ARG) - calls, 1);
	hardware_signal(1);
	hardware_signal(30);
	let_interrupts_run();
	expect_is(calls_of(CALL_WITH_REGD_ARG) - calls, 2);
	unload_all(0);
}

static void bottom_half_beside_calls(void)
{
	struct caller caller = { 0 };
	unsigned int calls;
	int file;

	world_time_stands(1);
	load_all();
	file = open_client();
	caller_start(&caller, "waits", file, open_session(file, WAIT), 100);
	task_until_waits(caller.task, "sleep");
	calls = calls_of(CALL_WITH_REGD_ARG);
	hardware_signal(1);
	let_interrupts_run();
	expect_is(calls_of(CALL_WITH_REGD_ARG) - calls, 1);
	expect_result(caller_end(&caller), SUCCESS, ORIGIN_APPLICATION);
	user_close(file);
	unload_all(0);
}

/* Each thread of the core is taken: the bottom half queues in the driver. */
static void bottom_half_without_a_thread(void)
{
	struct caller caller = { 0 };
	int file;

	world_time_stands(1);
	load_all();
	file = open_client();
	caller_start(&caller, "waits", file, open_session(file, WAIT), 100);
	task_until_waits(caller.task, "sleep");
	hardware_signal(1);
	let_interrupts_run();
	expect_waits_for_threads();
	expect_result(caller_end(&caller), SUCCESS, ORIGIN_APPLICATION);
	let_interrupts_run();
	user_close(file);
	unload_all(0);
}

/*
 * A call in thread 2 sleeps under key 2, and the hardware signals value 2: the driver has one table for both, and wakes the call. It
 * finds its instance held, and sleeps again.
 */
static void value_that_is_a_key(void)
{
	struct caller callers[3];
	uint32_t sessions[3];
	unsigned int returns;
	int file;

	world_time_stands(1);
	load_all();
	memset(callers, 0, sizeof(callers));
	file = open_client();
	for (int i = 0; i < 3; i++)
		sessions[i] = open_session(file, SHARED_WAIT);
	caller_start(callers, "holds", file, sessions[0], 300);
	task_until_waits(callers[0].task, "sleep");
	for (int i = 1; i < 3; i++) {
		caller_start(callers + i, "sleeps", file, sessions[i], 0);
		task_until_waits(callers[i].task, "completion");
	}
	returns = calls_of(RETURN_FROM_RPC);
	hardware_signal(2);
	let_interrupts_run();
	task_until_waits(callers[2].task, "completion");
	expect(calls_of(RETURN_FROM_RPC) > returns);
	for (int i = 0; i < 3; i++)
		expect_result(caller_end(callers + i), SUCCESS, ORIGIN_APPLICATION);
	user_close(file);
	unload_all(0);
}

/* Once the driver has gone, signals don't count; the next driver begins with none. */
static void signals_without_a_driver(void)
{
	unsigned int asked;

	load_all();
	hardware_signal(20);
	let_interrupts_run();
	expect_is(unbind_optee(), 0);
	asked = calls_of(GET_ASYNC_NOTIF_VALUE);
	hardware_signal(21);
	hardware_signal(1);
	let_interrupts_run();
	expect_is(calls_of(GET_ASYNC_NOTIF_VALUE), asked);
	expect_is(bind_optee(), 0);
	hardware_signal(22);
	let_interrupts_run();
	expect_is(calls_of(GET_ASYNC_NOTIF_VALUE) - asked, 1);
	unload_all(0);
}

/* Signals come as they like while clients call. */
static void signals_among_calls(void)
{
	struct caller callers[3];
	int file;

	load_all();
	memset(callers, 0, sizeof(callers));
	file = open_client();
	for (int i = 0; i < 3; i++)
		caller_start(callers + i, "waits", file, open_session(file, WAIT), 20);
	for (unsigned int i = 0; i < 20; i++) {
		hardware_signal(i % 2 ? 1 : 16 + (unsigned int)world_random(48));
		task_yield();
	}
	for (int i = 0; i < 3; i++)
		expect_result(caller_end(callers + i), SUCCESS, ORIGIN_APPLICATION);
	let_interrupts_run();
	user_close(file);
	unload_all(0);
}

const struct scenario notification_scenarios[] = {
	{ "notification_of_a_value", "the interrupt's handler asks for one value", notification_of_a_value },
	{ "several_values", "it asks until none pends; a value that pends is told once", several_values },
	{ "bottom_half", "the driver has the core's bottom half done, by the interrupt's thread", bottom_half },
	{ "bottom_half_beside_calls", "also while a call waits", bottom_half_beside_calls },
	{ "bottom_half_without_a_thread", "it queues for a thread of the core", bottom_half_without_a_thread, .threads = 1 },
	{ "value_that_is_a_key", "a value wakes the call that sleeps under this key, and it sleeps again", value_that_is_a_key },
	{ "signals_without_a_driver", "they are lost, and the next driver begins anew", signals_without_a_driver },
	{ "signals_among_calls", "twenty signals while three clients call", signals_among_calls },
	{ 0 }
};

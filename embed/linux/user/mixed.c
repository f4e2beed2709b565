/* Many clients of many kinds at once, chosen by the seed. */
#include "scenario.h"

enum { CLIENTS = 6, ROUNDS_OF_A_CLIENT = 10, PAGE = 4096 };

static const char *const applications[] = { ADD, WAIT_UNMASKED, COPY, COUNTER, CLOCK, SHARED_WAIT, PANIC, DIGEST };

struct client { int number, file; struct task *task; };

static void add(struct client *client, uint32_t session)
{
	uint64_t a = world_random(1000), b = world_random(1000);
	struct outcome outcome = invoke_sum(client->file, session, a, b);

	expect_result(outcome, SUCCESS, ORIGIN_APPLICATION);
	expect_is(outcome.parameters[0].a, a + b);
}

static void copy(struct client *client, uint32_t session)
{
	struct request request = { .session = session, .count = 2 };
	unsigned char *bytes = user_allocate(3 * PAGE);
	unsigned long from = world_random(2000), to = 5000 + world_random(2000), size = 1 + world_random(3000);
	struct memory memory;

	for (int i = 0; i < 3 * PAGE; i++)
		bytes[i] = (unsigned char)(i * 31 + client->number);
	memory = memory_register(client->file, bytes + 50, 3 * PAGE - 60);
	expect(memory.file >= 0);
	request.parameters[0] = part(IN, &memory, from, size);
	request.parameters[1] = part(OUT, &memory, to, size);
	expect_result(client_invoke(client->file, &request), SUCCESS, ORIGIN_APPLICATION);
	expect(!memcmp(bytes + 50 + from, bytes + 50 + to, size));
	memory_release(&memory);
	user_unmap(bytes, 3 * PAGE);
}

/* Another count may be lost, or found while it is written. */
static void count(struct client *client, uint32_t session)
{
	struct outcome outcome = invoke_value_out(client->file, session, 0, 0);

	expect_is(outcome.error, 0);
	expect(outcome.result == SUCCESS || outcome.result == CORRUPT_OBJECT || outcome.result == ACCESS_CONFLICT);
}

static void wait(struct client *client, uint32_t session)
{
	expect_result(invoke_of(client->file, session, (uint32_t)world_random(50)), SUCCESS, ORIGIN_APPLICATION);
}

static void tell_time(struct client *client, uint32_t session)
{
	struct request request = { .session = session, .function = 3, .count = 2 };
	struct outcome outcome;

	request.parameters[0] = value_out();
	request.parameters[1] = value_out();
	outcome = client_invoke(client->file, &request);
	expect_result(outcome, SUCCESS, ORIGIN_APPLICATION);
	expect(outcome.parameters[1].a * 1000 + outcome.parameters[1].b >= outcome.parameters[0].a * 1000 + outcome.parameters[0].b + 3);
}

static void panic(struct client *client, uint32_t session)
{
	expect_result(invoke_of(client->file, session, 1), TARGET_DEAD, ORIGIN_KERNEL);
}

/* SHA-256 of no bytes. */
static void digest(struct client *client, uint32_t session)
{
	static const unsigned char of_nothing[4] = { 0xe3, 0xb0, 0xc4, 0x42 };
	struct request request = { .session = session, .count = 2 };
	struct memory memory = memory_allocate(client->file, PAGE);

	expect(memory.file >= 0);
	request.parameters[0] = null_memory(IN);
	request.parameters[1] = part(OUT, &memory, 17, 32);
	expect_result(client_invoke(client->file, &request), SUCCESS, ORIGIN_APPLICATION);
	expect(!memcmp((char *)memory.at + 17, of_nothing, 4));
	memory_release(&memory);
}

static void use(struct client *client, unsigned long which, uint32_t session)
{
	static void (*const uses[])(struct client *client, uint32_t session) = { add, wait, copy, count, tell_time, wait, panic, digest };

	uses[which](client, session);
}

static void run_client(void *argument)
{
	struct client *client = argument;

	client->file = open_client();
	for (int i = 0; i < ROUNDS_OF_A_CLIENT; i++) {
		unsigned long which = world_random(sizeof(applications) / sizeof(*applications));
		uint32_t session = open_session(client->file, applications[which]);

		use(client, which, session);
		if (world_random(4))
			expect_is(client_close(client->file, session), 0);
	}
	user_close(client->file);
}

static void run_signals(void *argument)
{
	int *ends = argument;

	while (!*ends) {
		hardware_signal(world_random(3) ? 16 + (unsigned int)world_random(48) : 1);
		task_sleep(7);
	}
}

static void everything_at_once(void)
{
	struct supplicant supplicant;
	struct client clients[CLIENTS];
	struct task *signals;
	int ends = 0;

	load_all();
	supplicant_start(&supplicant, folder_of("everything_at_once"));
	signals = task_start("signals", run_signals, &ends);
	for (int i = 0; i < CLIENTS; i++) {
		clients[i].number = i;
		clients[i].task = task_start("client", run_client, clients + i);
	}
	for (int i = 0; i < CLIENTS; i++)
		task_join(clients[i].task);
	ends = 1;
	task_join(signals);
	supplicant_stop(&supplicant);
	expect_waits_for_threads();
	unload_all_with(AFTER_THE_CACHE);
}

const struct scenario mixed_scenarios[] = {
	{ "everything_at_once", "six clients, a supplicant and the hardware's signals, on three threads of the core", everything_at_once,
	  .threads = 3, .frames = 64, .takes_long = 1 },
	{ 0 }
};

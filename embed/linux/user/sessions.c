/* Sessions: who has them, what they come to, and how many there can be. */
#include "scenario.h"

static void session(void)
{
	int file;
	uint32_t session;

	load_all();
	file = open_client();
	session = open_session(file, ADD);
	for (uint64_t i = 0; i < 5; i++) {
		struct outcome sum = invoke_sum(file, session, i, 0xfffffffe);

		expect_result(sum, SUCCESS, ORIGIN_APPLICATION);
		expect_is(sum.parameters[0].a, (uint32_t)(i + 0xfffffffe));
		expect_is(sum.parameters[0].b, 0);
	}
	expect_is(client_close(file, session), 0);
	expect_is(client_close(file, session), -22);
	expect_is(invoke_of(file, session, 0).error, -22);
	user_close(file);
	unload_all(0);
}

/* ---- Several clients */

struct adder { int file, number; uint32_t session; struct task *task; };

static void add_for_a_while(void *argument)
{
	struct adder *adder = argument;

	adder->file = open_client();
	adder->session = open_session(adder->file, ADD);
	for (uint64_t i = 0; i < 8; i++) {
		struct outcome sum = invoke_sum(adder->file, adder->session, i, 1000 * (uint64_t)adder->number);

		expect_result(sum, SUCCESS, ORIGIN_APPLICATION);
		expect_is(sum.parameters[0].a, i + 1000 * (uint64_t)adder->number);
	}
	expect_is(client_close(adder->file, adder->session), 0);
	user_close(adder->file);
}

static void clients_at_once(void)
{
	struct adder adders[5];

	load_all();
	for (int i = 0; i < 5; i++) {
		adders[i].number = i;
		adders[i].task = task_start("adder", add_for_a_while, adders + i);
	}
	for (int i = 0; i < 5; i++)
		task_join(adders[i].task);
	if (scenario_seed())
		expect_is(most_inside(), PROCESSORS);
	unload_all(0);
}

/* To the core all clients are one, of a7 0: the driver keeps them apart by their files. */
static void session_of_another_file(void)
{
	int first, second;
	uint32_t session;
	unsigned int calls;

	load_all();
	first = open_client();
	second = open_client();
	session = open_session(first, ADD);
	calls = calls_made();
	expect_is(invoke_sum(second, session, 1, 2).error, -22);
	expect_is(client_close(second, session), -22);
	expect_is(client_cancel(second, session, 0), -22);
	expect_is(calls_made(), calls);
	expect_result(invoke_sum(first, session, 1, 2), SUCCESS, ORIGIN_APPLICATION);
	user_close(second);
	user_close(first);
	unload_all(0);
}

static void unknown_application(void)
{
	int file;

	load_all();
	file = open_client();
	expect_result(open_of(file, NOBODY), ITEM_NOT_FOUND, ORIGIN_KERNEL);
	user_close(file);
	unload_all(0);
}

/* Two frames are two instances. A file that is closed closes its sessions, and the frames are free again. */
static void file_closed_with_sessions(void)
{
	int file, other;

	load_all();
	other = open_client();
	for (int i = 0; i < 5; i++) {
		file = open_client();
		open_session(file, ADD);
		open_session(file, MARK);
		expect_result(open_of(other, ADD), OUT_OF_MEMORY, ORIGIN_KERNEL);
		user_close(file);
	}
	open_session(other, ADD);
	user_close(other);
	unload_all(0);
}

static void sixty_four_sessions(void)
{
	int file;
	uint32_t first;

	load_all();
	file = open_client();
	first = open_session(file, DIGEST);
	for (int i = 1; i < 64; i++)
		open_session(file, DIGEST);
	expect_result(open_of(file, DIGEST), OUT_OF_MEMORY, ORIGIN_KERNEL);
	expect_is(client_close(file, first), 0);
	expect(open_session(file, DIGEST) == first + 64);
	user_close(file);
	unload_all(0);
}

/* The driver has room for six parameters, of which an open needs two; the core takes four. */
static void numbers_of_parameters(void)
{
	struct request request = { .uuid = COPY };
	int file;

	load_all();
	file = open_client();
	request.session = open_session(file, DIGEST);
	for (request.count = 0; request.count <= 4; request.count++)
		expect_result(client_invoke(file, &request), BAD_PARAMETERS, ORIGIN_APPLICATION);
	expect_result(client_invoke(file, &request), BAD_PARAMETERS, ORIGIN_KERNEL);
	request.count = 6;
	expect_result(client_invoke(file, &request), BAD_PARAMETERS, ORIGIN_KERNEL);
	request.count = 4;
	expect_result(client_open(file, &request), SUCCESS, ORIGIN_APPLICATION);
	request.count = 5;
	expect_is(client_open(file, &request).error, -22);
	user_close(file);
	unload_all(0);
}

static void malformed_ioctls(void)
{
	struct { struct tee_ioctl_invoke_arg head; struct tee_ioctl_param parameter; } arg = { .head.num_params = 1 };
	struct tee_ioctl_buf_data *data;
	unsigned int calls;
	int file;

	load_all();
	file = open_client();
	arg.head.session = open_session(file, ADD);
	calls = calls_made();
	expect_is(buffer_ioctl(file, TEE_IOC_INVOKE, &arg, sizeof(arg) - 1), -22);
	expect_is(buffer_ioctl(file, TEE_IOC_INVOKE, &arg, sizeof(arg.head)), -22);
	arg.parameter.attr = 0x200;
	expect_is(buffer_ioctl(file, TEE_IOC_INVOKE, &arg, sizeof(arg)), -22);
	arg.parameter.attr = 4;
	expect_is(buffer_ioctl(file, TEE_IOC_INVOKE, &arg, sizeof(arg)), -22);
	arg.parameter = (struct tee_ioctl_param){ IN, 0, 16, 99 };
	expect_is(buffer_ioctl(file, TEE_IOC_INVOKE, &arg, sizeof(arg)), -22);
	arg.head.num_params = 0x08000000;
	expect_is(buffer_ioctl(file, TEE_IOC_INVOKE, &arg, sizeof(arg.head)), -22);
	data = user_allocate(sizeof(*data));
	data->buf_ptr = 0x1000;
	data->buf_len = sizeof(arg.head);
	expect_is(user_ioctl(file, TEE_IOC_INVOKE, data), -14);
	data->buf_len = 2000;
	expect_is(user_ioctl(file, TEE_IOC_INVOKE, data), -22);
	expect_is(user_ioctl(file, TEE_IOC_SUPPL_RECV, data), -22);
	user_unmap(data, sizeof(*data));
	expect_is(calls_made(), calls);
	user_close(file);
	unload_all(0);
}

/* ---- Who a client is */

static struct outcome tell_login(int file, const struct request *open, struct memory *memory)
{
	struct outcome opened = client_open(file, open);
	struct request request = { .session = opened.session, .count = 2 };

	expect_is(opened.error, 0);
	expect_is(opened.result, SUCCESS);
	request.parameters[0] = part(OUT, memory, 0, 16);
	request.parameters[1] = value_out();
	return client_invoke(file, &request);
}

/* Name-based UUIDs (RFC 4122, version 5) of `uid=3e8` and `gid=64` in Linux's name space, as Python's uuid5 makes them. */
#define UUID_OF_USER "fc34275c-d8dd-5ba7-968b-504718363b87"
#define UUID_OF_GROUP "d32f761e-b364-519b-be12-ed54ba663b0a"

static void login_of_user_and_group(void)
{
	static const unsigned char group[16] = { 0x64 };
	struct request request = { .uuid = LOGIN, .login = TEE_IOCTL_LOGIN_USER };
	unsigned char wanted[16];
	struct outcome told;
	struct memory memory;
	int file;

	world_user(1000, 100);
	load_all();
	file = open_client();
	memory = memory_allocate(file, 4096);
	told = tell_login(file, &request, &memory);
	expect_result(told, SUCCESS, ORIGIN_APPLICATION);
	expect_is(told.parameters[1].a, TEE_IOCTL_LOGIN_USER);
	uuid_octets(UUID_OF_USER, wanted);
	expect(!memcmp(memory.at, wanted, 16));
	request.login = TEE_IOCTL_LOGIN_GROUP;
	request.login_data = group;
	told = tell_login(file, &request, &memory);
	expect_is(told.parameters[1].a, TEE_IOCTL_LOGIN_GROUP);
	uuid_octets(UUID_OF_GROUP, wanted);
	expect(!memcmp(memory.at, wanted, 16));
	request.login = TEE_IOCTL_LOGIN_PUBLIC;
	told = tell_login(file, &request, &memory);
	expect_is(told.parameters[1].a, TEE_IOCTL_LOGIN_PUBLIC);
	memset(wanted, 0, sizeof(wanted));
	expect(!memcmp(memory.at, wanted, 16));
	memory_release(&memory);
	user_close(file);
	unload_all(0);
}

static void login_that_is_refused(void)
{
	static const unsigned char group[16] = { 0x65 };
	struct request request = { .uuid = LOGIN, .login = TEE_IOCTL_LOGIN_GROUP, .login_data = group };
	unsigned int calls;
	int file;

	world_user(1000, 100);
	load_all();
	file = open_client();
	calls = calls_of(CALL_WITH_REGD_ARG);
	expect_is(client_open(file, &request).error, -1);
	request.login = TEE_IOCTL_LOGIN_REE_KERNEL;
	expect_is(client_open(file, &request).error, -1);
	request.login = TEE_IOCTL_LOGIN_APPLICATION;
	expect_is(client_open(file, &request).error, -22);
	expect_is(calls_of(CALL_WITH_REGD_ARG), calls);
	user_close(file);
	unload_all(0);
}

/* ---- Instances */

static void single_instance(void)
{
	int file;
	uint32_t session;

	load_all();
	file = open_client();
	session = open_session(file, LONE_MARK);
	expect_result(open_of(file, LONE_MARK), BUSY, ORIGIN_KERNEL);
	expect_result(invoke_of(file, session, 0), 0, ORIGIN_APPLICATION);
	expect_result(invoke_of(file, session, 0), 5, ORIGIN_APPLICATION);
	expect_is(client_close(file, session), 0);
	session = open_session(file, LONE_MARK);
	/* It is kept alive, and so is its memory. */
	expect_result(invoke_of(file, session, 0), 5, ORIGIN_APPLICATION);
	user_close(file);
	unload_all(0);
}

static void panic(void)
{
	int file;
	uint32_t dead, other;

	load_all();
	file = open_client();
	dead = open_session(file, PANIC);
	other = open_session(file, PANIC);
	expect_result(invoke_of(file, dead, 0), SUCCESS, ORIGIN_APPLICATION);
	expect_result(invoke_of(file, dead, 7), TARGET_DEAD, ORIGIN_KERNEL);
	expect_result(invoke_of(file, dead, 0), TARGET_DEAD, ORIGIN_KERNEL);
	expect_result(invoke_of(file, other, 0), SUCCESS, ORIGIN_APPLICATION);
	expect_is(client_close(file, dead), 0);
	expect_is(client_close(file, other), 0);
	user_close(file);
	unload_all(0);
}

static void panic_of_a_shared_instance(void)
{
	int file;
	uint32_t first, second;

	load_all();
	file = open_client();
	first = open_session(file, SHARED_PANIC);
	second = open_session(file, SHARED_PANIC);
	expect_result(invoke_of(file, first, 1), TARGET_DEAD, ORIGIN_KERNEL);
	expect_result(invoke_of(file, second, 0), TARGET_DEAD, ORIGIN_KERNEL);
	expect_result(open_of(file, SHARED_PANIC), TARGET_DEAD, ORIGIN_KERNEL);
	expect_is(client_close(file, first), 0);
	expect_is(client_close(file, second), 0);
	/* With its last session the dead instance has gone. */
	expect_result(invoke_of(file, open_session(file, SHARED_PANIC), 0), SUCCESS, ORIGIN_APPLICATION);
	user_close(file);
	unload_all(0);
}

/* Whichever allocation of an open and an invoke fails, the next one goes well, and no session is left. */
static void calls_without_memory(void)
{
	int file, failed;
	unsigned int n = 0;

	load_all();
	file = open_client();
	do {
		struct outcome outcome;

		fail_allocation(++n);
		outcome = open_of(file, ADD);
		failed = allocation_failed();
		fail_allocation(0);
		expect(failed ? outcome.error == -12 : outcome.error == 0);
		if (!outcome.error)
			expect_is(client_close(file, outcome.session), 0);
	} while (failed);
	open_session(file, ADD);
	user_close(file);
	unload_all(0);
}

const struct scenario session_scenarios[] = {
	{ "session", "open, invoke and close; behind the close the driver itself refuses the session", session },
	{ "clients_at_once", "five clients, each with a file and a session of its own", clients_at_once },
	{ "clients_that_are_interrupted", "the same with few steps for each entry", clients_at_once, .steps = 2 },
	{ "session_of_another_file", "a session belongs to its file, and no call of another reaches the core",
	  session_of_another_file },
	{ "unknown_application", "ITEM_NOT_FOUND, from the core", unknown_application },
	{ "file_closed_with_sessions", "a file that is closed closes its sessions, and the core has their frames again",
	  file_closed_with_sessions, .frames = 2 },
	{ "sixty_four_sessions", "one more is OUT_OF_MEMORY, until one is closed", sixty_four_sessions, .threads = 4, .takes_long = 1 },
	{ "numbers_of_parameters", "up to four; the core refuses five and six, and the driver what it has no room for",
	  numbers_of_parameters },
	{ "malformed_ioctls", "sizes, attributes and addresses that are wrong never reach the core", malformed_ioctls },
	{ "login_of_user_and_group", "the application sees the UUID that Linux makes of the user or the group",
	  login_of_user_and_group },
	{ "login_that_is_refused", "another group, the kernel's login, a kind that isn't served", login_that_is_refused },
	{ "single_instance", "one session at a time, of an instance that is kept alive", single_instance },
	{ "panic", "TARGET_DEAD, for this session alone; its close is good", panic },
	{ "panic_of_a_shared_instance", "all its sessions are dead, until the last is closed", panic_of_a_shared_instance },
	{ "calls_without_memory", "whichever allocation of an open fails, no session is left of it", calls_without_memory },
	{ 0 }
};

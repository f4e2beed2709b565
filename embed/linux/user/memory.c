/* Memory that clients share: allocated by the driver, registered by a client of user space or of the kernel. */
#include "kernel_client.h"
#include "scenario.h"

enum { PAGE = 4096 };

static void fill(unsigned char *bytes, unsigned long size, unsigned char first)
{
	for (unsigned long i = 0; i < size; i++)
		bytes[i] = (unsigned char)(first + i * 7);
}

static struct outcome copy_between(int file, uint32_t session, const struct memory *from, uint64_t from_offset,
				   const struct memory *to, uint64_t to_offset, uint64_t size)
{
	struct request request = { .session = session, .count = 2 };

	request.parameters[0] = part(IN, from, from_offset, size);
	request.parameters[1] = part(OUT, to, to_offset, size);
	return client_invoke(file, &request);
}

static void allocated_memory(void)
{
	struct memory memory;
	unsigned char *bytes;
	uint32_t session;
	int file;

	load_all();
	file = open_client();
	session = open_session(file, COPY);
	memory = memory_allocate(file, 2 * PAGE);
	bytes = memory.at;
	fill(bytes, 2 * PAGE, 3);
	/* Across the border of two pages, and at odd places. */
	expect_result(copy_between(file, session, &memory, 1, &memory, 4001, 1000), SUCCESS, ORIGIN_APPLICATION);
	expect(!memcmp(bytes + 1, bytes + 4001, 1000));
	memory_release(&memory);
	user_close(file);
	unload_all(0);
}

/* Memory of the client's own, whose pages lie apart in RAM, from the middle of a page on. */
static void registered_memory(void)
{
	unsigned char *from, *to;
	struct memory in, out;
	uint32_t session;
	int file;

	load_all();
	file = open_client();
	session = open_session(file, COPY);
	from = user_allocate(5 * PAGE);
	to = user_allocate(5 * PAGE);
	fill(from, 5 * PAGE, 9);
	in = memory_register(file, from + 100, 4 * PAGE);
	out = memory_register(file, to + 3001, 4 * PAGE);
	expect(in.file >= 0 && out.file >= 0);
	expect_result(copy_between(file, session, &in, 5, &out, 7, 3 * PAGE), SUCCESS, ORIGIN_APPLICATION);
	expect(!memcmp(from + 105, to + 3008, 3 * PAGE));
	expect_is(to[3007] + to[3008 + 3 * PAGE], 0);
	expect(user_map(in.file, 4 * PAGE) == (void *)-22);
	memory_release(&in);
	memory_release(&out);
	user_unmap(from, 5 * PAGE);
	user_unmap(to, 5 * PAGE);
	user_close(file);
	unload_all(0);
}

/* 600 pages, of which 511 stand in the first list. */
static void memory_over_two_lists(void)
{
	unsigned char *bytes;
	struct memory memory;
	uint32_t session;
	int file;

	load_all();
	file = open_client();
	session = open_session(file, COPY);
	bytes = user_allocate(600 * PAGE);
	fill(bytes + 510 * PAGE, 3 * PAGE, 1);
	memory = memory_register(file, bytes, 600 * PAGE);
	expect(memory.file >= 0);
	expect_result(copy_between(file, session, &memory, 510 * PAGE + 9, &memory, 590 * PAGE, 2 * PAGE), SUCCESS,
		      ORIGIN_APPLICATION);
	expect(!memcmp(bytes + 510 * PAGE + 9, bytes + 590 * PAGE, 2 * PAGE));
	memory_release(&memory);
	user_unmap(bytes, 600 * PAGE);
	user_close(file);
	unload_all(0);
}

static void largest_parameter(void)
{
	struct memory memory;
	uint32_t session;
	int file;

	load_all();
	file = open_client();
	session = open_session(file, COPY);
	memory = memory_allocate(file, 256 * 1024);
	fill(memory.at, 65536, 5);
	expect_result(copy_between(file, session, &memory, 0, &memory, 131072, 65536), SUCCESS, ORIGIN_APPLICATION);
	expect(!memcmp(memory.at, (char *)memory.at + 131072, 65536));
	expect_result(copy_between(file, session, &memory, 0, &memory, 131072, 65537), BAD_PARAMETERS, ORIGIN_KERNEL);
	memory_release(&memory);
	user_close(file);
	unload_all(0);
}

static void part_past_the_end(void)
{
	struct memory memory;
	uint32_t session;
	unsigned int calls;
	int file;

	load_all();
	file = open_client();
	session = open_session(file, COPY);
	memory = memory_allocate(file, PAGE);
	calls = calls_made();
	expect_is(copy_between(file, session, &memory, 1, &memory, 0, PAGE).error, -22);
	expect_is(copy_between(file, session, &memory, ~0ull, &memory, 0, 2).error, -22);
	expect_is(calls_made(), calls);
	memory_release(&memory);
	user_close(file);
	unload_all(0);
}

static void null_reference(void)
{
	struct request request = { .count = 2 };
	struct memory memory;
	struct outcome outcome;
	int file;

	load_all();
	file = open_client();
	request.session = open_session(file, COPY);
	memory = memory_allocate(file, PAGE);
	request.parameters[0] = null_memory(IN);
	request.parameters[1] = part(OUT, &memory, 0, 100);
	outcome = client_invoke(file, &request);
	expect_result(outcome, SUCCESS, ORIGIN_APPLICATION);
	expect_is(outcome.parameters[1].b, 0);
	memory_release(&memory);
	user_close(file);
	unload_all(0);
}

static void short_buffer(void)
{
	struct request request = { .count = 2 };
	struct memory memory;
	struct outcome outcome;
	unsigned char *bytes;
	int file;

	load_all();
	file = open_client();
	request.session = open_session(file, COPY);
	memory = memory_allocate(file, PAGE);
	bytes = memory.at;
	memset(bytes, 0xee, PAGE);
	request.parameters[0] = part(IN, &memory, 0, 300);
	request.parameters[1] = part(OUT, &memory, 1000, 299);
	outcome = client_invoke(file, &request);
	expect_result(outcome, SHORT_BUFFER, ORIGIN_APPLICATION);
	expect_is(outcome.parameters[1].b, 300);
	expect_is(bytes[1000], 0xee);
	memory_release(&memory);
	user_close(file);
	unload_all(0);
}

/* The application writes the first byte; the others come back as zeros, and not as the client left them. */
static void memory_out_is_cleared(void)
{
	struct request request = { .count = 1, .function = 16 };
	struct memory memory;
	unsigned char *bytes, zeros[15] = { 0 };
	int file;

	load_all();
	file = open_client();
	request.session = open_session(file, SIZE);
	memory = memory_allocate(file, PAGE);
	bytes = memory.at;
	memset(bytes, 0xee, PAGE);
	request.parameters[0] = part(OUT, &memory, 32, 16);
	expect_result(client_invoke(file, &request), SUCCESS, ORIGIN_APPLICATION);
	expect_is(bytes[32], 0x41);
	expect(!memcmp(bytes + 33, zeros, 15));
	expect_is(bytes[48], 0xee);
	memory_release(&memory);
	user_close(file);
	unload_all(0);
}

static void memory_that_cannot_be_shared(void)
{
	unsigned char *device, *gone;
	struct memory mapped, memory;
	unsigned int calls;
	int file;

	load_all();
	file = open_client();
	device = user_device_memory(PAGE);
	gone = user_allocate(PAGE);
	user_unmap(gone, PAGE);
	calls = calls_made();
	expect_is(memory_register(file, device, PAGE).file, -22);
	expect_is(memory_register(file, gone, PAGE).file, -14);
	expect_is(memory_register(file, (void *)1, PAGE).file, -14);
	expect_is(memory_register(file, device, 0).file, kernel_version() < 612 ? -22 : -12);
	expect_is(calls_made(), calls);
	/* What the driver maps has no pages that could be pinned. */
	mapped = memory_allocate(file, PAGE);
	memory = memory_register(file, mapped.at, PAGE);
	expect_is(memory.file, -14);
	memory_release(&mapped);
	user_unmap(device, PAGE);
	user_close(file);
	unload_all(0);
}

/* One cookie is that of the driver's own page of arguments. A mapping holds its memory, also once the file is closed. */
static void sixty_four_buffers(void)
{
	struct memory memory;
	void *mapped[64];
	int file, count = 0;

	load_all();
	file = open_client();
	while (count < 64 && (memory = memory_allocate(file, PAGE)).file >= 0) {
		mapped[count++] = memory.at;
		user_close(memory.file);
	}
	expect_is(count, 63);
	expect_is(memory.file, -22);
	user_unmap(mapped[0], PAGE);
	memory = memory_allocate(file, PAGE);
	expect(memory.file >= 0);
	memory_release(&memory);
	for (int i = 1; i < count; i++)
		user_unmap(mapped[i], PAGE);
	user_close(file);
	unload_all(0);
}

/* ---- Memory that goes while a call uses it */

/* The driver keeps memory of user space until the call has ended, and then has it unregistered. */
static void unregister_while_in_use(void)
{
	struct caller caller = { .request.count = 1 };
	struct memory memory;
	uint32_t session;
	int file;

	world_time_stands(1);
	load_all();
	file = open_client();
	session = open_session(file, WAIT);
	memory = memory_allocate(file, PAGE);
	caller.request.parameters[0] = part(OUT, &memory, 0, 64);
	caller_start(&caller, "waits", file, session, 500);
	task_until_waits(caller.task, "sleep");
	memory_release(&memory);
	expect(kernel_pages_in_use() > 1);
	expect_result(caller_end(&caller), SUCCESS, ORIGIN_APPLICATION);
	user_close(file);
	unload_all(0);
}

struct filler { struct kernel_client *client; struct kernel_memory *memory; unsigned int result; int error; };

static void fill_slowly(void *argument)
{
	struct filler *filler = argument;

	filler->error = kernel_client_fill(filler->client, 500, filler->memory, &filler->result);
}

/*
 * A client of the kernel frees memory while its call waits. The core answers BUSY, the driver writes a line to the log and frees
 * the memory, to which the core then writes. The core keeps the cookie for good, so that memory under the same cookie isn't taken.
 */
static void kernel_memory_freed_while_in_use(void)
{
	struct filler filler = { 0 };
	struct kernel_memory *again;
	unsigned char uuid[16];
	struct task *task;
	unsigned int result;

	world_time_stands(1);
	load_all();
	uuid_octets(WAIT, uuid);
	filler.client = kernel_client_open();
	expect_is(kernel_client_session(filler.client, uuid, &result), 0);
	expect_is(result, SUCCESS);
	filler.memory = kernel_memory_register(filler.client);
	expect(filler.memory != NULL);
	task = task_start("fills", fill_slowly, &filler);
	task_until_waits(task, "sleep");
	kernel_memory_free(filler.memory);
	expect_is(log_lines("unregister shm"), 1);
	task_join(task);
	expect_is(filler.error, 0);
	expect_is(stray_pages(), 1);
	again = kernel_memory_register(filler.client);
	expect(again == NULL);
	kernel_client_close(filler.client);
	unload_all(1);
}

static void kernel_client(void)
{
	struct kernel_client *client;
	struct kernel_memory *memories[2];
	unsigned char uuid[16];
	unsigned int result;

	load_all();
	client = kernel_client_open();
	uuid_octets(COPY, uuid);
	expect_is(kernel_client_session(client, uuid, &result), 0);
	expect_is(result, SUCCESS);
	memories[0] = kernel_memory_allocate(client);
	memories[1] = kernel_memory_register(client);
	for (int i = 0; i < 2; i++) {
		unsigned char *bytes = kernel_memory_at(memories[i]);

		fill(bytes, 2048, (unsigned char)i);
		expect_is(kernel_client_copy(client, memories[i], &result), 0);
		expect_is(result, SUCCESS);
		expect(!memcmp(bytes, bytes + 2048, 2048));
		kernel_memory_free(memories[i]);
	}
	kernel_client_close(client);
	unload_all(0);
}

/* Whichever allocation of a registration fails, no page stays pinned and no cookie registered. */
static void registration_without_memory(void)
{
	struct memory memory;
	unsigned char *bytes;
	unsigned int n = 0;
	int file, failed;

	load_all();
	file = open_client();
	bytes = user_allocate(3 * PAGE);
	do {
		fail_allocation(++n);
		memory = memory_register(file, bytes + 5, 2 * PAGE);
		failed = allocation_failed();
		fail_allocation(0);
		expect(failed ? memory.file == -12 : memory.file >= 0);
		memory_release(&memory);
	} while (failed);
	user_unmap(bytes, 3 * PAGE);
	user_close(file);
	unload_all(0);
}

/* ---- Arguments by cookie */

/*
 * A page of arguments has room for ten calls; the eleventh has a second page registered, in the name of its client's context. The
 * driver keeps that page until it goes, and with it the context: the client's file is closed, and its session stays.
 */
static void arguments_in_a_second_page(void)
{
	struct caller callers[11];
	int files[11];

	world_time_stands(1);
	load_all();
	memset(callers, 0, sizeof(callers));
	for (int i = 0; i < 11; i++) {
		files[i] = open_client();
		caller_start(callers + i, "waits", files[i], open_session(files[i], WAIT), 200);
		task_until_waits(callers[i].task, "sleep");
	}
	expect_is(calls_of(CALL_WITH_RPC_ARG), 2);
	for (int i = 0; i < 11; i++)
		expect_result(caller_end(callers + i), SUCCESS, ORIGIN_APPLICATION);
	for (int i = 0; i < 11; i++)
		user_close(files[i]);
	/* Sixteen frames, of which one is still that of a session whose file is closed. */
	files[0] = open_client();
	for (int i = 0; i < 15; i++)
		open_session(files[0], WAIT);
	expect_result(open_of(files[0], WAIT), OUT_OF_MEMORY, ORIGIN_KERNEL);
	user_close(files[0]);
	unload_all_with(AFTER_THE_CACHE);
	expect_is(log_errors(), 2);
}

const struct scenario memory_scenarios[] = {
	{ "allocated_memory", "memory that the driver allocates and the client maps, a part of it in and a part out",
	  allocated_memory },
	{ "registered_memory", "memory of the client, over pages that lie apart, from odd places", registered_memory },
	{ "memory_over_two_lists", "600 pages, for which the driver writes two lists", memory_over_two_lists, .takes_long = 1 },
	{ "largest_parameter", "65,536 bytes, and one more", largest_parameter, .takes_long = 1 },
	{ "part_past_the_end", "the driver itself refuses a part past the end", part_past_the_end },
	{ "null_reference", "no memory is memory of no bytes", null_reference },
	{ "short_buffer", "the size that is needed comes back, and no byte", short_buffer },
	{ "memory_out_is_cleared", "what the application didn't write of memory out comes back as zeros", memory_out_is_cleared },
	{ "memory_that_cannot_be_shared", "a device's, unmapped, none, and mapped frames never reach the core",
	  memory_that_cannot_be_shared },
	{ "sixty_four_buffers", "as many as the core registers, and one more", sixty_four_buffers, .takes_long = 1 },
	{ "unregister_while_in_use", "the driver keeps memory of user space until its call has ended", unregister_while_in_use },
	{ "kernel_memory_freed_while_in_use", "the core answers BUSY, and its cookie stays taken", kernel_memory_freed_while_in_use },
	{ "kernel_client", "a client of the kernel, with its login and memory of both kinds", kernel_client },
	{ "registration_without_memory", "whichever allocation fails, nothing stays registered", registration_without_memory },
	{ "arguments_in_a_second_page", "eleven calls at once; the eleventh's context stays as long as the page",
	  arguments_in_a_second_page, .threads = 16 },
	{ 0 }
};

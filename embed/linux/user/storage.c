/* Objects, whose files a supplicant beside the driver keeps in a folder. */
#include "kernel_client.h"
#include "scenario.h"

/* The file of the counter's object: its application's UUID and the id "count", in hexadecimal digits. */
#define COUNT_FILE "1f000000000040008000000000000009/636f756e74"
#define STORE_FILE "1f000000000040008000000000000007/41"

struct storage { struct supplicant supplicant; const char *folder; int file; uint32_t session; };

static void begin(struct storage *storage, const char *name)
{
	load_all();
	storage->folder = folder_of(name);
	supplicant_start(&storage->supplicant, storage->folder);
	storage->file = open_client();
	storage->session = open_session(storage->file, COUNTER);
}

static void end(struct storage *storage)
{
	user_close(storage->file);
	if (storage->supplicant.task)
		supplicant_stop(&storage->supplicant);
	unload_all_with(AFTER_THE_CACHE);
}

static void expect_count(struct storage *storage, uint64_t count)
{
	struct outcome outcome = invoke_value_out(storage->file, storage->session, 0, 0);

	expect_result(outcome, SUCCESS, ORIGIN_APPLICATION);
	expect_is(outcome.parameters[0].a, count);
}

static void expect_refusal(struct storage *storage, uint32_t result)
{
	expect_result(invoke_value_out(storage->file, storage->session, 0, 0), result, ORIGIN_APPLICATION);
}

/* OTO2, the length 4, the count, and a tag of 32 bytes. */
static void count_in_a_file(const char *name)
{
	static const unsigned char front[12] = { 'O', 'T', 'O', '2', 4, 0, 0, 0, 3, 0, 0, 0 };
	unsigned char bytes[100];
	struct storage storage;

	begin(&storage, name);
	for (uint64_t i = 1; i <= 3; i++)
		expect_count(&storage, i);
	expect_is(object_file_read(storage.folder, COUNT_FILE, bytes, sizeof(bytes)), 44);
	expect(!memcmp(bytes, front, sizeof(front)));
	/* Another session, and another instance. */
	expect_is(client_close(storage.file, storage.session), 0);
	storage.session = open_session(storage.file, COUNTER);
	expect_count(&storage, 4);
	end(&storage);
}

static void storage_through_the_supplicant(void)
{
	count_in_a_file("storage_through_the_supplicant");
	expect(calls_answered(RPC_ALLOC) > 0);
	expect_is(calls_answered(RPC_FREE), calls_answered(RPC_ALLOC));
}

static void storage_without_rpc_argument(void)
{
	count_in_a_file("storage_without_rpc_argument");
}

static void file_changed_between(void)
{
	unsigned char bytes[44];
	struct storage storage;

	begin(&storage, "file_changed_between");
	expect_count(&storage, 1);
	for (int at = 0; at < 44; at += 11) {
		expect_is(object_file_read(storage.folder, COUNT_FILE, bytes, sizeof(bytes)), 44);
		bytes[at] ^= 1;
		object_file_write(storage.folder, COUNT_FILE, bytes, 44);
		expect_refusal(&storage, CORRUPT_OBJECT);
		bytes[at] ^= 1;
		object_file_write(storage.folder, COUNT_FILE, bytes, 44);
	}
	object_file_write(storage.folder, COUNT_FILE, bytes, 43);
	expect_refusal(&storage, CORRUPT_OBJECT);
	object_file_write(storage.folder, COUNT_FILE, bytes, 7);
	expect_refusal(&storage, CORRUPT_OBJECT);
	object_file_write(storage.folder, COUNT_FILE, bytes, 44);
	expect_count(&storage, 2);
	end(&storage);
}

/* There is no guard against an older file: the count goes back. */
static void older_file_given_back(void)
{
	unsigned char bytes[44];
	struct storage storage;

	begin(&storage, "older_file_given_back");
	expect_count(&storage, 1);
	object_file_read(storage.folder, COUNT_FILE, bytes, sizeof(bytes));
	expect_count(&storage, 2);
	expect_count(&storage, 3);
	object_file_write(storage.folder, COUNT_FILE, bytes, 44);
	expect_count(&storage, 2);
	end(&storage);
}

static void file_taken_away(void)
{
	struct storage storage;

	begin(&storage, "file_taken_away");
	expect_count(&storage, 1);
	expect_count(&storage, 2);
	expect_is(object_file_remove(storage.folder, COUNT_FILE), 0);
	expect_count(&storage, 1);
	end(&storage);
}

static void object_that_is_there(void)
{
	unsigned char bytes[100];
	struct storage storage;
	uint32_t session;

	begin(&storage, "object_that_is_there");
	session = open_session(storage.file, STORE);
	expect_result(invoke_of(storage.file, session, 0), SUCCESS, ORIGIN_APPLICATION);
	expect_is(object_file_read(storage.folder, STORE_FILE, bytes, sizeof(bytes)), 40);
	expect_result(invoke_of(storage.file, session, 0), ACCESS_CONFLICT, ORIGIN_APPLICATION);
	end(&storage);
}

/* ---- Two clients at once */

static void count_for_a_while(void *argument)
{
	struct storage *storage = argument;
	int file = open_client();

	for (int i = 0; i < 3; i++) {
		uint32_t session = open_session(file, COUNTER);
		struct outcome outcome = invoke_value_out(file, session, 0, 0);

		/* Nothing keeps instances from writing one file at a time, so a count may be lost, and a file found half written. */
		expect_is(outcome.error, 0);
		expect(outcome.result == SUCCESS || outcome.result == CORRUPT_OBJECT || outcome.result == ACCESS_CONFLICT);
		expect_is(client_close(file, session), 0);
	}
	user_close(file);
	storage->file++;
}

static void several_requests_at_once(void)
{
	struct task *tasks[3];
	struct storage storage;
	int file;

	begin(&storage, "several_requests_at_once");
	file = storage.file;
	for (int i = 0; i < 3; i++)
		tasks[i] = task_start("counts", count_for_a_while, &storage);
	for (int i = 0; i < 3; i++)
		task_join(tasks[i]);
	expect_is(storage.file, file + 3);
	storage.file = file;
	end(&storage);
}

/* ---- Supplicants that come and go */

static void second_supplicant(void)
{
	struct storage storage;

	begin(&storage, "second_supplicant");
	expect_is(user_open("teepriv0"), -16);
	expect_count(&storage, 1);
	end(&storage);
}

/* A request of user space waits until there is a supplicant. */
static void supplicant_that_comes_late(void)
{
	struct caller caller = { .request.count = 1 };
	struct storage storage;
	struct outcome outcome;

	begin(&storage, "supplicant_that_comes_late");
	supplicant_stop(&storage.supplicant);
	caller.request.parameters[0] = value_out();
	caller_start(&caller, "counts", storage.file, storage.session, 0);
	task_until_waits(caller.task, "killable completion");
	supplicant_launch(&storage.supplicant);
	outcome = caller_end(&caller);
	expect_result(outcome, SUCCESS, ORIGIN_APPLICATION);
	expect_is(outcome.parameters[0].a, 1);
	end(&storage);
}

/* It has taken a request, and goes: the request ends with COMMUNICATION, of which the object's call makes its own result. */
static void supplicant_that_goes(void)
{
	struct caller caller = { .request.count = 1 };
	struct storage storage;

	begin(&storage, "supplicant_that_goes");
	expect_count(&storage, 1);
	storage.supplicant.keeps = 1;
	caller.request.parameters[0] = value_out();
	caller_start(&caller, "counts", storage.file, storage.session, 0);
	task_until_waits(caller.task, "killable completion");
	task_until_waits(storage.supplicant.task, "interruptible completion");
	supplicant_stop(&storage.supplicant);
	expect_result(caller_end(&caller), STORAGE_NOT_AVAILABLE, ORIGIN_APPLICATION);
	storage.supplicant.keeps = 0;
	supplicant_launch(&storage.supplicant);
	expect_count(&storage, 2);
	end(&storage);
}

/* It goes between two requests of a write, each of which it answers: the file is one that no read takes. */
static void supplicant_that_goes_within_a_write(void)
{
	struct caller caller = { .request.count = 1 };
	struct storage storage;

	begin(&storage, "supplicant_that_goes_within_a_write");
	expect_count(&storage, 1);
	supplicant_stop(&storage.supplicant);
	/* Open, the header, data and tag of the read, data and tag before the write; then the data are written. */
	storage.supplicant.takes = 7;
	supplicant_launch(&storage.supplicant);
	caller.request.parameters[0] = value_out();
	caller_start(&caller, "counts", storage.file, storage.session, 0);
	task_join(storage.supplicant.task);
	expect_is(storage.supplicant.answered, 7 + 8);
	storage.supplicant.takes = -1;
	task_until_waits(caller.task, "killable completion");
	/* The next supplicant takes the request of the tag, and goes without an answer. */
	storage.supplicant.keeps = 1;
	supplicant_launch(&storage.supplicant);
	task_until_waits(storage.supplicant.task, "interruptible completion");
	supplicant_stop(&storage.supplicant);
	/* The third serves the object's close. */
	storage.supplicant.keeps = 0;
	supplicant_launch(&storage.supplicant);
	expect_result(caller_end(&caller), STORAGE_NOT_AVAILABLE, ORIGIN_APPLICATION);
	expect_refusal(&storage, CORRUPT_OBJECT);
	end(&storage);
}

/* A client is killed while the supplicant has its request: the request ends, and the answer comes too late. */
static void killed_client(void)
{
	struct caller caller = { .request.count = 1 };
	struct storage storage;

	begin(&storage, "killed_client");
	supplicant_stop(&storage.supplicant);
	caller.request.parameters[0] = value_out();
	caller_start(&caller, "counts", storage.file, storage.session, 0);
	task_until_waits(caller.task, "killable completion");
	task_signal(caller.task, SIGNAL_KILL);
	/* It is killed in each of the call's waits, so that none of its requests is served. */
	expect_result(caller_end(&caller), STORAGE_NOT_AVAILABLE, ORIGIN_APPLICATION);
	supplicant_launch(&storage.supplicant);
	expect_count(&storage, 1);
	end(&storage);
}

/* A supplicant without numbers serves one request after the other. */
static void supplicant_without_numbers(void)
{
	struct storage storage;

	begin(&storage, "supplicant_without_numbers");
	supplicant_stop(&storage.supplicant);
	storage.supplicant.without_numbers = 1;
	supplicant_launch(&storage.supplicant);
	for (uint64_t i = 1; i <= 3; i++)
		expect_count(&storage, i);
	end(&storage);
}

/* A client of the kernel doesn't wait for a supplicant. */
static void kernel_client_without_a_supplicant(void)
{
	struct kernel_client *client;
	unsigned char uuid[16];
	unsigned int result, count;

	load_all();
	client = kernel_client_open();
	uuid_octets(COUNTER, uuid);
	expect_is(kernel_client_session(client, uuid, &result), 0);
	expect_is(kernel_client_invoke(client, 0, &result, &count), 0);
	expect_is(result, STORAGE_NOT_AVAILABLE);
	kernel_client_close(client);
	unload_all(0);
}

const struct scenario storage_scenarios[] = {
	{ "storage_through_the_supplicant", "a count in a file with a tag, over two sessions", storage_through_the_supplicant },
	{ "storage_without_rpc_argument", "the same by a driver that lends its buffer for the requests too",
	  storage_without_rpc_argument, .hidden = CAPABILITY_RPC_ARGUMENT },
	{ "file_changed_between", "one changed byte of magic, length, data or tag is CORRUPT_OBJECT, and so is a file cut short",
	  file_changed_between },
	{ "older_file_given_back", "an older file is taken: the count goes back", older_file_given_back },
	{ "file_taken_away", "the count begins anew", file_taken_away },
	{ "object_that_is_there", "a second create is ACCESS_CONFLICT", object_that_is_there },
	{ "several_requests_at_once", "three clients, whose requests the supplicant serves as they come", several_requests_at_once },
	{ "second_supplicant", "there is one at a time", second_supplicant },
	{ "supplicant_that_comes_late", "the request waits for it", supplicant_that_comes_late },
	{ "supplicant_that_goes", "its request fails, and the next supplicant serves the same object", supplicant_that_goes },
	{ "supplicant_that_goes_within_a_write", "the file is left half written, and no read takes it",
	  supplicant_that_goes_within_a_write },
	{ "killed_client", "its requests end, and its call is resumed to its end", killed_client },
	{ "supplicant_without_numbers", "one request after the other", supplicant_without_numbers },
	{ "kernel_client_without_a_supplicant", "its request fails at once", kernel_client_without_a_supplicant },
	{ 0 }
};

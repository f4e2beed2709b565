/*
 * What serves a context of the TEE Client API over Linux's driver: the ioctls of /dev/tee0 in the place of a conversation. The rest of
 * the library is that of ../../teec. Memory of the host isn't user space's here, so memory that was allocated by the driver stands for
 * it, as libteec does it where a driver can't register the host's.
 */
#include "../user/client.h"
#include "parts.h"
#include <errno.h>
#include <stdlib.h>
#include <string.h>

struct tee {
	int file;
};

/* The memory of one parameter that lies in no shared memory, for one call. */
struct scratch {
	struct memory memory[CALL_PARAMETERS];
};

/* As libteec tells errors of the driver; their origin is COMMS. */
static TEEC_Result result_of_error(long error)
{
	switch (error) {
	case -ENOMEM:
		return TEEC_ERROR_OUT_OF_MEMORY;
	case -EINVAL:
		return TEEC_ERROR_BAD_PARAMETERS;
	default:
		return TEEC_ERROR_GENERIC;
	}
}

/* ---- Contexts */

TEEC_Result tee_begin(struct tee **tee, const char *name, uint32_t context)
{
	struct tee *begun = calloc(1, sizeof(*begun));

	(void)name, (void)context;
	if (!begun)
		return TEEC_ERROR_OUT_OF_MEMORY;
	begun->file = user_open("tee0");
	if (begun->file < 0) {
		free(begun);
		return TEEC_ERROR_ITEM_NOT_FOUND;
	}
	*tee = begun;
	return TEEC_SUCCESS;
}

void tee_end(struct tee *tee)
{
	user_close(tee->file);
	free(tee);
}

void tee_rest(void)
{
	task_sleep(1);
}

/* No process forks in this world. */
void tee_before_fork(void)
{
}

void tee_behind_fork(bool is_child)
{
	(void)is_child;
}

/* ---- Shared memory */

TEEC_Result tee_share(struct tee *tee, struct shared *shared)
{
	struct memory *memory = malloc(sizeof(*memory));

	if (!memory)
		return TEEC_ERROR_OUT_OF_MEMORY;
	*memory = memory_allocate(tee->file, shared->size);
	if (memory->file < 0) {
		long error = memory->file;

		free(memory);
		return result_of_error(error);
	}
	shared->place = memory;
	return TEEC_SUCCESS;
}

void tee_unshare(struct tee *tee, struct shared *shared)
{
	(void)tee;
	memory_release(shared->place);
	free(shared->place);
	shared->place = NULL;
}

/* ---- Parameters */

/* The driver's memory for a parameter, and where it begins there: that of its shared memory, or one for this call. */
static struct memory *place_of(struct scratch *scratch, const struct call *call, uint32_t i, size_t *offset)
{
	const struct memref *memory = &call->memory[i];

	*offset = memory->shared ? memory->offset : 0;
	return memory->shared ? memory->shared->place : &scratch->memory[i];
}

/* The driver's type: registered or not, memory for input, output or both. */
static enum direction direction_of(uint64_t attribute)
{
	return (attribute >= ATTR_TMEM ? attribute - ATTR_TMEM : attribute - ATTR_RMEM) + IN;
}

/* Puts a parameter with memory into a call of the driver, with its bytes. An error of the driver, or 0. */
static long put_memory(struct tee *tee, struct scratch *scratch, const struct call *call, uint32_t i, struct tee_ioctl_param *to)
{
	const struct memref *memory = &call->memory[i];
	enum direction direction = direction_of(call->argument.parameters[i].attr);
	struct memory *place;
	size_t offset;

	if (!memory->host) {
		*to = null_memory(direction);
		return 0;
	}
	place = place_of(scratch, call, i, &offset);
	if (!memory->shared)
		*place = memory_allocate(tee->file, memory->size ? memory->size : 1);
	if (place->file < 0)
		return place->file;
	if (memory->is_in)
		memcpy((char *)place->at + offset, memory->host, memory->size);
	*to = part(direction, place, offset, memory->size);
	return 0;
}

static long put_parameters(struct tee *tee, struct scratch *scratch, const struct call *call, struct request *request, uint32_t first)
{
	request->count = (int)(call->argument.count - first);
	for (uint32_t i = first; i < call->argument.count; i++) {
		struct tee_ioctl_param *to = &request->parameters[i - first];
		uint64_t attribute = call->argument.parameters[i].attr;
		long error = 0;

		if (attribute >= ATTR_RMEM)
			error = put_memory(tee, scratch, call, i, to);
		else
			*to = (struct tee_ioctl_param){ attribute, call->argument.parameters[i].p, call->argument.parameters[i].q, 0 };
		if (error)
			return error;
	}
	return 0;
}

/* Takes what came back: values, sizes, and bytes within these. */
static void take_parameters(struct scratch *scratch, struct call *call, const struct outcome *outcome, uint32_t first)
{
	for (uint32_t i = first; i < call->argument.count; i++) {
		const struct tee_ioctl_param *from = &outcome->parameters[i - first];
		const struct memref *memory = &call->memory[i];
		size_t offset;

		call->argument.parameters[i].p = from->a;
		call->argument.parameters[i].q = from->b;
		if (outcome->origin != TEEC_ORIGIN_TRUSTED_APP || !memory->host || !memory->is_out || from->b > memory->size)
			continue;
		memcpy(memory->host, (char *)place_of(scratch, call, i, &offset)->at + offset, from->b);
	}
}

/* ---- Calls */

/* An open: its first two parameters are what the driver makes by itself. */
static struct outcome open_of_call(struct tee *tee, const struct call *call, struct request *request)
{
	static const char digits[] = "0123456789abcdef";
	unsigned char octets[16], group[16] = { 0 };
	char uuid[33] = { 0 };

	memcpy(octets, &call->argument.parameters[0].p, sizeof(octets));
	for (int i = 0; i < 16; i++) {
		uuid[2 * i] = digits[octets[i] >> 4];
		uuid[2 * i + 1] = digits[octets[i] & 15];
	}
	memcpy(group, &call->group, sizeof(call->group));
	request->uuid = uuid;
	request->login = (uint32_t)call->argument.parameters[1].s;
	request->login_data = group;
	return client_open(tee->file, request);
}

static struct outcome make_call(struct tee *tee, const struct call *call, struct request *request)
{
	if (call->argument.cmd == CMD_OPEN)
		return open_of_call(tee, call, request);
	if (call->argument.cmd == CMD_INVOKE)
		return client_invoke(tee->file, request);
	return (struct outcome){ .error = client_close(tee->file, call->argument.session), .origin = TEEC_ORIGIN_TEE };
}

TEEC_Result tee_call(struct tee *tee, struct call *call, uint32_t *origin)
{
	struct request request = { .session = call->argument.session, .function = call->argument.func,
				   .cancel_id = call->argument.cancel_id };
	uint32_t first = call->argument.cmd == CMD_OPEN ? 2 : 0;
	struct scratch scratch;
	struct outcome outcome = { 0 };

	*origin = TEEC_ORIGIN_API;
	if (call->is_cancelled)
		return TEEC_ERROR_CANCEL;
	for (int i = 0; i < CALL_PARAMETERS; i++)
		scratch.memory[i] = (struct memory){ .file = -1 };
	outcome.error = put_parameters(tee, &scratch, call, &request, first);
	if (!outcome.error)
		outcome = make_call(tee, call, &request);
	if (!outcome.error) {
		take_parameters(&scratch, call, &outcome, first);
		call->argument.session = outcome.session;
	}
	for (int i = 0; i < CALL_PARAMETERS; i++)
		memory_release(&scratch.memory[i]);
	*origin = outcome.error ? TEEC_ORIGIN_COMMS : outcome.origin;
	return outcome.error ? result_of_error(outcome.error) : outcome.result;
}

/* The driver hands a cancel to the core once a thread is free. A wait that it serves isn't cut. */
void tee_cancel(struct tee *tee, struct call *call)
{
	call->is_cancelled = true;
	client_cancel(tee->file, call->argument.session, call->argument.cancel_id);
}

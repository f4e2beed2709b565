#include "client.h"
#include <stddef.h>
#include <string.h>

static int digit(char c)
{
	return c <= '9' ? c - '0' : c - 'a' + 10;
}

void uuid_octets(const char *uuid, unsigned char *octets)
{
	for (int i = 0; i < 16; i++, uuid += 2) {
		uuid += *uuid == '-';
		octets[i] = (unsigned char)(digit(uuid[0]) << 4 | digit(uuid[1]));
	}
}

/* In user space stand first the descriptor of the buffer, and behind it the buffer. */
long buffer_ioctl(int file, unsigned int command, void *argument, unsigned long size)
{
	struct tee_ioctl_buf_data *data = user_allocate(4096);
	unsigned char *buffer = (unsigned char *)(data + 1);
	long rc;

	data->buf_ptr = (uintptr_t)buffer;
	data->buf_len = size;
	memcpy(buffer, argument, size);
	rc = user_ioctl(file, command, data);
	memcpy(argument, buffer, size);
	user_unmap(data, 4096);
	return rc;
}

static void keep_parameters(struct outcome *outcome, const struct tee_ioctl_param *parameters, int count)
{
	memcpy(outcome->parameters, parameters, (size_t)count * sizeof(*parameters));
}

struct outcome client_open(int file, const struct request *request)
{
	struct { struct tee_ioctl_open_session_arg head; struct tee_ioctl_param parameters[MOST_PARAMETERS]; } arg;
	unsigned long size = sizeof(arg.head) + (unsigned long)request->count * sizeof(*arg.parameters);
	struct outcome outcome = { 0 };

	memset(&arg, 0, sizeof(arg));
	uuid_octets(request->uuid, arg.head.uuid);
	if (request->login_data)
		memcpy(arg.head.clnt_uuid, request->login_data, sizeof(arg.head.clnt_uuid));
	arg.head.clnt_login = request->login;
	arg.head.cancel_id = request->cancel_id;
	arg.head.num_params = (uint32_t)request->count;
	memcpy(arg.parameters, request->parameters, sizeof(arg.parameters));
	outcome.error = buffer_ioctl(file, TEE_IOC_OPEN_SESSION, &arg, size);
	outcome.result = arg.head.ret;
	outcome.origin = arg.head.ret_origin;
	outcome.session = arg.head.session;
	keep_parameters(&outcome, arg.parameters, request->count);
	return outcome;
}

struct outcome client_invoke(int file, const struct request *request)
{
	struct { struct tee_ioctl_invoke_arg head; struct tee_ioctl_param parameters[MOST_PARAMETERS]; } arg;
	unsigned long size = sizeof(arg.head) + (unsigned long)request->count * sizeof(*arg.parameters);
	struct outcome outcome = { 0 };

	memset(&arg, 0, sizeof(arg));
	arg.head.func = request->function;
	arg.head.session = request->session;
	arg.head.cancel_id = request->cancel_id;
	arg.head.num_params = (uint32_t)request->count;
	memcpy(arg.parameters, request->parameters, sizeof(arg.parameters));
	outcome.error = buffer_ioctl(file, TEE_IOC_INVOKE, &arg, size);
	outcome.result = arg.head.ret;
	outcome.origin = arg.head.ret_origin;
	outcome.session = request->session;
	keep_parameters(&outcome, arg.parameters, request->count);
	return outcome;
}

/* An ioctl whose argument is the structure itself. */
static long plain_ioctl(int file, unsigned int command, void *argument, unsigned long size)
{
	void *at = user_allocate(size);
	long rc;

	memcpy(at, argument, size);
	rc = user_ioctl(file, command, at);
	memcpy(argument, at, size);
	user_unmap(at, size);
	return rc;
}

long client_close(int file, uint32_t session)
{
	struct tee_ioctl_close_session_arg arg = { .session = session };

	return plain_ioctl(file, TEE_IOC_CLOSE_SESSION, &arg, sizeof(arg));
}

long client_cancel(int file, uint32_t session, uint32_t cancel_id)
{
	struct tee_ioctl_cancel_arg arg = { .session = session, .cancel_id = cancel_id };

	return plain_ioctl(file, TEE_IOC_CANCEL, &arg, sizeof(arg));
}

struct memory memory_allocate(int file, unsigned long size)
{
	struct tee_ioctl_shm_alloc_data arg = { .size = size };
	struct memory memory = { 0 };

	memory.file = (int)plain_ioctl(file, TEE_IOC_SHM_ALLOC, &arg, sizeof(arg));
	if (memory.file < 0)
		return memory;
	memory.id = arg.id;
	memory.size = arg.size;
	memory.at = user_map(memory.file, memory.size);
	return memory;
}

struct memory memory_register(int file, void *at, unsigned long size)
{
	struct tee_ioctl_shm_register_data arg = { .addr = (uintptr_t)at, .length = size };
	struct memory memory = { 0 };

	memory.file = (int)plain_ioctl(file, TEE_IOC_SHM_REGISTER, &arg, sizeof(arg));
	memory.id = arg.id;
	memory.size = size;
	return memory;
}

/* Memory that was allocated is mapped, and that which was registered isn't the file's. */
void memory_release(struct memory *memory)
{
	if (memory->file < 0)
		return;
	if (memory->at)
		user_unmap(memory->at, memory->size);
	user_close(memory->file);
	memory->file = -1;
}

struct tee_ioctl_param value_in(uint64_t a, uint64_t b)
{
	return (struct tee_ioctl_param){ TEE_IOCTL_PARAM_ATTR_TYPE_VALUE_INPUT, a, b, 0 };
}

struct tee_ioctl_param value_out(void)
{
	return (struct tee_ioctl_param){ TEE_IOCTL_PARAM_ATTR_TYPE_VALUE_OUTPUT, 0, 0, 0 };
}

struct tee_ioctl_param value_inout(uint64_t a, uint64_t b)
{
	return (struct tee_ioctl_param){ TEE_IOCTL_PARAM_ATTR_TYPE_VALUE_INOUT, a, b, 0 };
}

struct tee_ioctl_param part(enum direction direction, const struct memory *memory, uint64_t offset, uint64_t size)
{
	return (struct tee_ioctl_param){ direction, offset, size, (uint64_t)memory->id };
}

struct tee_ioctl_param null_memory(enum direction direction)
{
	return (struct tee_ioctl_param){ direction, 0, 0, TEE_MEMREF_NULL };
}

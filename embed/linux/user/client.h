/* A client in user space: the ioctls of <linux/tee.h>, each from a page of its own. */
#ifndef CLIENT_H
#define CLIENT_H

#include "world.h"
#include <linux/tee.h>
#include <stdint.h>

enum { MOST_PARAMETERS = 6 };

/* What a call came to. `error` is that of the ioctl, and then the rest is nothing. */
struct outcome {
	long error;
	uint32_t result, origin, session;
	struct tee_ioctl_param parameters[MOST_PARAMETERS];
};

/* What a call brings. */
struct request {
	uint32_t session, function, cancel_id, login;
	const char *uuid;
	const unsigned char *login_data;
	int count;
	struct tee_ioctl_param parameters[MOST_PARAMETERS];
};

struct outcome client_open(int file, const struct request *request);
struct outcome client_invoke(int file, const struct request *request);
long client_close(int file, uint32_t session);
long client_cancel(int file, uint32_t session, uint32_t cancel_id);

/* Shared memory: the file that holds it, its id, and where it is mapped. A file below 0 is an error. */
struct memory { int file, id; void *at; unsigned long size; };

struct memory memory_allocate(int file, unsigned long size);
struct memory memory_register(int file, void *at, unsigned long size);
void memory_release(struct memory *memory);

struct tee_ioctl_param value_in(uint64_t a, uint64_t b);
struct tee_ioctl_param value_out(void);
struct tee_ioctl_param value_inout(uint64_t a, uint64_t b);
enum direction { IN = TEE_IOCTL_PARAM_ATTR_TYPE_MEMREF_INPUT, OUT = TEE_IOCTL_PARAM_ATTR_TYPE_MEMREF_OUTPUT,
		 INOUT = TEE_IOCTL_PARAM_ATTR_TYPE_MEMREF_INOUT };
struct tee_ioctl_param part(enum direction direction, const struct memory *memory, uint64_t offset, uint64_t size);
struct tee_ioctl_param null_memory(enum direction direction);

/* An ioctl whose argument is a buffer with so many bytes before its parameters. */
long buffer_ioctl(int file, unsigned int command, void *argument, unsigned long size);
void uuid_octets(const char *uuid, unsigned char *octets);

#endif

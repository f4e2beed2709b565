/* A client in the kernel, by the functions of <linux/tee_drv.h>. Results below 0 are error numbers. */
#ifndef KERNEL_CLIENT_H
#define KERNEL_CLIENT_H

struct kernel_client;
struct kernel_memory;

struct kernel_client *kernel_client_open(void);
void kernel_client_close(struct kernel_client *client);
/* A session, with the login that the kernel alone may have; the result of the open is put there. */
int kernel_client_session(struct kernel_client *client, const unsigned char *uuid, unsigned int *result);
/* An invoke with a value out, of which a is put there. */
int kernel_client_invoke(struct kernel_client *client, unsigned int function, unsigned int *result, unsigned int *a);
/* An invoke with memory in and memory out, which are halves of this memory. */
int kernel_client_copy(struct kernel_client *client, struct kernel_memory *memory, unsigned int *result);
/* An invoke with memory out. */
int kernel_client_fill(struct kernel_client *client, unsigned int function, struct kernel_memory *memory,
		       unsigned int *result);

/* A page that is allocated and registered, or allocated first and then registered. Null where that fails. */
struct kernel_memory *kernel_memory_allocate(struct kernel_client *client);
struct kernel_memory *kernel_memory_register(struct kernel_client *client);
void kernel_memory_free(struct kernel_memory *memory);
unsigned char *kernel_memory_at(struct kernel_memory *memory);

#endif

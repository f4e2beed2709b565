#include "shim.h"
#include <linux/tee_drv.h>
#include "kernel_client.h"

struct kernel_client { struct tee_context *context; u32 session; };
struct kernel_memory { struct tee_shm *shm; void *page; };

static int is_optee(struct tee_ioctl_version_data *version, const void *data)
{
	return version->impl_id == TEE_IMPL_ID_OPTEE;
}

struct kernel_client *kernel_client_open(void)
{
	struct kernel_client *client = kzalloc(sizeof(*client), GFP_KERNEL);

	if (!client)
		return NULL;
	client->context = tee_client_open_context(NULL, is_optee, NULL, NULL);
	if (IS_ERR(client->context)) {
		kfree(client);
		return NULL;
	}
	return client;
}

void kernel_client_close(struct kernel_client *client)
{
	tee_client_close_context(client->context);
	kfree(client);
}

int kernel_client_session(struct kernel_client *client, const unsigned char *uuid, unsigned int *result)
{
	struct tee_ioctl_open_session_arg arg = { .clnt_login = TEE_IOCTL_LOGIN_REE_KERNEL };
	int rc;

	memcpy(arg.uuid, uuid, sizeof(arg.uuid));
	rc = tee_client_open_session(client->context, &arg, NULL);
	client->session = arg.session;
	*result = arg.ret;
	return rc;
}

static int invoke(struct kernel_client *client, unsigned int function, struct tee_param *params, int count,
		  unsigned int *result)
{
	struct tee_ioctl_invoke_arg arg = { .session = client->session, .func = function, .num_params = count };
	int rc = tee_client_invoke_func(client->context, &arg, params);

	*result = arg.ret;
	return rc;
}

int kernel_client_invoke(struct kernel_client *client, unsigned int function, unsigned int *result, unsigned int *a)
{
	struct tee_param param = { .attr = TEE_IOCTL_PARAM_ATTR_TYPE_VALUE_OUTPUT };
	int rc = invoke(client, function, &param, 1, result);

	*a = param.u.value.a;
	return rc;
}

int kernel_client_copy(struct kernel_client *client, struct kernel_memory *memory, unsigned int *result)
{
	struct tee_param params[2] = { { .attr = TEE_IOCTL_PARAM_ATTR_TYPE_MEMREF_INPUT },
				       { .attr = TEE_IOCTL_PARAM_ATTR_TYPE_MEMREF_OUTPUT } };

	for (int i = 0; i < 2; i++)
		params[i].u.memref = (struct tee_param_memref){ i * PAGE_SIZE / 2, PAGE_SIZE / 2, memory->shm };
	return invoke(client, 0, params, 2, result);
}

int kernel_client_fill(struct kernel_client *client, unsigned int function, struct kernel_memory *memory,
		       unsigned int *result)
{
	struct tee_param param = { .attr = TEE_IOCTL_PARAM_ATTR_TYPE_MEMREF_OUTPUT };

	param.u.memref = (struct tee_param_memref){ 0, PAGE_SIZE, memory->shm };
	return invoke(client, function, &param, 1, result);
}

static struct kernel_memory *of_shm(struct tee_shm *shm, void *page)
{
	struct kernel_memory *memory;

	if (IS_ERR(shm)) {
		if (page)
			free_pages((unsigned long)page, 0);
		return NULL;
	}
	memory = kzalloc(sizeof(*memory), GFP_KERNEL);
	memory->shm = shm;
	memory->page = page;
	return memory;
}

struct kernel_memory *kernel_memory_allocate(struct kernel_client *client)
{
	return of_shm(tee_shm_alloc_kernel_buf(client->context, PAGE_SIZE), NULL);
}

struct kernel_memory *kernel_memory_register(struct kernel_client *client)
{
	struct page *page = alloc_pages(GFP_KERNEL | __GFP_ZERO, 0);

	if (!page)
		return NULL;
	return of_shm(tee_shm_register_kernel_buf(client->context, page_address(page), PAGE_SIZE), page_address(page));
}

void kernel_memory_free(struct kernel_memory *memory)
{
	tee_shm_free(memory->shm);
	if (memory->page)
		free_pages((unsigned long)memory->page, 0);
	kfree(memory);
}

unsigned char *kernel_memory_at(struct kernel_memory *memory)
{
	return memory->page ? memory->page : tee_shm_get_va(memory->shm, 0);
}

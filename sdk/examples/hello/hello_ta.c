/* Greets by name, and counts one up: the least that an application is. */
#include <string.h>
#include <tee_internal_api.h>

#include "hello_ta.h"

static const char hello[] = "Hello, ";

static TEE_Result greet(uint32_t types, TEE_Param params[TEE_NUM_PARAMS])
{
	const uint32_t wanted =
		TEE_PARAM_TYPES(TEE_PARAM_TYPE_MEMREF_INPUT, TEE_PARAM_TYPE_MEMREF_OUTPUT, TEE_PARAM_TYPE_NONE, TEE_PARAM_TYPE_NONE);
	const size_t length = sizeof(hello) - 1, size = length + params[0].memref.size;
	const uint32_t room = params[1].memref.size;

	if (types != wanted)
		return TEE_ERROR_BAD_PARAMETERS;
	params[1].memref.size = size;
	if (room < size)
		return TEE_ERROR_SHORT_BUFFER;
	TEE_MemMove(params[1].memref.buffer, hello, length);
	TEE_MemMove((char *)params[1].memref.buffer + length, params[0].memref.buffer, params[0].memref.size);
	return TEE_SUCCESS;
}

static TEE_Result increment(uint32_t types, TEE_Param params[TEE_NUM_PARAMS])
{
	if (TEE_PARAM_TYPE_GET(types, 0) != TEE_PARAM_TYPE_VALUE_INOUT)
		return TEE_ERROR_BAD_PARAMETERS;
	params[0].value.a++;
	return TEE_SUCCESS;
}

TEE_Result TA_CreateEntryPoint(void)
{
	return TEE_SUCCESS;
}

void TA_DestroyEntryPoint(void)
{
}

TEE_Result TA_OpenSessionEntryPoint(uint32_t types, TEE_Param params[TEE_NUM_PARAMS], void **session)
{
	(void)types;
	(void)params;
	(void)session;
	return TEE_SUCCESS;
}

void TA_CloseSessionEntryPoint(void *session)
{
	(void)session;
}

TEE_Result TA_InvokeCommandEntryPoint(void *session, uint32_t command, uint32_t types, TEE_Param params[TEE_NUM_PARAMS])
{
	(void)session;
	switch (command) {
	case CMD_GREET:
		return greet(types, params);
	case CMD_INCREMENT:
		return increment(types, params);
	default:
		return TEE_ERROR_NOT_SUPPORTED;
	}
}

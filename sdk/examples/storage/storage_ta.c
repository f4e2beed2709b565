/* Keeps bytes under names, in persistent objects. */
#include <tee_internal_api.h>

#include "storage_ta.h"

#define MEMREF_IN TEE_PARAM_TYPE_MEMREF_INPUT
#define MEMREF_OUT TEE_PARAM_TYPE_MEMREF_OUTPUT
#define VALUE_OUT TEE_PARAM_TYPE_VALUE_OUTPUT
#define NONE TEE_PARAM_TYPE_NONE

#define ALL_RIGHTS (TEE_DATA_FLAG_ACCESS_READ | TEE_DATA_FLAG_ACCESS_WRITE | TEE_DATA_FLAG_ACCESS_WRITE_META)

static TEE_Result open_named(const TEE_Param *name, uint32_t flags, TEE_ObjectHandle *object)
{
	return TEE_OpenPersistentObject(TEE_STORAGE_PRIVATE, name->memref.buffer, name->memref.size, flags, object);
}

static TEE_Result put(TEE_Param params[TEE_NUM_PARAMS])
{
	return TEE_CreatePersistentObject(TEE_STORAGE_PRIVATE, params[0].memref.buffer, params[0].memref.size,
					  ALL_RIGHTS | TEE_DATA_FLAG_OVERWRITE, TEE_HANDLE_NULL, params[1].memref.buffer,
					  params[1].memref.size, NULL);
}

/* The bytes go through a buffer of the application's own, so that the client sees none of an object that isn't whole. */
static TEE_Result read_all(TEE_ObjectHandle object, uint32_t size, TEE_Param *to)
{
	void *bytes = TEE_Malloc(size, TEE_MALLOC_FILL_ZERO);
	uint32_t count = 0;
	TEE_Result result;

	if (!bytes)
		return TEE_ERROR_OUT_OF_MEMORY;
	result = TEE_ReadObjectData(object, bytes, size, &count);
	if (result == TEE_SUCCESS)
		TEE_MemMove(to->memref.buffer, bytes, count);
	TEE_Free(bytes);
	return result;
}

static TEE_Result get(TEE_Param params[TEE_NUM_PARAMS])
{
	uint32_t room = params[1].memref.size;
	TEE_ObjectHandle object;
	TEE_ObjectInfo info;
	TEE_Result result = open_named(&params[0], TEE_DATA_FLAG_ACCESS_READ, &object);

	if (result != TEE_SUCCESS)
		return result;
	result = TEE_GetObjectInfo1(object, &info);
	if (result == TEE_SUCCESS) {
		params[1].memref.size = info.dataSize;
		result = info.dataSize <= room ? read_all(object, info.dataSize, &params[1]) : TEE_ERROR_SHORT_BUFFER;
	}
	TEE_CloseObject(object);
	return result;
}

static TEE_Result append(TEE_Param params[TEE_NUM_PARAMS])
{
	TEE_ObjectHandle object;
	TEE_ObjectInfo info;
	TEE_Result result = open_named(&params[0], TEE_DATA_FLAG_ACCESS_WRITE, &object);

	if (result != TEE_SUCCESS)
		return result;
	result = TEE_SeekObjectData(object, 0, TEE_DATA_SEEK_END);
	if (result == TEE_SUCCESS)
		result = TEE_WriteObjectData(object, params[1].memref.buffer, params[1].memref.size);
	if (result == TEE_SUCCESS)
		result = TEE_GetObjectInfo1(object, &info);
	if (result == TEE_SUCCESS)
		params[2].value.a = info.dataSize;
	TEE_CloseObject(object);
	return result;
}

static TEE_Result drop(TEE_Param params[TEE_NUM_PARAMS])
{
	TEE_ObjectHandle object;
	TEE_Result result = open_named(&params[0], TEE_DATA_FLAG_ACCESS_WRITE_META, &object);

	return result == TEE_SUCCESS ? TEE_CloseAndDeletePersistentObject1(object) : result;
}

static const struct {
	uint32_t types;
	TEE_Result (*run)(TEE_Param params[TEE_NUM_PARAMS]);
} commands[] = {
	[CMD_PUT] = { TEE_PARAM_TYPES(MEMREF_IN, MEMREF_IN, NONE, NONE), put },
	[CMD_GET] = { TEE_PARAM_TYPES(MEMREF_IN, MEMREF_OUT, NONE, NONE), get },
	[CMD_APPEND] = { TEE_PARAM_TYPES(MEMREF_IN, MEMREF_IN, VALUE_OUT, NONE), append },
	[CMD_REMOVE] = { TEE_PARAM_TYPES(MEMREF_IN, NONE, NONE, NONE), drop },
};

TEE_Result TA_CreateEntryPoint(void)
{
	return TEE_SUCCESS;
}

void TA_DestroyEntryPoint(void)
{
}

TEE_Result TA_OpenSessionEntryPoint(uint32_t types, TEE_Param params[TEE_NUM_PARAMS], void **session)
{
	(void)types;
	(void)params;
	(void)session;
	return TEE_SUCCESS;
}

void TA_CloseSessionEntryPoint(void *session)
{
	(void)session;
}

TEE_Result TA_InvokeCommandEntryPoint(void *session, uint32_t command, uint32_t types, TEE_Param params[TEE_NUM_PARAMS])
{
	(void)session;
	if (command >= sizeof(commands) / sizeof(commands[0]))
		return TEE_ERROR_NOT_SUPPORTED;
	if (types != commands[command].types)
		return TEE_ERROR_BAD_PARAMETERS;
	return commands[command].run(params);
}

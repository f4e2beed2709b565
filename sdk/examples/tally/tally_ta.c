/* One instance for all sessions, which stays: a total of all, and a count for each session in its context. */
#include <tee_internal_api.h>

#include "tally_ta.h"

struct session {
	uint32_t added;
};

static uint32_t total;

static TEE_Result add(struct session *session, TEE_Param *param)
{
	session->added += param->value.a;
	total += param->value.a;
	param->value.a = session->added;
	param->value.b = total;
	return TEE_SUCCESS;
}

static TEE_Result describe(TEE_Param *param)
{
	return TEE_GetPropertyAsString(TEE_PROPSET_CURRENT_TA, "gpd.ta.description", param->memref.buffer, &param->memref.size);
}

TEE_Result TA_CreateEntryPoint(void)
{
	return TEE_SUCCESS;
}

void TA_DestroyEntryPoint(void)
{
}

TEE_Result TA_OpenSessionEntryPoint(uint32_t types, TEE_Param params[TEE_NUM_PARAMS], void **context)
{
	(void)types;
	(void)params;
	*context = TEE_Malloc(sizeof(struct session), TEE_MALLOC_FILL_ZERO);
	return *context ? TEE_SUCCESS : TEE_ERROR_OUT_OF_MEMORY;
}

void TA_CloseSessionEntryPoint(void *context)
{
	TEE_Free(context);
}

TEE_Result TA_InvokeCommandEntryPoint(void *context, uint32_t command, uint32_t types, TEE_Param params[TEE_NUM_PARAMS])
{
	if (command == CMD_ADD && types == TEE_PARAM_TYPE_SET(TEE_PARAM_TYPE_VALUE_INOUT, 0))
		return add(context, &params[0]);
	if (command == CMD_DESCRIBE && types == TEE_PARAM_TYPE_SET(TEE_PARAM_TYPE_MEMREF_OUTPUT, 0))
		return describe(&params[0]);
	return TEE_ERROR_BAD_PARAMETERS;
}

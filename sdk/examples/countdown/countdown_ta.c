/* Waits in rounds, and ends with how many are left where it is cancelled. */
#include <tee_internal_api.h>

#include "countdown_ta.h"

static TEE_Result count_down(uint32_t *rounds, uint32_t milliseconds)
{
	TEE_Result result = TEE_SUCCESS;

	while (*rounds && result == TEE_SUCCESS) {
		result = TEE_Wait(milliseconds);
		if (result == TEE_SUCCESS)
			--*rounds;
	}
	return result;
}

static TEE_Result count_down_masked(uint32_t *rounds, uint32_t milliseconds)
{
	TEE_Result result = count_down(rounds, milliseconds);

	TEE_UnmaskCancellation();
	return result == TEE_SUCCESS && TEE_GetCancellationFlag() ? TEE_ERROR_CANCEL : result;
}

TEE_Result TA_CreateEntryPoint(void)
{
	return TEE_SUCCESS;
}

void TA_DestroyEntryPoint(void)
{
}

TEE_Result TA_OpenSessionEntryPoint(uint32_t types, TEE_Param params[TEE_NUM_PARAMS], void **session)
{
	(void)types;
	(void)params;
	(void)session;
	return TEE_SUCCESS;
}

void TA_CloseSessionEntryPoint(void *session)
{
	(void)session;
}

TEE_Result TA_InvokeCommandEntryPoint(void *session, uint32_t command, uint32_t types, TEE_Param params[TEE_NUM_PARAMS])
{
	(void)session;
	if (types != TEE_PARAM_TYPES(TEE_PARAM_TYPE_VALUE_INOUT, TEE_PARAM_TYPE_NONE, TEE_PARAM_TYPE_NONE, TEE_PARAM_TYPE_NONE))
		return TEE_ERROR_BAD_PARAMETERS;
	switch (command) {
	case CMD_COUNT_DOWN:
		TEE_UnmaskCancellation();
		return count_down(&params[0].value.a, params[0].value.b);
	case CMD_COUNT_DOWN_MASKED:
		return count_down_masked(&params[0].value.a, params[0].value.b);
	default:
		return TEE_ERROR_NOT_SUPPORTED;
	}
}

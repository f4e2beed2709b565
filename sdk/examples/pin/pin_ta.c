/*
 * A PIN with a lock-out. The count of tries is kept in an object, with a tag, and counted down before the PIN is compared: who cuts the
 * power, or doesn't answer a request, has lost a try. Who replaces the file can turn the lock-out back: sdk/README.md, "Storage".
 */
#include <string.h>
#include <tee_internal_api.h>

#include "pin_ta.h"

#define SHORTEST 4
#define LONGEST 12
#define TRIES 3

struct state {
	uint8_t tries;
	uint8_t size;
	uint8_t pin[LONGEST];
};

static const char name[] = "pin";

static bool is_pin(const TEE_Param *param)
{
	return param->memref.size >= SHORTEST && param->memref.size <= LONGEST;
}

static TEE_Result open_state(TEE_ObjectHandle *object, struct state *state)
{
	const uint32_t flags = TEE_DATA_FLAG_ACCESS_READ | TEE_DATA_FLAG_ACCESS_WRITE;
	uint32_t size = 0;
	TEE_Result result = TEE_OpenPersistentObject(TEE_STORAGE_PRIVATE, name, sizeof(name), flags, object);

	if (result != TEE_SUCCESS)
		return result;
	result = TEE_ReadObjectData(*object, state, sizeof(*state), &size);
	if (result == TEE_SUCCESS && size != sizeof(*state))
		result = TEE_ERROR_CORRUPT_OBJECT;
	if (result != TEE_SUCCESS)
		TEE_CloseObject(*object);
	return result;
}

static TEE_Result save(TEE_ObjectHandle object, const struct state *state)
{
	TEE_Result result = TEE_SeekObjectData(object, 0, TEE_DATA_SEEK_SET);

	return result == TEE_SUCCESS ? TEE_WriteObjectData(object, state, sizeof(*state)) : result;
}

static void fill_in(struct state *state, const TEE_Param *param)
{
	memset(state, 0, sizeof(*state));
	state->tries = TRIES;
	state->size = param->memref.size;
	memcpy(state->pin, param->memref.buffer, param->memref.size);
}

/* Whether a PIN is right, in the same time whatever it is. */
static bool is_right(const struct state *state, const TEE_Param *param)
{
	struct state given;
	uint32_t different;

	if (!is_pin(param))
		return false;
	fill_in(&given, param);
	different = given.size ^ state->size;
	for (int k = 0; k < LONGEST; k++)
		different |= given.pin[k] ^ state->pin[k];
	return different == 0;
}

/* Checks a PIN, and keeps what has come of it: the tries that are left, and the next PIN where it was right and one is given. */
static TEE_Result check_opened(TEE_ObjectHandle object, struct state *state, const TEE_Param *param, const TEE_Param *next)
{
	TEE_Result result;

	if (!state->tries)
		return TEE_ERROR_BUSY;
	state->tries--;
	result = save(object, state);
	if (result != TEE_SUCCESS)
		return result;
	if (!is_right(state, param))
		return TEE_ERROR_ACCESS_DENIED;
	if (next)
		fill_in(state, next);
	state->tries = TRIES;
	return save(object, state);
}

static TEE_Result check(const TEE_Param *param, const TEE_Param *next)
{
	struct state state;
	TEE_ObjectHandle object;
	TEE_Result result;

	if (next && !is_pin(next))
		return TEE_ERROR_BAD_PARAMETERS;
	result = open_state(&object, &state);
	if (result != TEE_SUCCESS)
		return result;
	result = check_opened(object, &state, param, next);
	TEE_CloseObject(object);
	return result;
}

static TEE_Result set(const TEE_Param *param)
{
	struct state state;

	if (!is_pin(param))
		return TEE_ERROR_BAD_PARAMETERS;
	fill_in(&state, param);
	return TEE_CreatePersistentObject(TEE_STORAGE_PRIVATE, name, sizeof(name), TEE_DATA_FLAG_ACCESS_WRITE, TEE_HANDLE_NULL, &state,
					  sizeof(state), NULL);
}

static TEE_Result tries_left(TEE_Param *param)
{
	struct state state;
	TEE_ObjectHandle object;
	TEE_Result result = open_state(&object, &state);

	if (result != TEE_SUCCESS)
		return result;
	param->value.a = state.tries;
	TEE_CloseObject(object);
	return TEE_SUCCESS;
}

static uint32_t types_of(uint32_t command)
{
	if (command == CMD_TRIES_LEFT)
		return TEE_PARAM_TYPE_SET(TEE_PARAM_TYPE_VALUE_OUTPUT, 0);
	if (command == CMD_CHANGE)
		return TEE_PARAM_TYPES(TEE_PARAM_TYPE_MEMREF_INPUT, TEE_PARAM_TYPE_MEMREF_INPUT, 0, 0);
	return TEE_PARAM_TYPE_SET(TEE_PARAM_TYPE_MEMREF_INPUT, 0);
}

TEE_Result TA_CreateEntryPoint(void)
{
	return TEE_SUCCESS;
}

void TA_DestroyEntryPoint(void)
{
}

TEE_Result TA_OpenSessionEntryPoint(uint32_t types, TEE_Param params[TEE_NUM_PARAMS], void **session)
{
	(void)types;
	(void)params;
	(void)session;
	return TEE_SUCCESS;
}

void TA_CloseSessionEntryPoint(void *session)
{
	(void)session;
}

TEE_Result TA_InvokeCommandEntryPoint(void *session, uint32_t command, uint32_t types, TEE_Param params[TEE_NUM_PARAMS])
{
	(void)session;
	if (types != types_of(command))
		return TEE_ERROR_BAD_PARAMETERS;
	switch (command) {
	case CMD_SET:
		return set(&params[0]);
	case CMD_CHECK:
		return check(&params[0], NULL);
	case CMD_CHANGE:
		return check(&params[0], &params[1]);
	case CMD_TRIES_LEFT:
		return tries_left(&params[0]);
	default:
		return TEE_ERROR_NOT_SUPPORTED;
	}
}

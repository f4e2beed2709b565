/* One-time passwords by a counter (RFC 4226). Key and counter are kept in an object, so that no password comes twice. */
#include <string.h>
#include <tee_internal_api.h>

#include "hotp_ta.h"
#include "sha1.h"

#define LEAST_KEY 16
#define MODULUS 1000000

struct state {
	uint32_t counter;
	uint32_t key_size;
	uint8_t key[SHA1_BLOCK];
};

static const char name[] = "hotp";

static TEE_Result save(const struct state *state)
{
	const uint32_t flags = TEE_DATA_FLAG_ACCESS_WRITE | TEE_DATA_FLAG_OVERWRITE;

	return TEE_CreatePersistentObject(TEE_STORAGE_PRIVATE, name, sizeof(name), flags, TEE_HANDLE_NULL, state, sizeof(*state), NULL);
}

static TEE_Result count_up(TEE_ObjectHandle object, struct state *state)
{
	uint32_t size = 0, next;
	TEE_Result result = TEE_ReadObjectData(object, state, sizeof(*state), &size);

	if (result != TEE_SUCCESS)
		return result;
	if (size != sizeof(*state))
		return TEE_ERROR_CORRUPT_OBJECT;
	next = state->counter + 1;
	result = TEE_SeekObjectData(object, 0, TEE_DATA_SEEK_SET);
	return result == TEE_SUCCESS ? TEE_WriteObjectData(object, &next, sizeof(next)) : result;
}

/* Loads the state, and counts up what is kept, before a password of this counter is told. */
static TEE_Result load(struct state *state)
{
	const uint32_t flags = TEE_DATA_FLAG_ACCESS_READ | TEE_DATA_FLAG_ACCESS_WRITE;
	TEE_ObjectHandle object;
	TEE_Result result = TEE_OpenPersistentObject(TEE_STORAGE_PRIVATE, name, sizeof(name), flags, &object);

	if (result != TEE_SUCCESS)
		return result;
	result = count_up(object, state);
	TEE_CloseObject(object);
	return result;
}

static uint32_t truncated(const uint8_t digest[SHA1_DIGEST])
{
	const uint8_t *at = digest + (digest[SHA1_DIGEST - 1] & 15);

	return ((uint32_t)(at[0] & 0x7F) << 24 | at[1] << 16 | at[2] << 8 | at[3]) % MODULUS;
}

static TEE_Result set_key(uint32_t types, TEE_Param params[TEE_NUM_PARAMS])
{
	struct state state = { .key_size = params[0].memref.size };

	if (TEE_PARAM_TYPE_GET(types, 0) != TEE_PARAM_TYPE_MEMREF_INPUT)
		return TEE_ERROR_BAD_PARAMETERS;
	if (state.key_size < LEAST_KEY || state.key_size > sizeof(state.key))
		return TEE_ERROR_BAD_PARAMETERS;
	memcpy(state.key, params[0].memref.buffer, state.key_size);
	return save(&state);
}

static TEE_Result next_password(uint32_t types, TEE_Param params[TEE_NUM_PARAMS])
{
	struct state state;
	uint8_t message[8] = { 0 }, digest[SHA1_DIGEST];
	TEE_Result result;

	if (TEE_PARAM_TYPE_GET(types, 0) != TEE_PARAM_TYPE_VALUE_OUTPUT)
		return TEE_ERROR_BAD_PARAMETERS;
	result = load(&state);
	if (result != TEE_SUCCESS)
		return result;
	for (int k = 0; k < 4; k++)
		message[4 + k] = state.counter >> (24 - 8 * k);
	hmac_sha1(state.key, state.key_size, message, sizeof(message), digest);
	params[0].value.a = truncated(digest);
	return TEE_SUCCESS;
}

TEE_Result TA_CreateEntryPoint(void)
{
	return TEE_SUCCESS;
}

void TA_DestroyEntryPoint(void)
{
}

TEE_Result TA_OpenSessionEntryPoint(uint32_t types, TEE_Param params[TEE_NUM_PARAMS], void **session)
{
	(void)types;
	(void)params;
	(void)session;
	return TEE_SUCCESS;
}

void TA_CloseSessionEntryPoint(void *session)
{
	(void)session;
}

TEE_Result TA_InvokeCommandEntryPoint(void *session, uint32_t command, uint32_t types, TEE_Param params[TEE_NUM_PARAMS])
{
	(void)session;
	switch (command) {
	case CMD_SET_KEY:
		return set_key(types, params);
	case CMD_NEXT_PASSWORD:
		return next_password(types, params);
	default:
		return TEE_ERROR_NOT_SUPPORTED;
	}
}

/* Properties: of the application those of its header, of the client its identity, of the TEE what holds of this one. */
#include "properties.h"

#include <stdlib.h>
#include <string.h>
#include <tee_internal_api.h>

#include "machine.h"

/* A set is one of the three of the standard; an enumerator stands for one of them and a place in it. */
struct __TEE_PropSetHandle {
	TEE_PropSetHandle set;
	uint32_t index;
};

/* The time is the normal world's, and an old object may be brought back. */
static const uint32_t by_the_normal_world = 100, not_at_all = 0;
static TEE_Identity client;

static const struct user_ta_property tee_properties[] = {
	{ "gpd.tee.apiversion", USER_TA_PROP_TYPE_STRING, "1.1" },
	{ "gpd.tee.description", USER_TA_PROP_TYPE_STRING, "Tulgexar" },
	{ "gpd.tee.systemTime.protectionLevel", USER_TA_PROP_TYPE_U32, &by_the_normal_world },
	{ "gpd.tee.trustedStorage.antiRollback.protectionLevel", USER_TA_PROP_TYPE_U32, &not_at_all },
};

static const struct user_ta_property client_properties[] = {
	{ "gpd.client.identity", USER_TA_PROP_TYPE_IDENTITY, &client },
};

static bool is_enumerator(TEE_PropSetHandle handle)
{
	return ADDRESS(handle) < ADDRESS(TEE_PROPSET_TEE_IMPLEMENTATION);
}

static const struct user_ta_property *properties_of(TEE_PropSetHandle set, uint32_t *count)
{
	if (set == TEE_PROPSET_CURRENT_TA) {
		*count = ta_property_count;
		return ta_properties;
	}
	if (set == TEE_PROPSET_CURRENT_CLIENT) {
		*count = 1;
		return client_properties;
	}
	*count = sizeof(tee_properties) / sizeof(tee_properties[0]);
	return set == TEE_PROPSET_TEE_IMPLEMENTATION ? tee_properties : NULL;
}

static uint32_t number_at(const uint8_t *octets, uint32_t count)
{
	uint32_t number = 0;

	while (count--)
		number = number << 8 | *octets++;
	return number;
}

/* Who the client of this call is. */
static void ask_client(void)
{
	uint8_t octets[16];

	client.login = sys_login(ADDRESS(octets));
	client.uuid.timeLow = number_at(octets, 4);
	client.uuid.timeMid = number_at(octets + 4, 2);
	client.uuid.timeHiAndVersion = number_at(octets + 6, 2);
	memcpy(client.uuid.clockSeqAndNode, octets + 8, sizeof(client.uuid.clockSeqAndNode));
}

/* The property at which an enumerator stands, or NULL behind the last one. */
static const struct user_ta_property *current(TEE_PropSetHandle enumerator)
{
	uint32_t count;
	const struct user_ta_property *properties;

	if (!enumerator || !enumerator->set)
		TEE_Panic(TEE_ERROR_BAD_PARAMETERS);
	properties = properties_of(enumerator->set, &count);
	return properties && enumerator->index < count ? properties + enumerator->index : NULL;
}

/* The property of this name, or that of an enumerator, or NULL. */
static const struct user_ta_property *found(TEE_PropSetHandle handle, const char *name)
{
	uint32_t count;
	const struct user_ta_property *properties;

	ask_client();
	if (is_enumerator(handle))
		return current(handle);
	properties = properties_of(handle, &count);
	for (uint32_t k = 0; k < count; k++)
		if (!strcmp(properties[k].name, name))
			return properties + k;
	return NULL;
}

/* Copies the value of a property of this type. */
static TEE_Result get(TEE_PropSetHandle handle, const char *name, enum user_ta_prop_type type, void *value, uint32_t size)
{
	const struct user_ta_property *property = found(handle, name);

	if (!property)
		return TEE_ERROR_ITEM_NOT_FOUND;
	if (property->type != type)
		return TEE_ERROR_BAD_FORMAT;
	memcpy(value, property->value, size);
	return TEE_SUCCESS;
}

TEE_Result TEE_GetPropertyAsBool(TEE_PropSetHandle handle, const char *name, bool *value)
{
	return get(handle, name, USER_TA_PROP_TYPE_BOOL, value, sizeof(*value));
}

TEE_Result TEE_GetPropertyAsU32(TEE_PropSetHandle handle, const char *name, uint32_t *value)
{
	return get(handle, name, USER_TA_PROP_TYPE_U32, value, sizeof(*value));
}

TEE_Result TEE_GetPropertyAsUUID(TEE_PropSetHandle handle, const char *name, TEE_UUID *value)
{
	return get(handle, name, USER_TA_PROP_TYPE_UUID, value, sizeof(*value));
}

TEE_Result TEE_GetPropertyAsIdentity(TEE_PropSetHandle handle, const char *name, TEE_Identity *value)
{
	return get(handle, name, USER_TA_PROP_TYPE_IDENTITY, value, sizeof(*value));
}

/* Texts of properties, which go into room for the longest. */

#define LONGEST 48

static char *put_hex(char *to, uint32_t number, uint32_t digits)
{
	while (digits--)
		*to++ = "0123456789abcdef"[number >> 4 * digits & 15];
	return to;
}

static char *put_decimal(char *to, uint32_t number)
{
	uint32_t unit = 1;

	while (number / unit >= 10)
		unit *= 10;
	for (; unit; unit /= 10)
		*to++ = '0' + number / unit % 10;
	return to;
}

static char *put_uuid(char *to, const TEE_UUID *uuid)
{
	to = put_hex(to, uuid->timeLow, 8);
	*to++ = '-';
	to = put_hex(to, uuid->timeMid, 4);
	*to++ = '-';
	to = put_hex(to, uuid->timeHiAndVersion, 4);
	for (uint32_t k = 0; k < sizeof(uuid->clockSeqAndNode); k++) {
		if (k == 0 || k == 2)
			*to++ = '-';
		to = put_hex(to, uuid->clockSeqAndNode[k], 2);
	}
	return to;
}

/* The text of a property, zero at its end; one that isn't a string is written into the room. */
static const char *text_of(const struct user_ta_property *property, char room[LONGEST])
{
	const TEE_Identity *identity = property->value;
	char *end;

	switch (property->type) {
	case USER_TA_PROP_TYPE_BOOL:
		return *(const bool *)property->value ? "true" : "false";
	case USER_TA_PROP_TYPE_U32:
		end = put_decimal(room, *(const uint32_t *)property->value);
		break;
	case USER_TA_PROP_TYPE_UUID:
		end = put_uuid(room, property->value);
		break;
	case USER_TA_PROP_TYPE_IDENTITY:
		end = put_decimal(room, identity->login);
		*end++ = ':';
		end = put_uuid(end, &identity->uuid);
		break;
	default:
		return property->value;
	}
	*end = 0;
	return room;
}

/* Copies a text with its zero; where it is longer than the buffer, its length is told alone. */
static TEE_Result copy_text(const char *text, char *buffer, uint32_t *length)
{
	uint32_t room = *length;

	*length = strlen(text) + 1;
	if (*length > room)
		return TEE_ERROR_SHORT_BUFFER;
	memcpy(buffer, text, *length);
	return TEE_SUCCESS;
}

TEE_Result TEE_GetPropertyAsString(TEE_PropSetHandle handle, const char *name, char *buffer, uint32_t *length)
{
	const struct user_ta_property *property = found(handle, name);
	char room[LONGEST];

	return property ? copy_text(text_of(property, room), buffer, length) : TEE_ERROR_ITEM_NOT_FOUND;
}

TEE_Result TEE_AllocatePropertyEnumerator(TEE_PropSetHandle *enumerator)
{
	*enumerator = TEE_Malloc(sizeof(**enumerator), TEE_MALLOC_FILL_ZERO);
	return *enumerator ? TEE_SUCCESS : TEE_ERROR_OUT_OF_MEMORY;
}

void TEE_FreePropertyEnumerator(TEE_PropSetHandle enumerator)
{
	TEE_Free(enumerator);
}

void TEE_StartPropertyEnumerator(TEE_PropSetHandle enumerator, TEE_PropSetHandle set)
{
	enumerator->set = set;
	enumerator->index = 0;
}

void TEE_ResetPropertyEnumerator(TEE_PropSetHandle enumerator)
{
	enumerator->set = NULL;
}

TEE_Result TEE_GetPropertyName(TEE_PropSetHandle enumerator, void *buffer, uint32_t *length)
{
	const struct user_ta_property *property = current(enumerator);

	return property ? copy_text(property->name, buffer, length) : TEE_ERROR_ITEM_NOT_FOUND;
}

TEE_Result TEE_GetNextProperty(TEE_PropSetHandle enumerator)
{
	enumerator->index++;
	return current(enumerator) ? TEE_SUCCESS : TEE_ERROR_ITEM_NOT_FOUND;
}

/* Each command tries a part of the API, and gives its number of checks that failed in a, and in b a number that the script wants. */
#include <assert.h>
#include <limits.h>
#include <stdarg.h>
#include <stdlib.h>
#include <string.h>
#include <tee_internal_api.h>
#include <tee_internal_api_extensions.h>

static uint32_t failed;

#define CHECK(condition)                                                                                                                  \
	do {                                                                                                                              \
		if (!(condition))                                                                                                         \
			failed++;                                                                                                         \
	} while (0)

/* Memory and strings. */

static int compare_bytes(const void *first, const void *second)
{
	return *(const uint8_t *)first - *(const uint8_t *)second;
}

static void try_strings(void)
{
	char text[16] = "alpha";

	CHECK(strlen(text) == 5 && strnlen(text, 3) == 3 && strnlen(text, 9) == 5);
	CHECK(strcmp("beta", "beta") == 0 && strcmp("bet", "beta") < 0 && strcmp("beta", "alpha") > 0);
	CHECK(strncmp("betray", "beta", 3) == 0 && strncmp("betray", "beta", 4) > 0 && strncmp("a", "b", 0) == 0);
	CHECK(strchr(text, 'p') == text + 2 && strchr(text, 'z') == NULL && strchr(text, 0) == text + 5);
	CHECK(strrchr(text, 'a') == text + 4 && strrchr(text, 'z') == NULL);
	CHECK(memchr(text, 'h', 5) == text + 3 && memchr(text, 'h', 3) == NULL);
	CHECK(abs(-5) == 5 && abs(5) == 5);
}

static void try_memory(void)
{
	uint8_t bytes[24], other[24];

	for (int k = 0; k < 24; k++)
		bytes[k] = k;
	TEE_MemMove(bytes + 3, bytes, 17);
	for (int k = 0; k < 17; k++)
		CHECK(bytes[3 + k] == k);
	TEE_MemMove(bytes, bytes + 3, 17);
	for (int k = 0; k < 17; k++)
		CHECK(bytes[k] == k);
	memcpy(other, bytes, 17);
	CHECK(TEE_MemCompare(bytes, other, 17) == 0);
	other[16] = 255;
	CHECK(TEE_MemCompare(bytes, other, 17) < 0 && TEE_MemCompare(other, bytes, 17) > 0 && memcmp(bytes, other, 16) == 0);
	TEE_MemFill(bytes + 1, 0x1A5, 7);
	CHECK(bytes[0] == 0 && bytes[1] == 0xA5 && bytes[7] == 0xA5 && bytes[8] == 8);
}

static void try_heap(void)
{
	uint8_t *blocks[8];
	uint32_t made = 0;

	for (int k = 0; k < 8; k++) {
		blocks[k] = TEE_Malloc(1000, TEE_MALLOC_FILL_ZERO);
		made += blocks[k] != NULL;
	}
	CHECK(made >= 2 && made < 8);
	for (int k = 0; k < 8; k += 2)
		TEE_Free(blocks[k]);
	for (int k = 1; k < 8; k += 2)
		TEE_Free(blocks[k]);
	blocks[0] = TEE_Malloc(2000, TEE_MALLOC_FILL_ZERO);
	CHECK(blocks[0] != NULL);
	memset(blocks[0], 7, 2000);
	CHECK(TEE_Realloc(blocks[0], 10) == blocks[0]);
	TEE_Free(blocks[0]);
	blocks[1] = calloc(3, 5);
	CHECK(blocks[1] && blocks[1][0] == 0 && blocks[1][14] == 0);
	blocks[1][14] = 9;
	blocks[1] = realloc(blocks[1], 100);
	CHECK(blocks[1] && blocks[1][14] == 9);
	CHECK(calloc(0x10000, 0x10000) == NULL && TEE_Malloc(UINT32_MAX, TEE_MALLOC_FILL_ZERO) == NULL);
	free(blocks[1]);
	TEE_Free(NULL);
}

static void try_access(TEE_Param params[TEE_NUM_PARAMS])
{
	const uint32_t any = TEE_MEMORY_ACCESS_ANY_OWNER, read = TEE_MEMORY_ACCESS_READ, write = TEE_MEMORY_ACCESS_WRITE;
	uint8_t own[4], *in = params[1].memref.buffer, *out = params[2].memref.buffer;

	CHECK(TEE_CheckMemoryAccessRights(read | write, own, sizeof(own)) == TEE_SUCCESS);
	CHECK(TEE_CheckMemoryAccessRights(read | any, in, params[1].memref.size) == TEE_SUCCESS);
	CHECK(TEE_CheckMemoryAccessRights(read, in, 1) == TEE_ERROR_ACCESS_DENIED);
	CHECK(TEE_CheckMemoryAccessRights(write | any, in, 1) == TEE_ERROR_ACCESS_DENIED);
	CHECK(TEE_CheckMemoryAccessRights(read | any, in, params[1].memref.size + 1) == TEE_ERROR_ACCESS_DENIED);
	CHECK(TEE_CheckMemoryAccessRights(write | any, out, params[2].memref.size) == TEE_SUCCESS);
	CHECK(TEE_CheckMemoryAccessRights(write | any, out + 1, params[2].memref.size) == TEE_ERROR_ACCESS_DENIED);
	CHECK(TEE_CheckMemoryAccessRights(read | any, (void *)0x08000000, 1) == TEE_ERROR_ACCESS_DENIED);
	CHECK(TEE_CheckMemoryAccessRights(read | any, (void *)0x60000000, 1) == TEE_ERROR_ACCESS_DENIED);
	CHECK(TEE_CheckMemoryAccessRights(read, NULL, UINT32_MAX) == TEE_ERROR_ACCESS_DENIED);
}

/* Numbers. */

static int32_t sum_of(int count, ...)
{
	va_list list;
	int32_t sum = 0;

	va_start(list, count);
	while (count--)
		sum += va_arg(list, int);
	va_end(list);
	return sum;
}

static void try_numbers(uint32_t given)
{
	volatile int32_t seven = 7;
	volatile double half = 0.5;

	CHECK(sum_of(5, 1, 2, 3, 4, -20) == -10);
	CHECK(-50 / seven == -7 && -50 % seven == -1 && (int64_t)INT_MIN * seven == -15032385536LL);
	CHECK((int64_t)given * -1000000007LL / seven == (int64_t)given * -142857143LL - (int64_t)given * 6 / 7);
	CHECK((int)(half * 6 + seven) == 10 && half < 0.75);
}

/* Properties. */

static bool is_property(TEE_PropSetHandle set, const char *name, const char *wanted)
{
	char text[64];
	uint32_t length = sizeof(text);

	return TEE_GetPropertyAsString(set, name, text, &length) == TEE_SUCCESS && length == strlen(wanted) + 1 && !strcmp(text, wanted);
}

static void try_properties(void)
{
	const TEE_PropSetHandle ta = TEE_PROPSET_CURRENT_TA, client = TEE_PROPSET_CURRENT_CLIENT, tee = TEE_PROPSET_TEE_IMPLEMENTATION;
	TEE_Identity identity = { 1, { 1, 1, 1, { 1 } } };
	TEE_UUID uuid;
	uint32_t number, length = 3;
	bool is_set;
	char text[4];

	CHECK(is_property(ta, "gpd.ta.appID", "6f2a1c00-31d5-4b7e-9c41-0d5e8a77217f"));
	CHECK(is_property(ta, "gpd.ta.version", "3.1") && is_property(ta, "gpd.ta.multiSession", "true"));
	CHECK(is_property(ta, "gpd.ta.instanceKeepAlive", "false") && is_property(ta, "own.limit", "4711"));
	CHECK(is_property(client, "gpd.client.identity", "0:00000000-0000-0000-0000-000000000000"));
	CHECK(is_property(tee, "gpd.tee.apiversion", "1.1"));
	CHECK(TEE_GetPropertyAsU32(ta, "gpd.ta.stackSize", &number) == TEE_SUCCESS && number == 4096);
	CHECK(TEE_GetPropertyAsU32(tee, "gpd.tee.systemTime.protectionLevel", &number) == TEE_SUCCESS && number == 100);
	CHECK(TEE_GetPropertyAsBool(ta, "own.is_new", &is_set) == TEE_SUCCESS && is_set);
	CHECK(TEE_GetPropertyAsBool(ta, "own.limit", &is_set) == TEE_ERROR_BAD_FORMAT);
	CHECK(TEE_GetPropertyAsBool(ta, "own.unknown", &is_set) == TEE_ERROR_ITEM_NOT_FOUND);
	CHECK(TEE_GetPropertyAsUUID(ta, "gpd.ta.appID", &uuid) == TEE_SUCCESS && uuid.timeMid == 0x31d5 && uuid.clockSeqAndNode[7] == 0x7f);
	CHECK(TEE_GetPropertyAsIdentity(client, "gpd.client.identity", &identity) == TEE_SUCCESS);
	CHECK(identity.login == TEE_LOGIN_PUBLIC && identity.uuid.timeLow == 0 && identity.uuid.clockSeqAndNode[0] == 0);
	CHECK(TEE_GetPropertyAsString(ta, "gpd.ta.version", text, &length) == TEE_ERROR_SHORT_BUFFER && length == 4);
}

static uint32_t counted_properties(TEE_PropSetHandle set)
{
	TEE_PropSetHandle enumerator;
	char name[64];
	uint32_t count = 0, length;

	CHECK(TEE_AllocatePropertyEnumerator(&enumerator) == TEE_SUCCESS);
	TEE_StartPropertyEnumerator(enumerator, set);
	do {
		length = sizeof(name);
		CHECK(TEE_GetPropertyName(enumerator, name, &length) == TEE_SUCCESS && length == strlen(name) + 1);
		count++;
	} while (TEE_GetNextProperty(enumerator) == TEE_SUCCESS);
	CHECK(TEE_GetPropertyName(enumerator, name, &length) == TEE_ERROR_ITEM_NOT_FOUND);
	TEE_ResetPropertyEnumerator(enumerator);
	TEE_FreePropertyEnumerator(enumerator);
	return count;
}

/* Time and cancelling. */

static void try_time(void)
{
	TEE_Time first, second;

	TEE_GetSystemTime(&first);
	TEE_GetREETime(&second);
	CHECK(second.seconds == first.seconds + 1 && second.millis == 0);
	CHECK(TEE_Wait(5) == TEE_SUCCESS && !TEE_GetCancellationFlag());
}

static TEE_Result try_cancelling(void)
{
	TEE_Result result;

	CHECK(TEE_MaskCancellation() && TEE_UnmaskCancellation() && !TEE_UnmaskCancellation());
	result = TEE_Wait(10);
	CHECK(TEE_GetCancellationFlag() == (result == TEE_ERROR_CANCEL) && !TEE_MaskCancellation() && !TEE_GetCancellationFlag());
	return result;
}

/* Objects. */

#define ALL (TEE_DATA_FLAG_ACCESS_READ | TEE_DATA_FLAG_ACCESS_WRITE | TEE_DATA_FLAG_ACCESS_WRITE_META)
static const char id[] = "object";

static TEE_Result create(uint32_t flags, const void *data, uint32_t size, TEE_ObjectHandle *object)
{
	return TEE_CreatePersistentObject(TEE_STORAGE_PRIVATE, id, sizeof(id), flags, TEE_HANDLE_NULL, data, size, object);
}

static void try_positions(TEE_ObjectHandle object)
{
	TEE_ObjectInfo info;
	uint8_t bytes[8];
	uint32_t count;

	CHECK(TEE_SeekObjectData(object, 2, TEE_DATA_SEEK_SET) == TEE_SUCCESS);
	CHECK(TEE_ReadObjectData(object, bytes, 2, &count) == TEE_SUCCESS && count == 2 && bytes[0] == 'c' && bytes[1] == 'd');
	CHECK(TEE_SeekObjectData(object, -3, TEE_DATA_SEEK_CUR) == TEE_SUCCESS);
	CHECK(TEE_WriteObjectData(object, "X", 1) == TEE_SUCCESS);
	CHECK(TEE_SeekObjectData(object, -2, TEE_DATA_SEEK_END) == TEE_SUCCESS);
	CHECK(TEE_GetObjectInfo1(object, &info) == TEE_SUCCESS && info.dataSize == 6 && info.dataPosition == 4);
	CHECK(info.objectType == TEE_TYPE_DATA && info.handleFlags & TEE_HANDLE_FLAG_PERSISTENT);
	CHECK(TEE_ReadObjectData(object, bytes, 8, &count) == TEE_SUCCESS && count == 2 && bytes[0] == 'e');
	CHECK(TEE_ReadObjectData(object, bytes, 8, &count) == TEE_SUCCESS && count == 0);
	CHECK(TEE_SeekObjectData(object, 1, TEE_DATA_SEEK_END) == TEE_ERROR_OVERFLOW);
	CHECK(TEE_SeekObjectData(object, -100, TEE_DATA_SEEK_CUR) == TEE_SUCCESS);
	CHECK(TEE_ReadObjectData(object, bytes, 2, &count) == TEE_SUCCESS && bytes[0] == 'a' && bytes[1] == 'X');
}

static void try_objects(void)
{
	TEE_ObjectHandle object, other;

	CHECK(TEE_OpenPersistentObject(TEE_STORAGE_PRIVATE, id, sizeof(id), ALL, &object) == TEE_ERROR_ITEM_NOT_FOUND && !object);
	CHECK(TEE_OpenPersistentObject(2, id, sizeof(id), ALL, &object) == TEE_ERROR_ITEM_NOT_FOUND);
	CHECK(create(ALL, "abcdef", 6, &object) == TEE_SUCCESS && object);
	CHECK(create(ALL, NULL, 0, &other) == TEE_ERROR_ACCESS_CONFLICT && !other);
	CHECK(create(ALL | TEE_DATA_FLAG_OVERWRITE, "abcdef", 6, &other) == TEE_SUCCESS);
	TEE_CloseObject(other);
	TEE_CloseObject(object);
	CHECK(TEE_OpenPersistentObject(TEE_STORAGE_PRIVATE, id, sizeof(id), ALL, &object) == TEE_SUCCESS);
	CHECK(TEE_CloseAndDeletePersistentObject1(object) == TEE_SUCCESS);
	CHECK(create(ALL, "abcdef", 6, NULL) == TEE_SUCCESS);
	CHECK(TEE_OpenPersistentObject(TEE_STORAGE_PRIVATE, id, sizeof(id), ALL, &object) == TEE_SUCCESS);
	CHECK(TEE_CloseAndDeletePersistentObject1(object) == TEE_SUCCESS && TEE_CloseAndDeletePersistentObject1(TEE_HANDLE_NULL) == TEE_SUCCESS);
	TEE_CloseObject(TEE_HANDLE_NULL);
}

static void try_data(void)
{
	TEE_ObjectHandle object;
	TEE_ObjectInfo info;

	CHECK(create(ALL | TEE_DATA_FLAG_OVERWRITE, "abcdef", 6, &object) == TEE_SUCCESS);
	CHECK(TEE_SeekObjectData(object, 0, TEE_DATA_SEEK_SET) == TEE_SUCCESS);
	CHECK(TEE_SeekObjectData(object, 7, TEE_DATA_SEEK_SET) == TEE_ERROR_OVERFLOW);
	CHECK(TEE_SeekObjectData(object, 5, TEE_DATA_SEEK_SET) == TEE_SUCCESS);
	CHECK(TEE_SeekObjectData(object, INT32_MAX, TEE_DATA_SEEK_CUR) == TEE_ERROR_OVERFLOW);
	CHECK(TEE_SeekObjectData(object, INT32_MIN, TEE_DATA_SEEK_CUR) == TEE_SUCCESS);
	TEE_GetObjectInfo(object, &info);
	CHECK(info.dataSize == 6 && info.dataPosition == 0);
	TEE_CloseAndDeletePersistentObject(object);
	CHECK(TEE_OpenPersistentObject(TEE_STORAGE_PRIVATE, id, sizeof(id), ALL, &object) == TEE_ERROR_ITEM_NOT_FOUND);
}

/* What ends in a panic. */

static uint32_t deep(uint32_t n)
{
	volatile uint32_t here = n;

	return n ? deep(n - 1) + here : 0;
}

static uint32_t wide(uint32_t n)
{
	volatile uint8_t room[200];

	room[n % 200] = n;
	return n ? wide(n - 1) + room[n % 200] : 0;
}

static void read_without_the_right(void)
{
	TEE_ObjectHandle object;
	uint32_t count;
	uint8_t byte;

	CHECK(create(TEE_DATA_FLAG_ACCESS_WRITE | TEE_DATA_FLAG_OVERWRITE, "a", 1, &object) == TEE_SUCCESS);
	TEE_ReadObjectData(object, &byte, 1, &count);
}

static void seek_from_nowhere(void)
{
	TEE_ObjectHandle object;

	CHECK(create(TEE_DATA_FLAG_ACCESS_WRITE | TEE_DATA_FLAG_OVERWRITE, "a", 1, &object) == TEE_SUCCESS);
	CHECK(TEE_SeekObjectData(object, 0, TEE_DATA_SEEK_END + 1) == TEE_SUCCESS);
}

static void panic(uint32_t kind, TEE_Param params[TEE_NUM_PARAMS])
{
	volatile uint32_t zero = 0;
	int (*volatile function)(int) = (int (*)(int))0x1234;

	switch (kind) {
	case 0:
		TEE_Panic(0xC0DE);
	case 1:
		params[0].value.b = function(1);
		break;
	case 2:
		assert(zero == 1);
		break;
	case 3:
		params[0].value.b = 100 / zero;
		break;
	case 4:
		params[0].value.b = deep(80);
		break;
	case 5:
		params[0].value.b = wide(40);
		break;
	case 6:
		read_without_the_right();
		break;
	case 7:
		TEE_CloseObject((TEE_ObjectHandle)9);
		params[0].value.b = 1;
		break;
	case 8:
		params[0].value.b = *(volatile uint8_t *)panic;
		break;
	case 9:
		abort();
	case 10:
		seek_from_nowhere();
		break;
	default:
		break;
	}
}

/* The entry points. */

TEE_Result TA_CreateEntryPoint(void)
{
	TEE_SetInstanceData(&failed);
	return TEE_SUCCESS;
}

void TA_DestroyEntryPoint(void)
{
	DMSG("has been called");
}

TEE_Result TA_OpenSessionEntryPoint(uint32_t types, TEE_Param params[TEE_NUM_PARAMS], void **context)
{
	if (types == TEE_PARAM_TYPE_SET(TEE_PARAM_TYPE_VALUE_INOUT, 0)) {
		if (params[0].value.a == 1)
			return TEE_ERROR_ACCESS_DENIED;
		params[0].value.b = params[0].value.a + 1;
	}
	*context = &failed;
	return TEE_SUCCESS;
}

void TA_CloseSessionEntryPoint(void *context)
{
	(void)context;
}

TEE_Result TA_InvokeCommandEntryPoint(void *context, uint32_t command, uint32_t types, TEE_Param params[TEE_NUM_PARAMS])
{
	TEE_Result result = TEE_SUCCESS;
	uint8_t *bytes = params[1].memref.buffer;

	(void)types;
	failed = 0;
	CHECK(context == &failed && TEE_GetInstanceData() == &failed);
	switch (command) {
	case 0:
		try_strings();
		try_memory();
		break;
	case 1:
		try_heap();
		break;
	case 2:
		try_access(params);
		break;
	case 3:
		try_numbers(params[0].value.a);
		break;
	case 4:
		try_properties();
		params[0].value.b = counted_properties(TEE_PROPSET_CURRENT_TA) << 8 | counted_properties(TEE_PROPSET_CURRENT_CLIENT);
		break;
	case 5:
		try_time();
		break;
	case 6:
		result = try_cancelling();
		break;
	case 7:
		try_objects();
		try_data();
		break;
	case 8: {
		TEE_ObjectHandle object;

		CHECK(create(ALL | TEE_DATA_FLAG_OVERWRITE, "abcdef", 6, &object) == TEE_SUCCESS);
		try_positions(object);
		CHECK(TEE_CloseAndDeletePersistentObject1(object) == TEE_SUCCESS);
		break;
	}
	case 9:
		qsort(bytes, params[1].memref.size, 1, compare_bytes);
		break;
	case 10:
		panic(params[0].value.a, params);
		break;
	default:
		return TEE_ERROR_NOT_SUPPORTED;
	}
	params[0].value.a = failed;
	return result;
}

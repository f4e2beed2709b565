/*
 * Persistent objects. A handle is the machine's number of the open object and 1. The machine keeps length and position of each; its
 * position is kept here too, since no system call tells it.
 */
#include <string.h>
#include <tee_internal_api.h>

#include "machine.h"

#define MOST_OPEN 8
#define IS_OBJECT (TEE_HANDLE_FLAG_PERSISTENT | TEE_HANDLE_FLAG_INITIALIZED)

/* The open objects, by the machine's numbers; flags of 0 are those of a number that isn't open. */
static struct {
	uint32_t flags;
	uint32_t position;
} objects[MOST_OPEN];

/* The number of a handle; what is none, or was opened without one of the rights, panics. */
static uint32_t number_of(TEE_ObjectHandle object, uint32_t right)
{
	uint32_t number = ADDRESS(object) - 1;

	if (number >= MOST_OPEN || !objects[number].flags)
		TEE_Panic(TEE_ERROR_BAD_PARAMETERS);
	if (!(objects[number].flags & right))
		TEE_Panic(TEE_ERROR_ACCESS_CONFLICT);
	return number;
}

static TEE_Result handle_of(Pair opened, uint32_t flags, TEE_ObjectHandle *object)
{
	if (opened.r0 == TEE_SUCCESS) {
		objects[opened.r1].flags = flags | IS_OBJECT;
		objects[opened.r1].position = 0;
		*object = (TEE_ObjectHandle)(opened.r1 + 1);
	}
	return opened.r0;
}

static TEE_Result delete_object(uint32_t number)
{
	objects[number].flags = 0;
	return sys_delete(number);
}

TEE_Result TEE_OpenPersistentObject(uint32_t storage, const void *id, uint32_t length, uint32_t flags, TEE_ObjectHandle *object)
{
	*object = TEE_HANDLE_NULL;
	if (storage != TEE_STORAGE_PRIVATE)
		return TEE_ERROR_ITEM_NOT_FOUND;
	return handle_of(sys_open(ADDRESS(id), length), flags, object);
}

/* Creates an object; one that is there already is deleted before, where it may be overwritten. */
static TEE_Result create(const void *id, uint32_t length, uint32_t flags, TEE_ObjectHandle *object)
{
	Pair made = sys_create(ADDRESS(id), length);

	if (made.r0 == TEE_ERROR_ACCESS_CONFLICT && flags & TEE_DATA_FLAG_OVERWRITE) {
		made = sys_open(ADDRESS(id), length);
		if (made.r0 == TEE_SUCCESS)
			made.r0 = delete_object(made.r1);
		if (made.r0 == TEE_SUCCESS)
			made = sys_create(ADDRESS(id), length);
	}
	return handle_of(made, flags, object);
}

static TEE_Result write_at(uint32_t number, const void *data, uint32_t size)
{
	TEE_Result result = sys_write(number, data, size);

	return result == TEE_ERROR_BAD_PARAMETERS ? TEE_ERROR_STORAGE_NO_SPACE : result;
}

TEE_Result TEE_CreatePersistentObject(uint32_t storage, const void *id, uint32_t length, uint32_t flags, TEE_ObjectHandle attributes,
				      const void *data, uint32_t size, TEE_ObjectHandle *object)
{
	TEE_ObjectHandle made = TEE_HANDLE_NULL;
	TEE_Result result = TEE_ERROR_ITEM_NOT_FOUND;

	if (attributes)
		TEE_Panic(TEE_ERROR_NOT_SUPPORTED);
	if (storage == TEE_STORAGE_PRIVATE)
		result = create(id, length, flags, &made);
	if (result == TEE_SUCCESS && size) {
		uint32_t number = ADDRESS(made) - 1;

		result = write_at(number, data, size);
		if (result == TEE_SUCCESS) {
			sys_seek(number, 0);
		} else {
			delete_object(number);
			made = TEE_HANDLE_NULL;
		}
	}
	if (object)
		*object = made;
	else
		TEE_CloseObject(made);
	return result;
}

TEE_Result TEE_CloseAndDeletePersistentObject1(TEE_ObjectHandle object)
{
	if (!object)
		return TEE_SUCCESS;
	return delete_object(number_of(object, TEE_DATA_FLAG_ACCESS_WRITE_META));
}

void TEE_CloseObject(TEE_ObjectHandle object)
{
	uint32_t number;

	if (!object)
		return;
	number = number_of(object, IS_OBJECT);
	objects[number].flags = 0;
	sys_close(number);
}

TEE_Result TEE_ReadObjectData(TEE_ObjectHandle object, void *buffer, uint32_t size, uint32_t *count)
{
	uint32_t number = number_of(object, TEE_DATA_FLAG_ACCESS_READ);
	Pair read = sys_read(number, buffer, size);

	objects[number].position += read.r1;
	*count = read.r1;
	return read.r0;
}

TEE_Result TEE_WriteObjectData(TEE_ObjectHandle object, const void *buffer, uint32_t size)
{
	uint32_t number = number_of(object, TEE_DATA_FLAG_ACCESS_WRITE);
	TEE_Result result = write_at(number, buffer, size);

	if (result == TEE_SUCCESS)
		objects[number].position += size;
	return result;
}

/* No system call tells the length, but a seek behind it is refused: it is found by halving, and no seek leaves the machine. */
static uint32_t length_of(uint32_t number)
{
	uint32_t length = objects[number].position;

	for (uint32_t half = TEE_DATA_MAX_POSITION; half; half >>= 1)
		if (sys_seek(number, length + half) == TEE_SUCCESS)
			length += half;
	sys_seek(number, objects[number].position);
	return length;
}

TEE_Result TEE_SeekObjectData(TEE_ObjectHandle object, int32_t offset, TEE_Whence whence)
{
	uint32_t number = number_of(object, IS_OBJECT), position = offset;

	if (whence == TEE_DATA_SEEK_CUR)
		position += objects[number].position;
	else if (whence == TEE_DATA_SEEK_END)
		position += length_of(number);
	else if (whence != TEE_DATA_SEEK_SET)
		TEE_Panic(TEE_ERROR_BAD_PARAMETERS);
	if (offset < 0 && (int32_t)position < 0)
		position = 0;
	if (sys_seek(number, position) != TEE_SUCCESS)
		return TEE_ERROR_OVERFLOW;
	objects[number].position = position;
	return TEE_SUCCESS;
}

TEE_Result TEE_GetObjectInfo1(TEE_ObjectHandle object, TEE_ObjectInfo *info)
{
	uint32_t number = number_of(object, IS_OBJECT);

	info->objectType = TEE_TYPE_DATA;
	info->objectSize = 0;
	info->maxObjectSize = 0;
	info->objectUsage = UINT32_MAX;
	info->dataSize = length_of(number);
	info->dataPosition = objects[number].position;
	info->handleFlags = objects[number].flags;
	return TEE_SUCCESS;
}

void TEE_GetObjectInfo(TEE_ObjectHandle object, TEE_ObjectInfo *info)
{
	TEE_GetObjectInfo1(object, info);
}

void TEE_CloseAndDeletePersistentObject(TEE_ObjectHandle object)
{
	TEE_Result result = TEE_CloseAndDeletePersistentObject1(object);

	if (result != TEE_SUCCESS)
		TEE_Panic(result);
}

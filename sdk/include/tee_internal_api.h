/*
 * GlobalPlatform's TEE Internal Core API 1.1, as far as the machine serves it. What isn't declared here it doesn't have, so that its use
 * fails when it is compiled or linked, by its name. sdk/README.md has a table of all functions, with how these differ from the standard.
 */
#ifndef TEE_INTERNAL_API_H
#define TEE_INTERNAL_API_H

#include <stdbool.h>
#include <stddef.h>
#include <stdint.h>

/* Common types and results (chapter 3). */

typedef uint32_t TEE_Result;

#define TEE_SUCCESS 0x00000000U
#define TEE_ERROR_CORRUPT_OBJECT 0xF0100001U
#define TEE_ERROR_CORRUPT_OBJECT_2 0xF0100002U
#define TEE_ERROR_STORAGE_NOT_AVAILABLE 0xF0100003U
#define TEE_ERROR_STORAGE_NOT_AVAILABLE_2 0xF0100004U
#define TEE_ERROR_GENERIC 0xFFFF0000U
#define TEE_ERROR_ACCESS_DENIED 0xFFFF0001U
#define TEE_ERROR_CANCEL 0xFFFF0002U
#define TEE_ERROR_ACCESS_CONFLICT 0xFFFF0003U
#define TEE_ERROR_EXCESS_DATA 0xFFFF0004U
#define TEE_ERROR_BAD_FORMAT 0xFFFF0005U
#define TEE_ERROR_BAD_PARAMETERS 0xFFFF0006U
#define TEE_ERROR_BAD_STATE 0xFFFF0007U
#define TEE_ERROR_ITEM_NOT_FOUND 0xFFFF0008U
#define TEE_ERROR_NOT_IMPLEMENTED 0xFFFF0009U
#define TEE_ERROR_NOT_SUPPORTED 0xFFFF000AU
#define TEE_ERROR_NO_DATA 0xFFFF000BU
#define TEE_ERROR_OUT_OF_MEMORY 0xFFFF000CU
#define TEE_ERROR_BUSY 0xFFFF000DU
#define TEE_ERROR_COMMUNICATION 0xFFFF000EU
#define TEE_ERROR_SECURITY 0xFFFF000FU
#define TEE_ERROR_SHORT_BUFFER 0xFFFF0010U
#define TEE_ERROR_EXTERNAL_CANCEL 0xFFFF0011U
#define TEE_ERROR_OVERFLOW 0xFFFF300FU
#define TEE_ERROR_TARGET_DEAD 0xFFFF3024U
#define TEE_ERROR_STORAGE_NO_SPACE 0xFFFF3041U
#define TEE_ERROR_MAC_INVALID 0xFFFF3071U
#define TEE_ERROR_SIGNATURE_INVALID 0xFFFF3072U
#define TEE_ERROR_TIME_NOT_SET 0xFFFF5000U
#define TEE_ERROR_TIME_NEEDS_RESET 0xFFFF5001U

typedef struct {
	uint32_t timeLow;
	uint16_t timeMid;
	uint16_t timeHiAndVersion;
	uint8_t clockSeqAndNode[8];
} TEE_UUID;

typedef struct {
	uint32_t login;
	TEE_UUID uuid;
} TEE_Identity;

#define TEE_LOGIN_PUBLIC 0x00000000U
#define TEE_LOGIN_USER 0x00000001U
#define TEE_LOGIN_GROUP 0x00000002U
#define TEE_LOGIN_APPLICATION 0x00000004U
#define TEE_LOGIN_APPLICATION_USER 0x00000005U
#define TEE_LOGIN_APPLICATION_GROUP 0x00000006U
#define TEE_LOGIN_TRUSTED_APP 0xF0000000U

/* Parameters (4.1). The buffer of a memory reference is a copy of the client's; one of no bytes isn't NULL, and no access to it is
 * served. */

typedef union {
	struct {
		void *buffer;
		uint32_t size;
	} memref;
	struct {
		uint32_t a;
		uint32_t b;
	} value;
} TEE_Param;

#define TEE_NUM_PARAMS 4
#define TEE_PARAM_TYPE_NONE 0
#define TEE_PARAM_TYPE_VALUE_INPUT 1
#define TEE_PARAM_TYPE_VALUE_OUTPUT 2
#define TEE_PARAM_TYPE_VALUE_INOUT 3
#define TEE_PARAM_TYPE_MEMREF_INPUT 5
#define TEE_PARAM_TYPE_MEMREF_OUTPUT 6
#define TEE_PARAM_TYPE_MEMREF_INOUT 7
#define TEE_PARAM_TYPES(t0, t1, t2, t3) ((t0) | ((t1) << 4) | ((t2) << 8) | ((t3) << 12))
#define TEE_PARAM_TYPE_GET(types, index) (((uint32_t)(types) >> ((index) * 4)) & 0xF)
#define TEE_PARAM_TYPE_SET(type, index) (((uint32_t)(type) & 0xF) << ((index) * 4))

/* Entry points (4.3), all of which an application defines. */

#define TA_EXPORT
TEE_Result TA_EXPORT TA_CreateEntryPoint(void);
void TA_EXPORT TA_DestroyEntryPoint(void);
TEE_Result TA_EXPORT TA_OpenSessionEntryPoint(uint32_t paramTypes, TEE_Param params[TEE_NUM_PARAMS], void **sessionContext);
void TA_EXPORT TA_CloseSessionEntryPoint(void *sessionContext);
TEE_Result TA_EXPORT TA_InvokeCommandEntryPoint(void *sessionContext, uint32_t commandID, uint32_t paramTypes,
						TEE_Param params[TEE_NUM_PARAMS]);

/* Flags of user_ta_header_defines.h, as OP-TEE names them. */
#define TA_FLAG_USER_MODE 0
#define TA_FLAG_EXEC_DDR 0
#define TA_FLAG_SINGLE_INSTANCE (1 << 2)
#define TA_FLAG_MULTI_SESSION (1 << 3)
#define TA_FLAG_INSTANCE_KEEP_ALIVE (1 << 4)

/* Properties (4.4): those of the application and of its client, and those of the TEE that say something here. */

typedef struct __TEE_PropSetHandle *TEE_PropSetHandle;

#define TEE_PROPSET_TEE_IMPLEMENTATION ((TEE_PropSetHandle)0xFFFFFFFDU)
#define TEE_PROPSET_CURRENT_CLIENT ((TEE_PropSetHandle)0xFFFFFFFEU)
#define TEE_PROPSET_CURRENT_TA ((TEE_PropSetHandle)0xFFFFFFFFU)

TEE_Result TEE_GetPropertyAsString(TEE_PropSetHandle propsetOrEnumerator, const char *name, char *valueBuffer, uint32_t *valueBufferLen);
TEE_Result TEE_GetPropertyAsBool(TEE_PropSetHandle propsetOrEnumerator, const char *name, bool *value);
TEE_Result TEE_GetPropertyAsU32(TEE_PropSetHandle propsetOrEnumerator, const char *name, uint32_t *value);
TEE_Result TEE_GetPropertyAsUUID(TEE_PropSetHandle propsetOrEnumerator, const char *name, TEE_UUID *value);
TEE_Result TEE_GetPropertyAsIdentity(TEE_PropSetHandle propsetOrEnumerator, const char *name, TEE_Identity *value);
TEE_Result TEE_AllocatePropertyEnumerator(TEE_PropSetHandle *enumerator);
void TEE_FreePropertyEnumerator(TEE_PropSetHandle enumerator);
void TEE_StartPropertyEnumerator(TEE_PropSetHandle enumerator, TEE_PropSetHandle propSet);
void TEE_ResetPropertyEnumerator(TEE_PropSetHandle enumerator);
TEE_Result TEE_GetPropertyName(TEE_PropSetHandle enumerator, void *nameBuffer, uint32_t *nameBufferLen);
TEE_Result TEE_GetNextProperty(TEE_PropSetHandle enumerator);

/* Panics (4.8) and cancelling (4.10). */

void TEE_Panic(TEE_Result panicCode) __attribute__((noreturn));
/* Each use has a place of its own in the image, so that its line can be told: the machine's system call 1. */
#define TEE_Panic(panicCode)                                                                                                              \
	__extension__({                                                                                                                   \
		register TEE_Result code_ __asm__("a0") = (panicCode);                                                                    \
		__asm__ volatile(".insn i 0x0b, 0, x0, x0, 1 # %1" : : "r"(code_), "i"(__LINE__));                                        \
		__builtin_unreachable();                                                                                                  \
	})
bool TEE_GetCancellationFlag(void);
bool TEE_UnmaskCancellation(void);
bool TEE_MaskCancellation(void);

/* Memory (4.11). */

#define TEE_MEMORY_ACCESS_READ 0x00000001U
#define TEE_MEMORY_ACCESS_WRITE 0x00000002U
#define TEE_MEMORY_ACCESS_ANY_OWNER 0x00000004U
#define TEE_MALLOC_FILL_ZERO 0x00000000U

TEE_Result TEE_CheckMemoryAccessRights(uint32_t accessFlags, void *buffer, uint32_t size);
void TEE_SetInstanceData(void *instanceData);
void *TEE_GetInstanceData(void);
void *TEE_Malloc(uint32_t size, uint32_t hint);
void *TEE_Realloc(void *buffer, uint32_t newSize);
void TEE_Free(void *buffer);
void TEE_MemMove(void *dest, const void *src, uint32_t size);
int32_t TEE_MemCompare(const void *buffer1, const void *buffer2, uint32_t size);
void TEE_MemFill(void *buffer, uint32_t x, uint32_t size);

/* Objects (chapter 5): persistent ones, of data alone, without attributes. At most eight are open in an instance. */

typedef struct __TEE_ObjectHandle *TEE_ObjectHandle;
typedef uint32_t TEE_Whence;

typedef struct {
	uint32_t objectType;
	uint32_t objectSize;
	uint32_t maxObjectSize;
	uint32_t objectUsage;
	uint32_t dataSize;
	uint32_t dataPosition;
	uint32_t handleFlags;
} TEE_ObjectInfo;

#define TEE_HANDLE_NULL 0
#define TEE_STORAGE_PRIVATE 0x00000001U
#define TEE_DATA_FLAG_ACCESS_READ 0x00000001U
#define TEE_DATA_FLAG_ACCESS_WRITE 0x00000002U
#define TEE_DATA_FLAG_ACCESS_WRITE_META 0x00000004U
#define TEE_DATA_FLAG_SHARE_READ 0x00000010U
#define TEE_DATA_FLAG_SHARE_WRITE 0x00000020U
#define TEE_DATA_FLAG_OVERWRITE 0x00000400U
#define TEE_HANDLE_FLAG_PERSISTENT 0x00010000U
#define TEE_HANDLE_FLAG_INITIALIZED 0x00020000U
#define TEE_TYPE_DATA 0xA00000BFU
#define TEE_OBJECT_ID_MAX_LEN 64
#define TEE_DATA_MAX_POSITION 32768U
#define TEE_DATA_SEEK_SET 0
#define TEE_DATA_SEEK_CUR 1
#define TEE_DATA_SEEK_END 2

TEE_Result TEE_OpenPersistentObject(uint32_t storageID, const void *objectID, uint32_t objectIDLen, uint32_t flags,
				    TEE_ObjectHandle *object);
TEE_Result TEE_CreatePersistentObject(uint32_t storageID, const void *objectID, uint32_t objectIDLen, uint32_t flags,
				      TEE_ObjectHandle attributes, const void *initialData, uint32_t initialDataLen,
				      TEE_ObjectHandle *object);
TEE_Result TEE_CloseAndDeletePersistentObject1(TEE_ObjectHandle object);
void TEE_CloseObject(TEE_ObjectHandle object);
TEE_Result TEE_GetObjectInfo1(TEE_ObjectHandle object, TEE_ObjectInfo *objectInfo);
TEE_Result TEE_ReadObjectData(TEE_ObjectHandle object, void *buffer, uint32_t size, uint32_t *count);
TEE_Result TEE_WriteObjectData(TEE_ObjectHandle object, const void *buffer, uint32_t size);
TEE_Result TEE_SeekObjectData(TEE_ObjectHandle object, int32_t offset, TEE_Whence whence);

/* Of 1.0, deprecated in 1.1: what would be an error is a panic. */
void TEE_GetObjectInfo(TEE_ObjectHandle object, TEE_ObjectInfo *objectInfo);
void TEE_CloseAndDeletePersistentObject(TEE_ObjectHandle object);

/* Time (chapter 7): the normal world's. */

typedef struct {
	uint32_t seconds;
	uint32_t millis;
} TEE_Time;

#define TEE_TIMEOUT_INFINITE 0xFFFFFFFFU

void TEE_GetSystemTime(TEE_Time *time);
void TEE_GetREETime(TEE_Time *time);
TEE_Result TEE_Wait(uint32_t timeout);

#endif

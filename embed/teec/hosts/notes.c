/* A store of notes: they are put, read back through shared memory, added to, and removed; and outlive their session. */
#include <err.h>
#include <inttypes.h>
#include <stdio.h>
#include <string.h>
#include <tee_client_api.h>

#include "storage_ta.h"

enum { ROOM = 4096 };

static TEEC_Context context;
static TEEC_Session session;

static void open_session(void) {
    TEEC_UUID uuid = STORAGE_UUID;
    uint32_t origin;
    TEEC_Result result = TEEC_OpenSession(&context, &session, &uuid, TEEC_LOGIN_PUBLIC, NULL, NULL, &origin);
    if (result != TEEC_SUCCESS) errx(1, "no session: 0x%" PRIx32 " of %" PRIu32, result, origin);
}

/* An operation on the note of a name, whose other parameters are of these types. */
static TEEC_Operation operation_on(char *name, uint32_t second, uint32_t third) {
    TEEC_Operation operation = {.paramTypes = TEEC_PARAM_TYPES(TEEC_MEMREF_TEMP_INPUT, second, third, TEEC_NONE)};
    operation.params[0].tmpref.buffer = name, operation.params[0].tmpref.size = strlen(name);
    return operation;
}

static TEEC_Result put(char *name, char *text) {
    TEEC_Operation operation = operation_on(name, TEEC_MEMREF_TEMP_INPUT, TEEC_NONE);
    operation.params[1].tmpref.buffer = text, operation.params[1].tmpref.size = strlen(text);
    return TEEC_InvokeCommand(&session, CMD_PUT, &operation, NULL);
}

/* Adds to a note: its length then, or 0. */
static uint32_t append(char *name, char *text) {
    TEEC_Operation operation = operation_on(name, TEEC_MEMREF_TEMP_INPUT, TEEC_VALUE_OUTPUT);
    operation.params[1].tmpref.buffer = text, operation.params[1].tmpref.size = strlen(text);
    return TEEC_InvokeCommand(&session, CMD_APPEND, &operation, NULL) == TEEC_SUCCESS ? operation.params[2].value.a : 0;
}

/* Reads a note into so many bytes of shared memory, and prints it, or why not. */
static void show(char *name, TEEC_SharedMemory *memory, size_t room) {
    TEEC_Operation operation = operation_on(name, TEEC_MEMREF_PARTIAL_OUTPUT, TEEC_NONE);
    operation.params[1].memref.parent = memory, operation.params[1].memref.size = room;
    TEEC_Result result = TEEC_InvokeCommand(&session, CMD_GET, &operation, NULL);
    size_t size = operation.params[1].memref.size;
    if (result == TEEC_SUCCESS) printf("%s: %.*s\n", name, (int)size, (char *)memory->buffer);
    else if (result == TEEC_ERROR_SHORT_BUFFER) printf("%s: needs %zu bytes, and not %zu\n", name, size, room);
    else printf("%s: 0x%" PRIx32 "\n", name, result);
}

int main(void) {
    TEEC_SharedMemory memory = {.size = ROOM, .flags = TEEC_MEM_OUTPUT};
    char name[] = "shopping", text[] = "bread, milk", more[] = ", salt";
    if (TEEC_InitializeContext(NULL, &context) != TEEC_SUCCESS) errx(1, "no context");
    if (TEEC_AllocateSharedMemory(&context, &memory) != TEEC_SUCCESS) errx(1, "no shared memory");
    open_session();
    show(name, &memory, ROOM);
    if (put(name, text) != TEEC_SUCCESS) errx(1, "the note wasn't taken");
    show(name, &memory, ROOM);
    show(name, &memory, 4);
    TEEC_CloseSession(&session);
    open_session();
    printf("%s: %" PRIu32 " bytes\n", name, append(name, more));
    show(name, &memory, ROOM);
    TEEC_Operation removes = operation_on(name, TEEC_NONE, TEEC_NONE);
    if (TEEC_InvokeCommand(&session, CMD_REMOVE, &removes, NULL) != TEEC_SUCCESS) errx(1, "the note wasn't removed");
    show(name, &memory, ROOM);
    TEEC_CloseSession(&session);
    TEEC_ReleaseSharedMemory(&memory);
    TEEC_FinalizeContext(&context);
    return 0;
}

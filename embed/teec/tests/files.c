/* Files that stay in a folder, contexts that share a core, and a core of one thread. */
#include "test.h"

#include <sys/stat.h>

static const TEEC_UUID STORAGE = {0xf4e750bb, 0x1437, 0x4fbf, {0x87, 0x85, 0x8d, 0x35, 0x80, 0xc3, 0x49, 0x94}};
static char folder[] = "/tmp/teec_files_XXXXXX";
static uint32_t origin;

/* A description whose files lie in this folder, with this key where it isn't null. */
static const char *with_files(const char *at, const char *key) {
    char files[100], keyed[100];
    snprintf(files, sizeof files, "files %s", at), snprintf(keyed, sizeof keyed, "key %s", key ? key : "");
    return described((const char *[]){files, key ? keyed : NULL, NULL});
}

static TEEC_Result storage(TEEC_Session *session, uint32_t command, const char *id, void *data, size_t *size) {
    uint32_t type = command == 0 ? TEEC_MEMREF_TEMP_OUTPUT : command == 1 ? TEEC_MEMREF_TEMP_INPUT : TEEC_NONE;
    TEEC_Operation op = operation(TEEC_MEMREF_TEMP_INPUT, type, TEEC_NONE, TEEC_NONE);
    op.params[0].tmpref = (TEEC_TempMemoryReference){(void *)id, strlen(id)};
    if (size) op.params[1].tmpref = (TEEC_TempMemoryReference){data, *size};
    TEEC_Result result = TEEC_InvokeCommand(session, command, &op, &origin);
    if (size) *size = op.params[1].tmpref.size;
    return result;
}

/* Turns a byte of the one file over. */
static void turn(long at) {
    char name[600], file[900];
    snprintf(name, sizeof name, "%s/f4e750bb14374fbf87858d3580c34994", folder);
    DIR *all = opendir(name);
    CHECK(all != NULL);
    for (struct dirent *entry; all && (entry = readdir(all));) {
        if (entry->d_name[0] == '.') continue;
        snprintf(file, sizeof file, "%s/%s", name, entry->d_name);
        FILE *of = fopen(file, "r+");
        fseek(of, at, SEEK_SET);
        int byte = fgetc(of);
        fseek(of, at, SEEK_SET), fputc(byte ^ 1, of), fclose(of);
    }
    if (all) closedir(all);
}

static TEEC_Result reads(const char *key, const char *wanted) {
    TEEC_Context ctx;
    char data[9000];
    size_t size = sizeof data;
    CHECK(TEEC_InitializeContext(with_files(folder, key), &ctx) == TEEC_SUCCESS);
    TEEC_Session session = opened(&ctx, STORAGE);
    TEEC_Result result = storage(&session, 0, "name", data, &size);
    CHECK(origin == APP);
    if (result == TEEC_SUCCESS) CHECK(size == 8000 && memcmp(data, wanted, size) == 0);
    TEEC_FinalizeContext(&ctx);
    return result;
}

/* A folder that can't be made is told as the context is begun; one whose own folder goes then is no place for an object. */
static void without_folder(void) {
    TEEC_Context ctx;
    char above[] = "/tmp/teec_above_XXXXXX", inside[100], data[8] = "bytes";
    size_t size = sizeof data;
    CHECK(TEEC_InitializeContext(with_files("/nowhere/at/all", NULL), &ctx) == TEEC_ERROR_BAD_FORMAT);
    CHECK(mkdtemp(above) != NULL), snprintf(inside, sizeof inside, "%s/objects", above);
    CHECK(TEEC_InitializeContext(with_files(inside, NULL), &ctx) == TEEC_SUCCESS);
    CHECK(rmdir(above) == 0);
    TEEC_Session session = opened(&ctx, STORAGE);
    CHECK(storage(&session, 1, "name", data, &size) != TEEC_SUCCESS && origin == APP);
    TEEC_FinalizeContext(&ctx);
}

static void in_folder(void) {
    static const char other[] = "ffff02030405060708090a0b0c0d0e0f101112131415161718191a1b1c1d1e1f";
    TEEC_Context ctx;
    char data[8000];
    size_t size = sizeof data;
    for (size_t i = 0; i < size; i++) data[i] = (char)(i * 3);
    CHECK(TEEC_InitializeContext(with_files(folder, NULL), &ctx) == TEEC_SUCCESS);
    TEEC_Session session = opened(&ctx, STORAGE);
    CHECK(storage(&session, 1, "name", data, &size) == TEEC_SUCCESS && storage(&session, 1, "name", data, &size) == TEEC_SUCCESS);
    CHECK(storage(&session, 2, "none", NULL, NULL) == TEEC_ERROR_ITEM_NOT_FOUND && origin == APP);
    CHECK(storage(&session, 1, "", data, &size) == TEEC_ERROR_BAD_PARAMETERS);
    TEEC_FinalizeContext(&ctx);
    CHECK(reads(NULL, data) == TEEC_SUCCESS);
    turn(4000), CHECK(reads(NULL, data) == 0xF0100001);
    turn(4000), CHECK(reads(NULL, data) == TEEC_SUCCESS);
    CHECK(reads(other, data) == 0xF0100001);
    CHECK(TEEC_InitializeContext(with_files(folder, NULL), &ctx) == TEEC_SUCCESS);
    session = opened(&ctx, STORAGE);
    CHECK(storage(&session, 2, "name", NULL, NULL) == TEEC_SUCCESS);
    TEEC_FinalizeContext(&ctx);
    CHECK(reads(NULL, data) == TEEC_ERROR_ITEM_NOT_FOUND);
    without_folder();
}

/* Two contexts of one description have one core: its files and its single instances. */
static void shared(void) {
    TEEC_Context first, second;
    TEEC_Operation op = operation(TEEC_VALUE_OUTPUT, 0, 0, 0);
    char data[100] = "text";
    size_t size = 5;
    CHECK(TEEC_InitializeContext(NULL, &first) == TEEC_SUCCESS && TEEC_InitializeContext(NULL, &second) == TEEC_SUCCESS);
    TEEC_Session one = opened(&first, TURNSTILE), two = opened(&second, TURNSTILE);
    TEEC_Session keep = opened(&first, STORAGE), get = opened(&second, STORAGE);
    CHECK(TEEC_InvokeCommand(&one, 0, &op, &origin) == TEEC_SUCCESS && op.params[0].value.a == 1);
    CHECK(TEEC_InvokeCommand(&two, 0, &op, &origin) == TEEC_SUCCESS && op.params[0].value.a == 2);
    CHECK(storage(&keep, 1, "name", data, &size) == TEEC_SUCCESS);
    TEEC_FinalizeContext(&first);
    size = sizeof data;
    CHECK(storage(&get, 0, "name", data, &size) == TEEC_SUCCESS && size == 5 && strcmp(data, "text") == 0);
    CHECK(TEEC_InvokeCommand(&two, 0, &op, &origin) == TEEC_SUCCESS && op.params[0].value.a == 3);
    TEEC_FinalizeContext(&second);
}

/* What a context leaves open it closes, in a core that others go on with: 64 sessions, and half of the RAM. */
static void left_open(void) {
    TEEC_Context stays, goes;
    CHECK(TEEC_InitializeContext(NULL, &stays) == TEEC_SUCCESS);
    for (int round = 0; round < 3; round++) {
        TEEC_SharedMemory memory = {.size = 2 << 20, .flags = TEEC_MEM_INPUT};
        CHECK(TEEC_InitializeContext(NULL, &goes) == TEEC_SUCCESS);
        for (int i = 0; i < 64; i++) opened(&goes, COPY);
        CHECK(TEEC_AllocateSharedMemory(&goes, &memory) == TEEC_SUCCESS);
        TEEC_FinalizeContext(&goes);
    }
    TEEC_FinalizeContext(&stays);
}

static TEEC_Session alone;
static TEEC_Operation waiting;

static void *waits(void *of) {
    *(TEEC_Result *)of = TEEC_InvokeCommand(&alone, 400, &waiting, NULL);
    return NULL;
}

/* The only slot is the call's that is to be cancelled: it waits on, and all others behind it. */
static void one_thread(void) {
    TEEC_Context ctx;
    TEEC_Result result = TEEC_ERROR_GENERIC;
    pthread_t thread;
    CHECK(TEEC_InitializeContext(described((const char *[]){"boot 1 1 16", NULL}), &ctx) == TEEC_SUCCESS);
    alone = opened(&ctx, WAIT);
    TEEC_Session hello = opened(&ctx, HELLO);
    waiting = operation(0, 0, 0, 0);
    double begin = now();
    pthread_create(&thread, NULL, waits, &result);
    while (__atomic_load_n(&waiting.started, __ATOMIC_RELAXED) == 0) usleep(1000);
    usleep(100000);
    TEEC_RequestCancellation(&waiting);
    TEEC_Operation op = operation(TEEC_VALUE_INOUT, 0, 0, 0);
    CHECK(TEEC_InvokeCommand(&hello, 0, &op, &origin) == TEEC_SUCCESS);
    CHECK(now() - begin > 0.39);
    pthread_join(thread, NULL);
    CHECK(result == TEEC_SUCCESS);
    TEEC_FinalizeContext(&ctx);
}

int main(void) {
    CHECK(mkdtemp(folder) != NULL);
    in_folder(), shared(), left_open(), one_thread();
    char inner[100];
    snprintf(inner, sizeof inner, "%s/f4e750bb14374fbf87858d3580c34994", folder);
    CHECK(rmdir(inner) == 0 && rmdir(folder) == 0 && unlink(described_path) == 0);
    return ended("files");
}

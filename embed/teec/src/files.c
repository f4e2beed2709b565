/* Files by the requests of applications. */
#include "files.h"

#include <errno.h>
#include <fcntl.h>
#include <limits.h>
#include <stdio.h>
#include <stdlib.h>
#include <string.h>
#include <sys/stat.h>
#include <unistd.h>

enum { MOST_FILE_BYTES = 1 << 20, FOLDER_DIGITS = 32 };
static const char digits[] = "0123456789abcdef";

struct file {
    char *name;
    bool is_there; /* in memory */
    uint8_t *bytes;
    size_t length;
};

struct files {
    char *folder;
    struct file *all;
    size_t count;
};

struct files *files_begin(const char *folder) {
    struct files *files = calloc(1, sizeof *files);
    if (files == NULL || folder == NULL) return files;
    files->folder = strdup(folder);
    if (files->folder) return files;
    free(files);
    return NULL;
}

void files_end(struct files *files) {
    if (files == NULL) return;
    for (size_t i = 0; i < files->count; i++) free(files->all[i].name), free(files->all[i].bytes);
    free(files->all), free(files->folder), free(files);
}

/* ---- Names. */

/* A name is 32 digits, a slash and digits: nothing that leads out of the folder. */
static bool is_name(const char *name) {
    if (strspn(name, digits) != FOLDER_DIGITS || name[FOLDER_DIGITS] != '/') return false;
    const char *file = name + FOLDER_DIGITS + 1;
    size_t length = strspn(file, digits);
    return length > 0 && file[length] == 0;
}

/* The file of a name, one that isn't there yet among them, or null for want of memory. */
static struct file *file_named(struct files *files, const char *name) {
    for (size_t i = 0; i < files->count; i++)
        if (strcmp(files->all[i].name, name) == 0) return &files->all[i];
    struct file *all = realloc(files->all, (files->count + 1) * sizeof *all);
    if (all == NULL) return NULL;
    files->all = all;
    all[files->count] = (struct file){.name = strdup(name)};
    return all[files->count].name ? &all[files->count++] : NULL;
}

/* ---- In a folder. */

static TEEC_Result result_of_errno(void) {
    switch (errno) {
    case ENOENT:
        return TEEC_ERROR_ITEM_NOT_FOUND;
    case EEXIST:
        return TEEC_ERROR_ACCESS_CONFLICT;
    case ENOSPC:
    case EDQUOT:
        return TEEC_ERROR_STORAGE_NO_SPACE;
    default:
        return TEEC_ERROR_STORAGE_NOT_AVAILABLE;
    }
}

static bool is_folder(const char *path) {
    return mkdir(path, 0700) == 0 || errno == EEXIST;
}

/* The path of a file in the folder, where there is room for it. */
static bool path_of(const struct files *files, const char *name, char path[PATH_MAX]) {
    return snprintf(path, PATH_MAX, "%s/%s", files->folder, name) < PATH_MAX;
}

/* A descriptor of the host for a file in the folder, or -1 with the cause in errno. With O_CREAT its folders are made. */
static int open_in_folder(const struct files *files, const char *name, int flags) {
    char path[PATH_MAX];
    errno = ENAMETOOLONG;
    if (!path_of(files, name, path)) return -1;
    if (flags & O_CREAT) {
        char *end = strrchr(path, '/');
        *end = 0;
        if (!is_folder(files->folder) || !is_folder(path)) return -1;
        *end = '/';
    }
    return open(path, flags | O_CLOEXEC, 0600);
}

static TEEC_Result open_on_disk(const struct files *files, const char *name, bool is_new) {
    int disk = open_in_folder(files, name, is_new ? O_RDWR | O_CREAT | O_EXCL : O_RDWR);
    if (disk < 0) return result_of_errno();
    close(disk);
    return TEEC_SUCCESS;
}

static TEEC_Result read_on_disk(const struct files *files, const char *name, uint64_t offset, uint8_t *bytes, size_t *length) {
    int disk = open_in_folder(files, name, O_RDONLY);
    if (disk < 0) return result_of_errno();
    ssize_t count = pread(disk, bytes, *length, (off_t)(offset < MOST_FILE_BYTES ? offset : MOST_FILE_BYTES));
    TEEC_Result result = count < 0 ? result_of_errno() : TEEC_SUCCESS;
    close(disk);
    *length = count < 0 ? 0 : (size_t)count;
    return result;
}

static TEEC_Result write_on_disk(const struct files *files, const char *name, uint64_t offset, const uint8_t *bytes, size_t length) {
    int disk = open_in_folder(files, name, O_WRONLY);
    if (disk < 0) return result_of_errno();
    ssize_t count = pwrite(disk, bytes, length, (off_t)offset);
    TEEC_Result result = count < 0 ? result_of_errno() : count == (ssize_t)length ? TEEC_SUCCESS : TEEC_ERROR_STORAGE_NO_SPACE;
    close(disk);
    return result;
}

/* ---- In memory. */

static TEEC_Result read_in_memory(const struct file *file, uint64_t offset, uint8_t *bytes, size_t *length) {
    if (!file->is_there) return TEEC_ERROR_ITEM_NOT_FOUND;
    size_t rest = offset < file->length ? file->length - (size_t)offset : 0;
    if (rest < *length) *length = rest;
    if (*length > 0) memcpy(bytes, file->bytes + offset, *length);
    return TEEC_SUCCESS;
}

static TEEC_Result write_in_memory(struct file *file, uint64_t offset, const uint8_t *bytes, size_t length) {
    size_t end = (size_t)offset + length;
    if (!file->is_there) return TEEC_ERROR_ITEM_NOT_FOUND;
    if (end > file->length) {
        uint8_t *grown = realloc(file->bytes, end);
        if (grown == NULL) return TEEC_ERROR_OUT_OF_MEMORY;
        memset(grown + file->length, 0, end - file->length);
        file->bytes = grown, file->length = end;
    }
    if (length > 0) memcpy(file->bytes + offset, bytes, length);
    return TEEC_SUCCESS;
}

/* ---- Requests. */

TEEC_Result files_open(struct files *files, const char *name, bool is_new, uint64_t *descriptor) {
    if (!is_name(name)) return TEEC_ERROR_BAD_PARAMETERS;
    struct file *file = file_named(files, name);
    if (file == NULL) return TEEC_ERROR_OUT_OF_MEMORY;
    *descriptor = (uint64_t)(file - files->all);
    if (files->folder) return open_on_disk(files, name, is_new);
    if (file->is_there == is_new) return is_new ? TEEC_ERROR_ACCESS_CONFLICT : TEEC_ERROR_ITEM_NOT_FOUND;
    file->is_there = true;
    return TEEC_SUCCESS;
}

TEEC_Result files_read(struct files *files, uint64_t descriptor, uint64_t offset, uint8_t *bytes, size_t *length) {
    if (descriptor >= files->count) return TEEC_ERROR_BAD_PARAMETERS;
    const struct file *file = &files->all[descriptor];
    return files->folder ? read_on_disk(files, file->name, offset, bytes, length) : read_in_memory(file, offset, bytes, length);
}

TEEC_Result files_write(struct files *files, uint64_t descriptor, uint64_t offset, const uint8_t *bytes, size_t length) {
    if (descriptor >= files->count || length > MOST_FILE_BYTES || offset > MOST_FILE_BYTES - length) return TEEC_ERROR_BAD_PARAMETERS;
    struct file *file = &files->all[descriptor];
    return files->folder ? write_on_disk(files, file->name, offset, bytes, length) : write_in_memory(file, offset, bytes, length);
}

TEEC_Result files_remove(struct files *files, const char *name) {
    char path[PATH_MAX];
    if (!is_name(name)) return TEEC_ERROR_BAD_PARAMETERS;
    if (files->folder) {
        if (!path_of(files, name, path)) return TEEC_ERROR_BAD_PARAMETERS;
        return unlink(path) ? result_of_errno() : TEEC_SUCCESS;
    }
    struct file *file = file_named(files, name);
    if (file == NULL) return TEEC_ERROR_OUT_OF_MEMORY;
    if (!file->is_there) return TEEC_ERROR_ITEM_NOT_FOUND;
    free(file->bytes);
    file->is_there = false, file->bytes = NULL, file->length = 0;
    return TEEC_SUCCESS;
}

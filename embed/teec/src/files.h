/* The files that applications keep, in a folder or, where it is null, in memory. */
#ifndef FILES_H
#define FILES_H

#include "tee_client_api.h"

#include <stdbool.h>

struct files;

struct files *files_begin(const char *folder);
void files_end(struct files *files);
/* Opens a file, or makes a new one. A descriptor stands for a name for good, so one that is never closed costs nothing. */
TEEC_Result files_open(struct files *files, const char *name, bool is_new, uint64_t *descriptor);
/* `length` is the room, and becomes how much was read. */
TEEC_Result files_read(struct files *files, uint64_t descriptor, uint64_t offset, uint8_t *bytes, size_t *length);
TEEC_Result files_write(struct files *files, uint64_t descriptor, uint64_t offset, const uint8_t *bytes, size_t length);
TEEC_Result files_remove(struct files *files, const char *name);

#endif

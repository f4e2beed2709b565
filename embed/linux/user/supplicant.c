#include "supplicant.h"
#include "client.h"
#include <dirent.h>
#include <errno.h>
#include <fcntl.h>
#include <stdio.h>
#include <stdlib.h>
#include <string.h>
#include <sys/stat.h>
#include <unistd.h>

/* Of optee_rpc_cmd.h and of docs/formats.md. */
enum { COMMAND_FS = 2 };
enum { FS_OPEN, FS_CREATE, FS_CLOSE, FS_READ, FS_WRITE, FS_REMOVE = 6 };
#define SUCCESS 0u
#define GENERIC 0xffff0000u
#define ACCESS_CONFLICT 0xffff0003u
#define BAD_PARAMETERS 0xffff0006u
#define ITEM_NOT_FOUND 0xffff0008u
#define NOT_SUPPORTED 0xffff000au

enum { DESCRIPTORS = 64, MOST = 5, NAME_ROOM = 200, PATH_ROOM = 600 };
static int descriptors[DESCRIPTORS];  /* the host's, and 1 */

/* ---- Files. A name has a slash, which becomes a dot. */

static void path_of(char *path, const char *folder, const char *name, size_t size)
{
	size_t at = (size_t)snprintf(path, PATH_ROOM, "%s/", folder);

	for (size_t i = 0; i < size && at < PATH_ROOM - 1; i++)
		path[at++] = name[i] == '/' ? '.' : name[i];
	path[at] = 0;
}

long object_file_read(const char *folder, const char *name, unsigned char *bytes, unsigned long room)
{
	char path[PATH_ROOM];
	ssize_t size;
	int file;

	path_of(path, folder, name, strlen(name));
	file = open(path, O_RDONLY);
	if (file < 0)
		return -1;
	size = read(file, bytes, room);
	close(file);
	return size;
}

void object_file_write(const char *folder, const char *name, const unsigned char *bytes, unsigned long size)
{
	char path[PATH_ROOM];
	int file;

	path_of(path, folder, name, strlen(name));
	file = open(path, O_WRONLY | O_CREAT | O_TRUNC, 0600);
	if (file < 0 || write(file, bytes, size) != (ssize_t)size)
		stop("the file %s can't be written", path);
	close(file);
}

int object_file_remove(const char *folder, const char *name)
{
	char path[PATH_ROOM];

	path_of(path, folder, name, strlen(name));
	return unlink(path);
}

/* The folder, empty. */
static void fresh_folder(const char *folder)
{
	DIR *listing;
	struct dirent *entry;
	char path[PATH_ROOM];

	mkdir(folder, 0700);
	listing = opendir(folder);
	if (!listing)
		stop("there is no folder %s", folder);
	while ((entry = readdir(listing)) != NULL) {
		if (entry->d_name[0] == '.')
			continue;
		snprintf(path, sizeof(path), "%s/%s", folder, entry->d_name);
		unlink(path);
	}
	closedir(listing);
}

/* ---- Requests of files */

static uint32_t result_of(int error)
{
	switch (error) {
	case ENOENT:
		return ITEM_NOT_FOUND;
	case EEXIST:
		return ACCESS_CONFLICT;
	default:
		return GENERIC;
	}
}

static uint32_t lend_descriptor(int file, __u64 *number)
{
	for (int i = 0; i < DESCRIPTORS; i++) {
		if (descriptors[i])
			continue;
		descriptors[i] = file + 1;
		*number = (__u64)i;
		return SUCCESS;
	}
	close(file);
	return GENERIC;
}

static int file_of(uint64_t number)
{
	return number < DESCRIPTORS ? descriptors[number] - 1 : -1;
}

static uint32_t open_file(const char *folder, const char *name, size_t size, int flags, __u64 *number)
{
	char path[PATH_ROOM];
	int file;

	path_of(path, folder, name, size);
	file = open(path, flags, 0600);
	return file < 0 ? result_of(errno) : lend_descriptor(file, number);
}

static uint32_t remove_file(const char *folder, const char *name, size_t size)
{
	char path[PATH_ROOM];

	path_of(path, folder, name, size);
	return unlink(path) ? result_of(errno) : SUCCESS;
}

static uint32_t read_file(uint64_t number, uint64_t offset, unsigned char *bytes, __u64 *size)
{
	int file = file_of(number);
	ssize_t n = file < 0 ? -1 : pread(file, bytes, *size, (off_t)offset);

	if (n < 0)
		return BAD_PARAMETERS;
	*size = (__u64)n;
	return SUCCESS;
}

static uint32_t write_file(uint64_t number, uint64_t offset, const unsigned char *bytes, uint64_t size)
{
	int file = file_of(number);

	return file >= 0 && pwrite(file, bytes, size, (off_t)offset) == (ssize_t)size ? SUCCESS : BAD_PARAMETERS;
}

static uint32_t close_file(uint64_t number)
{
	int file = file_of(number);

	if (file < 0)
		return BAD_PARAMETERS;
	close(file);
	descriptors[number] = 0;
	return SUCCESS;
}

/* The bytes of a request, which the memory reference tells by its offset and size in the buffer that was lent. */
static unsigned char *payload_of(const struct tee_ioctl_param *reference, unsigned int id)
{
	unsigned char *buffer = buffer_of_request(id);

	if (!buffer || reference->c != TEE_MEMREF_NULL || reference->a + reference->b > 4096)
		stop("the payload of request %u isn't in its call's buffer", id);
	return buffer + reference->a;
}

static uint32_t serve_file(const char *folder, unsigned int id, struct tee_ioctl_param *p, int count)
{
	unsigned char *payload = count > 1 ? payload_of(p + 1, id) : NULL;

	switch (p[0].a) {
	case FS_OPEN:
		return open_file(folder, (char *)payload, p[1].b, O_RDWR, &p[2].a);
	case FS_CREATE:
		return open_file(folder, (char *)payload, p[1].b, O_RDWR | O_CREAT | O_EXCL, &p[2].a);
	case FS_CLOSE:
		return close_file(p[0].b);
	case FS_READ:
		return read_file(p[0].b, p[0].c, payload, &p[1].b);
	case FS_WRITE:
		return write_file(p[0].b, p[0].c, payload, p[1].b);
	case FS_REMOVE:
		return remove_file(folder, (char *)payload, p[1].b);
	default:
		return NOT_SUPPORTED;
	}
}

/* ---- The two ioctls */

struct message {
	uint32_t code, count;    /* the function of a request, the result of an answer */
	struct tee_ioctl_param parameters[MOST];
};

static long receive(int file, struct message *message, int without_numbers)
{
	memset(message, 0, sizeof(*message));
	message->count = MOST;
	if (!without_numbers)
		message->parameters[0].attr = TEE_IOCTL_PARAM_ATTR_META;
	return buffer_ioctl(file, TEE_IOC_SUPPL_RECV, message, sizeof(*message));
}

static long answer(int file, struct message *message)
{
	unsigned long size = sizeof(*message) - sizeof(message->parameters);

	return buffer_ioctl(file, TEE_IOC_SUPPL_SEND, message, size + message->count * sizeof(*message->parameters));
}

static void serve(struct supplicant *supplicant, struct message *message)
{
	int meta = !supplicant->without_numbers;
	unsigned int id = meta ? (unsigned int)message->parameters[0].a : 1;
	struct tee_ioctl_param *p = message->parameters + meta;
	int count = (int)message->count - meta;

	message->code = message->code == COMMAND_FS ? serve_file(supplicant->folder, id, p, count) : NOT_SUPPORTED;
}

static void serve_all(struct supplicant *supplicant, int file)
{
	while (supplicant->takes) {
		struct message message;

		supplicant->last_error = receive(file, &message, supplicant->without_numbers);
		if (supplicant->last_error)
			return;
		if (supplicant->keeps-- > 0)
			continue;
		serve(supplicant, &message);
		supplicant->last_error = answer(file, &message);
		if (supplicant->last_error)
			return;
		supplicant->answered++;
		if (supplicant->takes > 0)
			supplicant->takes--;
	}
}

static void live(void *argument)
{
	struct supplicant *supplicant = argument;
	int file = user_open("teepriv0");

	supplicant->ready = 1;
	if (file < 0) {
		supplicant->open_error = file;
	} else {
		serve_all(supplicant, file);
		user_close(file);
	}
	supplicant->ended = 1;
}

void supplicant_launch(struct supplicant *supplicant)
{
	supplicant->ready = supplicant->ended = 0;
	supplicant->task = task_start("supplicant", live, supplicant);
}

void supplicant_start(struct supplicant *supplicant, const char *folder)
{
	memset(supplicant, 0, sizeof(*supplicant));
	supplicant->folder = folder;
	supplicant->takes = -1;
	fresh_folder(folder);
	supplicant_launch(supplicant);
	task_until_waits(supplicant->task, "interruptible completion");
}

void supplicant_stop(struct supplicant *supplicant)
{
	task_signal(supplicant->task, SIGNAL_INTERRUPT);
	task_join(supplicant->task);
	supplicant->task = NULL;
}

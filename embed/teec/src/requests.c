/* What calls ask for: files, the time, sleeps, wakes and waits. Each request lies in the area of its call, behind its argument, and its
 * bytes in the page that is lent to its slot. */
#include "core.h"

#include <string.h>

/* Requests, those of files, and where the bytes of one of these stand in its buffer (optee_msg.h, optee_rpc_cmd.h). */
enum { REQUEST_FS = 2, REQUEST_TIME = 3, REQUEST_NOTIFICATION = 4, REQUEST_SUSPEND = 5 };
enum { FS_OPEN = 0, FS_CREATE = 1, FS_CLOSE = 2, FS_READ = 3, FS_WRITE = 4, FS_REMOVE = 6 };
enum { PAYLOAD_AT = 512, MOST_PAYLOAD = PAGE - PAYLOAD_AT, NAME_ROOM = 256 };

size_t argument_bytes(const struct call *call) {
    return HEAD_BYTES + call->argument.count * PARAMETER_BYTES;
}

uint32_t core_lent(const struct core *core, uint32_t slot) {
    return core->lent + slot * PAGE;
}

/* ---- Files. */

/* A request of files: its bytes stand at `payload`, at most so many. */
struct file_request {
    struct core *core;
    struct argument *request;
    uint32_t payload;
    size_t length;
};

/* Reads a name; one that is too long is none. */
static bool read_name(const struct file_request *of, char name[NAME_ROOM]) {
    size_t length = of->length < NAME_ROOM ? of->length : 0;
    name[length] = 0;
    return core_reads(of->core, of->payload, name, length);
}

static bool serve_open(const struct file_request *of, bool is_new) {
    char name[NAME_ROOM];
    if (!read_name(of, name)) return false;
    of->request->ret = files_open(of->core->files, name, is_new, &of->request->parameters[2].p);
    return true;
}

static bool serve_read(const struct file_request *of) {
    uint8_t bytes[MOST_PAYLOAD];
    size_t length = of->length;
    of->request->ret = files_read(of->core->files, of->request->parameters[0].q, of->request->parameters[0].s, bytes, &length);
    if (of->request->ret != TEEC_SUCCESS) length = 0;
    of->request->parameters[1].q = length;
    return core_writes(of->core, of->payload, bytes, length);
}

static bool serve_write(const struct file_request *of) {
    uint8_t bytes[MOST_PAYLOAD];
    if (!core_reads(of->core, of->payload, bytes, of->length)) return false;
    of->request->ret = files_write(of->core->files, of->request->parameters[0].q, of->request->parameters[0].s, bytes, of->length);
    return true;
}

static bool serve_remove(const struct file_request *of) {
    char name[NAME_ROOM];
    if (!read_name(of, name)) return false;
    of->request->ret = files_remove(of->core->files, name);
    return true;
}

static bool serve_files(struct core *core, struct argument *request, uint32_t slot) {
    uint64_t length = request->parameters[1].q;
    struct file_request of = {core, request, core_lent(core, slot) + PAYLOAD_AT, length <= MOST_PAYLOAD ? (size_t)length : 0};
    switch (request->parameters[0].p) {
    case FS_OPEN:
        return serve_open(&of, false);
    case FS_CREATE:
        return serve_open(&of, true);
    case FS_READ:
        return serve_read(&of);
    case FS_WRITE:
        return serve_write(&of);
    case FS_REMOVE:
        return serve_remove(&of);
    case FS_CLOSE: /* a descriptor stays */
        request->ret = TEEC_SUCCESS;
        return true;
    default:
        request->ret = TEEC_ERROR_NOT_SUPPORTED;
        return true;
    }
}

/* ---- The other requests. */

static bool serve_time(const struct core *core, struct argument *request) {
    struct timespec now = {(time_t)(core->virtual_now / 1000), (long)(core->virtual_now % 1000 * 1000000)};
    if (!core->description.is_virtual) clock_gettime(CLOCK_REALTIME, &now);
    request->ret = TEEC_SUCCESS;
    request->parameters[0].p = (uint64_t)now.tv_sec, request->parameters[0].q = (uint64_t)now.tv_nsec;
    return true;
}

static void serve_notification(struct core *core, struct seat *seat, const struct argument *request) {
    bool is_sleep = request->parameters[0].p == 0;
    if (is_sleep) seat_sleep(core, seat, request->parameters[0].q);
    else core_wake_key(core, request->parameters[0].q);
}

bool core_serves(struct core *core, struct seat *seat, struct live_source *reply) {
    size_t area = argument_bytes(seat->call);
    struct argument *request = &seat->request;
    memcpy(request, seat->shown + area, REQUEST_BYTES);
    bool goes_on = true;
    switch (request->cmd) {
    case REQUEST_FS:
        goes_on = serve_files(core, request, seat->slot);
        break;
    case REQUEST_TIME:
        goes_on = serve_time(core, request);
        break;
    case REQUEST_NOTIFICATION: /* this and the next one are taken as served unless something else is written */
        serve_notification(core, seat, request);
        return !core->is_over;
    case REQUEST_SUSPEND:
        seat_suspend(core, seat, (uint32_t)request->parameters[0].p);
        return !core->is_over;
    default:
        request->ret = TEEC_ERROR_NOT_SUPPORTED;
    }
    *reply = (struct live_source){seat->block + (uint32_t)area + RET_AT, (uint8_t *)request + RET_AT, REQUEST_BYTES - RET_AT};
    return goes_on;
}

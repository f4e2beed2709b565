/* Shared memory: pages of the core's RAM stand for it. Its bytes go in before a call, and come back behind it. */
#include "core.h"

#include <stdlib.h>
#include <string.h>

/* The pages of a list, and behind them the address of the next list (optee_msg.h, OPTEE_MSG_ATTR_NONCONTIG). */
enum { PER_LIST = PAGE / 8 - 1, MOST_LISTS = RAM_PAGES / PER_LIST + 1 };

struct place {
    uint32_t cookie;
    size_t pages;
    uint32_t addresses[];
};

/* Writes the page lists of a place into pages of their own. */
static bool writes_lists(struct core *core, const struct place *place, const uint32_t *lists, size_t count) {
    for (size_t i = 0; i < count; i++) {
        uint64_t list[PER_LIST + 1] = {0};
        for (size_t j = 0; j < PER_LIST && i * PER_LIST + j < place->pages; j++) list[j] = place->addresses[i * PER_LIST + j];
        if (i + 1 < count) list[PER_LIST] = lists[i + 1];
        if (!core_writes(core, lists[i], list, sizeof list)) return false;
    }
    return true;
}

/* Has the core register or unregister a place. */
static TEEC_Result makes_call(struct core *core, struct call *call, uint32_t client, const struct place *place) {
    struct seat seat = {.call = call, .client = client};
    uint32_t origin;
    call->argument.count = 1;
    call->argument.parameters[0].s = place->cookie;
    waiter_begin(&seat.waiter);
    TEEC_Result result = seat_call(core, &seat, &origin);
    waiter_end(&seat.waiter);
    return result;
}

static TEEC_Result registers(struct core *core, const struct shared *shared, uint32_t client) {
    const struct place *place = shared->place;
    struct call call = {.argument = {.cmd = CMD_REGISTER}};
    uint32_t lists[MOST_LISTS];
    size_t count = (place->pages + PER_LIST - 1) / PER_LIST;
    if (!ram_take_any(&core->ram, count, lists)) return TEEC_ERROR_OUT_OF_MEMORY;
    call.argument.parameters[0].attr = (ATTR_TMEM + 1) | ATTR_NONCONTIG;
    call.argument.parameters[0].p = lists[0], call.argument.parameters[0].q = shared->size;
    bool is_written = writes_lists(core, place, lists, count);
    TEEC_Result result = is_written ? makes_call(core, &call, client, place) : TEEC_ERROR_COMMUNICATION;
    for (size_t i = 0; i < count; i++) ram_give(&core->ram, lists[i], 1);
    return result;
}

static void gives_pages(struct core *core, const struct place *place) {
    for (size_t i = 0; i < place->pages; i++) ram_give(&core->ram, place->addresses[i], 1);
}

TEEC_Result shared_begin(struct core *core, struct shared *shared, uint32_t client) {
    size_t pages = (shared->size + PAGE - 1) / PAGE;
    if (core->is_over) return TEEC_ERROR_COMMUNICATION;
    if (pages > RAM_PAGES) return TEEC_ERROR_OUT_OF_MEMORY;
    struct place *place = malloc(sizeof *place + pages * sizeof place->addresses[0]);
    if (place == NULL) return TEEC_ERROR_OUT_OF_MEMORY;
    *place = (struct place){.cookie = ++core->last_cookie, .pages = pages};
    shared->place = place;
    TEEC_Result result = ram_take_any(&core->ram, pages, place->addresses) ? TEEC_SUCCESS : TEEC_ERROR_OUT_OF_MEMORY;
    if (result == TEEC_SUCCESS) {
        result = registers(core, shared, client);
        if (result) gives_pages(core, place);
    }
    if (result) free(place), shared->place = NULL;
    return result;
}

void shared_end(struct core *core, struct shared *shared, uint32_t client) {
    struct place *place = shared->place;
    struct call call = {.argument = {.cmd = CMD_UNREGISTER}};
    call.argument.parameters[0].attr = ATTR_RMEM + 1;
    makes_call(core, &call, client, place);
    gives_pages(core, place);
    free(place);
    shared->place = NULL;
}

uint32_t shared_cookie(const struct shared *shared) {
    return ((const struct place *)shared->place)->cookie;
}

/* How many bytes from this offset on lie one behind the other in RAM, at most so many. */
static size_t run_length(const struct place *place, size_t offset, size_t most) {
    size_t page = offset / PAGE, length = PAGE - offset % PAGE;
    for (; length < most && place->addresses[page + 1] == place->addresses[page] + PAGE; page++) length += PAGE;
    return length < most ? length : most;
}

bool shared_copies(struct core *core, const struct memref *memory, size_t size, bool is_in) {
    const struct place *place = memory->shared->place;
    for (size_t done = 0, part; done < size; done += part) {
        size_t offset = memory->offset + done;
        part = run_length(place, offset, size - done);
        uint32_t address = place->addresses[offset / PAGE] + (uint32_t)(offset % PAGE);
        bool goes_on = is_in ? core_writes(core, address, memory->host + done, part) : core_reads(core, address, memory->host + done, part);
        if (!goes_on) return false;
    }
    return true;
}

/* Calls, from the line for a slot to their end. */
#include "core.h"

#include <string.h>

_Static_assert(__BYTE_ORDER__ == __ORDER_LITTLE_ENDIAN__, "arguments are little-endian");

/* Calls and answers in a0 (optee_smc.h). */
enum { CALL_WITH_RPC_ARG = 0x32000012, RETURN_FROM_RPC = 0x32000003 };
enum { RET_OK = 0 };
#define RPC_ALLOC 0xffff0000u
#define RPC_FREE 0xffff0002u
#define RPC_INTERRUPT 0xffff0004u
#define RPC_CMD 0xffff0005u

/* ---- The block. */

/* Whether the memory of a parameter lies in the block. What is larger than the core takes is only named to it, and refused there. */
static bool is_placed(const struct memref *memory) {
    return memory->host && memory->shared == NULL && memory->size <= MOST_MEMORY;
}

/* Places the memory behind the argument and the area, inputs before outputs. All of the block is read behind each exit where that is
 * little, and else the argument and the request. */
static void lay_out(struct seat *seat) {
    const struct call *call = seat->call;
    seat->block_bytes = argument_bytes(call) + AREA_BYTES;
    for (int is_output = 0; is_output < 2; is_output++)
        for (uint32_t i = 0; i < call->argument.count; i++) {
            const struct memref *memory = &call->memory[i];
            if (!is_placed(memory) || memory->is_in == is_output) continue;
            seat->places[i] = (seat->block_bytes + 7) & ~(size_t)7;
            seat->block_bytes = seat->places[i] + memory->size;
        }
    seat->shown_bytes = seat->block_bytes <= MOST_SHOWN_OF_CALL ? seat->block_bytes : argument_bytes(call) + REQUEST_BYTES;
}

static size_t block_pages(const struct seat *seat) {
    return (seat->block_bytes + PAGE - 1) / PAGE;
}

/* Tells the argument where memory lies. */
static void name_memory(struct seat *seat) {
    for (uint32_t i = 0; i < seat->call->argument.count; i++) {
        const struct memref *memory = &seat->call->memory[i];
        if (memory->shared) seat->call->argument.parameters[i].s = shared_cookie(memory->shared);
        else if (memory->host) seat->call->argument.parameters[i].p = seat->block + (is_placed(memory) ? seat->places[i] : 0);
    }
}

/* What is written before the call enters: its argument, and memory for input in the block. How many pieces these are. */
static size_t gather_inputs(const struct seat *seat, struct live_source sources[1 + CALL_PARAMETERS]) {
    const struct call *call = seat->call;
    size_t count = 0;
    sources[count++] = (struct live_source){seat->block, &call->argument, argument_bytes(call)};
    for (uint32_t i = 0; i < call->argument.count; i++) {
        const struct memref *memory = &call->memory[i];
        if (!is_placed(memory) || !memory->is_in) continue;
        sources[count++] = (struct live_source){seat->block + seat->places[i], memory->host, memory->size};
    }
    return count;
}

static bool writes_shared(struct core *core, const struct call *call) {
    for (uint32_t i = 0; i < call->argument.count; i++) {
        const struct memref *memory = &call->memory[i];
        if (!memory->shared || !memory->is_in || memory->size > MOST_MEMORY) continue;
        if (!shared_copies(core, memory, memory->size, true)) return false;
    }
    return true;
}

/* Takes what the argument tells of the end. The rest of it is the call's own, whatever stands in RAM. */
static void take_argument(struct seat *seat) {
    struct argument shown, *own = &seat->call->argument;
    memcpy(&shown, seat->shown, argument_bytes(seat->call));
    own->session = own->cmd == CMD_OPEN ? shown.session : own->session;
    own->ret = shown.ret, own->origin = shown.origin;
    for (uint32_t i = 0; i < own->count; i++) own->parameters[i].p = shown.parameters[i].p, own->parameters[i].q = shown.parameters[i].q;
}

/* Takes so many bytes of a parameter's memory. */
static bool takes_memory(struct core *core, const struct seat *seat, uint32_t i, size_t size) {
    const struct memref *memory = &seat->call->memory[i];
    if (memory->shared) return shared_copies(core, memory, size, false);
    if (seat->places[i] + size > seat->shown_bytes) return core_reads(core, seat->block + (uint32_t)seat->places[i], memory->host, size);
    if (size > 0) memcpy(memory->host, seat->shown + seat->places[i], size);
    return true;
}

/* Takes the memory that the application has put out, which is that within its sizes. A size that tells of a short buffer has none. */
static bool takes_outputs(struct core *core, const struct seat *seat) {
    const struct argument *argument = &seat->call->argument;
    for (uint32_t i = 0; i < argument->count && argument->origin == TEEC_ORIGIN_TRUSTED_APP; i++) {
        const struct memref *memory = &seat->call->memory[i];
        uint64_t size = argument->parameters[i].q;
        if (memory->host == NULL || !memory->is_out || size > memory->size) continue;
        if (!takes_memory(core, seat, i, (size_t)size)) return false;
    }
    return true;
}

/* ---- Inside. */

/* Serves what a call has asked for, and puts into the turn what it resumes the call with. Says whether the conversation goes on. */
static bool goes_on(struct core *core, struct seat *seat, const uint32_t r[8], struct live_turn *turn, struct live_source *reply) {
    if (r[3] >= core->description.threads) return core_fails(core, "an answer of a thread that there isn't");
    const uint32_t back[8] = {RETURN_FROM_RPC, 0, 0, r[3], 0, 0, 0, seat->client};
    memcpy(turn->a, back, sizeof back);
    seat->slot = r[3];
    *reply = (struct live_source){.length = 0};
    turn->sources = reply, turn->source_count = 1;
    switch (r[0]) {
    case RPC_ALLOC:
        turn->a[2] = core_lent(core, r[3]), turn->a[5] = r[3] + 1;
        return true;
    case RPC_FREE:
        return true;
    case RPC_INTERRUPT:
        turn_yield(core);
        return !core->is_over;
    case RPC_CMD:
        return core_serves(core, seat, reply);
    default:
        return core_fails(core, "an answer that isn't known");
    }
}

/* Enters, and serves what the call asks for up to its end. */
static bool runs(struct core *core, struct seat *seat) {
    struct live_source sources[1 + CALL_PARAMETERS] = {{0}}, reply = {.length = 0};
    struct live_target front = {seat->block, seat->shown, seat->shown_bytes};
    struct live_turn turn = {.steps = core->description.steps,
                             .a = {CALL_WITH_RPC_ARG, 0, seat->block, 0, 0, 0, 0, seat->client},
                             .sources = sources,
                             .source_count = gather_inputs(seat, sources),
                             .targets = &front,
                             .target_count = 1};
    for (;;) {
        struct live_answer answer = live_turn(core->live, &turn);
        if (!core_is_well(core, answer)) return false;
        if (answer.a[0] == RET_OK) return true;
        if (!goes_on(core, seat, answer.a, &turn, &reply)) return false;
    }
}

static TEEC_Result makes_call(struct core *core, struct seat *seat, uint32_t *origin) {
    *origin = TEEC_ORIGIN_COMMS;
    name_memory(seat);
    if (core->is_over || !writes_shared(core, seat->call) || !runs(core, seat)) return TEEC_ERROR_COMMUNICATION;
    take_argument(seat);
    if (!takes_outputs(core, seat)) return TEEC_ERROR_COMMUNICATION;
    *origin = seat->call->argument.origin;
    return seat->call->argument.ret;
}

/* ---- The line for a slot. */

unsigned core_slots(const struct core *core) {
    return core->description.threads > 1 ? core->description.threads - 1 : 1;
}

/* Takes a slot and room in RAM together, so that no call inside waits for room. */
static bool gets_slot(struct core *core, struct seat *seat) {
    if (core->slots == 0) return false;
    seat->block = ram_take(&core->ram, block_pages(seat));
    return seat->block != 0;
}

/* Waits in line. Where nobody is inside, what doesn't fit won't ever. */
static TEEC_Result waits_in_line(struct core *core, struct seat *seat) {
    for (;;) {
        bool is_first = core->line == &seat->waiter;
        if (core->is_over) return TEEC_ERROR_COMMUNICATION;
        if (seat->call->is_cancelled) return TEEC_ERROR_CANCEL;
        if (is_first && gets_slot(core, seat)) return TEEC_SUCCESS;
        if (is_first && core->slots == core_slots(core)) return TEEC_ERROR_OUT_OF_MEMORY;
        turn_sleep(core, &seat->waiter, NULL);
    }
}

static TEEC_Result comes_in(struct core *core, struct seat *seat) {
    waiter_append(&core->line, &seat->waiter);
    TEEC_Result result = waits_in_line(core, seat);
    waiter_remove(&core->line, &seat->waiter);
    turn_wake(core, core->line);
    if (result) return result;
    core->slots--, core->running++;
    seat->is_inside = true, seat->next = core->seats, core->seats = seat;
    return TEEC_SUCCESS;
}

static void goes_out(struct core *core, struct seat *seat) {
    struct seat **at = &core->seats;
    while (*at != seat) at = &(*at)->next;
    *at = seat->next;
    ram_give(&core->ram, seat->block, block_pages(seat));
    seat->is_inside = false;
    core->slots++, core->running--;
    turn_wake(core, core->line);
    core_advance(core);
}

TEEC_Result seat_call(struct core *core, struct seat *seat, uint32_t *origin) {
    lay_out(seat);
    TEEC_Result result = comes_in(core, seat);
    *origin = result == TEEC_ERROR_COMMUNICATION ? TEEC_ORIGIN_COMMS : TEEC_ORIGIN_API;
    if (result) return result;
    result = makes_call(core, seat, origin);
    goes_out(core, seat);
    return result;
}

/* ---- Cancelling. */

/* Whether the call of a slot is known to be masked. What can't unmask is; of the others the core tells it. */
static bool is_masked(const struct core *core, const struct live_state *state, const struct live_slot *slot) {
    if (slot->phase != LIVE_ASKS || slot->is_masked) return true;
    for (unsigned i = 0; i < state->instance_count; i++) {
        if (state->instances[i].number != slot->instance) continue;
        const struct described_application *application = description_application(&core->description, state->instances[i].uuid);
        return application == NULL || !application->can_unmask;
    }
    return true;
}

/* Ends the wait of a call that was cancelled and can see it. */
static void end_wait(struct core *core, struct seat *seat) {
    struct live_state state;
    if (!seat->waits || !core_is_well(core, live_state(core->live, &state))) return;
    if (seat->slot < state.slot_count && !is_masked(core, &state, &state.slots[seat->slot])) seat_wake(core, seat);
}

void seat_cancel(struct core *core, struct seat *seat) {
    const struct argument *argument = &seat->call->argument;
    struct argument cancel = {.cmd = CMD_CANCEL, .session = argument->session, .cancel_id = argument->cancel_id};
    struct live_source source = {core->cancel_place, &cancel, HEAD_BYTES};
    struct live_turn turn = {.steps = core->description.steps,
                             .a = {CALL_WITH_RPC_ARG, 0, core->cancel_place, 0, 0, 0, 0, seat->client},
                             .sources = &source,
                             .source_count = 1};
    if (!seat->is_inside) turn_wake(core, &seat->waiter);
    /* The core knows a call by its session, which an open doesn't have yet. */
    if (!seat->is_inside || core->is_over || argument->cmd != CMD_INVOKE) return;
    struct live_answer answer = live_turn(core->live, &turn);
    /* With one thread it is ETHREAD_LIMIT: the call that is to be cancelled has the only slot. */
    if (core_is_well(core, answer) && answer.a[0] == RET_OK) end_wait(core, seat);
}

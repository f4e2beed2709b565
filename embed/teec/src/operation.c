/* The parameters of an operation, as those of a call. */
#include "operation.h"

struct finding {
    find_shared *find;
    void *of;
};

static bool takes_temporary(struct call *call, uint32_t i, uint32_t type, const TEEC_TempMemoryReference *reference) {
    if (reference->buffer == NULL && reference->size > 0) return false;
    call->argument.parameters[i].attr = type - TEEC_MEMREF_TEMP_INPUT + ATTR_TMEM;
    call->argument.parameters[i].q = reference->size;
    call->memory[i] = (struct memref){.host = reference->buffer,
                                      .size = reference->size,
                                      .is_in = type != TEEC_MEMREF_TEMP_OUTPUT,
                                      .is_out = type != TEEC_MEMREF_TEMP_INPUT};
    return true;
}

/* Which part of a block a reference names, by its type: flags, offset and size. */
struct part {
    uint32_t flags;
    size_t offset, size;
};

static struct part part_of(const struct shared *shared, uint32_t type, const TEEC_RegisteredMemoryReference *reference) {
    if (type == TEEC_MEMREF_WHOLE) return (struct part){shared->flags, 0, shared->size};
    return (struct part){type - TEEC_MEMREF_PARTIAL_INPUT + TEEC_MEM_INPUT, reference->offset, reference->size};
}

static bool takes_shared(struct call *call, uint32_t i, uint32_t type, const TEEC_RegisteredMemoryReference *reference,
                         const struct finding *finding) {
    struct shared *shared = reference->parent ? finding->find(finding->of, reference->parent->imp.number) : NULL;
    if (shared == NULL) return false;
    struct part part = part_of(shared, type, reference);
    if (part.flags & ~shared->flags || part.offset > shared->size || part.size > shared->size - part.offset) return false;
    /* A block of no bytes is known to nobody below; the null reference stands for it. */
    bool is_null = shared->size == 0;
    call->argument.parameters[i].attr = (is_null ? ATTR_TMEM : ATTR_RMEM) + part.flags - TEEC_MEM_INPUT;
    call->argument.parameters[i].p = part.offset, call->argument.parameters[i].q = part.size;
    call->memory[i] = (struct memref){.is_out = part.flags & TEEC_MEM_OUTPUT};
    if (is_null) return true;
    call->memory[i] = (struct memref){.host = shared->host + part.offset,
                                      .size = part.size,
                                      .is_in = part.flags & TEEC_MEM_INPUT,
                                      .is_out = part.flags & TEEC_MEM_OUTPUT,
                                      .shared = shared,
                                      .offset = part.offset};
    shared->users++;
    return true;
}

static bool takes_parameter(struct call *call, uint32_t i, uint32_t type, const TEEC_Parameter *parameter, const struct finding *finding) {
    switch (type) {
    case TEEC_NONE:
        return true;
    case TEEC_VALUE_INPUT:
    case TEEC_VALUE_INOUT:
        call->argument.parameters[i].p = parameter->value.a, call->argument.parameters[i].q = parameter->value.b;
        call->argument.parameters[i].attr = type;
        return true;
    case TEEC_VALUE_OUTPUT:
        call->argument.parameters[i].attr = type;
        return true;
    case TEEC_MEMREF_TEMP_INPUT:
    case TEEC_MEMREF_TEMP_OUTPUT:
    case TEEC_MEMREF_TEMP_INOUT:
        return takes_temporary(call, i, type, &parameter->tmpref);
    case TEEC_MEMREF_WHOLE:
    case TEEC_MEMREF_PARTIAL_INPUT:
    case TEEC_MEMREF_PARTIAL_OUTPUT:
    case TEEC_MEMREF_PARTIAL_INOUT:
        return takes_shared(call, i, type, &parameter->memref, finding);
    default:
        return false;
    }
}

bool operation_takes(struct call *call, const TEEC_Operation *operation, find_shared *find, void *of) {
    const struct finding finding = {find, of};
    uint32_t first = call->argument.count;
    for (uint32_t i = 0; operation && i < TEEC_CONFIG_PAYLOAD_REF_COUNT; i++) {
        uint32_t type = TEEC_PARAM_TYPE_GET(operation->paramTypes, i);
        if (!takes_parameter(call, first + i, type, &operation->params[i], &finding)) return false;
        if (type != TEEC_NONE) call->argument.count = first + i + 1;
    }
    return true;
}

void operation_gives(struct call *call) {
    for (int i = 0; i < CALL_PARAMETERS; i++)
        if (call->memory[i].shared) call->memory[i].shared->users--;
}

void operation_told(const struct call *call, uint32_t first, TEEC_Operation *operation) {
    for (uint32_t i = first; i < call->argument.count; i++) {
        TEEC_Parameter *parameter = &operation->params[i - first];
        uint64_t p = call->argument.parameters[i].p, q = call->argument.parameters[i].q;
        switch (TEEC_PARAM_TYPE_GET(operation->paramTypes, i - first)) {
        case TEEC_VALUE_OUTPUT:
        case TEEC_VALUE_INOUT:
            parameter->value.a = (uint32_t)p, parameter->value.b = (uint32_t)q;
            break;
        case TEEC_MEMREF_TEMP_OUTPUT:
        case TEEC_MEMREF_TEMP_INOUT:
            parameter->tmpref.size = (size_t)q;
            break;
        case TEEC_MEMREF_WHOLE:
            if (call->memory[i].is_out) parameter->memref.size = (size_t)q;
            break;
        case TEEC_MEMREF_PARTIAL_OUTPUT:
        case TEEC_MEMREF_PARTIAL_INOUT:
            parameter->memref.size = (size_t)q;
            break;
        }
    }
}

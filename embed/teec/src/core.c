/* Kept cores, and what they serve contexts with. */
#include "core.h"

#include <errno.h>
#include <stdlib.h>
#include <string.h>

/* A context is a client of its core, by its number: sessions and cancels are kept apart there. */
struct tee {
    struct core *core;
    uint32_t client;
};

/* The cores of this process. Who has the mutex may take the turn of a core, and not the other way round. */
static pthread_mutex_t cores_mutex = PTHREAD_MUTEX_INITIALIZER;
static struct core *cores;

/* ---- Begin and end. */

static const char *program_of(const struct core *core) {
    const char *program = getenv("TULGEXAR_LIVE");
    if (program && *program) return program;
    return core->description.program ? core->description.program : "optee_live";
}

static void say_refusal(const struct core *core, struct live_answer answer) {
    const struct described_application *application = &core->description.applications[answer.application];
    if (answer.end != LIVE_BAD) SAY("%s: the core's program, %s, has ended, or hasn't answered in time", core->name, program_of(core));
    else if (answer.part == LIVE_OF_APPLICATION)
        SAY("%s:%d: the core refuses application %s: bad %s", core->name, application->line, application->uuid, answer.kind);
    else SAY("%s: the core refuses its boot: bad %s", core->name, answer.kind);
}

static struct live_answer boots_with(struct core *core, unsigned options) {
    struct live_application applications[MOST_APPLICATIONS];
    const struct description *of = &core->description;
    for (size_t i = 0; i < of->application_count; i++)
        applications[i] = (struct live_application){of->applications[i].uuid, of->applications[i].image};
    struct live_core kept = {of->cpus, of->threads, of->frames, applications, of->application_count, of->has_key ? of->key : NULL, options};
    return live_boot(core->live, &kept);
}

static TEEC_Result boots(struct core *core) {
    struct live_answer answer = boots_with(core, core->description.has_history ? 0 : LIVE_HISTORY_OFF);
    if (answer.end == LIVE_BAD && answer.part == LIVE_OF_OPTIONS) {
        SAY("%s: the core's program is an older one: it keeps its history, and reads at most 2^28 bytes in its life", core->name);
        answer = boots_with(core, 0);
    }
    if (answer.end == LIVE_OK) return TEEC_SUCCESS;
    say_refusal(core, answer);
    return answer.end == LIVE_BAD ? TEEC_ERROR_BAD_FORMAT : TEEC_ERROR_COMMUNICATION;
}

static TEEC_Result starts(struct core *core) {
    core->files = files_begin(core->description.files);
    if (core->files == NULL) return TEEC_ERROR_OUT_OF_MEMORY;
    core->live = live_open(program_of(core));
    if (core->live == NULL) {
        SAY("%s: %s", program_of(core), strerror(errno));
        return errno == ENOMEM ? TEEC_ERROR_OUT_OF_MEMORY : TEEC_ERROR_ITEM_NOT_FOUND;
    }
    live_limit(core->live, core_third(core));
    core->lent = ram_take(&core->ram, core->description.threads), core->cancel_place = ram_take(&core->ram, 1);
    core->slots = core_slots(core);
    return boots(core);
}

static void ends(struct core *core) {
    if (core->live) live_close(core->live);
    files_end(core->files);
    description_free(&core->description);
    pthread_mutex_destroy(&core->mutex);
    free(core->name), free(core);
}

static TEEC_Result begins(struct core **begun, const char *path) {
    struct core *core = calloc(1, sizeof *core);
    if (core == NULL) return TEEC_ERROR_OUT_OF_MEMORY;
    pthread_mutex_init(&core->mutex, NULL);
    core->name = strdup(path);
    TEEC_Result result = core->name ? description_read(&core->description, path) : TEEC_ERROR_OUT_OF_MEMORY;
    if (result == TEEC_SUCCESS) result = starts(core);
    if (result) ends(core);
    else *begun = core;
    return result;
}

/* ---- Contexts. */

/* The core of this description that is there and well, or null. */
static struct core *core_at(const char *path) {
    for (struct core *core = cores; core; core = core->next) {
        turn_take(core);
        bool is_it = !core->is_over && strcmp(core->name, path) == 0;
        turn_leave(core);
        if (is_it) return core;
    }
    return NULL;
}

/* The path of a description: null stands for that of the environment. */
static char *path_of(const char *name) {
    if (name == NULL) name = getenv("TULGEXAR_BOOT");
    if (name == NULL) {
        SAY("the context has no name, and TULGEXAR_BOOT names no description");
        return NULL;
    }
    char *path = realpath(name, NULL);
    if (path == NULL) SAY("%s: %s", name, strerror(errno));
    return path;
}

static TEEC_Result joins(struct core **core, const char *path) {
    pthread_mutex_lock(&cores_mutex);
    TEEC_Result result = TEEC_SUCCESS;
    *core = core_at(path);
    if (*core == NULL && (result = begins(core, path)) == TEEC_SUCCESS) (*core)->next = cores, cores = *core;
    if (result == TEEC_SUCCESS) (*core)->users++;
    pthread_mutex_unlock(&cores_mutex);
    return result;
}

TEEC_Result tee_begin(struct tee **begun, const char *name, uint32_t context) {
    char *path = path_of(name);
    if (path == NULL) return TEEC_ERROR_ITEM_NOT_FOUND;
    struct tee *tee = calloc(1, sizeof *tee);
    TEEC_Result result = tee ? joins(&tee->core, path) : TEEC_ERROR_OUT_OF_MEMORY;
    free(path);
    if (result) {
        free(tee);
        return result;
    }
    tee->client = context;
    *begun = tee;
    return TEEC_SUCCESS;
}

/* The last context ends the core. */
void tee_end(struct tee *tee) {
    struct core *core = tee->core;
    pthread_mutex_lock(&cores_mutex);
    bool is_last = --core->users == 0;
    if (is_last) {
        struct core **at = &cores;
        while (*at != core) at = &(*at)->next;
        *at = core->next;
        ends(core); /* so that no process is forked meanwhile, which would keep its pipes open */
    }
    pthread_mutex_unlock(&cores_mutex);
    free(tee);
}

/* ---- Calls. */

TEEC_Result tee_call(struct tee *tee, struct call *call, uint32_t *origin) {
    struct seat seat = {.call = call, .client = tee->client};
    waiter_begin(&seat.waiter);
    turn_take(tee->core);
    call->seat = &seat;
    TEEC_Result result = seat_call(tee->core, &seat, origin);
    call->seat = NULL;
    turn_leave(tee->core);
    waiter_end(&seat.waiter);
    return result;
}

void tee_cancel(struct tee *tee, struct call *call) {
    turn_take(tee->core);
    call->is_cancelled = true;
    if (call->seat) seat_cancel(tee->core, call->seat);
    turn_leave(tee->core);
}

TEEC_Result tee_share(struct tee *tee, struct shared *shared) {
    turn_take(tee->core);
    TEEC_Result result = shared_begin(tee->core, shared, tee->client);
    turn_leave(tee->core);
    return result;
}

void tee_unshare(struct tee *tee, struct shared *shared) {
    turn_take(tee->core);
    shared_end(tee->core, shared, tee->client);
    turn_leave(tee->core);
}

void tee_rest(void) {
    nanosleep(&(struct timespec){.tv_nsec = 1000000}, NULL);
}

/* ---- Forks. */

void tee_before_fork(void) {
    pthread_mutex_lock(&cores_mutex);
    for (struct core *core = cores; core; core = core->next) turn_take(core);
}

/* In a child the threads of the parent's calls aren't there, and the conversation is the parent's. */
static void forget(struct core *core) {
    if (core->live) live_forget(core->live);
    core->live = NULL, core->is_over = true;
    core->turns = core->line = NULL, core->seats = NULL;
    memset(core->sleepers, 0, sizeof core->sleepers);
    core->slots = core_slots(core), core->running = 0;
    pthread_mutex_init(&core->mutex, NULL);
    core->is_taken = false;
}

void tee_behind_fork(bool is_child) {
    for (struct core *core = cores; core; core = core->next) {
        if (is_child) forget(core);
        else turn_leave(core);
    }
    pthread_mutex_unlock(&cores_mutex);
}

/* Calls that wait, for the time and for each other, and calls that are cancelled. */
#include "test.h"

enum { MOST = 12 };

static TEEC_Context ctx;

struct job {
    pthread_t thread;
    TEEC_Session *session;
    TEEC_Operation operation;
    uint32_t function, origin;
    TEEC_Result result;
    double seconds;
};

static void *invokes(void *of) {
    struct job *job = of;
    double begin = now();
    job->result = TEEC_InvokeCommand(job->session, job->function, &job->operation, &job->origin);
    job->seconds = now() - begin;
    return NULL;
}

/* Starts a job, and waits until its operation has begun. */
static void begin_job(struct job *job) {
    pthread_create(&job->thread, NULL, invokes, job);
    while (__atomic_load_n(&job->operation.started, __ATOMIC_RELAXED) == 0) usleep(1000);
}

static void start(struct job *job, TEEC_Session *session, uint32_t function, uint32_t type) {
    job->session = session, job->function = function, job->operation = operation(type, TEEC_NONE, TEEC_NONE, TEEC_NONE);
    begin_job(job);
}

static void wanted(struct job *job, TEEC_Result result, uint32_t origin, double least, double most) {
    pthread_join(job->thread, NULL);
    CHECK(job->result == result && job->origin == origin);
    CHECK(job->seconds >= least && job->seconds <= most);
    if (job->result != result || job->origin != origin || job->seconds < least || job->seconds > most)
        printf("   came %08x of %u in %.3f s\n", job->result, job->origin, job->seconds);
}

/* In its wait, where it is unmasked; and where it never is it waits on. */
static void cancel_in_a_wait(void) {
    TEEC_Session wait = opened(&ctx, WAIT), masked = opened(&ctx, MASKED);
    struct job job;
    start(&job, &wait, 600000, TEEC_NONE);
    usleep(100000);
    TEEC_RequestCancellation(&job.operation);
    wanted(&job, TEEC_ERROR_CANCEL, APP, 0, 5);
    start(&job, &masked, 400, TEEC_NONE);
    usleep(100000);
    TEEC_RequestCancellation(&job.operation);
    wanted(&job, TEEC_SUCCESS, APP, 0.39, 3);
    TEEC_CloseSession(&wait), TEEC_CloseSession(&masked);
}

/* Before it has begun, and behind its end, where the operation can be used again. */
static void cancel_outside(void) {
    TEEC_Session wait = opened(&ctx, WAIT);
    struct job job = {.session = &wait, .function = 1, .operation = operation(TEEC_NONE, TEEC_NONE, TEEC_NONE, TEEC_NONE)};
    TEEC_RequestCancellation(&job.operation);
    invokes(&job);
    CHECK(job.result == TEEC_ERROR_CANCEL && job.origin == API);
    for (int i = 0; i < 2; i++) {
        invokes(&job);
        CHECK(job.result == TEEC_SUCCESS);
        TEEC_RequestCancellation(&job.operation);
    }
    TEEC_CloseSession(&wait);
}

/* In the line for a slot, while three have the slots. */
static void cancel_in_line(void) {
    TEEC_Session waits[4];
    struct job jobs[4];
    for (int i = 0; i < 4; i++) waits[i] = opened(&ctx, WAIT);
    for (int i = 0; i < 3; i++) start(&jobs[i], &waits[i], 600000, TEEC_NONE);
    usleep(100000);
    start(&jobs[3], &waits[3], 600000, TEEC_NONE);
    usleep(100000);
    TEEC_RequestCancellation(&jobs[3].operation);
    wanted(&jobs[3], TEEC_ERROR_CANCEL, API, 0, 5);
    for (int i = 0; i < 3; i++) TEEC_RequestCancellation(&jobs[i].operation), wanted(&jobs[i], TEEC_ERROR_CANCEL, APP, 0, 5);
    for (int i = 0; i < 4; i++) TEEC_CloseSession(&waits[i]);
}

/* One of two calls of a session. Where the first one is meant, the other goes on when it has its instance; where the second one is, which
 * waits for the instance, it sees the cancel when it begins. */
static void cancel_one_of_two(void) {
    TEEC_Session turnstile = opened(&ctx, TURNSTILE);
    struct job jobs[2];
    start(&jobs[0], &turnstile, 600000, TEEC_VALUE_OUTPUT);
    usleep(100000);
    start(&jobs[1], &turnstile, 100, TEEC_VALUE_OUTPUT);
    usleep(100000);
    TEEC_RequestCancellation(&jobs[0].operation);
    wanted(&jobs[0], TEEC_ERROR_CANCEL, APP, 0, 5);
    wanted(&jobs[1], TEEC_SUCCESS, APP, 0.09, 5);
    CHECK(jobs[1].operation.params[0].value.a == 1);
    start(&jobs[0], &turnstile, 1000, TEEC_VALUE_OUTPUT);
    usleep(100000);
    start(&jobs[1], &turnstile, 600000, TEEC_VALUE_OUTPUT);
    usleep(100000);
    TEEC_RequestCancellation(&jobs[1].operation);
    wanted(&jobs[0], TEEC_SUCCESS, APP, 0.99, 5);
    wanted(&jobs[1], TEEC_ERROR_CANCEL, APP, 0, 5);
    TEEC_CloseSession(&turnstile);
}

/* Whether the program is one that tells which calls are masked: it came with the line `history off`. */
static bool tells_masks(void) {
    char command[PATH_MAX + 50], said[10] = "";
    snprintf(command, sizeof command, "printf 'history off\n' | \"%s\"", getenv("TULGEXAR_LIVE"));
    FILE *program = popen(command, "r");
    bool is_told = program && fgets(said, sizeof said, program) && strcmp(said, "ok\n") == 0;
    if (program) pclose(program);
    return is_told;
}

/* An application that can unmask: a cancel ends its wait where it has, and not where it is masked then. */
static void masks(void) {
    enum { COUNT_DOWN, COUNT_DOWN_MASKED };
    TEEC_Session countdown = opened(&ctx, COUNTDOWN);
    struct job job;
    for (uint32_t function = COUNT_DOWN; function <= COUNT_DOWN_MASKED; function++) {
        bool is_masked = function == COUNT_DOWN_MASKED;
        job.session = &countdown, job.function = function;
        job.operation = operation(TEEC_VALUE_INOUT, TEEC_NONE, TEEC_NONE, TEEC_NONE);
        job.operation.params[0].value = (TEEC_Value){2, is_masked ? 200 : 600000};
        begin_job(&job);
        usleep(100000);
        TEEC_RequestCancellation(&job.operation);
        wanted(&job, TEEC_ERROR_CANCEL, APP, is_masked && tells_masks() ? 0.39 : 0, 5);
        CHECK(job.operation.params[0].value.a == (is_masked ? 0 : 2));
    }
    TEEC_CloseSession(&countdown);
}

/* More threads than slots, on one instance: they come one after the other. */
static void line(void) {
    struct job jobs[MOST];
    TEEC_Session sessions[MOST];
    uint32_t seen = 0;
    for (int i = 0; i < MOST; i++) sessions[i] = opened(&ctx, TURNSTILE);
    double before = now();
    for (int i = 0; i < MOST; i++) start(&jobs[i], &sessions[i], 20, TEEC_VALUE_OUTPUT);
    for (int i = 0; i < MOST; i++) wanted(&jobs[i], TEEC_SUCCESS, APP, 0.019, 5), seen |= 1u << jobs[i].operation.params[0].value.a;
    CHECK(now() - before > 0.019 * MOST && seen == (2u << MOST) - 2);
    for (int i = 0; i < MOST; i++) TEEC_CloseSession(&sessions[i]);
}

/* A call that works on is interrupted at the end of its grants, and others come in between. */
static void grants(void) {
    TEEC_Session spin = opened(&ctx, SPIN), hello = opened(&ctx, HELLO);
    struct job job, *jobs = &job;
    start(jobs, &spin, 5000000, TEEC_NONE);
    usleep(20000);
    double begin = now(), longest = 0;
    int count = 0;
    for (; count < 10; count++) {
        double before = now();
        TEEC_Operation op = operation(TEEC_VALUE_INOUT, TEEC_NONE, TEEC_NONE, TEEC_NONE);
        CHECK(TEEC_InvokeCommand(&hello, 0, &op, NULL) == TEEC_SUCCESS);
        if (now() - before > longest) longest = now() - before;
    }
    double between = now() - begin;
    wanted(jobs, TEEC_SUCCESS, APP, 0, 60);
    fprintf(stderr, "10,000,000 steps in %.2f s; %d calls meanwhile in %.4f s, the longest %.4f s\n", job.seconds, count, between, longest);
    CHECK(between < job.seconds);
    TEEC_CloseSession(&spin), TEEC_CloseSession(&hello);
}

/* With virtual time hours pass at once, in their order. */
static void virtual_time(void) {
    TEEC_Context context, real = ctx;
    CHECK(TEEC_InitializeContext(described((const char *[]){"clock virtual", NULL}), &context) == TEEC_SUCCESS);
    ctx = context;
    TEEC_Session sessions[6];
    struct job jobs[6];
    double begin = now();
    for (int i = 0; i < 6; i++) sessions[i] = opened(&ctx, CLOCK);
    for (int round = 0; round < 40; round++) {
        for (int i = 0; i < 6; i++) {
            jobs[i].session = &sessions[i], jobs[i].function = 3600000u * (uint32_t)(i + 1);
            jobs[i].operation = operation(TEEC_VALUE_OUTPUT, TEEC_VALUE_OUTPUT, TEEC_NONE, TEEC_NONE);
            pthread_create(&jobs[i].thread, NULL, invokes, &jobs[i]);
        }
        for (int i = 0; i < 6; i++) {
            wanted(&jobs[i], TEEC_SUCCESS, APP, 0, 20);
            TEEC_Parameter *p = jobs[i].operation.params;
            CHECK(p[1].value.a - p[0].value.a == 3600u * (uint32_t)(i + 1) && p[1].value.b == p[0].value.b);
        }
    }
    CHECK(now() - begin < 60);
    TEEC_FinalizeContext(&ctx);
    unlink(described_path);
    ctx = real;
}

/* In virtual time a call that another one wakes goes on before time does: the second of two calls of an instance, of an hour each, ends
 * before a wait of ten hours does. */
static void wakes_in_virtual_time(void) {
    TEEC_Context real = ctx;
    TEEC_Operation op = operation(TEEC_VALUE_OUTPUT, TEEC_VALUE_OUTPUT, TEEC_NONE, TEEC_NONE);
    struct job jobs[4];
    CHECK(TEEC_InitializeContext(described((const char *[]){"clock virtual", "boot 1 6 64", NULL}), &ctx) == TEEC_SUCCESS);
    TEEC_Session one = opened(&ctx, TURNSTILE), other = opened(&ctx, TURNSTILE), clock = opened(&ctx, CLOCK), spin = opened(&ctx, SPIN);
    /* The three come in while another call works on, and time stands. */
    start(&jobs[0], &spin, 30000000, TEEC_NONE);
    usleep(20000);
    jobs[1].session = &clock, jobs[1].function = 36000000, jobs[1].operation = op;
    begin_job(&jobs[1]);
    start(&jobs[2], &one, 3600000, TEEC_VALUE_OUTPUT);
    start(&jobs[3], &other, 3600000, TEEC_VALUE_OUTPUT);
    for (int i = 0; i < 4; i++) wanted(&jobs[i], TEEC_SUCCESS, APP, 0, 60);
    CHECK(TEEC_InvokeCommand(&clock, 0, &op, NULL) == TEEC_SUCCESS);
    CHECK(op.params[0].value.a == 36000);
    TEEC_FinalizeContext(&ctx);
    unlink(described_path);
    ctx = real;
}

int main(void) {
    CHECK(TEEC_InitializeContext(NULL, &ctx) == TEEC_SUCCESS);
    cancel_in_a_wait(), cancel_outside(), cancel_in_line(), cancel_one_of_two(), masks();
    line(), grants(), virtual_time(), wakes_in_virtual_time();
    TEEC_FinalizeContext(&ctx);
    return ended("waits");
}

/* Scenarios: what they are, and what they use. */
#ifndef SCENARIO_H
#define SCENARIO_H

#include "client.h"
#include "supplicant.h"
#include "world.h"
#include <string.h>

struct scenario {
	const char *name;
	const char *shows;
	void (*run)(void);
	/* What the world is made of; 0 is the usual: four threads, sixteen frames, as many steps as a call needs. */
	unsigned int threads, frames, steps, hidden;
	int takes_long;      /* it is played plain, and under one seed alone */
};

/* Each ends with an entry without a name. */
extern const struct scenario probe_scenarios[], session_scenarios[], memory_scenarios[], waiting_scenarios[],
	storage_scenarios[], notification_scenarios[], removal_scenarios[], mixed_scenarios[];

/* Capabilities of the secure world (optee_smc.h). */
enum { CAPABILITY_DYNAMIC = 1 << 2, CAPABILITY_NULL = 1 << 4, CAPABILITY_NOTIFICATION = 1 << 5, CAPABILITY_RPC_ARGUMENT = 1 << 6 };
enum { ALL_CAPABILITIES_HIDDEN = CAPABILITY_NOTIFICATION | CAPABILITY_RPC_ARGUMENT };

/* Calls and answers (optee_smc.h). */
#define ENABLE_SHM_CACHE 0xb200000bu
#define DISABLE_SHM_CACHE 0xb200000au
#define ENABLE_ASYNC_NOTIF 0xb2000010u
#define GET_ASYNC_NOTIF_VALUE 0xb2000011u
#define CALL_WITH_ARG 0x32000004u
#define CALL_WITH_RPC_ARG 0x32000012u
#define CALL_WITH_REGD_ARG 0x32000013u
#define RETURN_FROM_RPC 0x32000003u
#define ETHREAD_LIMIT 1u
#define RPC_ALLOC 0xffff0000u
#define RPC_FREE 0xffff0002u
#define RPC_INTERRUPT 0xffff0004u
#define RPC_CMD 0xffff0005u

/* Results and origins (GlobalPlatform). */
#define SUCCESS 0u
#define CANCEL 0xffff0002u
#define ACCESS_CONFLICT 0xffff0003u
#define BAD_PARAMETERS 0xffff0006u
#define ITEM_NOT_FOUND 0xffff0008u
#define OUT_OF_MEMORY 0xffff000cu
#define BUSY 0xffff000du
#define COMMUNICATION 0xffff000eu
#define SHORT_BUFFER 0xffff0010u
#define TARGET_DEAD 0xffff3024u
#define CORRUPT_OBJECT 0xf0100001u
#define STORAGE_NOT_AVAILABLE 0xf0100003u
enum { ORIGIN_COMMS = 2, ORIGIN_KERNEL = 3, ORIGIN_APPLICATION = 4 };

/* The applications: those of examples/applications, some of them as a single instance too. */
#define ADD "1f000000-0000-4000-8000-000000000001"
#define WAIT "1f000000-0000-4000-8000-000000000002"
#define WAIT_UNMASKED "1f000000-0000-4000-8000-000000000003"
#define PANIC "1f000000-0000-4000-8000-000000000004"
#define MARK "1f000000-0000-4000-8000-000000000005"
#define SIZE "1f000000-0000-4000-8000-000000000006"
#define STORE "1f000000-0000-4000-8000-000000000007"
#define CLOCK "1f000000-0000-4000-8000-000000000008"
#define COUNTER "1f000000-0000-4000-8000-000000000009"
#define COPY "1f000000-0000-4000-8000-00000000000a"
#define ROUNDS "1f000000-0000-4000-8000-00000000000b"
#define LOGIN "1f000000-0000-4000-8000-00000000000c"
#define SHARED_WAIT "1f000000-0000-4000-8000-00000000000d"
#define SHARED_PANIC "1f000000-0000-4000-8000-00000000000e"
#define LONE_MARK "1f000000-0000-4000-8000-00000000000f"
/* The one that Linux asks for devices, and one that there isn't. */
#define DEVICES "7011a688-ddde-4053-a5a9-7b3c4ddf13b8"
#define NOBODY "1f000000-0000-4000-8000-0000000000ff"
#define DIGEST "3f0c7a11-52b8-4d6e-9a40-0e6b5d2c8f01"

/* What has to hold; else the scenario stops. */
#define expect(condition) \
	do { if (!(condition)) stop("%s:%d: not so: %s", __FILE__, __LINE__, #condition); } while (0)
#define expect_is(value, wanted) expect_same(__FILE__, __LINE__, #value, (unsigned long)(value), (unsigned long)(wanted))
void expect_same(const char *file, int line, const char *what, unsigned long value, unsigned long wanted);

/* Both modules are loaded. */
void load_all(void);
/* All files are closed; both modules go, nothing is left, and the log has so many errors. */
void unload_all(unsigned int errors);
/* The same where each error of the log has this text. */
void unload_all_with(const char *error);
/* The driver closes sessions of a context that its page of arguments has kept, behind the end of that page's cache. */
#define AFTER_THE_CACHE "a mutex is used that was destroyed"
/* A file of the client's device. */
int open_client(void);
/* A session that has to be opened. */
uint32_t open_session(int file, const char *uuid);
struct outcome open_of(int file, const char *uuid);
struct outcome invoke_of(int file, uint32_t session, uint32_t function);
/* The same with a value out, or a value inout. */
struct outcome invoke_value_out(int file, uint32_t session, uint32_t function, uint32_t cancel_id);
struct outcome invoke_sum(int file, uint32_t session, uint64_t a, uint64_t b);
void expect_result(struct outcome outcome, uint32_t result, uint32_t origin);
/* Callers had to wait for a thread of the core: of 6.1 the core has told so, and of 6.12 the driver counts and doesn't ask. */
void expect_waits_for_threads(void);
/* A folder of the scenario's own. */
const char *folder_of(const char *name);
unsigned long scenario_seed(void);

/* A call in a task of its own. */
struct caller {
	int file;
	struct request request;
	struct outcome outcome;
	struct task *task;
};
void caller_start(struct caller *caller, const char *name, int file, uint32_t session, uint32_t function);
struct outcome caller_end(struct caller *caller);

#endif

/* The driver's probe, its ends, and the devices that it finds. */
#include "scenario.h"

static void use_once(void)
{
	int file = open_client();
	uint32_t session = open_session(file, ADD);
	struct outcome sum = invoke_sum(file, session, 5, 7);

	expect_result(sum, SUCCESS, ORIGIN_APPLICATION);
	expect_is(sum.parameters[0].a, 12);
	expect_is(client_close(file, session), 0);
	user_close(file);
}

static void probe(void)
{
	load_all();
	expect_is(log_lines("revision 4.0"), 1);
	expect_is(log_lines("Asynchronous notifications enabled"), 1);
	expect_is(log_lines("dynamic shared memory is enabled"), 1);
	expect_is(log_lines("initialized driver"), 1);
	expect(device_is_there("tee0") && device_is_there("teepriv0"));
	expect(!strcmp(device_shows("tee0", "implementation_id"), "1\n"));
	expect_is(calls_of(ENABLE_ASYNC_NOTIF), 1);
	expect_is(calls_of(ENABLE_SHM_CACHE), 0);
	use_once();
	expect(calls_of(CALL_WITH_REGD_ARG) > 0);
	expect_is(calls_of(CALL_WITH_ARG), 0);
	unload_all(0);
	expect(!device_is_there("tee0") && !device_is_there("teepriv0"));
}

static void probe_without_rpc_argument(void)
{
	load_all();
	expect_is(calls_of(ENABLE_SHM_CACHE), 1);
	use_once();
	expect(calls_of(CALL_WITH_ARG) > 0);
	expect_is(calls_of(CALL_WITH_REGD_ARG) + calls_of(CALL_WITH_RPC_ARG), 0);
	unload_all(0);
	expect_is(calls_of(DISABLE_SHM_CACHE), 2);
}

static void probe_without_notification(void)
{
	load_all();
	expect_is(log_lines("Asynchronous notifications enabled"), 0);
	expect_is(calls_of(ENABLE_ASYNC_NOTIF), 0);
	use_once();
	unload_all(0);
}

static void probe_without_both(void)
{
	load_all();
	use_once();
	expect(calls_of(CALL_WITH_ARG) > 0);
	unload_all(0);
}

/* No memory is reserved for the core, so there is nothing else to fall back to. */
static void probe_without_dynamic_memory(void)
{
	expect_is(load_tee(), 0);
	expect_is(load_optee(), -22);
	expect(!device_is_there("tee0"));
	unload_all(0);
}

static void probe_by_a_hypervisor(void)
{
	device_method("hvc");
	load_all();
	use_once();
	unload_all(0);
}

static void probe_with_no_method(void)
{
	device_method(NULL);
	expect_is(load_tee(), 0);
	expect_is(load_optee(), -6);
	expect_is(log_warnings(), 1);
	device_method("smoke");
	expect_is(bind_optee(), -22);
	device_method("smc");
	expect_is(bind_optee(), 0);
	use_once();
	unload_all(0);
}

static void probe_without_its_interrupt(void)
{
	device_interrupt(-6);
	expect_is(load_tee(), 0);
	expect_is(load_optee(), -6);
	expect(!device_is_there("tee0"));
	unload_all(1);
}

/* The n-th allocation fails, for each n up to the first that isn't made. */
static void probe_without_memory(void)
{
	unsigned int n = 0, before;
	int failed;

	expect_is(load_tee(), 0);
	device_method(NULL);
	expect_is(load_optee(), -6);
	device_method("smc");
	before = objects_in_use();
	do {
		int rc;

		fail_allocation(++n);
		rc = bind_optee();
		fail_allocation(0);
		failed = rc != 0;
		expect(!failed || rc == -12 || rc == -22 || rc == -19);
		if (!failed)
			unbind_optee();
		expect_is(objects_in_use(), before);
		expect_is(kernel_pages_in_use(), 0);
	} while (failed || n < 20);
	expect_is(bind_optee(), 0);
	use_once();
	expect_is(unload_optee(), 0);
	unload_tee();
}

static void bound_again(void)
{
	load_all();
	for (int i = 0; i < 3; i++) {
		use_once();
		expect_is(unbind_optee(), 0);
		expect_is(user_open("tee0"), -2);
		expect_is(bind_optee(), 0);
	}
	use_once();
	unload_all(0);
}

/* The pseudo application that Linux asks is there: its device stands on the bus until the driver goes. */
static void devices_found(void)
{
	load_all();
	expect(device_is_there("optee-ta-1f000000-0000-4000-8000-000000000001"));
	unload_all(0);
	expect(!device_is_there("optee-ta-1f000000-0000-4000-8000-000000000001"));
}

static void until_calls(unsigned int function, unsigned int count)
{
	for (int i = 0; i < 1000 && calls_of(function) < count; i++)
		task_yield();
	expect_is(calls_of(function), count);
}

/* A supplicant that comes has the bus scanned once more, by a work queue: an open, an invoke and a close. */
static void devices_with_a_supplicant(void)
{
	struct supplicant supplicant;
	unsigned int calls;

	load_all();
	calls = calls_of(CALL_WITH_REGD_ARG);
	supplicant_start(&supplicant, folder_of("devices_with_a_supplicant"));
	until_calls(CALL_WITH_REGD_ARG, calls + 3);
	supplicant_stop(&supplicant);
	supplicant_start(&supplicant, folder_of("devices_with_a_supplicant"));
	supplicant_stop(&supplicant);
	expect_is(calls_of(CALL_WITH_REGD_ARG), calls + 3);
	unload_all(0);
}

static void version(void)
{
	struct tee_ioctl_version_data *data;
	int file, privileged;

	load_all();
	file = open_client();
	privileged = user_open("teepriv0");
	data = user_allocate(sizeof(*data));
	expect_is(user_ioctl(file, TEE_IOC_VERSION, data), 0);
	expect_is(data->impl_id, TEE_IMPL_ID_OPTEE);
	expect_is(data->impl_caps, TEE_OPTEE_CAP_TZ);
	expect_is(data->gen_caps, TEE_GEN_CAP_GP | TEE_GEN_CAP_REG_MEM | TEE_GEN_CAP_MEMREF_NULL);
	expect_is(user_ioctl(privileged, TEE_IOC_VERSION, data), 0);
	expect(data->gen_caps & TEE_GEN_CAP_PRIVILEGED);
	expect_is(user_ioctl(file, TEE_IOC_VERSION, NULL), -14);
	expect_is(user_ioctl(file, 12345, data), -22);
	user_unmap(data, sizeof(*data));
	user_close(file);
	user_close(privileged);
	unload_all(0);
}

const struct scenario probe_scenarios[] = {
	{ "probe", "the driver finds the core with its argument for requests and its notifications, and uses it", probe },
	{ "probe_without_rpc_argument", "where that capability is hidden, arguments are told by their address, and the cache is used",
	  probe_without_rpc_argument, .hidden = CAPABILITY_RPC_ARGUMENT },
	{ "probe_without_notification", "where that is hidden, nothing is enabled and no interrupt is asked for",
	  probe_without_notification, .hidden = CAPABILITY_NOTIFICATION },
	{ "probe_without_both", "with neither, as a driver of before 2022", probe_without_both, .hidden = ALL_CAPABILITIES_HIDDEN },
	{ "probe_without_dynamic_memory", "without it there is no memory to share, and the probe ends with EINVAL",
	  probe_without_dynamic_memory, .hidden = CAPABILITY_DYNAMIC },
	{ "probe_by_a_hypervisor", "calls by hvc come to the same", probe_by_a_hypervisor },
	{ "probe_with_no_method", "no or an unknown conduit is refused, and a right one then taken", probe_with_no_method },
	{ "probe_without_its_interrupt", "notifications without an interrupt end the probe, and nothing is left",
	  probe_without_its_interrupt },
	{ "probe_without_memory", "whichever allocation of the probe fails, nothing is left of it", probe_without_memory },
	{ "bound_again", "the device is unbound and bound three times, and used each time", bound_again },
	{ "devices_found", "the devices that an application lists stand on the bus", devices_found },
	{ "devices_with_a_supplicant", "the first supplicant has the bus scanned, the second not", devices_with_a_supplicant },
	{ "version", "what the driver says of the core to its clients", version },
	{ 0 }
};

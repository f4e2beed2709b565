/* Panics, cancelling, time, and the data of an instance. */
#include <stdlib.h>
#include <tee_internal_api.h>

#include "machine.h"

static void *instance_data;

void(TEE_Panic)(TEE_Result code)
{
	sys_panic(code);
}

void(abort)(void)
{
	__builtin_trap();
}

bool TEE_GetCancellationFlag(void)
{
	return sys_cancelled();
}

bool TEE_MaskCancellation(void)
{
	return sys_mask();
}

bool TEE_UnmaskCancellation(void)
{
	return sys_unmask();
}

void TEE_GetREETime(TEE_Time *time)
{
	uint32_t result = sys_time(&time->seconds, &time->millis);

	if (result != TEE_SUCCESS)
		sys_panic(result);
}

/* The system's time is the normal world's, but that it never goes back. */
void TEE_GetSystemTime(TEE_Time *time)
{
	static TEE_Time last;
	TEE_Time now;

	TEE_GetREETime(&now);
	if (now.seconds > last.seconds || (now.seconds == last.seconds && now.millis > last.millis))
		last = now;
	*time = last;
}

TEE_Result TEE_Wait(uint32_t timeout)
{
	return sys_wait(timeout);
}

void TEE_SetInstanceData(void *data)
{
	instance_data = data;
}

void *TEE_GetInstanceData(void)
{
	return instance_data;
}

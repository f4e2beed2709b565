/* The entry points of the machine: parameters are taken in, the application's function is called, and outputs are given back. */
#include <tee_internal_api.h>

#include "machine.h"

/* In a type of a parameter: memory, an output, a value of any way. */
#define IS_MEMORY 4
#define IS_OUTPUT 2
#define IS_VALUE 3

/* Fills in parameters of these types; of one without a type or of a value out, zeros. */
static void take(uint32_t types, TEE_Param *param)
{
	for (uint32_t k = 0; k < TEE_NUM_PARAMS; k++, types >>= 4, param++) {
		Pair value = { 0, 0 };

		if (types & IS_MEMORY) {
			value.r1 = sys_size(k);
			value.r0 = ADDRESS(BUFFER(k));
		} else if (types & IS_VALUE) {
			value = sys_value(k);
		}
		param->value.a = value.r0;
		param->value.b = value.r1;
	}
}

/* Gives outputs back: numbers, and sizes. Bytes are in the machine's buffers already. */
static void give(uint32_t types, const TEE_Param *param)
{
	for (uint32_t k = 0; types; k++, types >>= 4, param++) {
		if (!(types & IS_OUTPUT))
			continue;
		if (types & IS_MEMORY)
			sys_set_size(k, param->memref.size);
		else
			sys_set_value(k, param->value.a, param->value.b);
	}
}

__attribute__((noreturn, used)) void __ta_create(void)
{
	sys_end(TA_CreateEntryPoint());
}

__attribute__((noreturn, used)) void __ta_open(uint32_t types)
{
	TEE_Param params[TEE_NUM_PARAMS];
	void *context = NULL;
	TEE_Result result;

	take(types, params);
	result = TA_OpenSessionEntryPoint(types, params, &context);
	give(types, params);
	sys_return(result, ADDRESS(context));
}

__attribute__((noreturn, used)) void __ta_invoke(uint32_t function, uint32_t types, void *context)
{
	TEE_Param params[TEE_NUM_PARAMS];
	TEE_Result result;

	take(types, params);
	result = TA_InvokeCommandEntryPoint(context, function, types, params);
	give(types, params);
	sys_end(result);
}

__attribute__((noreturn, used)) void __ta_close(uint32_t unused0, uint32_t unused1, void *context)
{
	(void)unused0;
	(void)unused1;
	TA_CloseSessionEntryPoint(context);
	sys_end(TEE_SUCCESS);
}

__attribute__((noreturn, used)) void __ta_destroy(void)
{
	TA_DestroyEntryPoint();
	sys_end(TEE_SUCCESS);
}

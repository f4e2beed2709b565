/* What the application's user_ta_header_defines.h says: numbers for the translator, and properties for the program. */
#include <tee_internal_api.h>
#include <user_ta_header.h>

#include "properties.h"

#include <user_ta_header_defines.h>

#ifndef TA_CURRENT_TA_EXT_PROPERTIES
#define TA_CURRENT_TA_EXT_PROPERTIES
#endif

/* Read by the translator, and left out of the program. */
__attribute__((section(".ta_header"), used)) static const struct {
	uint32_t flags, stack, heap;
	TEE_UUID uuid;
} header = { TA_FLAGS, TA_STACK_SIZE, TA_DATA_SIZE, TA_UUID };

static const TEE_UUID uuid = TA_UUID;
static const uint32_t stack_size = TA_STACK_SIZE, data_size = TA_DATA_SIZE;
static const bool is_single = !!((TA_FLAGS) & TA_FLAG_SINGLE_INSTANCE), is_multi = !!((TA_FLAGS) & TA_FLAG_MULTI_SESSION),
		  is_kept = !!((TA_FLAGS) & TA_FLAG_INSTANCE_KEEP_ALIVE);

const struct user_ta_property ta_properties[] = {
	{ "gpd.ta.appID", USER_TA_PROP_TYPE_UUID, &uuid },
	{ "gpd.ta.singleInstance", USER_TA_PROP_TYPE_BOOL, &is_single },
	{ "gpd.ta.multiSession", USER_TA_PROP_TYPE_BOOL, &is_multi },
	{ "gpd.ta.instanceKeepAlive", USER_TA_PROP_TYPE_BOOL, &is_kept },
	{ "gpd.ta.dataSize", USER_TA_PROP_TYPE_U32, &data_size },
	{ "gpd.ta.stackSize", USER_TA_PROP_TYPE_U32, &stack_size },
#ifdef TA_VERSION
	{ "gpd.ta.version", USER_TA_PROP_TYPE_STRING, TA_VERSION },
#endif
#ifdef TA_DESCRIPTION
	{ "gpd.ta.description", USER_TA_PROP_TYPE_STRING, TA_DESCRIPTION },
#endif
	TA_CURRENT_TA_EXT_PROPERTIES
};

const uint32_t ta_property_count = sizeof(ta_properties) / sizeof(ta_properties[0]);

/* What user_ta_header_defines.h may say besides: properties of the application, as in OP-TEE. */
#ifndef USER_TA_HEADER_H
#define USER_TA_HEADER_H

#include <tee_internal_api.h>

enum user_ta_prop_type {
	USER_TA_PROP_TYPE_BOOL, /* a bool */
	USER_TA_PROP_TYPE_U32, /* a uint32_t */
	USER_TA_PROP_TYPE_UUID, /* a TEE_UUID */
	USER_TA_PROP_TYPE_IDENTITY, /* a TEE_Identity */
	USER_TA_PROP_TYPE_STRING, /* a text, zero at its end */
};

struct user_ta_property {
	const char *name;
	enum user_ta_prop_type type;
	const void *value;
};

#endif

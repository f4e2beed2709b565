#define TA_UUID { 0x6f2a1c00, 0x31d5, 0x4b7e, { 0x9c, 0x41, 0x0d, 0x5e, 0x8a, 0x77, 0x21, 0x7f } }
#define TA_FLAGS (TA_FLAG_EXEC_DDR | TA_FLAG_SINGLE_INSTANCE | TA_FLAG_MULTI_SESSION)
#define TA_STACK_SIZE 4096
#define TA_DATA_SIZE 2048
#define TA_VERSION "3.1"
#define TA_CURRENT_TA_EXT_PROPERTIES                                                                                                      \
	{ "own.limit", USER_TA_PROP_TYPE_U32, &(const uint32_t){ 4711 } },                                                                \
	{ "own.is_new", USER_TA_PROP_TYPE_BOOL, &(const bool){ true } },

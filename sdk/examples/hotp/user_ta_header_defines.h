#include "hotp_ta.h"

#define TA_UUID HOTP_UUID
#define TA_FLAGS TA_FLAG_EXEC_DDR
#define TA_STACK_SIZE 1024
#define TA_DATA_SIZE 0

#include "countdown_ta.h"

#define TA_UUID COUNTDOWN_UUID
#define TA_FLAGS TA_FLAG_EXEC_DDR
#define TA_STACK_SIZE 512
#define TA_DATA_SIZE 0

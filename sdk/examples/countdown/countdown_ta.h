#ifndef COUNTDOWN_TA_H
#define COUNTDOWN_TA_H

#define COUNTDOWN_UUID { 0x6f2a1c00, 0x31d5, 0x4b7e, { 0x9c, 0x41, 0x0d, 0x5e, 0x8a, 0x77, 0x21, 0x05 } }

/* In and out: a value, of which a is the number of waits that are to come, and behind the call of those that are left; b in is the length
 * of each in milliseconds. CANCEL where the call was cancelled meanwhile. */
#define CMD_COUNT_DOWN 0
/* The same, but a cancel is looked for behind the last wait alone. */
#define CMD_COUNT_DOWN_MASKED 1

#endif

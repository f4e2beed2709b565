#ifndef TALLY_TA_H
#define TALLY_TA_H

#define TALLY_UUID { 0x6f2a1c00, 0x31d5, 0x4b7e, { 0x9c, 0x41, 0x0d, 0x5e, 0x8a, 0x77, 0x21, 0x06 } }

/* In and out: a value, of which a in is added; behind it a is what this session has added, and b what all have. */
#define CMD_ADD 0
/* Out: the description of the application, a text. */
#define CMD_DESCRIBE 1

#endif

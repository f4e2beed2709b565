#ifndef HELLO_TA_H
#define HELLO_TA_H

#define HELLO_UUID { 0x6f2a1c00, 0x31d5, 0x4b7e, { 0x9c, 0x41, 0x0d, 0x5e, 0x8a, 0x77, 0x21, 0x01 } }

/* In: a name. Out: a greeting; where its buffer is too short, the size that it needs. */
#define CMD_GREET 0
/* In and out: a number, and 1 more. */
#define CMD_INCREMENT 1

#endif

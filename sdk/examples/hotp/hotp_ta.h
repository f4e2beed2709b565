#ifndef HOTP_TA_H
#define HOTP_TA_H

#define HOTP_UUID { 0x6f2a1c00, 0x31d5, 0x4b7e, { 0x9c, 0x41, 0x0d, 0x5e, 0x8a, 0x77, 0x21, 0x03 } }

/* In: a key of 16 to 64 bytes. The counter begins with 0. */
#define CMD_SET_KEY 0
/* Out: a value, the next password of six digits. */
#define CMD_NEXT_PASSWORD 1

#endif

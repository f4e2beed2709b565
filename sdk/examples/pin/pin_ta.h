#ifndef PIN_TA_H
#define PIN_TA_H

#define PIN_UUID { 0x6f2a1c00, 0x31d5, 0x4b7e, { 0x9c, 0x41, 0x0d, 0x5e, 0x8a, 0x77, 0x21, 0x04 } }

/* In: a PIN of 4 to 12 bytes, where there is none yet. */
#define CMD_SET 0
/* In: a PIN. SUCCESS where it is right, ACCESS_DENIED where it is wrong, and BUSY behind three wrong ones, whatever it is. */
#define CMD_CHECK 1
/* In: the PIN, and a new one. */
#define CMD_CHANGE 2
/* Out: a value, how many wrong PINs may still come. */
#define CMD_TRIES_LEFT 3

#endif

#ifndef STORAGE_TA_H
#define STORAGE_TA_H

#define STORAGE_UUID { 0x6f2a1c00, 0x31d5, 0x4b7e, { 0x9c, 0x41, 0x0d, 0x5e, 0x8a, 0x77, 0x21, 0x02 } }

/* Parameter 0 of each is the id of an object, at most 64 bytes. */

/* In: bytes, which replace those of the object. */
#define CMD_PUT 0
/* Out: the object's bytes; where the buffer is too short, their size. More than the heap (TA_DATA_SIZE) are OUT_OF_MEMORY. */
#define CMD_GET 1
/* In: bytes, which come behind those of the object. Out: a value, its length then. */
#define CMD_APPEND 2
/* Removes the object. */
#define CMD_REMOVE 3

#endif

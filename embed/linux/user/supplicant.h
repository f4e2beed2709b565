/*
 * A supplicant beside the driver. It asks for requests and answers them by the ioctls of /dev/teepriv0, as tee-supplicant does, and
 * keeps files in a folder. The names and bytes of a request stand in the buffer that the call was lent, which has no id in user
 * space, so it looks there through the shim.
 */
#ifndef SUPPLICANT_H
#define SUPPLICANT_H

#include "world.h"

struct supplicant {
	const char *folder;
	struct task *task;
	int ready, ended;
	int takes;               /* so many requests it answers, and then it goes; below 0: no limit */
	int keeps;               /* requests that it takes and doesn't answer, before it goes */
	int without_numbers;     /* it takes one request after the other, without the parameter that has its number */
	unsigned int answered;
	long open_error, last_error;
};

/* Starts it, and waits until it waits for requests, or was refused. */
void supplicant_start(struct supplicant *supplicant, const char *folder);
/* It is told to go, and has gone. */
void supplicant_stop(struct supplicant *supplicant);
/* It is started, and nobody waits. */
void supplicant_launch(struct supplicant *supplicant);

/* The file of an object in the folder: its bytes, and how many; -1 where there is none. */
long object_file_read(const char *folder, const char *name, unsigned char *bytes, unsigned long room);
void object_file_write(const char *folder, const char *name, const unsigned char *bytes, unsigned long size);
int object_file_remove(const char *folder, const char *name);

#endif

/* The parameters of an operation, as those of a call. */
#ifndef OPERATION_H
#define OPERATION_H

#include "parts.h"

/* Finds shared memory of the context of a call by its number, or null. */
typedef struct shared *find_shared(void *of, uint32_t number);

/* Takes the parameters of an operation, or none where it is null, behind those that the call has, and says whether they can be: else
 * the operation breaks a rule of the API. Shared memory has a user more until operation_gives. */
bool operation_takes(struct call *call, const TEEC_Operation *operation, find_shared *find, void *of);
void operation_gives(struct call *call);
/* Tells the operation what the application has put out of the parameters from the first one on. */
void operation_told(const struct call *call, uint32_t first, TEEC_Operation *operation);

#endif

/* Of OP-TEE's extensions, the traces. They are left out of a build, as at trace level 0: their texts would be data of the image. */
#ifndef TEE_INTERNAL_API_EXTENSIONS_H
#define TEE_INTERNAL_API_EXTENSIONS_H

#include <tee_internal_api.h>

#define EMSG(...) do { } while (0)
#define IMSG(...) do { } while (0)
#define DMSG(...) do { } while (0)
#define FMSG(...) do { } while (0)

#endif

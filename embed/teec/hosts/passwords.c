/* A service that asks for one-time passwords (RFC 4226): the key and its counter stay with the application, and only passwords come out.
 * The key is the RFC's, and so are the passwords. */
#include <err.h>
#include <inttypes.h>
#include <stdio.h>
#include <string.h>
#include <tee_client_api.h>

#include "hotp_ta.h"

/* RFC 4226, appendix D. */
static const uint32_t wanted[] = {755224, 287082, 359152, 969429, 338314, 254676, 287922, 162583, 399871, 520489};
enum { PASSWORDS = sizeof wanted / sizeof wanted[0] };

static TEEC_Context context;

static TEEC_Session open_session(void) {
    TEEC_UUID uuid = HOTP_UUID;
    TEEC_Session session;
    uint32_t origin;
    TEEC_Result result = TEEC_OpenSession(&context, &session, &uuid, TEEC_LOGIN_USER, NULL, NULL, &origin);
    if (result != TEEC_SUCCESS) errx(1, "no session: 0x%" PRIx32 " of %" PRIu32, result, origin);
    return session;
}

static TEEC_Result set_key(TEEC_Session *session, char *key) {
    TEEC_Operation operation = {.paramTypes = TEEC_PARAM_TYPES(TEEC_MEMREF_TEMP_INPUT, TEEC_NONE, TEEC_NONE, TEEC_NONE)};
    operation.params[0].tmpref.buffer = key, operation.params[0].tmpref.size = strlen(key);
    return TEEC_InvokeCommand(session, CMD_SET_KEY, &operation, NULL);
}

static uint32_t next_password(TEEC_Session *session) {
    TEEC_Operation operation = {.paramTypes = TEEC_PARAM_TYPES(TEEC_VALUE_OUTPUT, TEEC_NONE, TEEC_NONE, TEEC_NONE)};
    uint32_t origin;
    TEEC_Result result = TEEC_InvokeCommand(session, CMD_NEXT_PASSWORD, &operation, &origin);
    if (result != TEEC_SUCCESS) errx(1, "no password: 0x%" PRIx32 " of %" PRIu32, result, origin);
    return operation.params[0].value.a;
}

int main(void) {
    char key[] = "12345678901234567890", short_key[] = "1234";
    if (TEEC_InitializeContext(NULL, &context) != TEEC_SUCCESS) errx(1, "no context");
    TEEC_Session session = open_session();
    if (set_key(&session, short_key) != TEEC_ERROR_BAD_PARAMETERS) errx(1, "a key of four bytes was taken");
    if (set_key(&session, key) != TEEC_SUCCESS) errx(1, "the key wasn't taken");
    printf("A key is kept; a short one is refused\n");
    for (int i = 0; i < PASSWORDS; i++) {
        /* The counter outlives the session. */
        if (i == PASSWORDS / 2) TEEC_CloseSession(&session), session = open_session();
        uint32_t password = next_password(&session);
        printf("Password %d is %06" PRIu32 "%s\n", i, password, password == wanted[i] ? "" : ", and should be another");
    }
    TEEC_CloseSession(&session);
    TEEC_FinalizeContext(&context);
    return 0;
}

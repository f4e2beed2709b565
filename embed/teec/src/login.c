/* Who the client is: UUIDs of version 5 (RFC 4122) as Linux's driver for OP-TEE makes them. */
#include "parts.h"

#include <stdlib.h>
#include <string.h>
#include <sys/types.h>
#include <unistd.h>

static uint32_t rotated(uint32_t word, int by) {
    return word << by | word >> (32 - by);
}

/* The function and the constant of a round (FIPS 180-4, 4.1.1 and 4.2.1). */
static uint32_t mixed(int round, const uint32_t v[5]) {
    if (round < 20) return ((v[1] & v[2]) | (~v[1] & v[3])) + 0x5a827999;
    if (round < 40) return (v[1] ^ v[2] ^ v[3]) + 0x6ed9eba1;
    if (round < 60) return ((v[1] & v[2]) | (v[1] & v[3]) | (v[2] & v[3])) + 0x8f1bbcdc;
    return (v[1] ^ v[2] ^ v[3]) + 0xca62c1d6;
}

/* SHA-1 (FIPS 180-4) of fewer than 56 bytes: one block. */
static void sha1(const uint8_t *bytes, size_t length, uint8_t digest[20]) {
    uint8_t block[64] = {0};
    uint32_t w[80], h[5] = {0x67452301, 0xefcdab89, 0x98badcfe, 0x10325476, 0xc3d2e1f0}, v[5];
    memcpy(block, bytes, length);
    block[length] = 0x80, block[62] = (uint8_t)(length >> 5), block[63] = (uint8_t)(length << 3);
    for (int i = 0; i < 16; i++)
        w[i] = (uint32_t)block[4 * i] << 24 | (uint32_t)block[4 * i + 1] << 16 | (uint32_t)block[4 * i + 2] << 8 | block[4 * i + 3];
    for (int i = 16; i < 80; i++) w[i] = rotated(w[i - 3] ^ w[i - 8] ^ w[i - 14] ^ w[i - 16], 1);
    memcpy(v, h, sizeof v);
    for (int i = 0; i < 80; i++) {
        uint32_t next = rotated(v[0], 5) + mixed(i, v) + v[4] + w[i];
        v[4] = v[3], v[3] = v[2], v[2] = rotated(v[1], 30), v[1] = v[0], v[0] = next;
    }
    for (int i = 0; i < 20; i++) digest[i] = (uint8_t)((h[i / 4] + v[i / 4]) >> (24 - 8 * (i % 4)));
}

static void uuid5(uint8_t octets[16], const char *form, unsigned id) {
    /* The name space of Linux's driver (tee_client_uuid_ns in drivers/tee/tee_core.c). */
    static const uint8_t space[16] = {0x58, 0xac, 0x9c, 0xa0, 0x20, 0x86, 0x46, 0x83, 0xa1, 0xb8, 0xec, 0x4b, 0xc0, 0x8e, 0x01, 0xb6};
    uint8_t bytes[48], digest[20];
    memcpy(bytes, space, 16);
    int length = snprintf((char *)bytes + 16, sizeof bytes - 16, form, id);
    sha1(bytes, 16 + (size_t)length, digest);
    memcpy(octets, digest, 16);
    octets[6] = (octets[6] & 0x0f) | 0x50, octets[8] = (octets[8] & 0x3f) | 0x80;
}

static bool is_of_group(gid_t group) {
    enum { MOST_GROUPS = 65536 }; /* of Linux, NGROUPS_MAX */
    if (group == getegid()) return true;
    gid_t *groups = malloc(MOST_GROUPS * sizeof *groups);
    int count = groups ? getgroups(MOST_GROUPS, groups) : 0;
    bool is_there = false;
    for (int i = 0; i < count && !is_there; i++) is_there = groups[i] == group;
    free(groups);
    return is_there;
}

TEEC_Result login_octets(uint32_t method, const void *data, uint8_t octets[16]) {
    uint32_t group;
    memset(octets, 0, 16);
    switch (method) {
    case TEEC_LOGIN_PUBLIC:
        return TEEC_SUCCESS;
    case TEEC_LOGIN_USER:
        uuid5(octets, "uid=%x", geteuid());
        return TEEC_SUCCESS;
    case TEEC_LOGIN_GROUP:
        if (data == NULL) return TEEC_ERROR_BAD_PARAMETERS;
        memcpy(&group, data, sizeof group);
        if (!is_of_group(group)) return TEEC_ERROR_ACCESS_DENIED;
        uuid5(octets, "gid=%x", group);
        return TEEC_SUCCESS;
    case TEEC_LOGIN_APPLICATION:
    case TEEC_LOGIN_USER_APPLICATION:
    case TEEC_LOGIN_GROUP_APPLICATION:
        return TEEC_ERROR_NOT_IMPLEMENTED;
    default:
        return TEEC_ERROR_BAD_PARAMETERS;
    }
}

void octets_of_uuid(const TEEC_UUID *uuid, uint8_t octets[16]) {
    for (int i = 0; i < 4; i++) octets[i] = (uint8_t)(uuid->timeLow >> (24 - 8 * i));
    octets[4] = (uint8_t)(uuid->timeMid >> 8), octets[5] = (uint8_t)uuid->timeMid;
    octets[6] = (uint8_t)(uuid->timeHiAndVersion >> 8), octets[7] = (uint8_t)uuid->timeHiAndVersion;
    memcpy(octets + 8, uuid->clockSeqAndNode, 8);
}

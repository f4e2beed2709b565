/* SHA-1 (FIPS 180-4), and HMAC with it (RFC 2104). */
#ifndef SHA1_H
#define SHA1_H

#include <stddef.h>
#include <stdint.h>

#define SHA1_BLOCK 64
#define SHA1_DIGEST 20

struct sha1 {
	uint32_t state[5];
	uint32_t length; /* of what was hashed, in bytes */
	uint8_t block[SHA1_BLOCK];
};

void sha1_begin(struct sha1 *hash);
void sha1_add(struct sha1 *hash, const uint8_t *bytes, size_t size);
void sha1_end(struct sha1 *hash, uint8_t digest[SHA1_DIGEST]);

/* The HMAC of bytes under a key of at most SHA1_BLOCK bytes. */
void hmac_sha1(const uint8_t *key, size_t key_size, const uint8_t *bytes, size_t size, uint8_t digest[SHA1_DIGEST]);

#endif

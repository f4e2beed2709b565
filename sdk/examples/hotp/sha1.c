#include "sha1.h"

#include <string.h>

#define LENGTH_AT 56
#define ROUNDS 80
#define INNER 0x36
#define OUTER 0x5C

static uint32_t rotated(uint32_t word, int bits)
{
	return word << bits | word >> (32 - bits);
}

static uint32_t big_endian(const uint8_t *octets)
{
	return (uint32_t)octets[0] << 24 | octets[1] << 16 | octets[2] << 8 | octets[3];
}

/* The function of a quarter of the rounds. */
static uint32_t mixed(int quarter, uint32_t b, uint32_t c, uint32_t d)
{
	switch (quarter) {
	case 0:
		return (b & c) | (~b & d);
	case 2:
		return (b & c) | (b & d) | (c & d);
	default:
		return b ^ c ^ d;
	}
}

/* The word of a round; those behind the sixteenth are made of the sixteen before. */
static uint32_t scheduled(uint32_t words[16], int round)
{
	uint32_t *word = &words[round & 15];

	if (round >= 16)
		*word = rotated(words[(round + 13) & 15] ^ words[(round + 8) & 15] ^ words[(round + 2) & 15] ^ *word, 1);
	return *word;
}

static void add_block(uint32_t state[5], const uint8_t *block)
{
	static const uint32_t constants[4] = { 0x5A827999, 0x6ED9EBA1, 0x8F1BBCDC, 0xCA62C1D6 };
	uint32_t words[16], a = state[0], b = state[1], c = state[2], d = state[3], e = state[4];

	for (int k = 0; k < 16; k++)
		words[k] = big_endian(block + 4 * k);
	for (int round = 0; round < ROUNDS; round++) {
		int quarter = round / 20;
		uint32_t next = rotated(a, 5) + mixed(quarter, b, c, d) + e + scheduled(words, round) + constants[quarter];

		e = d;
		d = c;
		c = rotated(b, 30);
		b = a;
		a = next;
	}
	state[0] += a;
	state[1] += b;
	state[2] += c;
	state[3] += d;
	state[4] += e;
}

void sha1_begin(struct sha1 *hash)
{
	static const uint32_t first[5] = { 0x67452301, 0xEFCDAB89, 0x98BADCFE, 0x10325476, 0xC3D2E1F0 };

	memcpy(hash->state, first, sizeof(first));
	hash->length = 0;
}

void sha1_add(struct sha1 *hash, const uint8_t *bytes, size_t size)
{
	while (size--) {
		hash->block[hash->length++ % SHA1_BLOCK] = *bytes++;
		if (hash->length % SHA1_BLOCK == 0)
			add_block(hash->state, hash->block);
	}
}

void sha1_end(struct sha1 *hash, uint8_t digest[SHA1_DIGEST])
{
	uint32_t bits = hash->length * 8;
	uint8_t octet = 0x80;

	do {
		sha1_add(hash, &octet, 1);
		octet = 0;
	} while (hash->length % SHA1_BLOCK != LENGTH_AT);
	for (int k = 0; k < 8; k++) {
		octet = k < 4 ? 0 : bits >> (56 - 8 * k);
		sha1_add(hash, &octet, 1);
	}
	for (int k = 0; k < SHA1_DIGEST; k++)
		digest[k] = hash->state[k / 4] >> (24 - 8 * (k % 4));
}

/* Begins a hash with a block of the key and a number. */
static void begin_with_key(struct sha1 *hash, const uint8_t *key, size_t key_size, uint8_t number)
{
	sha1_begin(hash);
	for (size_t k = 0; k < SHA1_BLOCK; k++) {
		uint8_t octet = (k < key_size ? key[k] : 0) ^ number;

		sha1_add(hash, &octet, 1);
	}
}

void hmac_sha1(const uint8_t *key, size_t key_size, const uint8_t *bytes, size_t size, uint8_t digest[SHA1_DIGEST])
{
	struct sha1 hash;

	begin_with_key(&hash, key, key_size, INNER);
	sha1_add(&hash, bytes, size);
	sha1_end(&hash, digest);
	begin_with_key(&hash, key, key_size, OUTER);
	sha1_add(&hash, digest, SHA1_DIGEST);
	sha1_end(&hash, digest);
}

/* The phone's side: requests with their tags, made with the library's own primitives from the keys and the nonce in the record. */
#ifndef PHONE_H
#define PHONE_H

#include "tag.h"
#include <string.h>

enum { LONGEST_DATA = 64 };

/* The recovery (1), ring (2) or protection (3) key: the first bytes of a digest. */
static inline void derived_key(const uint8_t *unit, uint8_t which, uint8_t key[TAG_DIGEST_SIZE]) {
    uint8_t message[TAG_IDENTITY_KEY_SIZE + 1];
    memcpy(message, unit + TAG_IDENTITY_BYTES_AT, TAG_IDENTITY_KEY_SIZE);
    message[TAG_IDENTITY_KEY_SIZE] = which;
    tag_sha256(message, sizeof message, key, TAG_DIGEST_SIZE);
}

/* The proof that the phone has the identity key, in its first TAG_TAG_SIZE bytes. */
static inline void key_proof(const uint8_t *unit, uint8_t proof[TAG_DIGEST_SIZE]) {
    uint8_t message[TAG_IDENTITY_KEY_SIZE + TAG_NONCE_SIZE];
    memcpy(message, unit + TAG_IDENTITY_BYTES_AT, TAG_IDENTITY_KEY_SIZE);
    memcpy(message + TAG_IDENTITY_KEY_SIZE, unit + TAG_NONCES_NEWEST_AT, TAG_NONCE_SIZE);
    tag_sha256(message, sizeof message, proof, TAG_DIGEST_SIZE);
}

/* A request with its tag; gives its bytes. */
static inline uint32_t signed_request(const uint8_t *unit, uint8_t id, const uint8_t *key, uint32_t key_bytes, const uint8_t *data, uint32_t bytes, uint8_t *request) {
    uint8_t covered[1 + TAG_NONCE_SIZE + 2 + LONGEST_DATA] = {1}, tag[TAG_DIGEST_SIZE];
    memcpy(covered + 1, unit + TAG_NONCES_NEWEST_AT, TAG_NONCE_SIZE);
    covered[1 + TAG_NONCE_SIZE] = request[0] = id;
    covered[2 + TAG_NONCE_SIZE] = request[1] = (uint8_t)(TAG_TAG_SIZE + bytes);
    memcpy(covered + 3 + TAG_NONCE_SIZE, data, bytes);
    tag_hmac_sha256(key, key_bytes, covered, 3 + TAG_NONCE_SIZE + bytes, tag, sizeof tag);
    memcpy(request + 2, tag, TAG_TAG_SIZE);
    memcpy(request + TAG_HEAD_SIZE, data, bytes);
    return TAG_HEAD_SIZE + bytes;
}

#endif

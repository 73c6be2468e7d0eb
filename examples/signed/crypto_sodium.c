/* SPDX-License-Identifier: MIT OR Apache-2.0 */
/* Implements the two functions of crypto.h with libsodium. On Linux a program must call sodium_init() first. Without an OS the two
 * functions need only the files that SOURCES in `build` names. These files use no random numbers, allocate no memory and have a single
 * implementation, so sodium_init() isn't needed. */
#include "crypto.h"

#include <sodium/crypto_hash_sha256.h>
#include <sodium/crypto_sign_ed25519.h>

void signed_sha256(const uint8_t *bytes, size_t length, const uint8_t *more, size_t more_length, uint8_t digest[32]) {
    crypto_hash_sha256_state state;
    crypto_hash_sha256_init(&state);
    if (length > 0)
        crypto_hash_sha256_update(&state, bytes, length);
    if (more_length > 0)
        crypto_hash_sha256_update(&state, more, more_length);
    crypto_hash_sha256_final(&state, digest);
}

int signed_ed25519(const uint8_t signature[64], const uint8_t *bytes, size_t length, const uint8_t key[32]) {
    return crypto_sign_ed25519_verify_detached(signature, bytes, length, key) == 0;
}

/* SPDX-License-Identifier: MIT OR Apache-2.0 */
/* The two cryptographic functions that a check of signed images needs. crypto_sodium.c implements them with libsodium. To use another
 * library, or an accelerator of the part, write these two functions. */
#ifndef SIGNED_CRYPTO_H
#define SIGNED_CRYPTO_H
#include <stddef.h>
#include <stdint.h>

/* Computes SHA-256 (FIPS 180-4) of `length` bytes followed by `more_length` bytes. Either length may be 0; then its pointer is not read. */
void signed_sha256(const uint8_t *bytes, size_t length, const uint8_t *more, size_t more_length, uint8_t digest[32]);

/* Returns 1 if this is a signature of these bytes by Ed25519 (RFC 8032) for this public key, else 0. It must refuse a signature whose s is
 * not below the group's order: else a second valid signature of the same image could be made from the first. */
int signed_ed25519(const uint8_t signature[64], const uint8_t *bytes, size_t length, const uint8_t key[32]);

#endif

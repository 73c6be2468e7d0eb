/* Images for tests/lib/c/signed*.c, signed like those of imgtool with a generated key. They are written field by field, so that each field
 * can be wrong under a valid signature. */
#ifndef SIGNED_H
#define SIGNED_H
#include <sodium.h>
#include <stdio.h>
#include <stdlib.h>
#include <string.h>

#include "check.h"

enum { MOST = 4096, HARDWARE = 7, LEAST = 3 };
static uint8_t keys[2][SIGNED_KEY], secrets[2][64]; /* the board knows only the first key */
static uint8_t made[MOST];
static size_t length, body, protect;
static uint32_t dice = 1;

static inline uint32_t roll(uint32_t sides) {
    dice = dice * 1664525u + 1013904223u;
    return (dice >> 8) % sides;
}

static inline void put(size_t at, uint32_t value, unsigned count) {
    for (unsigned i = 0; i < count; i++)
        made[at + i] = (uint8_t)(value >> 8 * i);
}

static inline void add(uint32_t value, unsigned count) {
    put(length, value, count);
    length += count;
}

static inline void add_bytes(uint32_t type, const uint8_t *bytes, uint32_t count) {
    add(type, 2);
    add(count, 2);
    memcpy(made + length, bytes, count);
    length += count;
}

static inline void make_keys(void) {
    static const uint8_t front[12] = {0x30, 0x2a, 0x30, 5, 6, 3, 0x2b, 0x65, 0x70, 3, 0x21, 0};
    for (unsigned i = 0; i < 2; i++) {
        uint8_t seed[32] = {(uint8_t)(i + 1)};
        memcpy(keys[i], front, sizeof front);
        crypto_sign_ed25519_seed_keypair(keys[i] + sizeof front, secrets[i], seed);
    }
}

/* Writes a header and a program of these lengths, and begins the protected TLVs. */
static inline void begin(uint32_t header, uint32_t program) {
    memset(made, 0, sizeof made);
    put(0, 0x96f3b83d, 4);
    put(8, header, 2);
    put(12, program, 4);
    put(20, 0x00030201, 4);
    put(24, 77, 4);
    for (length = header; length < header + program; length++)
        made[length] = (uint8_t)(length * 37 + 11);
    body = length;
    add(0x6908, 2);
    add(0, 2);
}

static inline void add_counter(uint32_t value) {
    add(0x50, 2), add(4, 2), add(value, 4);
}

static inline void add_hardware(uint32_t value) {
    add(0xa0, 2), add(2, 2), add(value, 2);
}

/* Ends the protected TLVs. */
static inline void end(void) {
    protect = length;
    put(10, (uint32_t)(protect - body), 2);
    put(body + 2, (uint32_t)(protect - body), 2);
}

/* Appends the three unprotected TLVs for the current bytes. */
static inline void sign(unsigned key) {
    uint8_t digest[32], hash[32], signature[64];
    crypto_hash_sha256(digest, made, protect);
    crypto_hash_sha256(hash, keys[key], SIGNED_KEY);
    crypto_sign_ed25519_detached(signature, NULL, digest, 32, secrets[key]);
    length = protect;
    add(0x6907, 2);
    add(4 + 3 * 4 + 32 + 32 + 64, 2);
    add_bytes(0x10, digest, 32);
    add_bytes(0x01, hash, 32);
    add_bytes(0x24, signature, 64);
}

static inline void make(uint32_t counter, uint32_t hardware, unsigned key) {
    begin(32, 200);
    add_counter(counter);
    add_hardware(hardware);
    end();
    sign(key);
}

/* Returns the verdict on bytes in two parts. Each part is in a block of memory of exactly its length. */
static inline enum signed_verdict verdict_of(const uint8_t *bytes, size_t count, size_t front, struct signed_image *told) {
    const struct signed_rules rules = {(const uint8_t (*)[SIGNED_KEY])keys, 1, HARDWARE, LEAST};
    uint8_t *first = malloc(front ? front : 1), *second = malloc(count > front ? count - front : 1);
    if (!first || !second)
        exit(2);
    memcpy(first, bytes, front);
    memcpy(second, bytes + front, count - front);
    /* (an empty part must not be read) */
    const struct signed_bytes parts = {front ? first : NULL, front, count > front ? second : NULL, count - front};
    enum signed_verdict verdict = signed_check(&rules, &parts, told);
    (void)signed_counter(&parts);
    free(first);
    free(second);
    return verdict;
}

#endif

/* SPDX-License-Identifier: MIT OR Apache-2.0 */
#include "check.h"

#include "crypto.h"

#include <string.h>

enum { HEADER = 32, HEAD = 4, DIGEST = 32, SIGNATURE = 64, HARDWARE_LENGTH = 2, COUNTER_LENGTH = 4 };
enum { KEY_HASH_TYPE = 0x01, DIGEST_TYPE = 0x10, SIGNATURE_TYPE = 0x24, COUNTER_TYPE = 0x50, HARDWARE_TYPE = 0xa0 };
enum { PROTECTED = 0x6908, UNPROTECTED = 0x6907 };
#define MAGIC 0x96f3b83du

/* Offsets in an image, each at most its length. The offset of a value is 0 if the image has no such value, because offset 0 is the header.
 */
struct layout {
    size_t header, body, protect, end; /* bytes of the header; ends of the program, of the protected TLVs and of the unprotected ones */
    size_t digest, key_hash, signature, counter, hardware;
};

static size_t length_of(const struct signed_bytes *bytes) {
    return bytes->front_length + bytes->tail_length;
}

/* Copies `count` bytes of the image from offset `at`; the range must lie within the image. */
static void take(const struct signed_bytes *bytes, size_t at, uint8_t *to, size_t count) {
    for (size_t i = 0; i < count; i++)
        to[i] = at + i < bytes->front_length ? bytes->front[at + i] : bytes->tail[at + i - bytes->front_length];
}

static uint16_t word(const uint8_t *at) {
    return (uint16_t)(at[0] | at[1] << 8);
}

static uint32_t number(const uint8_t *at) {
    return word(at) | (uint32_t)word(at + 2) << 16;
}

/* Advances `at` by `count` bytes and returns 1, if these lie within the image; else returns 0. */
static int go_on(size_t *at, size_t count, size_t length) {
    if (*at > length || count > length - *at)
        return 0;
    *at += count;
    return 1;
}

/* Returns 1 if a TLV area of this kind begins here with `count` bytes in all. */
static int begins(const struct signed_bytes *bytes, size_t at, size_t count, uint16_t kind) {
    uint8_t head[HEAD];
    if (count < HEAD)
        return 0;
    take(bytes, at, head, HEAD);
    return word(head) == kind && word(head + 2) == count;
}

/* Finds the four parts: header, program, protected and unprotected TLVs. Their sizes must add up to the image's, without an overflow. */
static enum signed_verdict find_parts(const struct signed_bytes *bytes, struct layout *found) {
    uint8_t header[HEADER];
    const size_t length = length_of(bytes);
    size_t at = 0;
    if (length < HEADER)
        return SIGNED_NO_HEADER;
    take(bytes, 0, header, HEADER);
    if (number(header) != MAGIC)
        return SIGNED_NO_HEADER;
    found->header = word(header + 8);
    if (found->header < HEADER || !go_on(&at, found->header, length) || !go_on(&at, number(header + 12), length))
        return SIGNED_WRONG_LENGTHS;
    found->body = at;
    if (!go_on(&at, word(header + 10), length) || !begins(bytes, found->body, at - found->body, PROTECTED))
        return SIGNED_WRONG_LENGTHS;
    found->protect = at;
    if (!begins(bytes, at, length - at, UNPROTECTED))
        return SIGNED_WRONG_LENGTHS;
    found->end = length;
    return number(header + 16) == 0 ? SIGNED_TAKEN : SIGNED_WRONG_FLAGS;
}

/* Returns a pointer to the offset of a type's value in `found`, with the value's length in `length`; NULL for a type that isn't read in
 * this area. */
static size_t *place_of(struct layout *found, int is_protected, uint16_t type, size_t *length) {
    switch (type) {
    case COUNTER_TYPE: return *length = COUNTER_LENGTH, is_protected ? &found->counter : NULL;
    case HARDWARE_TYPE: return *length = HARDWARE_LENGTH, is_protected ? &found->hardware : NULL;
    case DIGEST_TYPE: return *length = DIGEST, is_protected ? NULL : &found->digest;
    case KEY_HASH_TYPE: return *length = DIGEST, is_protected ? NULL : &found->key_hash;
    case SIGNATURE_TYPE: return *length = SIGNATURE, is_protected ? NULL : &found->signature;
    default: return NULL;
    }
}

/* Reads the TLVs from offset `from` to `to`: each has the length that it states, and the last one ends at `to`. */
static int find_values(const struct signed_bytes *bytes, size_t from, size_t to, int is_protected, struct layout *found) {
    size_t at = from + HEAD;
    while (at < to) {
        uint8_t head[HEAD];
        size_t length = 0, begin = at + HEAD, *place;
        if (to - at < HEAD)
            return 0;
        take(bytes, at, head, HEAD);
        place = place_of(found, is_protected, word(head), &length);
        if (place == NULL && !is_protected)
            return 0;
        if (place != NULL && (*place != 0 || word(head + 2) != length))
            return 0;
        if (place != NULL)
            *place = begin;
        at = begin;
        if (!go_on(&at, word(head + 2), to))
            return 0;
    }
    return 1;
}

static enum signed_verdict find(const struct signed_bytes *bytes, struct layout *found) {
    enum signed_verdict parts;
    memset(found, 0, sizeof *found);
    parts = find_parts(bytes, found);
    if (parts != SIGNED_TAKEN)
        return parts;
    return find_values(bytes, found->body, found->protect, 1, found) && find_values(bytes, found->protect, found->end, 0, found)
               ? SIGNED_TAKEN
               : SIGNED_WRONG_TLVS;
}

/* Returns the key of the board that has this hash, or NULL. */
static const uint8_t *key_of(const struct signed_rules *rules, const uint8_t hash[DIGEST]) {
    for (size_t i = 0; i < rules->key_count; i++) {
        uint8_t its[DIGEST];
        signed_sha256(rules->keys[i], SIGNED_KEY, NULL, 0, its);
        if (memcmp(its, hash, DIGEST) == 0)
            return rules->keys[i] + SIGNED_KEY - 32;
    }
    return NULL;
}

/* Checks that the digest is that of the image, and that a key of the board signed it. */
static enum signed_verdict is_signed(const struct signed_rules *rules, const struct signed_bytes *bytes, const struct layout *found) {
    uint8_t digest[DIGEST], value[DIGEST], signature[SIGNATURE];
    const size_t front = found->protect < bytes->front_length ? found->protect : bytes->front_length;
    const uint8_t *key;
    if (found->digest == 0)
        return SIGNED_WRONG_DIGEST;
    signed_sha256(bytes->front, front, bytes->tail, found->protect - front, digest);
    take(bytes, found->digest, value, DIGEST);
    if (memcmp(digest, value, DIGEST) != 0)
        return SIGNED_WRONG_DIGEST;
    if (found->key_hash == 0)
        return SIGNED_OTHER_KEY;
    take(bytes, found->key_hash, value, DIGEST);
    key = key_of(rules, value);
    if (key == NULL)
        return SIGNED_OTHER_KEY;
    if (found->signature == 0)
        return SIGNED_WRONG_SIGNATURE;
    take(bytes, found->signature, signature, SIGNATURE);
    return signed_ed25519(signature, digest, DIGEST, key) ? SIGNED_TAKEN : SIGNED_WRONG_SIGNATURE;
}

/* Checks board and security counter. The signature covers all fields that are read here. */
static enum signed_verdict fits(const struct signed_rules *rules, const struct signed_bytes *bytes, const struct layout *found) {
    uint8_t value[COUNTER_LENGTH];
    if (found->hardware == 0)
        return SIGNED_OTHER_BOARD;
    take(bytes, found->hardware, value, HARDWARE_LENGTH);
    if (word(value) != rules->hardware)
        return SIGNED_OTHER_BOARD;
    if (found->counter == 0)
        return SIGNED_NO_COUNTER;
    take(bytes, found->counter, value, COUNTER_LENGTH);
    return number(value) < rules->least ? SIGNED_OLDER : SIGNED_TAKEN;
}

static void describe(const struct signed_bytes *bytes, const struct layout *found, struct signed_image *image) {
    uint8_t header[HEADER], value[COUNTER_LENGTH];
    take(bytes, 0, header, HEADER);
    take(bytes, found->counter, value, COUNTER_LENGTH);
    image->program = (uint32_t)found->header;
    image->length = number(header + 12);
    image->counter = number(value);
    image->major = header[20];
    image->minor = header[21];
    image->revision = word(header + 22);
    image->build = number(header + 24);
}

enum signed_verdict signed_check(const struct signed_rules *rules, const struct signed_bytes *bytes, struct signed_image *image) {
    struct layout found;
    enum signed_verdict verdict = find(bytes, &found);
    memset(image, 0, sizeof *image);
    if (verdict == SIGNED_TAKEN)
        verdict = is_signed(rules, bytes, &found);
    if (verdict == SIGNED_TAKEN)
        verdict = fits(rules, bytes, &found);
    if (verdict == SIGNED_TAKEN)
        describe(bytes, &found, image);
    return verdict;
}

uint32_t signed_counter(const struct signed_bytes *bytes) {
    struct layout found;
    uint8_t value[COUNTER_LENGTH];
    if (find(bytes, &found) != SIGNED_TAKEN || found.counter == 0)
        return 0;
    take(bytes, found.counter, value, COUNTER_LENGTH);
    return number(value);
}

/* SPDX-License-Identifier: MIT OR Apache-2.0 */
/* A check of images that MCUboot's imgtool signed, by Ed25519:
 *
 *     imgtool sign --key maker.pem --header-size 0x20 --pad-header --slot-size 0x10000 --align 4 --version 1.2.0 --security-counter 3
 *                  --custom-tlv 0x00a0 0x0700 program.bin image.bin
 *
 * Numbers are stored with the low byte first. An image has these parts, and nothing after them:
 *
 *     header        at 0: 96f3b83dh; at 8, in 2 bytes: its own size, 32 or more; at 10, in 2: bytes of protected TLVs; at 12, in 4: bytes
 *                   of the program; at 16: flags; at 20: the version, as major (1), minor (1), revision (2) and build (4)
 *     program
 *     protected     6908h (2) and the bytes of all of it (2); TLVs: type (2), length (2), value. 50h: the security counter (4);
 *                   00a0h: the hardware (2)
 *     unprotected   6907h (2) and the bytes of all of it (2); TLVs as above. 10h: SHA-256 of all parts before; 01h: SHA-256 of the public
 *                   key in DER; 24h: the signature of the digest. No other type
 *
 * Therefore any changed bit of an image is detected. The checks end for any bytes, and read none outside the image. */
#ifndef SIGNED_CHECK_H
#define SIGNED_CHECK_H
#include <stddef.h>
#include <stdint.h>

/* An image in two parts, because a device writes whole units: the front is on flash, and the last few bytes are in memory. If a part has no
 * bytes, its pointer is not read. */
struct signed_bytes {
    const uint8_t *front;
    size_t front_length;
    const uint8_t *tail;
    size_t tail_length;
};

/* Rules by which a board accepts an image. */
enum { SIGNED_KEY = 44 };
struct signed_rules {
    const uint8_t (*keys)[SIGNED_KEY]; /* the public keys, in DER, as `imgtool getpub` prints them: each may sign */
    size_t key_count;
    uint16_t hardware; /* the board's own number, which TLV 00a0h must contain */
    uint32_t least;    /* the minimum security counter: that of the confirmed image */
};

/* The result of a check: the first that applies. */
enum signed_verdict {
    SIGNED_TAKEN,
    SIGNED_NO_HEADER,       /* the image is shorter than a header, or has another magic number */
    SIGNED_WRONG_LENGTHS,   /* the lengths of header, program and TLVs don't add up to the image's, or there are no protected TLVs */
    SIGNED_WRONG_FLAGS,     /* the image is encrypted, compressed, or must not be started in place */
    SIGNED_WRONG_TLVS,      /* a TLV has a wrong length, a type occurs twice, or an unprotected type is not one of the three */
    SIGNED_WRONG_DIGEST,    /* there is no digest, or it is not that of the bytes */
    SIGNED_OTHER_KEY,       /* there is no hash of a key, or it is not that of a key of the board */
    SIGNED_WRONG_SIGNATURE, /* there is no signature, or it is wrong */
    SIGNED_OTHER_BOARD,     /* the image is signed, but for another hardware or for none */
    SIGNED_NO_COUNTER,      /* the image is signed, but has no security counter */
    SIGNED_OLDER            /* the image is signed, but its security counter is below the minimum; an equal one is accepted */
};

/* Signed fields of an accepted image. */
struct signed_image {
    uint32_t program, length; /* offset and length of the program */
    uint32_t counter;
    uint8_t major, minor;
    uint16_t revision;
    uint32_t build;
};

/* Checks an image. If it is accepted, `image` receives its fields; else `image` is set to zeros. */
enum signed_verdict signed_check(const struct signed_rules *rules, const struct signed_bytes *bytes, struct signed_image *image);

/* Returns the security counter of an image that was checked before it became active, or 0 if it has none. The signature is not checked
 * again. */
uint32_t signed_counter(const struct signed_bytes *bytes);

/* Returns the status of USB DFU 1.1 for a refused image: errTARGET (1) if the maker signed it, but it is for another board or older than
 * the confirmed image; else errFILE (2). */
uint8_t signed_status(enum signed_verdict verdict);

/* Returns the verdict as text. */
const char *signed_name(enum signed_verdict verdict);

#endif

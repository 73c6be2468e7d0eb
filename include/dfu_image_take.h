/* SPDX-License-Identifier: MIT OR Apache-2.0 */
/* Reads the image from a file that a build produced, so that a flashing tool accepts Intel HEX, S-records, UF2 and ELF as `dfu add
 * --format` does. The code is dfu_image.c.
 *
 *     static uint64_t memory[(4 * (16 << 20) + 200000) / 8];
 *     static uint8_t room[16 << 20];
 *     struct dfu_taken taken;
 *     uint32_t looks = dfu_image_look(file, length, name, strlen(name), &look);       (dfu_image.h)
 *     if (looks >= DFU_LOOKS_IHEX && looks <= DFU_LOOKS_ELF
 *         && dfu_image_take(file, length, looks, DFU_FILL_NONE, room, sizeof room, &taken, memory, sizeof memory / 8) == 0)
 *         the image is the first taken.length bytes of room, and begins at address taken.address
 *
 * The rules of dfu_host.h apply: no pointer is NULL, each points to as many bytes as its length says, and no two arguments overlap in
 * memory. The library keeps no state between two calls.
 *
 * Proved: dfu_image_take answers as described here, for any file, by the readers of `dfu add`, if its allocator works. Tests show that the
 * allocator hands out disjoint words of `memory`, each once; this is not proved. */
#ifndef DFU_IMAGE_TAKE_H
#define DFU_IMAGE_TAKE_H

#include "dfu_image.h"

#ifdef __cplusplus
extern "C" {
#endif

/* Value of `fill` for images that may have no gaps. */
#define DFU_FILL_NONE 256

/* Refusals of a file. They are checked in this order: an unknown format; the first fault of the first faulty line, block or segment; no
 * bytes; the first gap from the lowest address on, or too many bytes; too little room. The manual dfu(1) defines each exactly (REFUSALS). A
 * comment that begins with line, block, segment or address says what taken.from is: a line from 1, a block or segment from 0, or an
 * address. For other refusals it is 0. */
enum {
    DFU_TAKE_NO_FORMAT = -101,         /* format is none of DFU_LOOKS_IHEX to DFU_LOOKS_ELF */
    DFU_TAKE_NO_ROOM = -102,           /* the image has taken.length bytes, and room has fewer */
    DFU_TAKE_NO_MEMORY = -103,         /* `memory` is too small; the file may be valid */
    DFU_TAKE_NO_MARK = -104,           /* line: it doesn't begin with the mark of a record */
    DFU_TAKE_BAD_DIGIT = -105,         /* line: the bytes are not pairs of hexadecimal digits */
    DFU_TAKE_BAD_LENGTH = -106,        /* line: its length is not the one it states, or not that of its type */
    DFU_TAKE_BAD_CHECKSUM = -107,      /* line: its checksum is wrong */
    DFU_TAKE_BAD_TYPE = -108,          /* line: no record has this type */
    DFU_TAKE_BAD_COUNT = -109,         /* line: the count differs from the number of data records before it */
    DFU_TAKE_PAST_SEGMENT = -110,      /* line: its data goes beyond its segment, or beyond address FFFFFFFFh */
    DFU_TAKE_TRAILING = -111,          /* line: it follows the end record */
    DFU_TAKE_NO_END = -112,            /* the end record is missing */
    DFU_TAKE_BAD_SIZE = -113,          /* the file is not one or more blocks of 512 bytes */
    DFU_TAKE_BAD_MAGIC = -114,         /* block: one of its three marks is missing */
    DFU_TAKE_BAD_BLOCK = -115,         /* block: it states over 476 bytes of data */
    DFU_TAKE_BAD_NUMBER = -116,        /* block: its number or the count of blocks is wrong */
    DFU_TAKE_FILE_CONTAINER = -117,    /* block: it belongs to a file on the device */
    DFU_TAKE_OTHER_FAMILY = -118,      /* block: its family differs from that of the first block */
    DFU_TAKE_NOT_ELF = -119,           /* the file has no ELF header for 32 bits, little endian */
    DFU_TAKE_CUT_HEADER = -120,        /* the file doesn't contain all program headers, of 32 bytes each */
    DFU_TAKE_CUT_SEGMENT = -121,       /* segment: the file doesn't contain all of its bytes */
    DFU_TAKE_PAST_THE_END = -122,      /* block or segment: its data goes beyond address FFFFFFFFh */
    DFU_TAKE_TOO_LARGE = -123,         /* line, block or segment: with it there are over 16,777,216 bytes of data */
    DFU_TAKE_TOO_MANY_ELEMENTS = -124, /* line, block or segment: with it there are over 1,024 parts */
    DFU_TAKE_OVERLAPS = -125,          /* address: the lowest one that two records contain */
    DFU_TAKE_NO_DATA = -126,           /* the file has no bytes for any address */
    DFU_TAKE_GAP = -127,               /* address: first of a gap that ends before taken.to, without a byte to fill it */
    DFU_TAKE_TOO_LARGE_FILLED = -128   /* with its gaps filled the image has over 16,777,216 bytes */
};

/* Result of dfu_image_take. */
struct dfu_taken {
    DFU_ALIGNED_8 uint64_t length; /* bytes of the image; 0 after a refusal other than DFU_TAKE_NO_ROOM */
    DFU_ALIGNED_8 uint64_t from;   /* line, block, segment or address of a refusal, or 0 */
    DFU_ALIGNED_8 uint64_t to;     /* DFU_TAKE_GAP: the address of the first byte after the gap; else 0 */
    uint32_t address;              /* address of the image's first byte; 0 after a refusal other than DFU_TAKE_NO_ROOM */
};

/* Copies the image of a file in a format, DFU_LOOKS_IHEX to DFU_LOOKS_ELF, to the first bytes of room: its bytes from the lowest address to
 * the highest, with gaps filled by the byte `fill`, 0 to 255. With DFU_FILL_NONE or more an image with gaps is refused. Returns 0, or a
 * refusal, which leaves room as it was. DFU_TAKE_NO_FORMAT changes nothing, and neither does DFU_TAKE_NO_MEMORY with fewer than 3 words.
 * Memory of four times the image plus 200,000 bytes is enough. */
int32_t dfu_image_take(const uint8_t *file, size_t length, uint32_t format, uint32_t fill, uint8_t *room, size_t room_length,
                       struct dfu_taken *taken, uint64_t *memory, size_t words);

/* Returns the version of the library, which must be DFU_VERSION. */
int32_t dfu_image_version(void);

#ifdef __cplusplus
}
#endif

#endif

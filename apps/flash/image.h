/* SPDX-License-Identifier: MIT OR Apache-2.0 */
/* The file for a download. */
#ifndef DFU_FLASH_IMAGE_H
#define DFU_FLASH_IMAGE_H

#include "words.h"

#include <dfuse_file.h>
#include <stddef.h>
#include <stdint.h>

struct image {
    uint8_t *bytes; /* content of the file, with a suffix */
    size_t length;
    size_t payload;               /* number of bytes at the start of the file that are sent */
    uint16_t vendor, product;     /* identifiers in its suffix; FFFFh matches any device */
    bool is_dfuse;                /* the file is a DfuSe file */
    struct dfuse_file dfuse_info; /* fields of the prefix and suffix of a DfuSe file */
    size_t stamp_at;              /* with --stamp: offset of the placeholder in the file */
};

/* Reads FILE. A raw image, which has no suffix, gets one for the device that --device names. Returns 0; a refusal of the host (dfu_host.h),
 * of dfuse_file.h or of session.h; one of the codes below from IMAGE_FORMAT on, for a file that isn't an image; IMAGE_UNREAD if the file
 * can't be read; or IMAGE_WORDS if the options can't be used with FILE. Prints the reason for the last two, and all warnings, on standard
 * error. */
int32_t image_read(struct image *image, const struct words *words);

/* Returns the CRC-32 of the payload as in zlib and gzip; for a DfuSe file, of the whole file without its own CRC. */
uint32_t image_crc(const struct image *image);

/* Recomputes the CRC of the suffix from the current bytes of the file, and reads the suffix again. Returns 0 or a refusal. */
int32_t image_seal(struct image *image);

/* Makes an image of these bytes, with a suffix for a device. Returns 0; a refusal of the host; or IMAGE_UNREAD if there is no memory. */
int32_t image_make(struct image *image, const uint8_t *bytes, size_t length, uint16_t vendor, uint16_t product);

#define IMAGE_UNREAD (-100)
#define IMAGE_WORDS (-101)
#define IMAGE_FORMAT (-109)  /* an Intel HEX, S-record, UF2 or ELF file */
#define IMAGE_DAMAGED (-110) /* an Intel HEX or S-record file with an invalid byte */
#define IMAGE_ARCHIVE (-111) /* a zip or gzip archive */
#define IMAGE_TEXT (-112)    /* a text file */
#define IMAGE_NAMED (-113)   /* the file name belongs to a format that the content doesn't have */
#define IMAGE_CUT (-114)     /* the file has the name of a DFU file, and no suffix */
#define IMAGE_ELF (-115)     /* a 64-bit or big-endian ELF file */

#endif

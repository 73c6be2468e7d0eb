/* SPDX-License-Identifier: MIT OR Apache-2.0 */
/* Reads DfuSe files (ST's UM0391): which bytes belong to which addresses of a device, as the elements of a session of dfuse_host.h. The
 * calls are in the same archive, allocate nothing and keep no state.
 *
 * A file has targets, each for an alternate setting, which is one memory of a device. A target has elements, each an address and bytes. A
 * suffix follows, like that of USB DFU 1.1 (appendix B), with bcdDFU 011Ah. The size in the file's prefix may include the suffix, as in
 * files from dfu-util's tools, or not, as in files from ST's.
 *
 *     struct dfuse_file says; struct dfuse_element image[64]; uint64_t elements;
 *     if (dfuse_read_file(bytes, length, &says) != 0) refused
 *     for (size_t at = 0; at < 64; at++) image[at] = (struct dfuse_element){0, bytes, 0};
 *     if (dfuse_file_image(bytes, length, 0, image, 64, &elements) != 0) refused
 *     sort them by their addresses
 *     if (dfuse_begin(&s, map, map_length, image, elements, &plan) != 0) refused
 *
 * What is proved:
 * - dfuse_read_file returns 0 exactly for the files of the grammar, and for all others their first fault.
 * - dfuse_file_image lists the elements of all targets for a setting, each once and no others, in the order of the file. Their bytes stay
 *   in the file, and are not copied.
 * These calls don't check that elements are disjoint and lie in a device's memory map: dfuse_begin does. They don't compare the numbers of
 * the suffix with a device either. */
#ifndef DFUSE_FILE_H
#define DFUSE_FILE_H

#include "dfu_host.h"
#include "dfuse_host.h"

#ifdef __cplusplus
extern "C" {
#endif

/* Fields of a DfuSe file. */
struct dfuse_file {
    uint32_t targets;                 /* number of targets, 1 to 255 */
    uint32_t setting;                 /* alternate setting of all targets; or DFUSE_SEVERAL */
    uint16_t device, product, vendor; /* bcdDevice, idProduct and idVendor of the suffix; FFFFh is any */
};

/* Value of dfuse_file.setting if the targets are for different alternate settings. */
enum { DFUSE_SEVERAL = 256 };

/* Negative return values for the faults of a file, in the order in which they are checked: up to DFUSE_FILE_BAD_CRC those of the suffix,
 * then those of the rest, from the beginning of the file. */
enum {
    DFUSE_FILE_TOO_LARGE = -71,     /* the file has over 16,777,216 bytes */
    DFUSE_FILE_TOO_SHORT = -72,     /* the file has under 16 bytes */
    DFUSE_FILE_NO_SIGNATURE = -73,  /* the file has no 'UFD' in its suffix */
    DFUSE_FILE_BAD_LENGTH = -74,    /* the file has a bLength under 16, or over its own length */
    DFUSE_FILE_NOT_DFUSE = -75,     /* the file's bcdDFU isn't 011Ah */
    DFUSE_FILE_BAD_CRC = -76,       /* the file's dwCRC isn't the CRC of its bytes */
    DFUSE_FILE_NO_PREFIX = -77,     /* the file doesn't begin with the letters DfuSe, or has under 11 bytes before its suffix */
    DFUSE_FILE_BAD_VERSION = -78,   /* the version in the prefix isn't 1 */
    DFUSE_FILE_BAD_SIZE = -79,      /* the size in the prefix is neither that of the file, nor that without its suffix */
    DFUSE_FILE_NO_TARGETS = -80,    /* the file has 0 targets */
    DFUSE_FILE_NO_TARGET = -81,     /* a target has under 274 bytes, or doesn't begin with the letters Target */
    DFUSE_FILE_BAD_TARGET = -82,    /* a target's size field differs from its size */
    DFUSE_FILE_PAST_TARGET = -83,   /* an element has fewer bytes than its size field says, or is missing */
    DFUSE_FILE_EMPTY_ELEMENT = -84, /* an element has no bytes */
    DFUSE_FILE_PAST_THE_END = -85,  /* an element ends beyond address FFFFFFFFh */
    DFUSE_FILE_TRAILING = -86       /* bytes follow the last target */
};

/* Negative return values of dfuse_file_image for a valid file. */
enum {
    DFUSE_FILE_NO_SETTING = -87,        /* the file has no target for that alternate setting */
    DFUSE_FILE_TOO_MANY_ELEMENTS = -88  /* there are more elements than `room` */
};

/* Reads a file. Returns 0; or the first that applies of DFUSE_FILE_TOO_LARGE to DFUSE_FILE_TRAILING. A refusal changes nothing. */
int32_t dfuse_read_file(const uint8_t *file, size_t length, struct dfuse_file *out);

/* Writes the elements of a file for an alternate setting to `places`, in the order of the file, and their number to `count`. Returns 0; or
 * the file's fault; or the first that applies of DFUSE_FILE_NO_SETTING and DFUSE_FILE_TOO_MANY_ELEMENTS. Each of the `room` elements of
 * `places` must be initialized, with a pointer that isn't NULL and points to `length` bytes, such as length 0. A refusal leaves count as it
 * was; after the last two `places` may hold some of the file's elements. */
int32_t dfuse_file_image(const uint8_t *file, size_t length, uint8_t setting, struct dfuse_element *places, size_t room,
                         uint64_t *count);

#ifdef __cplusplus
}
#endif

#endif

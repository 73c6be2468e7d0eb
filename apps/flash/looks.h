/* SPDX-License-Identifier: MIT OR Apache-2.0 */
/* Detects files without a suffix that aren't images. */
#ifndef DFU_FLASH_LOOKS_H
#define DFU_FLASH_LOOKS_H

#include <dfu_image.h>
#include <stddef.h>
#include <stdint.h>

/* Returns the format that the bytes seem to have, by the proved dfu_image_look. `file` is the file name, or `-` for standard input, which
 * has no name. */
struct dfu_look looks_of(const uint8_t *bytes, size_t length, const char *file);

/* Warns on standard error if an image with a suffix looks like a file of another format, or like text. Such an image isn't refused, because
 * it may be intended, for example for a board that loads ELF files. */
void looks_warn(const uint8_t *bytes, size_t length);

/* Warns if a raw file looks like an archive that the library doesn't recognize. */
void looks_warn_raw(const uint8_t *bytes, size_t length);

/* Prints the format of a file that isn't raw, and the next step. If `dfu add` accepts the file, a second line names the option for a DfuSe
 * device. Returns a refusal of image.h. */
int32_t looks_refuse(const struct dfu_look *look, const uint8_t *bytes, size_t length, const char *file);

#endif

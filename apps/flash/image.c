/* SPDX-License-Identifier: MIT OR Apache-2.0 */
/* Reads the file for a download. A DfuSe file is recognized by its prefix or its suffix. A raw image gets a suffix (USB DFU 1.1, appendix
 * B), which the host checks like any other, so an error in it causes a refusal. looks.c decides which files are raw. */
#include "image.h"
#include "advice.h"
#include "files.h"
#include "looks.h"
#include "messages.h"
#include "session.h"
#include "stamp.h"
#include "standard.h"

#include <dfu_host.h>
#include <inttypes.h>
#include <stdio.h>
#include <stdlib.h>
#include <string.h>

#define SUFFIX_BYTES 16

_Static_assert(SUFFIX_BYTES <= FILE_SPARE, "the room after a file has place for a suffix");

/* Computes dwCRC of these bytes, four bits at a time. */
static uint32_t crc_of(const uint8_t *bytes, size_t length)
{
    static const uint32_t rows[16] = {
        0x00000000, 0x1db71064, 0x3b6e20c8, 0x26d930ac, 0x76dc4190, 0x6b6b51f4, 0x4db26158, 0x5005713c,
        0xedb88320, 0xf00f9344, 0xd6d6a3e8, 0xcb61b38c, 0x9b64c2b0, 0x86d3d2d4, 0xa00ae278, 0xbdbdf21c,
    };
    uint32_t crc = 0xffffffff;
    for (size_t at = 0; at < length; at++) {
        crc ^= bytes[at];
        crc = crc >> 4 ^ rows[crc & 15];
        crc = crc >> 4 ^ rows[crc & 15];
    }
    return crc;
}

/* Writes dwCRC, the last four bytes of a suffix, low byte first. */
static void put_crc(uint8_t *place, uint32_t crc)
{
    for (int at = 0; at < 4; at++)
        place[at] = (uint8_t)(crc >> 8 * at & 0xff);
}

/* Adds a suffix that is valid for any release of the device. */
static void add_suffix(struct image *image, uint16_t vendor, uint16_t product)
{
    const uint8_t suffix[SUFFIX_BYTES - 4] = {
        0xff,
        0xff,
        (uint8_t)(product & 0xff),
        (uint8_t)(product >> 8),
        (uint8_t)(vendor & 0xff),
        (uint8_t)(vendor >> 8),
        0x00,
        0x01,
        'U',
        'F',
        'D',
        SUFFIX_BYTES,
    };
    memcpy(image->bytes + image->length, suffix, sizeof suffix);
    image->length += SUFFIX_BYTES;
    put_crc(image->bytes + image->length - 4, crc_of(image->bytes, image->length - 4));
}

/* Returns true if the options give a raw image its target: an address, or the identifiers of a device. Else prints what is missing, unless
 * the image is empty. */
static bool has_target(const struct words *words, bool is_empty)
{
    if (words->has_address || (words->has_ids && words->vendor != ANY_ID && words->product != ANY_ID))
        return true;
    if (!is_empty)
        fputs("dfu-flash: an image without a suffix is taken with --device VID:PID, both not ffff\n", stderr);
    return false;
}

static void say_empty(void)
{
    fputs("dfu-flash: the file is empty: it has no bytes\n", stderr);
    advice_is("build it anew: it is empty");
}

/* Copies the fields of the suffix into the image. */
static int32_t take_suffix(struct image *image)
{
    struct dfu_file file;
    int32_t refusal = dfu_host_file(image->bytes, image->length, &file);
    if (refusal < 0)
        return refusal;
    image->payload = (size_t)file.payload;
    image->vendor = file.vendor;
    image->product = file.product;
    return 0;
}

int32_t image_seal(struct image *image)
{
    put_crc(image->bytes + image->length - 4, crc_of(image->bytes, image->length - 4));
    return image->is_dfuse ? dfuse_read_file(image->bytes, image->length, &image->dfuse_info) : take_suffix(image);
}

/* A DfuSe file is hashed without its own CRC, because the CRC of bytes that end with their own CRC is the same for every file. */
uint32_t image_crc(const struct image *image)
{
    return ~crc_of(image->bytes, image->is_dfuse ? image->length - 4 : image->payload);
}

int32_t image_make(struct image *image, const uint8_t *bytes, size_t length, uint16_t vendor, uint16_t product)
{
    memset(image, 0, sizeof *image);
    image->bytes = malloc(length + SUFFIX_BYTES);
    if (image->bytes == NULL)
        return IMAGE_UNREAD;
    memcpy(image->bytes, bytes, length);
    image->length = length;
    add_suffix(image, vendor, product);
    return take_suffix(image);
}

/* Returns true if --raw may be used with the file. A file with a suffix and a DfuSe file define by themselves what is sent. */
static bool may_be_raw(bool has_suffix, bool is_dfuse)
{
    if (is_dfuse)
        return words_refuse("the file is a DfuSe file, so it says itself where its images belong: leave --raw out", "");
    return !has_suffix || words_refuse("the file has a suffix, so it says itself where its image ends: leave --raw out", "");
}

/* Returns true if the options may be used with this kind of file. For example --no-verify can't be used with a DfuSe file, because its
 * image is always read back. */
static bool is_fit(const struct words *words, bool has_suffix, bool is_dfuse)
{
    if (words->raw && !may_be_raw(has_suffix, is_dfuse))
        return false;
    if (is_dfuse && !words->verify)
        return words_refuse("--no-verify doesn't go with a DfuSe file: what is written of it is read back", "");
    if (is_dfuse && words->transfer != 0)
        return words_refuse("--transfer-size doesn't go with a DfuSe file: such a device counts in blocks of its own size", "");
    return is_dfuse || !words->stays || words->has_address || words_refuse("--no-leave goes with --address, or with a DfuSe file", "");
}

/* With -D, reports that the application starts at the end, because dfu-util would stay in DFU mode after a DfuSe file without `:leave`. */
static void note_leaving(const struct words *words)
{
    if (words->is_by_letter && !words->leaves && !words->stays && !words->quiet)
        fputs(
            "dfu-flash: the application is started at the end; --no-leave keeps the board in DFU mode, as for the next of several files\n",
            stderr);
}

/* Reads a whole DfuSe file. If it has images for several settings, one must be selected, so that no image is skipped silently. */
static int32_t read_dfuse(struct image *image, const struct words *words)
{
    int32_t refusal = dfuse_read_file(image->bytes, image->length, &image->dfuse_info);
    if (words->has_address && refusal != DFUSE_FILE_NO_PREFIX)
        return REFUSED_OWN_ADDRESS;
    if (refusal != 0)
        return refusal;
    image->vendor = image->dfuse_info.vendor;
    image->product = image->dfuse_info.product;
    if (image->dfuse_info.setting == DFUSE_SEVERAL && words->alternate < 0 && words->setting == NULL)
        return REFUSED_MIXED;
    note_leaving(words);
    return 0;
}

/* Reads a file without a suffix. If it doesn't look like another format, or --raw is given, the whole file is the image, and gets a suffix.
 */
static int32_t read_raw(struct image *image, const struct words *words, const struct dfu_look *look, int32_t refusal)
{
    if (look->looks != DFU_LOOKS_RAW && !words->raw)
        return looks_refuse(look, image->bytes, image->length, words->file);
    if (image->length == 0)
        say_empty();
    if (!has_target(words, image->length == 0))
        return refusal;
    if (!words->raw)
        looks_warn_raw(image->bytes, image->length);
    if (!words->quiet && words->has_address && image->length > 0)
        fprintf(stderr, "dfu-flash: there is no suffix: all %zu bytes %s written, from %08lx on\n", image->length,
                words->dry_run ? "would be" : "are", (unsigned long)words->address);
    else if (!words->quiet && image->length > 0)
        fprintf(stderr, "dfu-flash: there is no suffix: all %zu bytes %s sent, to %04x:%04x\n", image->length,
                words->dry_run ? "would be" : "are", words->vendor, words->product);
    add_suffix(image, words->has_ids ? words->vendor : ANY_ID, words->has_ids ? words->product : ANY_ID);
    return take_suffix(image);
}

/* Reports the CRC in the file and the CRC of its bytes. */
static void say_sums(const struct image *image)
{
    uint32_t said = 0;
    char seen[80];
    for (int at = 0; at < 4; at++)
        said |= (uint32_t)image->bytes[image->length - 4 + (size_t)at] << 8 * at;
    snprintf(seen, sizeof seen, "it says the check sum %08" PRIx32 ", and its bytes have %08" PRIx32, said,
             crc_of(image->bytes, image->length - 4));
    advice_first(seen);
}

/* Treats a file with a DfuSe prefix as a DfuSe file even if it is damaged. A valid DFU 1.1 file isn't treated so unless --address is given,
 * because its image may begin with any bytes. */
static int32_t take_bytes(struct image *image, const struct words *words)
{
    struct dfu_look look;
    int32_t refusal;
    look = looks_of(image->bytes, image->length, words->file);
    refusal = take_suffix(image);
    image->is_dfuse = refusal == DFU_FILE_DFUSE || (look.looks == DFU_LOOKS_DFUSE && (refusal != 0 || words->has_address));
    if (!is_fit(words, refusal == 0, image->is_dfuse))
        return IMAGE_WORDS;
    if (image->is_dfuse)
        return read_dfuse(image, words);
    /* A file with a suffix is sent, because it names its device. A warning is printed if it looks like text, because `dfu add` without
     * --format may have wrapped a text file. */
    if (refusal == 0)
        looks_warn(image->bytes, image->payload);
    return refusal == DFU_FILE_NO_SIGNATURE || refusal == DFU_FILE_TOO_SHORT ? read_raw(image, words, &look, refusal) : refusal;
}

int32_t image_read(struct image *image, const struct words *words)
{
    int32_t refusal;
    if (!file_read(words->file, &image->bytes, &image->length))
        return IMAGE_UNREAD;
    refusal = take_bytes(image, words);
    if (refusal == DFU_FILE_BAD_CRC || refusal == DFUSE_FILE_BAD_CRC)
        say_sums(image);
    return refusal != 0 ? refusal : stamp_place(image, words);
}

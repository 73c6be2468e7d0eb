/* SPDX-License-Identifier: MIT OR Apache-2.0 */
/* Finds the location of --stamp-at in an image. All bytes of the location must have the same value, so that a wrong number doesn't
 * overwrite code. */
#include "advice.h"
#include "session.h"
#include "stamp.h"
#include "station.h"

#include <inttypes.h>
#include <stdio.h>
#include <string.h>

/* Parts of an image that are sent to the device, each with its address. Without --address the address is 0. */
struct parts {
    struct dfuse_element list[DFUSE_ELEMENTS];
    uint64_t count;
};

static int32_t parts_of(struct parts *parts, const struct image *image, const struct words *words)
{
    uint32_t setting = words->alternate >= 0 ? (uint32_t)words->alternate : image->dfuse_info.setting;
    parts->count = 1;
    for (size_t at = 0; at < DFUSE_ELEMENTS; at++)
        parts->list[at] = (struct dfuse_element){.bytes = image->bytes};
    parts->list[0].length = image->payload;
    parts->list[0].address = words->has_address ? words->address : 0;
    if (!image->is_dfuse)
        return 0;
    if (setting == DFUSE_SEVERAL)
        return words_refuse("--stamp-at with a file for several settings takes --alt by its number", "") ? 0 : IMAGE_WORDS;
    return dfuse_file_image(image->bytes, image->length, (uint8_t)setting, parts->list, DFUSE_ELEMENTS, &parts->count);
}

/* Reports the addresses of the image's parts, because none of them contains the whole location. */
static void say_parts(const struct parts *parts, const struct words *words)
{
    char seen[200];
    int length = snprintf(seen, sizeof seen, "%" PRIu32 " bytes at 0x%" PRIx64 " were asked for; the image is", words->stamp_bytes,
                          words->stamp_place);
    for (uint64_t at = 0; at < parts->count && at < 3; at++)
        length += snprintf(seen + length, sizeof seen - (size_t)length, "%s 0x%" PRIx32 " to 0x%" PRIx64, at == 0 ? "" : ",",
                           parts->list[at].address, (uint64_t)parts->list[at].address + parts->list[at].length - 1);
    snprintf(seen + length, sizeof seen - (size_t)length, "%s", parts->count > 3 ? " .." : "");
    advice_first(seen);
}

/* Returns true if all bytes of the location have the same value; else reports the first that differs. */
static bool is_room(const uint8_t *bytes, const struct words *words)
{
    char seen[120];
    for (uint32_t at = 1; at < words->stamp_bytes; at++) {
        if (bytes[at] == bytes[0])
            continue;
        snprintf(seen, sizeof seen, "the image has %02x at 0x%" PRIx64 " and %02x at 0x%" PRIx64, bytes[0], words->stamp_place, bytes[at],
                 words->stamp_place + at);
        advice_first(seen);
        return false;
    }
    return true;
}

int32_t stamp_place(struct image *image, const struct words *words)
{
    static struct parts parts;
    int32_t refusal;
    if (words->stamp == NULL)
        return 0;
    refusal = parts_of(&parts, image, words);
    if (refusal != 0)
        return refusal;
    for (uint64_t at = 0; at < parts.count; at++) {
        uint64_t first = parts.list[at].address, end = first + parts.list[at].length;
        if (words->stamp_place < first || words->stamp_place + words->stamp_bytes > end)
            continue;
        image->stamp_at = (size_t)(parts.list[at].bytes - image->bytes) + (size_t)(words->stamp_place - first);
        return is_room(image->bytes + image->stamp_at, words) ? 0 : REFUSED_NO_ROOM;
    }
    say_parts(&parts, words);
    return REFUSED_STAMP_OUTSIDE;
}

int32_t stamp_image(struct image *image, const struct words *words)
{
    uint8_t bytes[STAMP_BYTES];
    if (words->stamp == NULL)
        return 0;
    if (words->bay == NULL && stamp_next() == NULL)
        stamp_is(stamp_hold(), NULL);
    if (stamp_next() == NULL)
        return REFUSED_NO_STAMP;
    stamp_bytes(bytes);
    memcpy(image->bytes + image->stamp_at, bytes, words->stamp_bytes);
    return image_seal(image);
}

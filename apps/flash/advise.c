/* SPDX-License-Identifier: MIT OR Apache-2.0 */
/* Derives exact advice from the connected boards, the file and the memory map: a command line to type, or the address at which the image
 * differs or doesn't fit. */
#include "advice.h"
#include "facts.h"
#include "one_device.h"
#include "session.h"
#include "standard.h"
#include "../common/text.h"

#include <inttypes.h>
#include <stdio.h>
#include <string.h>

/* Block size that every device accepts: the smallest packet of a control endpoint (USB 2.0, section 5.5.3). */
#define SMALLEST_BLOCK 8

/* Writes the --address option for the first range of the device's map that accepts images, or for an upload, --address and --length of its
 * first readable range. Returns false if the map has none. */
static bool name_memory(const struct found *found, bool is_upload, char *words, size_t room)
{
    struct dfuse_range range;
    if (!dfuse_first((const uint8_t *)found->name, strlen(found->name), is_upload, &range))
        return false;
    if (is_upload)
        snprintf(words, room, "--address 0x%08" PRIx64 " --length %" PRIu64, range.start, range.size * range.count);
    else
        snprintf(words, room, "--address 0x%08" PRIx64, range.start);
    return true;
}

/* Returns the first alternate setting of the only board in the list. Returns NULL if there are no or several boards, or if the board can't
 * be opened. */
static const struct found *only_one(const struct found *list, int count)
{
    for (int at = 1; at < count; at++)
        if (strcmp(list[at].path, list[0].path) != 0)
            return NULL;
    return count > 0 && list[0].access == 0 ? &list[0] : NULL;
}

/* Suggests flashing at the start of the board's memory, with a condition, because the image must be linked for that address. */
static void run_there(const char *more)
{
    char condition[160];
    snprintf(condition, sizeof condition, "if the image is linked for %s, where this board's memory begins", more + strlen("--address "));
    advice_run(more);
    advice_if(condition);
}

void advise_raw(libusb_context *usb, const struct words *words)
{
    struct wanted wanted = wanted_of(words);
    struct found list[FOUND_ROOM];
    const struct found *one;
    char more[80];
    int count;
    if (words->has_ids)
        return;
    count = find_all(usb, &wanted, list, FOUND_ROOM);
    if (count < 0)
        return;
    one = only_one(list, count);
    snprintf(more, sizeof more, "--device %04x:%04x", one == NULL ? 0 : one->vendor, one == NULL ? 0 : one->product);
    if (one != NULL && (!is_dfuse(one) || !one->is_upgrade))
        advice_run(more);
    else if (one != NULL && name_memory(one, false, more, sizeof more))
        run_there(more);
    found_drop(list, count);
}

/* Reports the first part of the image, or the range of an upload, that isn't entirely inside the memory map, and the ranges of the map. */
static void say_outside(const struct session *session)
{
    const struct dfuse *dfuse = &session->dfuse;
    const struct dfuse_element whole = {.address = dfuse->address, .length = dfuse->length};
    const struct dfuse_element *parts = session->is_upload ? &whole : dfuse->image;
    uint64_t count = session->is_upload ? 1 : dfuse->elements;
    for (uint64_t at = 0; at < count; at++) {
        uint64_t past = (uint64_t)parts[at].address + parts[at].length;
        char areas[120], seen[240];
        if (dfuse_may_read(dfuse->map, dfuse->map_length, parts[at].address, past) != DFUSE_OUTSIDE)
            continue;
        dfuse_areas(dfuse->map, dfuse->map_length, areas, sizeof areas);
        snprintf(seen, sizeof seen, "%s %08" PRIx32 " to %08" PRIx64 ", and the board has %s",
                 session->is_upload ? "it was to read" : "the image would take", parts[at].address, past - 1, areas);
        advice_first(seen);
        return;
    }
}

/* Reports the identifiers in the file's suffix and those that the file must match: the device's, or those of --device if they differ. */
static void say_targets(const struct session *session)
{
    const struct found *info = &session->wire.device->info;
    const uint8_t *end = session->file + session->file_length;
    bool is_named = session->ids.vendor != info->vendor || session->ids.product != info->product;
    char seen[120];
    if (session->file_length < PRODUCT_BACK)
        return;
    snprintf(seen, sizeof seen, "the file is for %04x:%04x, and %s %04x:%04x", two_bytes(end - VENDOR_BACK), two_bytes(end - PRODUCT_BACK),
             is_named ? "--device names" : "the board is", session->ids.vendor, session->ids.product);
    advice_first(seen);
}

void advise_refused(const struct session *session, int32_t refusal)
{
    const struct found *info = &session->wire.device->info;
    char more[80];
    bool has_none = refusal == DFU_SHORT && facts_lacks_descriptor(info);
    if ((refusal == DFU_BAD_DESCRIPTOR || has_none) && session->transfer == 0) {
        snprintf(more, sizeof more, "--transfer-size %d", SMALLEST_BLOCK);
        advice_run(more);
    } else if (refusal == REFUSED_NO_ADDRESS && name_memory(info, session->is_upload, more, sizeof more))
        (session->is_upload ? advice_run : run_there)(more);
    else if (refusal == DFUSE_OUTSIDE)
        say_outside(session);
    else if (refusal == DFU_WRONG_TARGET)
        say_targets(session);
}

/* Appends an option with its value, quoted for a shell, or nothing if the value is empty, can't be typed or doesn't fit. */
static void add_option(char *line, size_t room, const char *option, const char *value)
{
    size_t length = strlen(line), more;
    if (value == NULL || *value == '\0')
        return;
    more = length + (size_t)snprintf(line + length, room - length, " %s ", option);
    if (more >= room || !text_word(value, line + more, room - more))
        line[length] = '\0';
}

/* The suggested --detach line contains the same --device, --path and --serial options as this run. */
void advise_detach(const struct words *words)
{
    char ids[20] = "", line[400] = "run dfu-flash --detach", step[440];
    if (words->has_ids && words->has_dfu_ids)
        snprintf(ids, sizeof ids, "%04x:%04x,%04x:%04x", words->vendor, words->product, words->dfu_vendor, words->dfu_product);
    else if (words->has_ids)
        snprintf(ids, sizeof ids, "%04x:%04x", words->vendor, words->product);
    add_option(line, sizeof line, "--device", ids);
    add_option(line, sizeof line, "--path", words->path);
    add_option(line, sizeof line, "--serial", words->serial);
    snprintf(step, sizeof step, "%s, and then this again", line);
    advice_is(step);
}

/* Reports the offset or address of the first difference, and the bytes of the device and of the file there, or which of the two has ended.
 */
static void say_odd(const struct session *session)
{
    const struct difference *difference = &session->difference;
    char place[40], seen[160];
    if (!difference->exists)
        return;
    snprintf(place, sizeof place, session->dfuse.is_active ? "%08" PRIx64 : "byte %" PRIu64, difference->at);
    if (difference->wanted >= 0 && difference->found >= 0)
        snprintf(seen, sizeof seen, "at %s is %02x, and %02x in the file", place, (unsigned)difference->found,
                 (unsigned)difference->wanted);
    else if (difference->wanted >= 0)
        snprintf(seen, sizeof seen, "at %s what the device gave ends, and the file has %02x", place, (unsigned)difference->wanted);
    else
        snprintf(seen, sizeof seen, "at %s is %02x, and the image in the file has ended", place, (unsigned)difference->found);
    advice_first(seen);
}

/* Returns true if --transfer-size sets larger blocks than the wTransferSize of the device. */
static bool is_too_large(const struct session *session)
{
    const struct found *info = &session->wire.device->info;
    return session->transfer != 0 && info->descriptor_size > AT_TRANSFER + 1
           && session->transfer > two_bytes(info->descriptor + AT_TRANSFER);
}

/* Returns true if --transfer-size was given and differs from the device's wTransferSize, which isn't 0. */
static bool is_other_size(const struct session *session)
{
    const struct found *info = &session->wire.device->info;
    uint16_t most = info->descriptor_size > AT_TRANSFER + 1 ? two_bytes(info->descriptor + AT_TRANSFER) : 0;
    return session->transfer != 0 && most != 0 && session->transfer != most;
}

/* Suggests a step after a comparison that found a difference. A device may return more of its memory after the last byte of the image. */
static void advise_different(const struct session *session)
{
    say_odd(session);
    if (session->difference.exists && session->difference.wanted < 0)
        advice_is("all bytes of the file are there, and more follow: if the device gives a whole partition, as U-Boot, use --no-verify");
    else if (is_other_size(session))
        advice_is("run it again without --transfer-size: the board may count places by blocks of its own size");
}

void advise_ended(const struct session *session, const struct verdict *verdict)
{
    const char *name = verdict->name;
    if (strcmp(name, "different") == 0)
        advise_different(session);
    else if (strcmp(name, "refused") == 0 && session->is_upload)
        advice_is("go by the code (see CODES in man dfu-flash), and ask the maker whether the device gives its image");
    else if (strcmp(name, "refused") == 0 && code_step(verdict->code) != NULL)
        advice_is(code_step(verdict->code));
    else if (strcmp(name, "gone") == 0 && session->goal == GOAL_VERIFIED && session->is_whole)
        advice_is("look whether it runs the new image: if so, --no-verify asks for no comparison; else plug it in, and run it again");
    else if (strcmp(name, "gave-up") == 0 && is_too_large(session))
        advice_is("run it again without --transfer-size: its blocks are larger than those that the device takes");
    else if (strcmp(name, "gave-up") == 0 && !session->wire.device->info.is_upgrade)
        advice_is("it stays in run-time mode: bring it to DFU mode by its button, and run it again");
}

void advise_other(const struct found *left, const struct found *came)
{
    bool has_serial = came->serial[0] != '\0';
    bool is_like = left->vendor == came->vendor && left->product == came->product && strcmp(left->serial, came->serial) == 0;
    char seen[TEXT_ROOM + 100];
    snprintf(seen, sizeof seen, "%04x:%04x%s%s came in its place%s", came->vendor, came->product, has_serial ? " serial " : "",
             came->serial, is_like ? ", with another interface, setting or descriptor" : "");
    advice_first(seen);
}

void advise_access(int access)
{
    if (access == LIBUSB_ERROR_BUSY)
        advice_is("end the program that has it, or take the driver away from it, and run it again");
    else if (access == LIBUSB_ERROR_NOT_SUPPORTED)
        advice_is("give it a driver that libusb can use, on Windows WinUSB, as by Zadig (see WINDOWS in man dfu-flash), and run it again");
}

/* SPDX-License-Identifier: MIT OR Apache-2.0 */
/* Takes from a DfuSe file the elements for the device's setting, and prints them. The library parses the file. */
#include "json.h"
#include "session.h"
#include "standard.h"

#include <inttypes.h>
#include <stdio.h>

static bool goes_with(uint16_t file, uint16_t device)
{
    return file == ANY_ID || file == device;
}

/* Sorts the elements by address. Insertion sort is fast enough, because there are at most 256 and they are usually in order. */
static void sort(struct dfuse_element *image, size_t count)
{
    for (size_t from = 1; from < count; from++) {
        const struct dfuse_element one = image[from];
        size_t at = from;
        for (; at > 0 && image[at - 1].address > one.address; at--)
            image[at] = image[at - 1];
        image[at] = one;
    }
}

int32_t dfuse_take_file(struct session *session)
{
    struct dfuse *dfuse = &session->dfuse;
    int32_t refusal;
    if (!goes_with(dfuse->file->vendor, session->ids.vendor) || !goes_with(dfuse->file->product, session->ids.product))
        return DFU_WRONG_TARGET;
    for (size_t at = 0; at < DFUSE_ELEMENTS; at++)
        dfuse->image[at] = (struct dfuse_element){.bytes = session->file};
    dfuse->elements = 0;
    refusal = dfuse_file_image(session->file, session->file_length, session->wire.device->info.alternate, dfuse->image, DFUSE_ELEMENTS,
                               &dfuse->elements);
    if (refusal != 0)
        return refusal;
    sort(dfuse->image, (size_t)dfuse->elements);
    session->payload_length = 0;
    for (uint64_t at = 0; at < dfuse->elements; at++)
        session->payload_length += dfuse->image[at].length;
    dfuse->address = dfuse->elements > 0 ? dfuse->image[0].address : 0;
    return 0;
}

uint64_t dfuse_below(const struct dfuse *dfuse, uint64_t address)
{
    uint64_t bytes = 0;
    for (uint64_t at = 0; at < dfuse->elements && dfuse->image[at].address < address; at++) {
        uint64_t length = dfuse->image[at].length, above = address - dfuse->image[at].address;
        bytes += above < length ? above : length;
    }
    return bytes;
}

void dfuse_print_elements(const struct dfuse *dfuse)
{
    for (uint64_t at = 0; at < dfuse->elements; at++)
        printf("    %08" PRIx32 " %zu byte%s\n", dfuse->image[at].address, dfuse->image[at].length,
               dfuse->image[at].length == 1 ? "" : "s");
}

void dfuse_elements_json(const struct session *session)
{
    const struct dfuse *dfuse = &session->dfuse;
    fputs(",\"elements\":[", stdout);
    for (uint64_t at = 0; at < dfuse->elements; at++) {
        printf("%s{\"address\":\"%08" PRIx32 "\"", at == 0 ? "" : ",", dfuse->image[at].address);
        json_number("place", (uint64_t)(dfuse->image[at].bytes - session->file));
        json_number("bytes", dfuse->image[at].length);
        putchar('}');
    }
    putchar(']');
}

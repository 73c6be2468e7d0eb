/* SPDX-License-Identifier: MIT OR Apache-2.0 */
/* Finds the first byte of an answer that differs from the image. An answer that is shorter than requested is the last one, so it also
 * differs if the image has more bytes. */
#include "compare.h"
#include "standard.h"

/* Compares an answer with the `left` bytes of the image from offset `at` on, which are in `wanted`. */
static void compare(struct session *session, uint64_t at, const uint8_t *wanted, size_t left, const struct answer *answer, size_t asked)
{
    size_t both = left < answer->count ? left : answer->count, same = 0;
    while (same < both && wanted[same] == answer->bytes[same])
        same++;
    session->difference = (struct difference){
        .exists = same < both || answer->count > left || (answer->count < asked && left > answer->count),
        .at = at + same,
        .wanted = same < left ? wanted[same] : -1,
        .found = same < answer->count ? answer->bytes[same] : -1,
    };
}

void compare_blocks(struct session *session, const struct dfu_action *action, const struct answer *answer)
{
    size_t length = setup_length(action->setup), at = (size_t)setup_value(action->setup) * length;
    size_t left = at < session->payload_length ? session->payload_length - at : 0;
    if (session->goal == GOAL_VERIFIED && answer->seen == DFU_SEEN_BYTES)
        compare(session, at, left > 0 ? session->file + at : session->file, left, answer, length);
}

void compare_memory(struct session *session, const struct dfuse_action *action, const struct answer *answer)
{
    const struct dfuse *dfuse = &session->dfuse;
    uint64_t address = dfuse->host.at;
    if (!is_request(action->setup, KIND_IN, REQUEST_UPLOAD) || answer->seen != DFU_SEEN_BYTES)
        return;
    for (uint64_t at = 0; at < dfuse->elements; at++) {
        const struct dfuse_element *element = &dfuse->image[at];
        uint64_t before = address - element->address;
        if (address >= element->address && before < element->length)
            compare(session, address, element->bytes + before, element->length - (size_t)before, answer, setup_length(action->setup));
    }
}

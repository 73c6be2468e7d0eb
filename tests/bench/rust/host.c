/* SPDX-License-Identifier: MIT OR Apache-2.0 */
/* A session of the host: it reads a file, installs it and compares it. package/src/host.rs does the same in Rust. */
#include "dfu_host.h"
#include "session.h"

static const struct dfu_ids ids = {0x0100, 1, 0x1209};

/* Carries out an action. Returns its outcome, with the number of received bytes in `count`. */
static uint32_t act(struct room *room, const struct dfu_action *action, size_t *count)
{
    *count = 0;
    if (action->what == DFU_WAIT)
        return DFU_SEEN_WAIT;
    if (action->what == DFU_RESET) {
        peer_reset();
        return DFU_SEEN_RESET;
    }
    int32_t came = peer_transfer(action->setup, room->file + action->from, action->length, room->out);
    if (came < 0)
        return DFU_SEEN_STALL;
    *count = (size_t)came;
    return action->setup[0] & 0x80 ? DFU_SEEN_BYTES : DFU_SEEN_ACK;
}

uint32_t session(struct room *room)
{
    struct dfu_session it;
    struct dfu_file said;
    struct dfu_action action;
    if (dfu_host_file(room->file, sizeof room->file, &said) != 0)
        return 1;
    if (dfu_host_verified(&it, room->file, sizeof room->file, room->descriptor, sizeof room->descriptor, &ids, 100000, 3) != 0)
        return 2;
    for (;;) {
        size_t count;
        if (dfu_host_next(&it, room->file, said.payload, &action) != 0)
            return 3;
        if (action.what == DFU_DONE)
            return action.value == DFU_VERIFIED ? 0 : 4;
        uint32_t seen = act(room, &action, &count);
        if (dfu_host_take(&it, room->file, said.payload, room->out, 0, seen, room->out, count) != 0)
            return 5;
    }
}

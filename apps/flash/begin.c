/* SPDX-License-Identifier: MIT OR Apache-2.0 */
/* Begins a session with the device's functional descriptor, and sets the limits of the session. */
#include "facts.h"
#include "properties.h"
#include "messages.h"
#include "session.h"
#include "standard.h"

#include <stdio.h>
#include <string.h>

/* Linux carries at most 4,096 bytes in a control transfer, and libusb refuses more. A host may send smaller blocks than the device's
 * wTransferSize (USB DFU 1.1, section 4.1.3). */
#define MAX_BYTES 4096

/* Sets the block size in the host's copy of the descriptor to the requested one. If none is requested, limits the block size to MAX_BYTES.
 */
static void cut(uint8_t descriptor[9], size_t size, uint16_t asked)
{
    uint16_t bytes = asked != 0 ? asked : MAX_BYTES;
    if (size < FUNCTIONAL_BYTES_1_0 || (asked == 0 && two_bytes(descriptor + AT_TRANSFER) <= MAX_BYTES))
        return;
    descriptor[AT_TRANSFER] = (uint8_t)(bytes & 0xff);
    descriptor[AT_TRANSFER + 1] = (uint8_t)(bytes >> 8);
}

const char *goal_name(enum goal goal)
{
    static const char *const names[] = {"download", "verified", "upload", "detach"};
    return names[goal];
}

/* A clean session takes up to 4 actions per block, one more if it is compared, and some 20 others. The limit allows twice as many per
 * block, because of losses and frequent polls, and the same again for each restart. It allows 300 more, because an earlier session may have
 * left the device in the middle of an operation. An upload ends by itself after 65,535 blocks. */
static void take_limits(struct session *session, const uint8_t descriptor[9])
{
    uint64_t transfer = two_bytes(descriptor + AT_TRANSFER);
    uint64_t blocks = session->goal == GOAL_UPLOAD || transfer == 0 ? 65536 : session->payload_length / transfer + 1;
    uint64_t actions;
    if (session->has_limits)
        return;
    session->restarts = 3;
    actions = 10 * blocks * (session->restarts + 1u) + 300;
    session->actions = actions > UINT32_MAX ? UINT32_MAX : (uint32_t)actions;
}

/* On a system that can't reset a device, only a device that detaches by itself reaches DFU mode. */
static bool may_detach(const struct found *info)
{
    return platform_resets() || has_attribute(info->descriptor, info->descriptor_size, WILL_DETACH);
}

/* A download is verified if verification wasn't turned off, the device can upload, and it can reach DFU mode a second time for the
 * comparison. */
static enum goal goal_of(const struct session *session)
{
    const struct found *info = &session->wire.device->info;
    bool can_upload = has_attribute(info->descriptor, info->descriptor_size, CAN_UPLOAD) && may_detach(info);
    return session->is_upload ? GOAL_UPLOAD : session->wants_verified && can_upload ? GOAL_VERIFIED : GOAL_DOWNLOAD;
}

static int32_t begin(struct session *session, const uint8_t descriptor[9], size_t size)
{
    take_limits(session, descriptor);
    if (session->goal == GOAL_UPLOAD)
        return dfu_host_upload(&session->host, descriptor, size, session->actions, session->restarts);
    if (session->goal == GOAL_VERIFIED)
        return dfu_host_verified(&session->host, session->file, session->file_length, descriptor, size, &session->ids, session->actions,
                                 session->restarts);
    return dfu_host_download(&session->host, session->file, session->file_length, descriptor, size, &session->ids, session->actions,
                             session->restarts);
}

/* Returns true if the functional descriptor is missing, or if no session can use it. */
static bool is_odd(int32_t refusal)
{
    return refusal == DFU_SHORT || refusal == DFU_LONG || refusal == DFU_WRONG_LENGTH || refusal == DFU_WRONG_TYPE
           || refusal == DFU_BAD_DESCRIPTOR;
}

/* The functional descriptor of run-time mode decides whether the session may begin, and how DETACH brings the device to DFU mode. The
 * descriptor of DFU mode is read later, and decides the transfers, although by USB DFU 1.1, section 4.2.4, both are the same. If that of
 * run-time mode is unusable, a substitute replaces it, and session.c makes sure that no block has the block size of the substitute. */
static int32_t begin_by_another(struct session *session, int32_t refusal)
{
    static const uint8_t another[FUNCTIONAL_BYTES] = {
        FUNCTIONAL_BYTES, FUNCTIONAL_TYPE, CAN_DOWNLOAD | CAN_UPLOAD, 1000 & 0xff, 1000 >> 8, 64, 0, VERSION_1_1 & 0xff, VERSION_1_1 >> 8,
    };
    const struct found *info = &session->wire.device->info;
    if (!info->says_runtime || !is_odd(refusal))
        return refusal;
    session->runtime_refusal = refusal;
    /* If only wTransferSize is 0, bmAttributes and wDetachTimeOut are still used. */
    memcpy(session->substitute, another, sizeof another);
    if (refusal == DFU_BAD_DESCRIPTOR)
        memcpy(session->substitute + AT_ATTRIBUTES, info->descriptor + AT_ATTRIBUTES, AT_TRANSFER - AT_ATTRIBUTES);
    return begin(session, session->substitute, sizeof session->substitute);
}

/* Writes a substitute for a device in DFU mode without a functional descriptor, if --transfer-size gives the block size. The substitute
 * claims only the abilities that the session needs, so a download is neither compared nor known to be in place. */
static size_t stand_in(const struct session *session, uint8_t descriptor[9])
{
    const struct found *info = &session->wire.device->info;
    const uint8_t other[FUNCTIONAL_BYTES] = {
        FUNCTIONAL_BYTES, FUNCTIONAL_TYPE, session->is_upload ? CAN_UPLOAD : CAN_DOWNLOAD, 0, 0, 0, 0, VERSION_1_1 & 0xff, VERSION_1_1 >> 8,
    };
    if (session->transfer == 0 || !facts_lacks_descriptor(info))
        return info->descriptor_size;
    memcpy(descriptor, other, sizeof other);
    return sizeof other;
}

/* Warns, once for each size, about blocks that are smaller than the board's own. A board that stores block k at k times its own block size
 * writes all blocks but the first to wrong addresses. It also reads them from there, so a comparison finds no difference. */
static void warn_of_blocks(const struct session *session)
{
    static unsigned said;
    const struct found *info = &session->wire.device->info;
    unsigned bytes = session->host.transfer, most;
    if (info->descriptor_size < FUNCTIONAL_BYTES_1_0 || (session->goal != GOAL_UPLOAD && session->payload_length <= bytes))
        return;
    most = two_bytes(info->descriptor + AT_TRANSFER);
    if (bytes >= most || said == most)
        return;
    said = most;
    fprintf(stderr, "%sdfu-flash: blocks have %u byte%s, and the board takes %u: a board that counts places by its own size %s\n", say_mark,
            bytes, bytes == 1 ? "" : "s", most,
            session->goal == GOAL_UPLOAD ? "reads elsewhere" : "writes elsewhere, which a comparison can't see");
}

int32_t session_begin(struct session *session)
{
    const struct found *info = &session->wire.device->info;
    uint8_t descriptor[9];
    size_t size;
    int32_t refusal;
    session->goal = goal_of(session);
    session->runtime_refusal = 0;
    facts_note(session);
    /* A DfuSe device would interpret the blocks of a DFU 1.1 session as commands. */
    if (is_dfuse(info))
        return dfuse_begin_session(session);
    if (session->dfuse.has_address || session->dfuse.file != NULL)
        return REFUSED_NOT_DFUSE;
    if (!info->is_upgrade && !may_detach(info))
        return REFUSED_NO_RESET;
    memcpy(session->begin_descriptor, info->descriptor, sizeof session->begin_descriptor);
    memcpy(descriptor, info->descriptor, sizeof descriptor);
    session->begin_descriptor_size = info->descriptor_size;
    size = stand_in(session, descriptor);
    cut(descriptor, size, session->transfer);
    refusal = begin(session, descriptor, size);
    if (refusal == 0)
        warn_of_blocks(session);
    return refusal == 0 ? 0 : begin_by_another(session, refusal);
}

/* SPDX-License-Identifier: MIT OR Apache-2.0 */
/* Begins a session with a DfuSe device: sets its limits, or refuses it before anything is sent. */
#include "session.h"
#include "standard.h"

#include <string.h>

#define MAX_BYTES 4096   /* Linux's limit for a control transfer; a device with larger blocks is refused */
#define FRONT_BYTES 32   /* first bytes of the image, written last; without them no application starts */
#define PAGE_POLLS 1000  /* number of GETSTATUS requests for an erase if the device reports no times */
#define BLOCK_ACTIONS 60 /* actions per block with a device that needs many polls */

/* Uses the host for DFU 1.1 to refuse a file with a wrong suffix, an empty image or another device's identifiers. The suffix of a DfuSe
 * file was checked before, and its elements are taken here. */
static int32_t file_refusal(struct session *session)
{
    static const uint8_t any[FUNCTIONAL_BYTES] = {FUNCTIONAL_BYTES,   FUNCTIONAL_TYPE, CAN_DOWNLOAD, 0, 0, 64, 0,
                                                  VERSION_1_1 & 0xff, VERSION_1_1 >> 8};
    struct dfu_session none;
    if (session->dfuse.file != NULL)
        return dfuse_take_file(session);
    return dfu_host_download(&none, session->file, session->file_length, any, sizeof any, &session->ids, 1, 0);
}

/* Sets the session's limits, unless the command line set them. They allow many times the actions of a clean session, because losses,
 * restarts and frequent polls need more. A page with parts of two elements counts twice. */
static void take_limits(struct session *session, uint64_t pages, uint64_t length, uint64_t elements)
{
    uint64_t blocks = length / session->dfuse.plan.transfer + elements + pages + 3;
    uint64_t actions;
    if (session->has_limits)
        return;
    session->restarts = 3;
    actions = (PAGE_POLLS * pages + BLOCK_ACTIONS * blocks) * (session->restarts + 1u) + 300;
    session->actions = actions > UINT32_MAX ? UINT32_MAX : (uint32_t)actions;
}

/* Counts the pages that a range of addresses overlaps. */
static uint64_t pages_of(const struct dfuse *dfuse, uint64_t address, uint64_t length)
{
    return dfuse_pages(dfuse->map, dfuse->map_length, address, address + length);
}

/* An upload without a length ends at the end of the range that contains the address, as with dfu-util. If no range contains it, the length
 * is one byte, and the upload is refused. */
static void take_length(struct dfuse *dfuse)
{
    uint64_t end;
    if (dfuse->length != 0)
        return;
    dfuse->length = 1;
    if (dfuse_end_of(dfuse->map, dfuse->map_length, dfuse->address, &end))
        dfuse->length = end - dfuse->address > UINT32_MAX ? UINT32_MAX : (uint32_t)(end - dfuse->address);
}

static int32_t begin_upload(struct session *session)
{
    struct dfuse *dfuse = &session->dfuse;
    take_length(dfuse);
    if (dfuse->plan.transfer == 0)
        return DFUSE_NO_TRANSFER;
    session->payload_length = dfuse->length;
    take_limits(session, pages_of(dfuse, dfuse->address, dfuse->length), dfuse->length, 1);
    return dfuse_may_read(dfuse->map, dfuse->map_length, dfuse->address, (uint64_t)dfuse->address + dfuse->length);
}

static int32_t begin_download(struct session *session)
{
    struct dfuse *dfuse = &session->dfuse;
    uint64_t pages = 0;
    if (dfuse->file == NULL) {
        dfuse->image[0] = (struct dfuse_element){.address = dfuse->address, .bytes = session->file, .length = session->payload_length};
        dfuse->elements = 1;
    }
    for (uint64_t at = 0; at < dfuse->elements; at++)
        pages += pages_of(dfuse, dfuse->image[at].address, dfuse->image[at].length);
    if (dfuse->plan.transfer != 0)
        take_limits(session, pages, session->payload_length, dfuse->elements);
    dfuse->plan.start = dfuse->address;
    dfuse->plan.front = FRONT_BYTES;
    dfuse->plan.leaves = !dfuse->stays;
    dfuse->plan.actions = session->actions;
    dfuse->plan.restarts = session->restarts;
    return dfuse_begin(&dfuse->host, dfuse->map, dfuse->map_length, dfuse->image, (size_t)dfuse->elements, &dfuse->plan);
}

int32_t dfuse_begin_session(struct session *session)
{
    const struct found *info = &session->wire.device->info;
    struct dfuse *dfuse = &session->dfuse;
    int32_t refusal = session->is_upload ? 0 : file_refusal(session);
    session->goal = session->is_upload ? GOAL_UPLOAD : GOAL_VERIFIED;
    dfuse->is_active = true;
    /* A wrong target is refused first: an address or another mode wouldn't make this the right board. */
    if (refusal == DFU_WRONG_TARGET)
        return refusal;
    if (!info->is_upgrade)
        return REFUSED_RUN_TIME;
    if (!dfuse->has_address && dfuse->file == NULL)
        return REFUSED_NO_ADDRESS;
    if (refusal != 0)
        return refusal;
    if (!session->is_upload && !has_attribute(info->descriptor, info->descriptor_size, CAN_DOWNLOAD))
        return DFU_CANNOT_DOWNLOAD;
    if (!has_attribute(info->descriptor, info->descriptor_size, CAN_UPLOAD))
        return DFU_CANNOT_UPLOAD;
    memcpy(session->begin_descriptor, info->descriptor, sizeof session->begin_descriptor);
    session->begin_descriptor_size = info->descriptor_size;
    dfuse->map = (const uint8_t *)session->first[1].name;
    dfuse->map_length = strlen(session->first[1].name);
    dfuse->plan.transfer = session->host.transfer = two_bytes(info->descriptor + AT_TRANSFER);
    if (dfuse->plan.transfer > MAX_BYTES)
        return REFUSED_LARGE_BLOCKS;
    return session->is_upload ? begin_upload(session) : begin_download(session);
}

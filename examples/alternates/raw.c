/* SPDX-License-Identifier: MIT OR Apache-2.0 */
/* The raw area. Its states are those of the device table (docs/PROFILE.md), for a tolerant device that sends no poll times. */
#include "raw.h"

#include <string.h>

void raw_begin(struct raw *r) {
    r->at = r->number = r->held = 0;
    r->state = DFU_STATE_IDLE;
    r->status = DFU_STATUS_OK;
}

void raw_reset(struct raw *r) {
    raw_begin(r);
    r->state = DFU_STATE_APP_IDLE;
}

static int32_t fault(struct raw *r, uint8_t status) {
    if (r->state == DFU_STATE_ERROR || r->state == DFU_STATE_APP_IDLE)
        return DFU_STALL;
    r->state = DFU_STATE_ERROR;
    r->status = status;
    return DFU_STALL;
}

static uint8_t erase_sector(const struct raw *r, uint32_t at) {
    if (place_erase((void *)r->place, at, SECTOR) != 0)
        return DFU_STATUS_ERR_ERASE;
    for (uint32_t i = 0; i < SECTOR; i++)
        if (part[r->place->at + at + i] != 0xff)
            return DFU_STATUS_ERR_CHECK_ERASED;
    return DFU_STATUS_OK;
}

/* Erases the sector that begins in the received block, if there is one, writes the block, and reads it back. */
static uint8_t write_block(struct raw *r) {
    void *own = (void *)r->place;
    const uint32_t whole = (r->held + UNIT - 1u) / UNIT * UNIT, sector = (r->at + SECTOR - 1) / SECTOR * SECTOR;
    const uint8_t erased = sector < r->at + r->held ? erase_sector(r, sector) : DFU_STATUS_OK;
    if (erased != DFU_STATUS_OK)
        return erased;
    memset(r->block + r->held, 0xff, whole - r->held);
    for (uint32_t i = 0; i < whole; i += 256)
        if (place_program(own, r->at + i, r->block + i, whole - i < 256 ? whole - i : 256) != 0)
            return DFU_STATUS_ERR_PROG;
    return memcmp(part + r->place->at + r->at, r->block, whole) != 0 ? DFU_STATUS_ERR_VERIFY : DFU_STATUS_OK;
}

static int32_t get_status(struct raw *r, uint32_t length, uint8_t *out) {
    if (r->state == DFU_STATE_DNLOAD_SYNC) {
        r->status = write_block(r);
        r->state = r->status == DFU_STATUS_OK ? DFU_STATE_DNLOAD_IDLE : DFU_STATE_ERROR;
        r->at += r->held;
        r->held = 0;
    } else if (r->state == DFU_STATE_MANIFEST_SYNC)
        r->state = DFU_STATE_IDLE;
    const uint8_t answer[6] = {r->status, 0, 0, 0, r->state, 0};
    length = length < sizeof answer ? length : sizeof answer;
    memcpy(out, answer, length);
    return (int32_t)length;
}

/* Handles a DNLOAD. A DNLOAD after a block that did not fill whole units is an error, because the rest of that block's last unit was
 * already programmed. */
static int32_t download(struct raw *r, uint16_t number, uint32_t length, const uint8_t *body) {
    if (r->state == DFU_STATE_DNLOAD_IDLE && length == 0) {
        r->state = DFU_STATE_MANIFEST_SYNC;
        return 0;
    }
    if ((r->state != DFU_STATE_IDLE && r->state != DFU_STATE_DNLOAD_IDLE) || length == 0 || length > BLOCK)
        return fault(r, DFU_STATUS_ERR_STALLED_PKT);
    if (r->state == DFU_STATE_IDLE)
        r->at = r->number = 0;
    if (number != r->number || r->at % UNIT != 0 || length > r->place->length - r->at)
        return fault(r, DFU_STATUS_ERR_ADDRESS);
    memcpy(r->block, body, length);
    r->held = (uint16_t)length;
    r->number++;
    r->state = DFU_STATE_DNLOAD_SYNC;
    return 0;
}

/* Sends the whole area, because nothing on the part records how much of it a host wrote. */
static int32_t upload(struct raw *r, uint16_t number, uint32_t length, uint8_t *out) {
    if ((r->state != DFU_STATE_IDLE && r->state != DFU_STATE_UPLOAD_IDLE) || length == 0 || length > BLOCK)
        return fault(r, DFU_STATUS_ERR_STALLED_PKT);
    if (r->state == DFU_STATE_IDLE)
        r->at = r->number = 0;
    if (number != r->number)
        return fault(r, DFU_STATUS_ERR_ADDRESS);
    const uint32_t left = r->place->length - r->at, count = left < length ? left : length;
    memcpy(out, part + r->place->at + r->at, count);
    r->at += count;
    r->number++;
    r->state = count < length ? DFU_STATE_IDLE : DFU_STATE_UPLOAD_IDLE;
    return (int32_t)count;
}

int32_t raw_serve(struct raw *r, const uint8_t setup[8], const uint8_t *body, uint8_t *out) {
    const uint16_t value = (uint16_t)(setup[2] | setup[3] << 8), length = (uint16_t)(setup[6] | setup[7] << 8);
    const int is_rest = r->state == DFU_STATE_IDLE || r->state == DFU_STATE_DNLOAD_IDLE || r->state == DFU_STATE_UPLOAD_IDLE;
    if ((setup[0] & 0x7f) != 0x21 || setup[4] != INTERFACE || setup[5] != 0)
        return DFU_STALL;
    switch (setup[0] << 8 | setup[1]) {
    case 0x2100 | DFU_DNLOAD: return download(r, value, length, body);
    case 0xa100 | DFU_UPLOAD: return upload(r, value, length, out);
    case 0xa100 | DFU_GETSTATUS: return get_status(r, length, out);
    case 0xa100 | DFU_GETSTATE: out[0] = r->state; return length < 1 ? length : 1;
    case 0x2100 | DFU_CLRSTATUS:
    case 0x2100 | DFU_ABORT:
        if (length != 0 || (setup[1] == DFU_ABORT ? !is_rest : r->state != DFU_STATE_ERROR))
            return fault(r, DFU_STATUS_ERR_STALLED_PKT);
        raw_begin(r);
        return 0;
    default: return fault(r, DFU_STATUS_ERR_STALLED_PKT);
    }
}

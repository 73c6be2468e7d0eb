/* SPDX-License-Identifier: MIT OR Apache-2.0 */
/* A session of the device: it is formatted, receives an image in blocks of 1,024 bytes and sends it back. package/src/device.rs does the
 * same in Rust. */
#include "dfu_core.h"
#include "session.h"

#include <string.h>

struct board {
    struct room *room;
    struct dfu_record record;
};

static const struct dfu_config config = {.version = DFU_VERSION,
                                         .device = 0x0100,
                                         .product = 1,
                                         .vendor = 0x1209,
                                         .detach_ms = 255,
                                         .transfer = TRANSFER,
                                         .attributes = 7,
                                         .least = 1,
                                         .unit = 1};
static const uint8_t none[1];

static void carry_out(uint8_t *flash, const struct dfu_ask *ask)
{
    if (ask->kind == DFU_ERASE)
        memset(flash + ask->at, 0xff, ask->length);
    else
        memcpy(flash + ask->at, ask->bytes, ask->length);
}

static int format(struct board *board)
{
    struct room *room = board->room;
    int32_t answer = dfu_core_format_start(&config, &board->record, room->flash, sizeof room->flash, none, 0);
    while (answer == DFU_WRITE_PENDING) {
        struct dfu_ask ask;
        if (dfu_core_format_next(&config, &board->record, room->flash, sizeof room->flash, none, 0, &ask) != 0)
            return 0;
        carry_out(room->flash, &ask);
        answer = dfu_core_format_took(&config, &board->record, room->flash, sizeof room->flash, none, 0, 0);
    }
    return answer == 0;
}

/* Serves a DFU request with its data stage. Returns the number of bytes of the answer, or a negative number. */
static int32_t serve(struct board *board, uint8_t kind, uint8_t request, uint32_t value, uint32_t size, const uint8_t *body, size_t length)
{
    struct room *room = board->room;
    const uint8_t setup[8] = {kind, request, (uint8_t)value, (uint8_t)(value >> 8), 0, 0, (uint8_t)size, (uint8_t)(size >> 8)};
    int32_t answer = dfu_core_handle(&config, &board->record, room->block, TRANSFER + 1, room->flash, sizeof room->flash, setup, body,
                                     length, room->out, TRANSFER);
    while (answer == DFU_WRITE_PENDING) {
        struct dfu_ask ask;
        if (dfu_core_next(&config, &board->record, room->block, TRANSFER + 1, room->flash, sizeof room->flash, &ask) != 0)
            return DFU_NO_DEVICE;
        carry_out(room->flash, &ask);
        answer = dfu_core_took(&config, &board->record, room->block, TRANSFER + 1, room->flash, sizeof room->flash, 0, room->out, TRANSFER);
    }
    return answer;
}

static int is_ready(struct board *board, uint8_t state)
{
    return serve(board, 0xa1, DFU_GETSTATUS, 0, 6, none, 0) == 6 && board->room->out[4] == state;
}

static uint32_t download(struct board *board)
{
    for (uint32_t at = 0; at < IMAGE; at += TRANSFER)
        if (serve(board, 0x21, DFU_DNLOAD, at / TRANSFER, TRANSFER, board->room->file + at, TRANSFER) != 0
            || !is_ready(board, DFU_STATE_DNLOAD_IDLE))
            return 4;
    return serve(board, 0x21, DFU_DNLOAD, IMAGE / TRANSFER, 0, none, 0) != 0 || !is_ready(board, DFU_STATE_IDLE) ? 5 : 0;
}

static uint32_t upload(struct board *board)
{
    for (uint32_t at = 0; at < IMAGE; at += TRANSFER)
        if (serve(board, 0xa1, DFU_UPLOAD, at / TRANSFER, TRANSFER, none, 0) != TRANSFER
            || memcmp(board->room->out, board->room->file + at, TRANSFER) != 0)
            return 6;
    return 0;
}

uint32_t session(struct room *room)
{
    struct board board = {room, {0}};
    if (!format(&board))
        return 1;
    if (dfu_core_power_on(&config, &board.record, room->flash, sizeof room->flash) != 0)
        return 2;
    if (serve(&board, 0x21, DFU_DETACH, 255, 0, none, 0) != 0
        || dfu_core_usb_reset(&config, &board.record, room->block, TRANSFER + 1, room->flash, sizeof room->flash) != 0)
        return 3;
    uint32_t wrong = download(&board);
    return wrong ? wrong : upload(&board);
}

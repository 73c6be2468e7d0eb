/* SPDX-License-Identifier: MIT OR Apache-2.0 */
#include "serve.h"

/* Finds the image whose security counter is compared with that of a download. */
static int32_t confirmed(const struct signed_board *board, struct dfu_place *place) {
    struct dfu_standing standing;
    int32_t refusal;
    if (board->trial == NULL)
        return dfu_device_image(board->device, place);
    refusal = dfu_trial_look(board->trial, &standing);
    if (refusal == 0)
        *place = standing.base;
    return refusal;
}

static struct signed_bytes bytes_at(const struct dfu_device *device, const struct dfu_place *place) {
    return (struct signed_bytes){device->flash + place->at, place->length, NULL, 0};
}

/* Checks the received image. Returns 0, with the result in board->verdict; or a refusal of the library. */
static int32_t check(struct signed_board *board) {
    const struct dfu_device *device = board->device;
    struct dfu_place place;
    struct signed_bytes bytes;
    struct signed_image image;
    int32_t refusal = confirmed(board, &place);
    if (refusal != 0)
        return refusal;
    bytes = bytes_at(device, &place);
    board->rules.least = signed_counter(&bytes);
    refusal = dfu_device_candidate(device, &place);
    if (refusal != 0)
        return refusal;
    bytes = bytes_at(device, &place);
    bytes.tail = device->block + device->config->transfer;
    bytes.tail_length = device->record.held_length;
    board->verdict = signed_check(&board->rules, &bytes, &image);
    return 0;
}

/* Does the pending work first, as dfu_device_serve does, because a host may be early. If an image can't be checked, its download is not
 * closed. */
int32_t signed_serve(struct signed_board *board, const uint8_t setup[8], const uint8_t *body, uint8_t *out, size_t room) {
    struct dfu_device *device = board->device;
    int32_t n = dfu_device_work(device);
    if (n == 0 && board->trial != NULL)
        n = dfu_trial_transfer(board->trial, device, setup);
    if (n == 0)
        n = dfu_device_closes(device, setup);
    if (n == 1) {
        n = check(board);
        if (n == 0 && board->verdict != SIGNED_TAKEN)
            n = dfu_device_refuse_close(device, setup, signed_status(board->verdict));
    }
    return n < 0 ? n : dfu_device_serve(device, setup, body, out, room);
}

int signed_may_start(struct signed_board *board, const struct dfu_place *place, struct signed_image *image) {
    const struct signed_bytes bytes = bytes_at(board->device, place);
    board->rules.least = 0;
    board->verdict = signed_check(&board->rules, &bytes, image);
    return board->verdict == SIGNED_TAKEN;
}

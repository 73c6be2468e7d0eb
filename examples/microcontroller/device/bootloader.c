/* SPDX-License-Identifier: MIT OR Apache-2.0 */
/* A bootloader around the proved device: it passes the bytes of the serial port to the device, carries out the operations that the device
 * requests, and sends its answers. All of this happens in interrupts, so a running image needs no code for it. */
#include "dfu_install.h"

#include <string.h>

#include "board.h"
#include "clock.h"
#include "flash.h"
#include "frames.h"
#include "image.h"
#include "serial.h"
#include "start.h"
#include "trials.h"

static const struct dfu_driver driver = {(void *)MEDIUM, flash_erase, flash_program};
static const struct dfu_driver run_driver = {(void *)RUN, flash_erase, flash_program};
static struct dfu_device device;
static uint8_t block[DFU_BLOCK_SIZE(TRANSFER, UNIT)], answer[TRANSFER];
static struct frame request;

/* 1 while the upgrade runs, 0 while the image runs. */
static int is_upgrading;

enum { NO_ANSWER = -100 };

/* Returns the result of a call. A refusal means that the record or the flash has changed, and then the processor restarts as after a loss
 * of power. */
static int32_t checked(int32_t result) {
    if (result < 0 && result != DFU_STALL)
        restart(NOTE_NONE);
    return result;
}

/* Handles a setup frame without sending the answer. A frame with a data stage of another length than the setup's wLength is ignored. */
static int32_t setup_came(void) {
    const uint8_t *setup = request.bytes + FRAME_HEAD, *body = setup + 8;
    size_t stage = setup[0] & 0x80 ? 0 : (size_t)(setup[6] | setup[7] << 8);
    if (stage != (size_t)request.length - FRAME_HEAD - 8)
        return NO_ANSWER;
    if (TRIES > 0 && trials_transfer(&device, setup) != 0)
        return DFU_STALL;
    return checked(dfu_device_serve(&device, setup, body, answer, sizeof answer));
}

static int32_t about(void) {
    const uint16_t ids[3] = {board_config.device, board_config.product, board_config.vendor};
    for (size_t i = 0; i < 3; i++) {
        answer[2 * i] = (uint8_t)ids[i];
        answer[2 * i + 1] = (uint8_t)(ids[i] >> 8);
    }
    return dfu_device_functional(&board_config, answer + 6) == 9 ? FRAME_ABOUT_LENGTH : DFU_STALL;
}

static int32_t frame_came(void) {
    switch (request.bytes[0]) {
    case FRAME_SETUP: return request.length < FRAME_HEAD + 8 ? NO_ANSWER : setup_came();
    case FRAME_RESET: return checked(dfu_device_reset(&device));
    case FRAME_ABOUT: return about();
    default: return NO_ANSWER;
    }
}

/* Does the pending work after an answer was sent, while the host waits; no other byte of the serial port is handled before the work is
 * done. Then the state decides which program runs: each change resets the processor, so that an image finds it as after power-on. */
static void go_on(void) {
    checked(dfu_device_work(&device));
    int32_t state = dfu_device_state(&device);
    if ((state > DFU_STATE_APP_DETACH) != is_upgrading)
        restart(is_upgrading ? NOTE_NONE : NOTE_UPGRADE);
    clock_wake_in(state == DFU_STATE_APP_DETACH ? (uint32_t)dfu_device_due(&device) : 0);
}

void on_serial(void) {
    for (int byte = serial_get(); byte >= 0; byte = serial_get()) {
        if (!frame_take(&request, (uint8_t)byte))
            continue;
        on_time();
        int32_t count = frame_came();
        if (count == NO_ANSWER)
            continue;
        frame_send(serial_put, count < 0 ? FRAME_STALL : FRAME_ANSWER, request.bytes[1], answer, count < 0 ? 0 : (size_t)count);
        go_on();
    }
}

void on_time(void) {
    clock_is_due();
    uint32_t ms = clock_passed();
    if (dfu_device_state(&device) != DFU_STATE_APP_DETACH || ms == 0)
        return;
    checked(dfu_device_elapse(&device, ms));
    go_on();
}

void on_text(const uint8_t *text, uint32_t length) {
    if (TRIES > 0 && length == IMAGE_CONFIRMS)
        trials_confirm();
    else
        frame_send(serial_put, FRAME_TEXT, 0, text, length < 64 ? length : 64);
}

/* Copies the image to the run area. Returns 1 if the run area then holds all of it. */
static int is_installed(const struct dfu_place *place) {
    struct dfu_install install = {.run = flash_run, .size = CAPACITY, .area = {PAGE, DFU_NOWHERE}, .driver = &run_driver};
    return dfu_install_settle(&install, flash_medium + place->at, place->length) == 0;
}

/* Returns 1 if the run area holds the image to start. After a fault only an image on trial is started, as long as it has starts left. */
static int is_ready(enum note note, struct dfu_place *place) {
    if (TRIES == 0)
        return note != NOTE_FAULT && dfu_device_image(&device, place) == 0 && is_installed(place);
    return trials_active(note == NOTE_FAULT, place) && is_installed(place) && (trials_boot(place) || is_installed(place));
}

int main(void) {
    enum note note = note_taken();
    struct dfu_place place;
    serial_begin();
    clock_begin();
    device.config = &board_config;
    device.flash = flash_medium, device.size = MEDIUM_SIZE;
    device.block = block, device.most = sizeof block;
    device.driver = &driver;
    /* For an upgrade the device begins in dfuIDLE. Without an active image the board was never written by the factory, and does nothing. */
    while ((note == NOTE_UPGRADE ? dfu_device_begin(&device) : dfu_device_power_on(&device)) != 0)
        __asm__ volatile("wfi");
    is_upgrading = dfu_device_state(&device) > DFU_STATE_APP_DETACH;
    if (!is_upgrading && is_ready(note, &place))
        image_start(flash_run, place.length);
    return 0;
}

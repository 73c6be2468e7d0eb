/* SPDX-License-Identifier: MIT OR Apache-2.0 */
/* A bootloader that accepts only signed images, and runs a new one on trial. It is the bootloader of ../microcontroller with signed_serve
 * instead of dfu_device_serve, and with a check before each start. It uses the clock, flash, serial port and start of that example. */
#include "dfu_install.h"

#include <string.h>

#include "board.h"
#include "clock.h"
#include "flash.h"
#include "frames.h"
#include "serial.h"
#include "serve.h"
#include "start.h"

#include "maker_key.h" /* ed25519_pub_key, as `imgtool getpub` prints it */
_Static_assert(sizeof ed25519_pub_key == SIGNED_KEY, "a public key of Ed25519 in DER");

static const struct dfu_driver driver = {(void *)MEDIUM, flash_erase, flash_program};
static const struct dfu_driver run_driver = {(void *)RUN, flash_erase, flash_program};
static struct dfu_device device;
static struct dfu_trial trial;
static struct signed_board board;
static uint8_t block[DFU_BLOCK_SIZE(TRANSFER, UNIT)], answer[TRANSFER];
static struct frame request;
static uint32_t running; /* offset of the running image in the medium */

/* 1 while the upgrade runs, 0 while the image runs. */
static int is_upgrading;

enum { NO_ANSWER = -100 };

/* Returns the result of a call. A refusal means that the record or the flash has changed, and then the processor restarts as after a loss
 * of power. */
static int32_t checked(int32_t result) {
    if (result < 0 && result != DFU_STALL)
        restart(NOTE_NONE);
    return result;
}

/* Handles a setup frame without sending the answer. A frame with a data stage of another length than the setup's wLength is ignored. */
static int32_t setup_came(void) {
    const uint8_t *setup = request.bytes + FRAME_HEAD, *body = setup + 8;
    size_t stage = setup[0] & 0x80 ? 0 : (size_t)(setup[6] | setup[7] << 8);
    if (stage != (size_t)request.length - FRAME_HEAD - 8)
        return NO_ANSWER;
    return checked(signed_serve(&board, setup, body, answer, sizeof answer));
}

static int32_t about(void) {
    const uint16_t ids[3] = {board_config.device, board_config.product, board_config.vendor};
    for (size_t i = 0; i < 3; i++) {
        answer[2 * i] = (uint8_t)ids[i];
        answer[2 * i + 1] = (uint8_t)(ids[i] >> 8);
    }
    return dfu_device_functional(&board_config, answer + 6) == 9 ? FRAME_ABOUT_LENGTH : DFU_STALL;
}

static int32_t frame_came(void) {
    switch (request.bytes[0]) {
    case FRAME_SETUP: return request.length < FRAME_HEAD + 8 ? NO_ANSWER : setup_came();
    case FRAME_RESET: return checked(dfu_device_reset(&device));
    case FRAME_ABOUT: return about();
    default: return NO_ANSWER;
    }
}

/* Does the pending work after an answer was sent. Then the state decides which program runs: each change resets the processor. */
static void go_on(void) {
    checked(dfu_device_work(&device));
    int32_t state = dfu_device_state(&device);
    if ((state > DFU_STATE_APP_DETACH) != is_upgrading)
        restart(is_upgrading ? NOTE_NONE : NOTE_UPGRADE);
    clock_wake_in(state == DFU_STATE_APP_DETACH ? (uint32_t)dfu_device_due(&device) : 0);
}

void on_serial(void) {
    for (int byte = serial_get(); byte >= 0; byte = serial_get()) {
        if (!frame_take(&request, (uint8_t)byte))
            continue;
        on_time();
        int32_t count = frame_came();
        if (count == NO_ANSWER)
            continue;
        frame_send(serial_put, count < 0 ? FRAME_STALL : FRAME_ANSWER, request.bytes[1], answer, count < 0 ? 0 : (size_t)count);
        go_on();
    }
}

void on_time(void) {
    clock_is_due();
    uint32_t ms = clock_passed();
    if (dfu_device_state(&device) != DFU_STATE_APP_DETACH || ms == 0)
        return;
    checked(dfu_device_elapse(&device, ms));
    go_on();
}

static void say(const char *text) {
    frame_send(serial_put, FRAME_TEXT, 0, (const uint8_t *)text, strlen(text));
}

/* Handles the image's SVC: a text to send, or the image's confirmation. */
void on_text(const uint8_t *text, uint32_t length) {
    if (length == 7 && memcmp(text, "confirm", 7) == 0)
        say(dfu_trial_accept(&trial, running) == 0 ? "confirmed" : "not confirmed");
    else
        frame_send(serial_put, FRAME_TEXT, 0, text, length < 64 ? length : 64);
}

/* Returns 1 if the image at this place may start, and the run area holds it. */
static int is_ready(const struct dfu_place *place, struct signed_image *image) {
    struct dfu_install install = {.run = flash_run, .size = CAPACITY, .area = {PAGE, DFU_NOWHERE}, .driver = &run_driver};
    return signed_may_start(&board, place, image) && image->program % 4 == 0
           && dfu_install_settle(&install, flash_medium + place->at, place->length) == 0;
}

/* Finds the image to run. Ends the trial of an image that may not start. Marks a start on trial once the image is ready. */
static int find_image(struct dfu_place *place, struct signed_image *image) {
    struct dfu_standing standing;
    if (dfu_trial_look(&trial, &standing) != 0)
        return 0;
    int is_active_ready = is_ready(&standing.active, image);
    if (!is_active_ready && (!standing.on_trial || dfu_trial_give_up(&trial) != 0))
        return 0;
    /* If the trial has just ended, this call reads the images again. */
    if (dfu_trial_boot_from(&trial, &standing, place) != 0)
        return 0;
    return (is_active_ready && place->at == standing.active.at) || is_ready(place, image);
}

static void set_up(void) {
    device.config = &board_config;
    device.flash = flash_medium, device.size = MEDIUM_SIZE;
    device.block = block, device.most = sizeof block;
    device.driver = &driver;
    trial = (struct dfu_trial){.flash = flash_medium, .size = MEDIUM_SIZE, .driver = &driver, .tries = board_tries};
    board.device = &device, board.trial = &trial;
    board.rules.keys = (const uint8_t(*)[SIGNED_KEY])ed25519_pub_key, board.rules.key_count = 1, board.rules.hardware = HARDWARE;
}

int main(void) {
    enum note note = note_taken();
    struct dfu_place place;
    struct signed_image image;
    serial_begin();
    clock_begin();
    set_up();
    /* Without an active image the board was never written by the factory, and does nothing. If the image may not start, the upgrade begins
     * in dfuIDLE. */
    int is_to_run = note == NOTE_NONE && find_image(&place, &image);
    while ((is_to_run ? dfu_device_power_on(&device) : dfu_device_begin(&device)) != 0)
        __asm__ volatile("wfi");
    is_upgrading = dfu_device_state(&device) > DFU_STATE_APP_DETACH;
    if (is_to_run) {
        running = place.at;
        image_start(flash_run + image.program, image.length);
    }
    return 0;
}

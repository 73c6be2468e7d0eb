/* SPDX-License-Identifier: MIT OR Apache-2.0 */
#include "trials.h"

#include <string.h>

#include "board.h"
#include "flash.h"
#include "frames.h"
#include "serial.h"

static const struct dfu_driver driver = {(void *)MEDIUM, flash_erase, flash_program};
static const struct dfu_trial trial = {
    .flash = (const uint8_t *)MEDIUM,
    .size = MEDIUM_SIZE,
    .driver = &driver,
    .tries = {16, PAGE, TRIES},
};

/* Result of dfu_trial_look at this start. dfu_trial_boot_from uses it, so the images are read only once. */
static struct dfu_standing standing;

/* Offset in the medium of the image that was started last. The image doesn't know this offset, because it runs in the run area. */
static uint32_t started;

int32_t trials_transfer(struct dfu_device *device, const uint8_t setup[8]) {
    return dfu_trial_transfer(&trial, device, setup);
}

int trials_active(int is_trial_wanted, struct dfu_place *place) {
    if (dfu_trial_look(&trial, &standing) != 0 || (is_trial_wanted && standing.on_trial == 0))
        return 0;
    *place = standing.active;
    return 1;
}

/* Prints the remaining starts of the image on trial, without the start that was just marked. Prints nothing if no image is on trial, or if
 * its trial has just ended because no start was left. */
static void say_trial(void) {
    char text[] = "trial, 0 starts left";
    if (standing.on_trial == 0 || standing.left == 0)
        return;
    text[7] = (char)('0' + (standing.left - (started == standing.active.at)) % 10);
    frame_send(serial_put, FRAME_TEXT, 0, (const uint8_t *)text, sizeof text - 1);
}

int trials_boot(struct dfu_place *place) {
    const uint32_t active = place->at;
    if (dfu_trial_boot_from(&trial, &standing, place) != 0)
        return 0;
    started = place->at;
    say_trial();
    return started == active;
}

void trials_confirm(void) {
    (void)dfu_trial_accept(&trial, started);
}

/* SPDX-License-Identifier: MIT OR Apache-2.0 */
/* A device that accepts only signed images. Its bootloader calls signed_serve instead of dfu_device_serve, and signed_may_start before it
 * starts an image; the rest of the bootloader is the same. */
#ifndef SIGNED_SERVE_H
#define SIGNED_SERVE_H
#include "check.h"
#include "dfu_trial.h"

struct signed_board {
    struct dfu_device *device;
    const struct dfu_trial *trial; /* NULL if new images don't run on trial */
    struct signed_rules rules;     /* the calls below set `least` */
    enum signed_verdict verdict;   /* verdict of the last image that was checked */
};

/* Does what dfu_device_serve does, for a device with a driver. A DNLOAD that begins a download while an image is on trial ends the trial
 * first (dfu_trial_transfer). When a download closes, the image is checked, and its security counter is compared with that of the confirmed
 * image, which is the active one if no image is on trial. If the image is refused, the request is stalled, and the device enters dfuERROR
 * with errTARGET or errFILE. */
int32_t signed_serve(struct signed_board *board, const uint8_t setup[8], const uint8_t *body, uint8_t *out, size_t room);

/* Returns 1 if the image at this place may be started: it is signed, and for this board. No counter is compared, because anyone who can
 * write the flash can put an older image there. For an accepted image `image` receives its fields, such as the offset of the program. */
int signed_may_start(struct signed_board *board, const struct dfu_place *place, struct signed_image *image);

#endif

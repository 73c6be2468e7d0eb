/* SPDX-License-Identifier: MIT OR Apache-2.0 */
/* Images on trial, in a bootloader that is built with TRIES. */
#ifndef TRIALS_H
#define TRIALS_H
#include "dfu_trial.h"

/* Prepares the flash for a setup. Returns 0 if the setup may be served; else it must be stalled. */
int32_t trials_transfer(struct dfu_device *device, const uint8_t setup[8]);

/* Finds the active image, which must be copied to the run area before a start is marked. Returns 0 if there is none, or if is_trial_wanted
 * is set and the active image is not on trial. */
int trials_active(int is_trial_wanted, struct dfu_place *place);

/* Marks the start, and prints the remaining starts. Returns 1; or 0 if `place` was changed to that of the confirmed image, or if the
 * library refused. */
int trials_boot(struct dfu_place *place);

/* Confirms the image that was started last. */
void trials_confirm(void);

#endif

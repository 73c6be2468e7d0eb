/* SPDX-License-Identifier: MIT OR Apache-2.0 */
/* Images on trial (dfu_trial.h): the commands start, confirm and end, and the device's text about a trial. */
#ifndef DFU_GADGET_TRIAL_H
#define DFU_GADGET_TRIAL_H

#include "dfu_trial.h"
#include "medium.h"
#include "words.h"

/* Returns the trial of a mapped medium. */
struct dfu_trial trial_of(const struct medium *medium, const struct dfu_driver *driver, uint32_t tries);

/* Writes the name of the interface: the version in bcdDevice, and the state of the trial, such as "1.1.0, on trial, 2 starts left". */
#define TRIAL_WORDS 64
void trial_words(const struct dfu_trial *trial, uint16_t release, char text[TRIAL_WORDS]);

/* Marks a start, and prints AT and LENGTH of the image to start. Returns the exit status. */
int start_image(const struct words *words);

/* Confirms the image that begins at AT. Returns the exit status. */
int confirm_image(const struct words *words);

/* Ends a trial, so that the previous image is active. Returns the exit status. */
int end_trial(const struct words *words);

#endif

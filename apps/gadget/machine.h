/* SPDX-License-Identifier: MIT OR Apache-2.0 */
/* Runs the proved device. Only machine.c and trial.c call the proved library, and they make the writes that it requests before any other
 * call. */
#ifndef DFU_GADGET_MACHINE_H
#define DFU_GADGET_MACHINE_H

#include "dfu_device.h"
#include "medium.h"
#include "trial.h"

#include <stdbool.h>

#define MAX_TRANSFER 4096 /* largest size of a block in bytes */
#define MACHINE_UNIT 1    /* unit of a medium: a file can be written byte by byte */
#define MACHINE_GATE 16   /* size of the gate at the beginning of a slot */

struct machine {
    struct dfu_config config;
    struct dfu_device device;
    struct dfu_driver driver;
    uint8_t block[DFU_BLOCK_SIZE(MAX_TRANSFER, MACHINE_UNIT)];
    const struct medium *medium;
    struct dfu_place place; /* location of the active image */
    bool is_installed;      /* another image was installed, and the caller hasn't handled that yet */
    uint32_t tries;         /* number of starts of an image on trial; 0 for no trials */
    struct dfu_trial trial;
    uint8_t gate[MACHINE_GATE]; /* last known gate of the active image, for images on trial */
    int32_t refusal;            /* refusal by the library, or 0; after one the machine can't be used */
};

/* Powers the device on, in run-time mode or in DFU mode. Returns 0, or the library's refusal. */
int32_t machine_power_on(struct machine *machine, const struct medium *medium, bool is_upgrade);

/* Powers the device on again, in its current mode, if another program has ended a trial. */
void machine_again(struct machine *machine);

/* Decides, before the data stage, to answer or stall a request or to receive its data stage. This may end a trial (dfu_trial_transfer). */
enum plan { PLAN_ANSWER, PLAN_STALL, PLAN_TAKE };
enum plan machine_plan(struct machine *machine, const uint8_t setup[8]);

/* Handles a request. `body` has wLength bytes if the host sends data. Returns the number of bytes of the answer in `out`, or a negative
 * number for a stall. */
int32_t machine_handle(struct machine *machine, const uint8_t setup[8], const uint8_t *body, uint8_t out[MAX_TRANSFER]);

/* machine_closes returns true if this setup packet closes a download, and finds its image. machine_refuse_close refuses that image, with
 * errTARGET or errFILE. machine_refuse_close returns false if the packet closes no download. */
bool machine_closes(struct machine *machine, const uint8_t setup[8], struct dfu_place *place);
bool machine_refuse_close(struct machine *machine, const uint8_t setup[8], uint8_t why);

/* Pass the elapsed milliseconds, and a bus reset, to the device. */
void machine_pass(struct machine *machine, int64_t ms);
void machine_reset(struct machine *machine);

/* Returns the milliseconds until the state changes by time, or 0 if it doesn't. */
int64_t machine_due(struct machine *machine);
int32_t machine_state(struct machine *machine);

/* Returns true if the device must be on the bus in DFU mode. */
bool machine_is_upgrade(struct machine *machine);

/* Writes the functional descriptor. */
int32_t machine_functional(const struct machine *machine, uint8_t out[9]);

/* Find the image of a mapped medium, and format a new medium in memory. Return 0, or the library's refusal. */
int32_t machine_image(const struct medium *medium, struct dfu_place *place);
int32_t machine_format(uint8_t *memory, size_t size, const uint8_t *image, size_t length, uint32_t tries);

/* Returns the meaning of a refusal by the library. */
const char *machine_words(int32_t refusal);

#endif

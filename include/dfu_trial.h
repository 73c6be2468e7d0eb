/* SPDX-License-Identifier: MIT OR Apache-2.0 */
/**
 * @file dfu_trial.h
 * @brief Runs a new image of dfu_device.h on trial until it confirms itself; else the previous image becomes active again. The code is
 * dfu_boot.c.
 *
 *     static struct dfu_trial trial = {.flash = slots, .size = size, .driver = &driver, .tries = {16, 4096, 4}};
 *     struct dfu_place place;
 *
 *     the first image, on a board that has none:     dfu_trial_format(&trial, &dfu, image, length)
 *     the bootloader, before it starts an image:     if (dfu_trial_boot(&trial, &place) == 0) start what place says
 *     the bootloader, before each dfu_device_serve:  if (dfu_trial_transfer(&trial, &dfu, setup) != 0) stall the setup
 *     the application, once it knows that it works:  dfu_trial_accept(&trial, offset of its first byte in flash)
 *     the bootloader, if the image must not run:     dfu_trial_give_up(&trial)
 *
 * No image is on trial before one was confirmed: until then an update that hangs is started again and again. So the factory must confirm
 * the first image, on the board by dfu_trial_format, or in a file by dfu_trial_format_memory. The calls below are in the order in which a
 * program uses them. RULES, at the end, lists the duties of the program.
 */
#ifndef DFU_TRIAL_H
#define DFU_TRIAL_H

#include "dfu_device_memory.h"

#ifdef __cplusplus
extern "C" {
#endif

/** @brief Results of trials, in addition to those of enum dfu_result. */
enum dfu_trial_result {
    DFU_NO_SECTORS = -16, /**< the flash has no sectors, which marks need */
    DFU_FEW_TRIES = -17,  /**< there are fewer than two tries, but a verified download starts the new image twice */
    DFU_MANY_TRIES = -18, /**< a sector has no room for the header, the confirmation and the marks of that many tries */
    DFU_ELSEWHERE = -19   /**< an answer: no image that may run begins at that offset */
};

/** @brief Settings of trials: units and sectors of the flash, and tries of a new image. They must be the same in every call. */
struct dfu_tries {
    uint32_t unit;   /**< bytes of a unit, as in struct dfu_config */
    uint32_t sector; /**< bytes of a sector, as in struct dfu_config: room for (tries + 2) units of at least 16 bytes */
    uint32_t tries;  /**< maximum number of starts of a new image: 2 or more; 4 allow for one loss of power in a session (RULES) */
};

/** @brief State of the two images of a flash. */
struct dfu_standing {
    struct dfu_place active; /**< the active image: the one on trial, if there is one */
    struct dfu_place base;   /**< the confirmed image, which is active again if the one on trial fails; without a trial the active image */
    uint32_t on_trial;       /**< 1 if the active image is on trial, else 0 */
    uint32_t left;           /**< remaining starts of the image on trial */
    uint32_t is_confirmed;   /**< 1 if the active image is confirmed, else 0 */
};

/** @brief Image to start, and the one to start instead if the mark fails. */
struct dfu_starting {
    struct dfu_place run;       /**< the image to run */
    struct dfu_place otherwise; /**< the image to run if the mark of this start doesn't read as set */
};

#ifdef __cplusplus
}
#endif

#include "dfu_trial_core.h" /* private: the proved calls that the inline ones use */

#if defined(__clang__) && defined(__has_warning)
#pragma clang diagnostic push
#if __has_warning("-Wunsafe-buffer-usage")
#pragma clang diagnostic ignored "-Wunsafe-buffer-usage"
#endif
#endif

#ifdef __cplusplus
extern "C" {
#endif

/** @brief Images on trial. The program fills in all but the last field. */
struct dfu_trial {
    const uint8_t *flash;            /**< both slots, as in struct dfu_device */
    size_t size;                     /**< bytes of flash, as in struct dfu_device */
    const struct dfu_driver *driver; /**< driver of the flash; NULL if the program carries out the operations itself */
    struct dfu_tries tries;          /**< unit, sector and tries */
    uint32_t unused;                 /**< fills the struct up to a multiple of 8 bytes */
};

/** @brief Writes the first image to the flash through the drivers, as dfu_device_format does, and confirms it, so that each later image
 *         runs on trial. It destroys the contents of both slots. A loss of power during the call may leave no image, or one that is not
 *         confirmed: then repeat the call.
 * @param t trial of the same flash, unit and sector as d
 * @return 0: the image is active and confirmed; the refusals of dfu_trial_look other than DFU_NO_MEDIUM, and nothing was written; the other
 *         results of dfu_device_format and dfu_trial_accept. Afterwards call dfu_device_power_on */
static inline int32_t dfu_trial_format(const struct dfu_trial *t, struct dfu_device *d, const uint8_t *image, size_t length);

/** @brief Builds in memory the first contents of a flash with a confirmed image, for a device programmer to write: dfu_memory_format, and
 *         then the mark. Unit and sector are those of the configuration.
 * @return as dfu_trial_format */
static inline int32_t dfu_trial_format_memory(const struct dfu_config *c, uint32_t tries, uint8_t *medium, size_t size,
                                              const uint8_t *image, size_t length);

/** @brief Finds the image to start now. If an image is on trial, the driver first marks its start, or ends its trial.
 * @return 0: place is set; DFU_WRITE_PENDING: an operation is pending, and there is no driver; the refusals of dfu_trial_look */
static inline int32_t dfu_trial_boot(const struct dfu_trial *t, struct dfu_place *place);

/** @brief Returns the state of the two images in `standing`.
 * @return 0; DFU_NO_CONFIG (unit or sector isn't allowed), DFU_NO_SECTORS, DFU_FEW_TRIES, DFU_MANY_TRIES, DFU_NO_MEDIUM (no active image,
 *         or 2^32 bytes or more): standing is unchanged */
static inline int32_t dfu_trial_look(const struct dfu_trial *t, struct dfu_standing *standing);

/** @brief Does what dfu_trial_boot does, with the standing that an earlier dfu_trial_look returned, so the images are read only once.
 * @return as dfu_trial_boot */
static inline int32_t dfu_trial_boot_from(const struct dfu_trial *t, const struct dfu_standing *standing, struct dfu_place *place);

/** @brief Prepares the flash for a setup; call it before dfu_device_serve. If an image is on trial, and the setup begins a download, or
 *         an upload while no start is left, the call ends the trial through the driver, and then calls dfu_device_begin.
 * @return 0: serve the setup; the other results of dfu_trial_give_up, dfu_device_begin and dfu_device_would_stall: stall it */
static inline int32_t dfu_trial_transfer(const struct dfu_trial *t, struct dfu_device *d, const uint8_t setup[8]);

/** @brief Confirms the caller's own image, whose first byte is flash[at], through the driver, and reads the confirmation back.
 * @return 0: the image is confirmed; DFU_NOT_WRITTEN: it is not, and a trial continues; DFU_ELSEWHERE; DFU_WRITE_PENDING: an operation is
 *         pending, and there is no driver; the refusals of dfu_trial_look */
static inline int32_t dfu_trial_accept(const struct dfu_trial *t, uint32_t at);

/** @brief Ends a trial through the driver, and reads the flash back.
 * @return 0: no image is on trial; DFU_NOT_WRITTEN: the trial continues; DFU_WRITE_PENDING: an operation is pending, and there is no
 *         driver; the refusals of dfu_trial_look */
static inline int32_t dfu_trial_give_up(const struct dfu_trial *t);

/** @brief Finds, without a driver, the image to start, and the operation to carry out before. For an image on trial that operation is the
 *         mark of its next start, or, if it has no start left, the erase of its gate.
 * @return 0: start starting.run; DFU_WRITE_PENDING: ask is the operation, and dfu_trial_runs returns the image to start after it succeeded
 *         or failed; the refusals of dfu_trial_look, which change nothing */
static inline int32_t dfu_trial_start(const struct dfu_trial *t, struct dfu_ask *ask, struct dfu_starting *starting);

/** @brief Does what dfu_trial_start does, with a standing that dfu_trial_look returned for this flash: it reads gates, headers and marks,
 *         but no image. From the standing it only uses that the images named by `active` and `base` are whole; it reads everything else
 *         again. So an old standing starts the same image as dfu_trial_start would, unless an image that it names was damaged since. If
 *         gates, headers and marks don't match the standing, as after a download, the call reads the images itself.
 * @return as dfu_trial_start */
static inline int32_t dfu_trial_start_from(const struct dfu_trial *t, const struct dfu_standing *standing, struct dfu_ask *ask,
                                           struct dfu_starting *starting);

/** @brief Returns in `place` the image to start, after the operation that dfu_trial_start found succeeded or failed. The call reads a mark
 *         back, whatever the driver returned.
 * @return 0 */
static inline int32_t dfu_trial_runs(const struct dfu_trial *t, const struct dfu_ask *ask, const struct dfu_starting *starting,
                                     struct dfu_place *place);

/** @brief Finds the operation that confirms the caller's own image, whose first byte is flash[at].
 * @return 0: the image is confirmed; DFU_WRITE_PENDING: ask is the operation; DFU_ELSEWHERE; the refusals of dfu_trial_look: ask is
 *         unchanged */
static inline int32_t dfu_trial_confirm(const struct dfu_trial *t, uint32_t at, struct dfu_ask *ask);

/** @brief Finds the operation that ends a trial: the erase of the gate of the image on trial.
 * @return 0: no image is on trial; DFU_WRITE_PENDING: ask is the operation; the refusals of dfu_trial_look: ask is unchanged */
static inline int32_t dfu_trial_end(const struct dfu_trial *t, struct dfu_ask *ask);

/** @brief Finds the operation to carry out before an upload: if the image on trial has no start left, the one that ends the trial, as the
 *         next start would. So the host reads the image that the next start runs.
 * @return 0: the upload may begin; DFU_WRITE_PENDING: ask is the operation; the refusals of dfu_trial_look: ask is unchanged */
static inline int32_t dfu_trial_upload(const struct dfu_trial *t, struct dfu_ask *ask);

/* RULES for a program that runs images on trial.
 *
 * Marks in a header's sector, after the header, record that its image was confirmed and how often it was started. The calls of dfu_device.h
 * don't read them, and erase them with each new header.
 * - An image is on trial if it is the newer of two, is not confirmed, and the other one is. It is started at most `tries` times; after that
 *   its gate is erased, and the confirmed image runs.
 * - Each start is marked beforehand, and the mark is read back: if it doesn't read as set, the confirmed image runs, and no start is used
 *   up.
 * - A download first ends a trial, because during a trial the spare slot holds the confirmed image, which the download would overwrite.
 * - An upload ends a trial that has no start left, as the next start would. So a host reads the image that the next start runs, and if it
 *   reports Verified, its last reset starts the payload. There are two exceptions: the mark of that start fails, and the previous image
 *   runs this once; or power is lost during that reset, unnoticed by the host.
 * - A host that verifies starts the new image twice. A loss of power that the host notices uses up one more start, or two if it happens
 *   during a start. So 2 tries are enough without a loss of power, and each loss needs 2 more. With 3 tries one loss during a start may be
 *   too many. With too few tries the host may report Different, and the previous image runs. This doesn't matter for an image that has
 *   confirmed itself.
 * - With a run area (dfu_install.h) settle the image that dfu_trial_look returns as `active` before the start is marked, so that losses of
 *   power during the copy use up no start. Then call dfu_trial_boot_from with that standing, which reads no image. If it returns another
 *   place, settle and start the image there.
 * - An application that has no linker symbol for its offset must get it from the bootloader that started it.
 *
 * A program must follow these rules:
 * - The rules of dfu_device.h apply. Make no call while an operation of the device is pending.
 * - Start only the image that dfu_trial_boot returns, once for each call of it.
 * - dfu_trial_boot may end a trial, which changes the active image: call it before dfu_device_power_on, or call dfu_device_power_on or
 *   dfu_device_begin again.
 * - An application confirms the image at its own offset. So an old image, which runs because a mark failed, doesn't confirm the new one.
 * - unit, sector and tries are the same in all calls of the bootloader and of the application.
 * - On flash with ECC note: if a loss of power tears a mark that still reads FFh, the next start programs it again.
 *
 * Memory: sizeof(struct dfu_trial), 28 bytes with pointers of 32 bits, and within a call 268 bytes for a struct dfu_ask.
 *
 * Proved: each call dfu_core_trial_* answers as described above. Proved of the source in Rattle, once an image was confirmed, over lists of
 * starts, confirmations, ends, uploads and downloads with any fault: only the confirmed image runs, or the newest on trial. A host's report
 * about the active image stays true through marks, torn or not, and through ends of trials (docs/PROMISES.md, "With an image on trial").
 * Sequences of these calls in C and the inline calls dfu_trial_* are only tested. */

/* The bodies of the calls, which use those of dfu_trial_core.h. */

static inline int32_t dfu_trial_look(const struct dfu_trial *t, struct dfu_standing *standing) {
    return dfu_core_trial_look(&t->tries, t->flash, t->size, standing);
}

static inline int32_t dfu_trial_start(const struct dfu_trial *t, struct dfu_ask *ask, struct dfu_starting *starting) {
    return dfu_core_trial_start(&t->tries, t->flash, t->size, ask, starting);
}

static inline int32_t dfu_trial_start_from(const struct dfu_trial *t, const struct dfu_standing *standing, struct dfu_ask *ask,
                                           struct dfu_starting *starting) {
    return dfu_core_trial_start_from(&t->tries, t->flash, t->size, standing, ask, starting);
}

static inline int32_t dfu_trial_runs(const struct dfu_trial *t, const struct dfu_ask *ask, const struct dfu_starting *starting,
                                     struct dfu_place *place) {
    return dfu_core_trial_runs(t->flash, t->size, ask, starting, place);
}

static inline int32_t dfu_trial_confirm(const struct dfu_trial *t, uint32_t at, struct dfu_ask *ask) {
    return dfu_core_trial_confirm(&t->tries, t->flash, t->size, at, ask);
}

static inline int32_t dfu_trial_end(const struct dfu_trial *t, struct dfu_ask *ask) {
    return dfu_core_trial_end(&t->tries, t->flash, t->size, ask);
}

static inline int32_t dfu_trial_upload(const struct dfu_trial *t, struct dfu_ask *ask) {
    return dfu_core_trial_upload(&t->tries, t->flash, t->size, ask);
}

static inline int32_t dfu_trial_boot(const struct dfu_trial *t, struct dfu_place *place) {
    struct dfu_ask ask;
    struct dfu_starting starting;
    const int32_t n = dfu_trial_start(t, &ask, &starting);
    if (n == 0)
        *place = starting.run;
    if (n != DFU_WRITE_PENDING || !t->driver)
        return n;
    (void)dfu_device_carry_out(t->driver, &ask);
    return dfu_trial_runs(t, &ask, &starting, place);
}

static inline int32_t dfu_trial_boot_from(const struct dfu_trial *t, const struct dfu_standing *standing, struct dfu_place *place) {
    struct dfu_ask ask;
    struct dfu_starting starting;
    const int32_t n = dfu_trial_start_from(t, standing, &ask, &starting);
    if (n == 0)
        *place = starting.run;
    if (n != DFU_WRITE_PENDING || !t->driver)
        return n;
    (void)dfu_device_carry_out(t->driver, &ask);
    return dfu_trial_runs(t, &ask, &starting, place);
}

static inline int32_t dfu_trial_accept(const struct dfu_trial *t, uint32_t at) {
    struct dfu_ask ask;
    int32_t n = dfu_trial_confirm(t, at, &ask);
    if (n == DFU_WRITE_PENDING && t->driver) {
        (void)dfu_device_carry_out(t->driver, &ask);
        n = dfu_trial_confirm(t, at, &ask);
        return n == DFU_WRITE_PENDING ? DFU_TO(int32_t, DFU_NOT_WRITTEN) : n;
    }
    return n;
}

static inline int32_t dfu_trial_give_up(const struct dfu_trial *t) {
    struct dfu_ask ask;
    int32_t n = dfu_trial_end(t, &ask);
    if (n == DFU_WRITE_PENDING && t->driver) {
        (void)dfu_device_carry_out(t->driver, &ask);
        n = dfu_trial_end(t, &ask);
        return n == DFU_WRITE_PENDING ? DFU_TO(int32_t, DFU_NOT_WRITTEN) : n;
    }
    return n;
}

static inline int32_t dfu_trial_format(const struct dfu_trial *t, struct dfu_device *d, const uint8_t *image, size_t length) {
    struct dfu_standing standing;
    int32_t n = dfu_trial_look(t, &standing);
    if (n != 0 && n != DFU_NO_MEDIUM)
        return n;
    n = dfu_device_format(d, image, length);
    if (n == 0)
        n = dfu_trial_look(t, &standing);
    return n == 0 ? dfu_trial_accept(t, standing.active.at) : n;
}

static inline int32_t dfu_trial_format_memory(const struct dfu_config *c, uint32_t tries, uint8_t *medium, size_t size,
                                              const uint8_t *image, size_t length) {
    const struct dfu_driver stores = DFU_MEMORY_DRIVER(medium);
    struct dfu_device d;
    struct dfu_trial t;
    d.config = c;
    d.flash = medium;
    d.size = size;
    d.block = medium;
    d.most = 0;
    d.driver = &stores;
    t.flash = medium;
    t.size = size;
    t.driver = &stores;
    t.tries.unit = c->unit;
    t.tries.sector = c->sector;
    t.tries.tries = tries;
    return dfu_trial_format(&t, &d, image, length);
}

static inline int32_t dfu_trial_transfer(const struct dfu_trial *t, struct dfu_device *d, const uint8_t setup[8]) {
    struct dfu_ask ask;
    const int is_upload = setup[0] == 0xa1 && setup[1] == DFU_UPLOAD;
    int32_t n;
    if ((!is_upload && (setup[0] != 0x21 || setup[1] != DFU_DNLOAD)) || dfu_device_state(d) != DFU_STATE_IDLE)
        return 0;
    n = dfu_device_would_stall(d, setup);
    if (n != 0)
        return n == 1 ? 0 : n;
    n = is_upload ? dfu_trial_upload(t, &ask) : dfu_trial_end(t, &ask);
    if (n != DFU_WRITE_PENDING || !t->driver)
        return n;
    (void)dfu_device_carry_out(t->driver, &ask);
    n = dfu_trial_end(t, &ask);
    return n == 0 ? dfu_device_begin(d) : n == DFU_WRITE_PENDING ? DFU_TO(int32_t, DFU_NOT_WRITTEN) : n;
}

#ifdef __cplusplus
}
#endif

#if defined(__clang__) && defined(__has_warning)
#pragma clang diagnostic pop
#endif

#endif

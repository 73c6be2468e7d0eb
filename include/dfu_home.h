/* SPDX-License-Identifier: MIT OR Apache-2.0 */
/**
 * @file dfu_home.h
 * @brief Two areas: images are linked for the data of the first slot of dfu_device.h, and run there, so no run area is needed.
 *
 * Before each start the bootloader copies the active image to the first slot, if a download left it in the second. It writes only the
 * sectors in which the two slots differ. The first slot's data begins at flash[DFU_HOME_AT(unit, sector)].
 *
 *     static struct dfu_device dfu = {.config = &config, .flash = flash, .size = size, .block = block, .most = sizeof block,
 *                                     .driver = &driver};
 *     struct dfu_place place;
 *
 *     the bootloader, at power-on:      if (dfu_home_settle(&dfu, &place) == 0)
 *                                           start what is at flash + place.at, which is flash + DFU_HOME_AT(unit, sector);
 *                                           with dfu_places.h: at the address of the first data
 *                                       else
 *                                           stay in the bootloader: the host may install another image
 *     a program in the first slot,      n = dfu_home_transfer(&dfu, setup);   // refuses some downloads
 *     before each dfu_device_serve:     if (n != 0) stall the setup
 *                                       else n = dfu_device_serve(&dfu, setup, data, data, sizeof data)
 *     and in its driver, at the top     if (at < size / 2) return 1;
 *     of erase and of program:
 *
 * - Power may be lost at any moment: the next settle continues. The same image is active at each moment, until the host installs another. A
 *   start needs no operation if the image is in the first slot; after an update it needs as many as another install.
 * - If there is a watchdog, the driver must feed it: between two operations the image is compared once, and its CRC is computed at most
 *   twice.
 * - A program that can't wait for its flash calls dfu_core_home_next and dfu_core_home_took instead of settle, and carries out the
 *   operation between them.
 * - The bootloader itself may serve downloads at any time, even before settle, because it runs from neither slot. Such a download may go to
 *   the first slot directly, and then there is nothing to copy.
 * - THE RULE OF THE FIRST SLOT. A download goes to the slot that is not active. A program that runs from the first slot must not accept one
 *   while the active image is in the second, which is so from the end of a download to the next start: the download would erase the program
 *   while it runs. So the program calls dfu_home_transfer before each download, and leaves bitManifestationTolerant off, or resets itself
 *   after a download. The two lines in its driver protect it against its own mistakes.
 * - There is no way back to the previous image: after the copy both slots hold the new one. If you need a way back, use trials
 *   (dfu_trial.h), with three areas.
 *
 * Rules for the program: those of dfu_device.h for the flash. The flash has sectors, of 256 bytes or more. The application writes neither
 * slot.
 *
 * Proved: each call dfu_core_home_* answers as dfu_home_core.h describes. Proved of the source in Rattle: the same image stays active if
 * an operation succeeds, fails or is cut off; and as long as the active image is in the first slot, the second slot is spare. Sequences of
 * the calls in C and the inline calls dfu_home_* are only tested.
 *
 * Memory: none between calls; within a call 276 bytes of stack for a struct dfu_ask and a record.
 */
#ifndef DFU_HOME_H
#define DFU_HOME_H

#include "dfu_device.h"
#include "dfu_home_core.h"

#if defined(__clang__) && defined(__has_warning)
#pragma clang diagnostic push
#if __has_warning("-Wunsafe-buffer-usage")
#pragma clang diagnostic ignored "-Wunsafe-buffer-usage"
#endif
#endif

#ifdef __cplusplus
extern "C" {
#endif

#ifdef DFU_READ
/** @brief The program's function that reads flash that is not mapped (dfu_device.h, RULES). */
void DFU_READ(const unsigned char *from, unsigned char *to, size_t count);
#define DFU_HOME_READ_LENGTH(from, to) DFU_READ(from, to, 4)
#else
#define DFU_HOME_READ_LENGTH(from, to) ((to)[0] = (from)[0], (to)[1] = (from)[1], (to)[2] = (from)[2], (to)[3] = (from)[3])
#endif

/** @brief Offset in the flash of the first slot's data, for which images are linked: after the slot's gate and header. */
#define DFU_HOME_AT(unit, sector) (2 * DFU_GATE(unit, sector))

/** @brief Calls dfu_core_home_next for a device. */
static inline int32_t dfu_home_next(const struct dfu_device *d, const struct dfu_home_record *record, struct dfu_ask *ask) {
    return dfu_core_home_next(d->config, record, d->flash, d->size, ask);
}

/** @brief Calls dfu_core_home_took for a device. */
static inline int32_t dfu_home_took(const struct dfu_device *d, struct dfu_home_record *record, const struct dfu_ask *ask, uint32_t failed) {
    return dfu_core_home_took(record, d->flash, d->size, ask, failed);
}

/** @brief Copies the active image to the first slot through the driver. Call it before dfu_device_power_on.
 * @return 0: the image is in the first slot, and place has its offset and length; DFU_WRITE_PENDING: an operation is pending, and there is
 *         no driver; the refusals of dfu_core_home_next */
static inline int32_t dfu_home_settle(const struct dfu_device *d, struct dfu_place *place) {
    struct dfu_home_record record = {DFU_NOWHERE, 0};
    struct dfu_ask ask;
    int32_t n = dfu_home_next(d, &record, &ask);
    while (n == DFU_WRITE_PENDING && d->driver) {
        dfu_home_took(d, &record, &ask, dfu_device_carry_out(d->driver, &ask));
        n = dfu_home_next(d, &record, &ask);
    }
    if (n == 0) {
        const uint8_t *const header = d->flash + DFU_GATE(d->config->unit, d->config->sector); /* header of the first slot */
        uint8_t length[4];
        DFU_HOME_READ_LENGTH(header + 4, length);
        place->at = DFU_HOME_AT(d->config->unit, d->config->sector);
        place->length = DFU_TO(uint32_t, length[0]) | DFU_TO(uint32_t, length[1]) << 8 | DFU_TO(uint32_t, length[2]) << 16 |
                        DFU_TO(uint32_t, length[3]) << 24;
    }
    return n;
}

/** @brief Calls dfu_core_home_may_download for a device. */
static inline int32_t dfu_home_may_download(const struct dfu_device *d) {
    return dfu_core_home_may_download(d->config, d->flash, d->size);
}

/** @brief Returns 0 if a program that runs from the first slot may serve this setup. Call it before dfu_device_serve. Before a DNLOAD it
 *         does the pending work, as dfu_device_serve does; it refuses only a setup that begins a download.
 * @return 0: serve it; DFU_NOT_HOME: stall it; the refusals of dfu_device_work and of dfu_core_home_may_download: stall it */
static inline int32_t dfu_home_transfer(struct dfu_device *d, const uint8_t setup[8]) {
    int32_t n;
    if (setup[0] != 0x21 || setup[1] != DFU_DNLOAD)
        return 0;
    n = dfu_device_work(d);
    if (n < 0 || dfu_device_state(d) != DFU_STATE_IDLE)
        return n;
    n = dfu_home_may_download(d);
    return n == 1 ? 0 : n == 0 ? DFU_TO(int32_t, DFU_NOT_HOME) : n;
}

#ifdef __cplusplus
}
#endif

#if defined(__clang__) && defined(__has_warning)
#pragma clang diagnostic pop
#endif

#endif

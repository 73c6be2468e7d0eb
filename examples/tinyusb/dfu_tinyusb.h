/* SPDX-License-Identifier: MIT OR Apache-2.0 */
/**
 * @file dfu_tinyusb.h
 * @brief A class driver of TinyUSB (0.18 or later) for the device of dfu_device.h, in run-time mode and in DFU mode.
 *
 * The program has one DFU interface, with one alternate setting and no endpoint. Compile dfu_tinyusb.c with TinyUSB and libdfu_device.
 *
 *     extern struct dfu_device dfu;               // see dfu_device.h; with a driver for the flash
 *     bool is_asked(void);                        // true if a button is held, or the application set its flag
 *     void start_image(void);                     // the active image (docs/PORTING.md, step 7)
 *     void restart(void);                         // resets the processor
 *     void wait_ms(uint32_t ms);
 *     uint32_t milliseconds(void);
 *
 *     int main(void) {
 *         static const uint8_t none[1] = {0};
 *         bool upgrades = false;
 *         if (dfu_device_power_on_or_format(&dfu, none, 0) != 0)
 *             return 1;                           // DFU_NO_MEDIUM: the board is damaged (docs/PORTING.md, step 7)
 *         if (!is_asked())
 *             start_image();                      // it returns if no image can be started
 *         if (dfu_device_begin(&dfu) != 0 || dfu_tinyusb_start(&dfu) != 0)
 *             return 1;
 *         tud_init(0);
 *         for (;;) {
 *             tud_task();                         // requests are answered, and the flash is erased and written, in here
 *             dfu_tinyusb_task(milliseconds());
 *             if (dfu_tinyusb_protocol() == 2) {
 *                 upgrades = true;
 *             } else if (upgrades) {              // the host reset the bus: the upgrade is over
 *                 tud_disconnect();
 *                 restart();
 *             }
 *             if (dfu_tinyusb_leaves()) {
 *                 tud_disconnect();
 *                 wait_ms(100);
 *                 tud_connect();
 *             }
 *         }
 *     }
 *
 * That is a bootloader. A program that is its own application begins with dfu_device_power_on instead of dfu_device_begin, and starts no
 * image before the loop. With bitWillDetach it disconnects, and reconnects in DFU mode.
 *
 * The program defines its descriptors (dfu_tinyusb_descriptors.h). Those that it returns to the host are of run-time mode or of DFU mode,
 * depending on dfu_tinyusb_protocol at that time. Make all calls but dfu_tinyusb_event from the task that calls tud_task. This task needs
 * DFU_STACK + 600 bytes of stack.
 */
#ifndef DFU_TINYUSB_H
#define DFU_TINYUSB_H

#include "tusb.h"
#include "device/usbd_pvt.h"
#include "dfu_device.h"

#ifdef __cplusplus
extern "C" {
#endif

/** @brief The largest transfer size that a configuration may have, which is the size of the driver's buffer. */
#ifndef DFU_TINYUSB_TRANSFER
#define DFU_TINYUSB_TRANSFER 1024
#endif

/* A program with its own version of one of these two callbacks of TinyUSB must define:
 *     DFU_TINYUSB_OWN_HOOK      its tud_event_hook_cb calls dfu_tinyusb_event(event)
 *     DFU_TINYUSB_OWN_DRIVERS   its usbd_app_driver_get_cb copies dfu_tinyusb_driver into its list */

/** @brief The class driver. */
extern usbd_class_driver_t const dfu_tinyusb_driver;

/** @brief Notes an event of the bus; it may be called in an interrupt. tud_event_hook_cb must run before tud_task handles the event, which
 *         is always the case on one core. */
void dfu_tinyusb_event(uint32_t event);

/** @brief Serves this device, which must be started (dfu_device_power_on or dfu_device_begin).
 *  @return 0; DFU_NO_DEVICE (the device is not started, or has no driver), DFU_NO_ROOM (its transfer size is above DFU_TINYUSB_TRANSFER) */
int32_t dfu_tinyusb_start(struct dfu_device *device);

/** @brief Reports the time in milliseconds; now_ms wraps around after 2^32. Call it at least every 10 ms. */
void dfu_tinyusb_task(uint32_t now_ms);

/** @brief Returns true if the program must disconnect from the bus and reconnect now. The next call returns false. */
bool dfu_tinyusb_leaves(void);

/** @brief Returns bInterfaceProtocol: 1 in run-time mode, 2 in DFU mode. */
uint8_t dfu_tinyusb_protocol(void);

/** @brief Returns the last refusal of the device for a log (enum dfu_result without DFU_STALL), or 0. After a refusal the driver stalls one
 *         request, and begins the device again from the flash: in dfuIDLE, or in appIDLE if it was in run-time mode or the bus was reset.
 *         If the device can't begin, this call returns the reason, and the driver tries again at a later request. If there is no image any
 *         more, dfu_device_image returns DFU_NO_MEDIUM too. */
int32_t dfu_tinyusb_refusal(void);

#ifdef __cplusplus
}
#endif

#endif

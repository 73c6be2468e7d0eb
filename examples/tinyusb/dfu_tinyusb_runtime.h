/* SPDX-License-Identifier: MIT OR Apache-2.0 */
/**
 * @file dfu_tinyusb_runtime.h
 * @brief A class driver of TinyUSB (0.18 or later) for dfu_runtime.h: run-time mode of an application whose bootloader is another program.
 *        It links no library. Compile dfu_tinyusb_runtime.c with TinyUSB, instead of dfu_tinyusb.c.
 *
 *     void to_bootloader(void);                   // sets the bootloader's flag and resets; the bootloader calls dfu_device_begin
 *     void wait_ms(uint32_t ms);
 *     uint32_t milliseconds(void);
 *
 *     int main(void) {
 *         static struct dfu_runtime dfu = {.detach_ms = 1000, .interface_number = 2, .attributes = 15};
 *         dfu_tinyusb_runtime_start(&dfu);
 *         tud_init(0);
 *         for (;;) {
 *             tud_task();
 *             dfu_tinyusb_task(milliseconds());
 *             if (dfu_tinyusb_leaves()) {
 *                 tud_disconnect();
 *                 wait_ms(100);
 *                 to_bootloader();
 *             }
 *         }
 *     }
 *
 * Use the descriptors of dfu_tinyusb_descriptors.h, with protocol 1.
 */
#ifndef DFU_TINYUSB_RUNTIME_H
#define DFU_TINYUSB_RUNTIME_H

#include "tusb.h"
#include "device/usbd_pvt.h"
#include "dfu_runtime.h"

#ifdef __cplusplus
extern "C" {
#endif

/* DFU_TINYUSB_OWN_HOOK, DFU_TINYUSB_OWN_DRIVERS, dfu_tinyusb_driver and dfu_tinyusb_event are those of dfu_tinyusb.h. */
extern usbd_class_driver_t const dfu_tinyusb_driver;
void dfu_tinyusb_event(uint32_t event);

/** @brief Starts to serve this run-time mode. */
void dfu_tinyusb_runtime_start(struct dfu_runtime *runtime);

/** @brief Reports the time in milliseconds; now_ms wraps around after 2^32. Call it at least every 10 ms. */
void dfu_tinyusb_task(uint32_t now_ms);

/** @brief Returns true if the application must enter its bootloader now. */
bool dfu_tinyusb_leaves(void);

#ifdef __cplusplus
}
#endif

#endif

/* SPDX-License-Identifier: MIT OR Apache-2.0 */
/* Properties of USB and libusb on this system, by which answer.c interprets libusb's results. */
#ifndef DFU_FLASH_PROPERTIES_H
#define DFU_FLASH_PROPERTIES_H

#include <stdbool.h>
#include <stdint.h>

/* Returns true if libusb_reset_device returns 0 only if the device was reset. */
bool platform_resets(void);

/* Returns true if libusb_reset_device reports by LIBUSB_ERROR_NOT_FOUND that the device has other descriptors after the reset. */
bool platform_tells_new(void);

/* Returns true if a transfer to a device that left returns LIBUSB_ERROR_NO_DEVICE, so that LIBUSB_ERROR_PIPE always means a stall. */
bool platform_tells_left(void);

/* Returns false if the system has no USB at all, as in a container without access to it. */
bool platform_has_usb(void);

/* Returns the milliseconds that a person has for pulling the plug. */
uint32_t platform_pull_ms(void);

#endif

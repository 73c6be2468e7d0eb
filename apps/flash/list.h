/* SPDX-License-Identifier: MIT OR Apache-2.0 */
/* Lists the connected devices, and describes what a session would do. */
#ifndef DFU_FLASH_LIST_H
#define DFU_FLASH_LIST_H

#include "session.h"

#include <stdbool.h>

/* Prints the matching devices, one per line or as one record each. Returns the exit status. */
int list_devices(libusb_context *usb, const struct wanted *wanted, bool is_json);

/* Prints what the session would do. Must be called after session_begin. */
void list_plan(const struct session *session, bool is_json);

#endif

/* SPDX-License-Identifier: MIT OR Apache-2.0 */
/* Names of DFU requests and states, which dfu-flash and dfu-gadget print. */
#ifndef DFU_COMMON_NAMES_H
#define DFU_COMMON_NAMES_H

#include <stdint.h>

/* Returns the name of a request by its bRequest (USB DFU 1.1, section 3), or "?" if no request has the number. */
const char *request_name(uint8_t request);

/* Returns the name of a state by its bState (USB DFU 1.1, section 6.1.2), or "?" if no state has the number. */
const char *state_name(int32_t state);

#endif

/* SPDX-License-Identifier: MIT OR Apache-2.0 */
/* One DFU interface with the alternate settings of table.c. The program calls these functions at events of its USB stack:
 *
 *     alternates_power_on()               at the start, before the device connects to the bus
 *     SET_CONFIGURATION                   alternates_configured(wValue)
 *     a request to the interface, of the class or SET_INTERFACE or GET_INTERFACE:
 *                                         n = alternates_request(setup, data, sizeof data); n >= 0: answer, else stall
 *     an answer was sent                  alternates_answered()
 *     a bus reset                         if (alternates_reset()) the upgrade is over: start the firmware
 *
 * SET_INTERFACE (USB 2.0, 9.4.10) chooses a setting, which begins in dfuIDLE, and ends an unfinished download of any setting. DFU 1.1
 * doesn't define this: its appendix A has no row for the request, and section 4.2.3 only describes the purpose of settings. The download
 * ends here, because GETSTATUS and ABORT reach only the chosen setting, so a host could neither observe nor end a download in another one.
 * A store then keeps its old image; a raw area keeps the bytes that were written. */
#ifndef ALTERNATES_H
#define ALTERNATES_H

#include "table.h"

/* Bytes of the configuration descriptor: its own 9, 9 for each setting's interface descriptor, and 9 for the functional descriptor. */
enum { CONFIGURATION = 9 + 9 * SETTINGS + 9 };
/* Index of the string descriptor with the first setting's name; the other settings follow in order. */
enum { FIRST_NAME = 4 };

/* Begins the first setting, and formats stores that were never written. Returns 0, or the refusal of the first setting. A store without an
 * image refuses its own SET_INTERFACE only. */
int32_t alternates_power_on(void);

void alternates_configured(uint8_t value);

/* Serves a request. `data` holds the body, and receives the answer. Returns the length of the answer, or a negative number to stall. A body
 * of more than BLOCK bytes is not read, so the stack may pass the setup without it. */
int32_t alternates_request(const uint8_t setup[8], uint8_t *data, size_t room);

void alternates_answered(void);

/* Handles a bus reset. Returns 1 if this reset counts (dfu_device.h, RULES), which ends the upgrade. */
int alternates_reset(void);

/* Return the state (enum dfu_state) and the status code (enum dfu_status) of the chosen setting. */
int32_t alternates_state(void);
int32_t alternates_code(void);

void alternates_describe(uint8_t out[CONFIGURATION]);

#endif

/* SPDX-License-Identifier: MIT OR Apache-2.0 */
/* The serial port. */
#ifndef SERIAL_H
#define SERIAL_H
#include <stdint.h>

/* Switches the port on, with an interrupt for each received byte. */
void serial_begin(void);

/* Returns the next received byte, or -1 if there is none. */
int serial_get(void);

/* Sends a byte, and returns once it was sent. */
void serial_put(uint8_t byte);

#endif

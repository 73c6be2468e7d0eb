/* SPDX-License-Identifier: MIT OR Apache-2.0 */
/* Start and exceptions of a Cortex-M0, and the start of an image. */
#ifndef START_H
#define START_H
#include <stddef.h>
#include <stdint.h>

/* Reason of a restart, which is stored before the processor is reset. After a loss of power it is NOTE_NONE. */
enum note { NOTE_NONE = 0, NOTE_UPGRADE = 1, NOTE_FAULT = 2 };
enum note note_taken(void);
void restart(enum note note) __attribute__((noreturn));

/* Starts the image at this address, as image.h describes. Returns only if there is no image. */
void image_start(const uint8_t *image, size_t length);

/* Handler of each reset of the processor. */
void on_reset(void) __attribute__((noreturn));

/* Functions that start.c calls: the bootloader, and the handlers for a byte from the serial port, for the interrupt that clock_wake_in
 * requests, and for a text from the image. */
int main(void);
void on_serial(void);
void on_time(void);
void on_text(const uint8_t *text, uint32_t length);

#endif

/* SPDX-License-Identifier: MIT OR Apache-2.0 */
/* The simulated board: the proved device (dfu_device.h) with flash in memory, and the faults that the demo plans for it. */
#ifndef DFU_FLASH_DEMO_BOARD_H
#define DFU_FLASH_DEMO_BOARD_H

#include <stdbool.h>
#include <stddef.h>
#include <stdint.h>

/* Fault of the simulated board, at the block for which it is planned. */
enum demo_fate {
    DEMO_NOTHING,
    DEMO_ANSWER, /* the board receives the block, and its answer is lost */
    DEMO_PLUG    /* the plug is pulled before the block arrives, and stays out */
};

/* Makes a board that runs its first image and has room for images of up to `most` bytes. Returns false if there is no memory. */
bool demo_make(uint16_t vendor, uint16_t product, size_t most);

/* Plans a fault at one block. `block` counts the DNLOAD requests from now on, beginning with 0. */
void demo_plan(enum demo_fate fate, unsigned block);

/* Plugs the board in again, so that it has power. */
void demo_plug(void);

/* Return true if the board has power, and if its application runs, so that it is in run-time mode. */
bool demo_has_power(void);
bool demo_is_app(void);

/* Returns the number of enumerations so far. A handle that was opened before the last one no longer reaches the board. */
unsigned demo_generation(void);

/* Returns the size of a block in bytes. */
size_t demo_block(void);

/* Return the board's identifiers and its functional descriptor. */
uint16_t demo_vendor(void);
uint16_t demo_product(void);
void demo_functional(uint8_t bytes[9]);

/* Makes a DFU class request. Returns the number of bytes that were sent or received, or a libusb error. */
int demo_request(const uint8_t setup[8], uint8_t *data);

/* Resets the bus. Returns true if the board's descriptors are the same after it. */
bool demo_reset(void);

/* Returns the image that the board would start, and its length. */
const uint8_t *demo_image(size_t *length);

#endif

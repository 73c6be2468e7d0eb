/* SPDX-License-Identifier: MIT OR Apache-2.0 */
/* Descriptors of a DFU interface (USB DFU 1.1, sections 4.1.2, 4.1.3 and 4.2.3), in the form for FunctionFS. */
#ifndef DFU_GADGET_DESCRIPTORS_H
#define DFU_GADGET_DESCRIPTORS_H

#include <stdbool.h>
#include <stdint.h>

/* Writes the descriptors for each speed to endpoint 0, with the interface's name, of up to DESCRIPTORS_NAME - 1 bytes, and the eventfd that
 * counts the events. Returns false, with the reason in errno, if FunctionFS refuses them. */
#define DESCRIPTORS_NAME 64
bool descriptors_write(int ep0, int signals, uint8_t protocol, const uint8_t functional[9], const char *name);

#endif

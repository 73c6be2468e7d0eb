/* SPDX-License-Identifier: MIT OR Apache-2.0 */
/* The USB device controller, and the gadget on its bus. */
#ifndef DFU_GADGET_CONTROLLER_H
#define DFU_GADGET_CONTROLLER_H

#include <stdbool.h>
#include <stdint.h>

struct controller {
    const char *name; /* name in /sys/class/udc */
    int state;        /* descriptor of its file `state`, on which poll reports each write; -1 if it isn't open */
};

/* Opens the controller. Returns false, after printing why, if there is none with this name. */
bool controller_open(struct controller *controller, const char *name);
void controller_close(struct controller *controller);

/* Returns true if the state was written since the last call, or if that is unknown. */
bool controller_is_new_state(struct controller *controller);

/* Put a gadget on the bus, and remove it. Return false, after printing why, if that failed. */
bool controller_join(const struct controller *controller, const char *gadget);
bool controller_leave(const char *gadget);

/* Reads a number of a gadget's device descriptor, for example idVendor. Returns false, after printing why, if it can't be read. */
bool controller_number(const char *gadget, const char *attribute, uint16_t *number);

#endif

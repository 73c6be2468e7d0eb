/* SPDX-License-Identifier: MIT OR Apache-2.0 */
/* Lists the devices on the bus without opening any, so that a busy device isn't disturbed, and a hanging one blocks nothing. */
#ifndef DFU_FLASH_PORTS_H
#define DFU_FLASH_PORTS_H

#include "find.h"

#define PORTS_ROOM 512 /* maximum number of devices on all buses */

struct port {
    char path[PATH_ROOM];
    bool is_wanted;           /* the device has DFU and the requested identifiers */
    bool is_misfit;           /* the device has DFU and other identifiers */
    uint16_t vendor, product; /* identifiers of the device */
    bool is_upgrade;          /* the device is in DFU mode */
};

/* Writes a port for each connected device. Returns their number, or a libusb error. */
int ports_look(const struct wanted *wanted, struct port *ports);

#endif

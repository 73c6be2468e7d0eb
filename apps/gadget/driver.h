/* SPDX-License-Identifier: MIT OR Apache-2.0 */
/* Carries out the library's writes on a medium. */
#ifndef DFU_GADGET_DRIVER_H
#define DFU_GADGET_DRIVER_H

#include "dfu_device.h"
#include "medium.h"

/* Returns a driver for a mapped medium, which must stay at its address while the driver is used. */
struct dfu_driver driver_of(const struct medium *medium);

#endif

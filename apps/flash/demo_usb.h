/* SPDX-License-Identifier: MIT OR Apache-2.0 */
/* The bus of the simulated board, which has number 0. */
#ifndef DFU_FLASH_DEMO_USB_H
#define DFU_FLASH_DEMO_USB_H

#include "transport.h"

extern const struct transport demo_transport;

#endif

/* SPDX-License-Identifier: MIT OR Apache-2.0 */
/* Parts that dfu_tinyusb.c and dfu_tinyusb_runtime.c share; no other file includes this one. They cover the reset that counts, the
 * interface, and the time of appDETACH. */
#ifndef DFU_TINYUSB_PARTS_H
#define DFU_TINYUSB_PARTS_H

#include "dfu_tinyusb_descriptors.h"
#include "device/dcd.h"
#include "device/usbd_pvt.h"
#include <string.h>

#if TUSB_VERSION_NUMBER < 1800
#error "the class drivers of this folder are for TinyUSB 0.18 or later"
#endif

/* A device leaves after its DETACH was acknowledged. If TinyUSB does not report the acknowledgement, the device leaves after this time. */
enum { ACKNOWLEDGED_MS = 20 };

static uint32_t last_ms, ahead_ms;
static bool is_timing, is_configured, leaves;
static volatile bool is_reset;

void dfu_tinyusb_event(uint32_t event)
{
    if (event == DCD_EVENT_BUS_RESET || event == DCD_EVENT_UNPLUGGED)
        is_reset = true;
}

#ifndef DFU_TINYUSB_OWN_HOOK
void tud_event_hook_cb(uint8_t rhport, uint32_t event, bool in_isr)
{
    (void)rhport;
    (void)in_isr;
    dfu_tinyusb_event(event);
}
#endif

#ifndef DFU_TINYUSB_OWN_DRIVERS
usbd_class_driver_t const *usbd_app_driver_get_cb(uint8_t *count)
{
    *count = 1;
    return &dfu_tinyusb_driver;
}
#endif

static void init(void)
{
    is_reset = false;
    is_timing = is_configured = leaves = false;
}

static bool deinit(void)
{
    return true;
}

/* Returns true if a reset counts, which is the first one after a SET_CONFIGURATION. TinyUSB calls reset at each bus reset (an enumeration
 * has two), when the cable is pulled, and at a SET_CONFIGURATION of another value, which is no bus reset; tud_event_hook_cb tells these
 * apart. */
static bool counts(void)
{
    const bool was_configured = is_configured;
    if (!is_reset)
        return false;
    is_reset = false;
    is_configured = false;
    return was_configured;
}

/* Opens the interface with this number, which has one setting, no endpoint and a functional descriptor. Returns its length, or 0 for
 * another interface. */
static uint16_t open_number(tusb_desc_interface_t const *interface, uint16_t most, uint8_t number)
{
    const uint8_t *functional = (const uint8_t *)interface + sizeof *interface;
    if (most < DFU_TINYUSB_INTERFACE_LENGTH || interface->bInterfaceClass != TUSB_CLASS_APPLICATION_SPECIFIC
        || interface->bInterfaceSubClass != 1 || interface->bInterfaceNumber != number || interface->bAlternateSetting != 0
        || interface->bNumEndpoints != 0 || functional[0] != 9 || functional[1] != 0x21)
        return 0;
    is_configured = true;
    return DFU_TINYUSB_INTERFACE_LENGTH;
}

/* Returns true for a request of the class to the interface, which the device handles. All others, such as SET_INTERFACE, are left to
 * TinyUSB. */
static bool is_ours(tusb_control_request_t const *request)
{
    return request->bmRequestType_bit.type == TUSB_REQ_TYPE_CLASS && request->bmRequestType_bit.recipient == TUSB_REQ_RCPT_INTERFACE;
}

/* Begins the time of appDETACH once the DETACH was acknowledged. */
static void detach(void)
{
    is_timing = false;
    ahead_ms = ACKNOWLEDGED_MS;
}

/* Returns the milliseconds of appDETACH since the last call. */
static uint32_t passed(uint32_t now_ms, bool is_detaching)
{
    const uint32_t all = is_timing && is_detaching ? now_ms - last_ms : 0, ahead = all < ahead_ms ? all : ahead_ms;
    is_timing = is_detaching;
    last_ms = now_ms;
    ahead_ms -= ahead;
    return all - ahead;
}

bool dfu_tinyusb_leaves(void)
{
    const bool is_leaving = leaves;
    leaves = false;
    return is_leaving;
}

#endif

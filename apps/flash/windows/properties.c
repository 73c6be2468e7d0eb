/* SPDX-License-Identifier: MIT OR Apache-2.0 */
/* WinUSB has no call for a reset: libusb's winusbx_reset_device returns 0 and resets nothing. libusb reports every ERROR_GEN_FAILURE as a
 * stall, even if it has another cause, and a transfer that can't be submitted as LIBUSB_ERROR_IO. */
#include "../properties.h"

bool platform_resets(void)
{
    return false;
}

bool platform_tells_new(void)
{
    return false;
}

bool platform_tells_left(void)
{
    return false;
}

uint32_t platform_pull_ms(void)
{
    return 120000;
}

bool platform_has_usb(void)
{
    return true;
}

/* SPDX-License-Identifier: MIT OR Apache-2.0 */
/* On macOS libusb enumerates the device again after a reset, but compares only the beginning of its configurations. A changed descriptor
 * may therefore stay unnoticed. */
#include "../properties.h"

bool platform_resets(void)
{
    return true;
}

bool platform_tells_new(void)
{
    return false;
}

bool platform_tells_left(void)
{
    return true;
}

uint32_t platform_pull_ms(void)
{
    return 120000;
}

bool platform_has_usb(void)
{
    return true;
}

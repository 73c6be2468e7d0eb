/* SPDX-License-Identifier: MIT OR Apache-2.0 */
/* Properties of USB on Linux, which resets the port of a device. libusb then reads the descriptors again. */
#define _POSIX_C_SOURCE 200809L
#include "../properties.h"

#include <unistd.h>

bool platform_resets(void)
{
    return true;
}

bool platform_tells_new(void)
{
    return true;
}

bool platform_tells_left(void)
{
    return true;
}

uint32_t platform_pull_ms(void)
{
    return 120000;
}

bool platform_has_usb(void)
{
    return access("/dev/bus/usb", F_OK) == 0 || access("/sys/bus/usb", F_OK) == 0;
}

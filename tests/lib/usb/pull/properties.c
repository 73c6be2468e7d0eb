/* Replaces apps/flash/linux/properties.c: dfu-flash interprets libusb's results as on WinUSB, and gives a user half a second to unplug the
 * device. With USB_NEW=untold it interprets them as on macOS. */
#include "../../../../apps/flash/properties.h"

#include <stdlib.h>
#include <string.h>

static bool is_macos(void)
{
    const char *untold = getenv("USB_NEW");
    return untold != NULL && strcmp(untold, "untold") == 0;
}

bool platform_resets(void)
{
    return is_macos();
}

bool platform_tells_new(void)
{
    return false;
}

bool platform_tells_left(void)
{
    return is_macos();
}

uint32_t platform_pull_ms(void)
{
    return 500;
}

bool platform_has_usb(void)
{
    return true;
}

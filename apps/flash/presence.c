/* SPDX-License-Identifier: MIT OR Apache-2.0 */
/* A device is present while it is listed, or answers the USB request GET_STATUS, which every device supports and which changes no state. */
#include "presence.h"
#include "clock.h"
#include "properties.h"
#include "standard.h"
#include "terminal.h"
#include "transport.h"

#include <stdio.h>

#define LOOK_MS 50
#define STATUS_MS 1000
#define GET_STATUS 0 /* USB 2.0, section 9.4.5 */

bool present_is(const struct device *device)
{
    libusb_device *opened = device->info.device, **devices;
    bool is_listed = false;
    ssize_t count = opened == NULL ? 0 : transport->list(device->usb, &devices);
    if (opened == NULL || count < 0)
        return opened != NULL;
    for (ssize_t at = 0; at < count; at++)
        is_listed =
            is_listed
            || (transport->bus(devices[at]) == transport->bus(opened) && transport->address(devices[at]) == transport->address(opened));
    transport->free_list(devices, 1);
    return is_listed;
}

bool present_is_lost(const struct device *device, int answer)
{
    unsigned char status[2];
    if (platform_tells_left() || answer >= 0 || answer == LIBUSB_ERROR_TIMEOUT)
        return false;
    answer = transport->transfer(device->handle, KIND_IS_IN, GET_STATUS, 0, 0, status, sizeof status, STATUS_MS);
    return answer < 0 && answer != LIBUSB_ERROR_TIMEOUT;
}

bool present_is_pulled(const struct device *device)
{
    int64_t end = clock_ms() + platform_pull_ms();
    fprintf(stderr, "%sdfu-flash: this system resets no device: pull its plug now, and put it in again\n", terminal_is(stderr) ? "\n" : "");
    while (!*device->is_stop && clock_ms() < end) {
        if (!present_is(device))
            return true;
        clock_wait(LOOK_MS);
    }
    return false;
}

/* SPDX-License-Identifier: MIT OR Apache-2.0 */
/* Opens the device, and finds it again after it left. A device that changes between run-time mode and DFU mode leaves the bus and returns
 * as a new device, with other descriptors and often other identifiers, so it is found by its path. The serial number is used only on
 * request, because two devices may have the same one. A session detects another board at the same path by comparing it with the device that
 * was first found in the same mode. */
#include "device.h"
#include "clock.h"
#include "messages.h"
#include "terminal.h"
#include "transport.h"

#include <stdio.h>
#include <string.h>

#define AWAY_MS 10000 /* time that a device may be away; a system takes 1 to 2 s to detect a device */
#define LOOK_MS 50

int device_set(struct device *device)
{
    int error = transport->set(device->handle, device->info.interface, device->info.alternate);
    /* A device with only one setting may stall the request, but is in that setting. */
    return error == LIBUSB_ERROR_PIPE && device->info.alternate == 0 ? 0 : error;
}

int device_open(struct device *device)
{
    int error = transport->open(device->info.device, &device->handle);
    if (error != 0) {
        device->handle = NULL;
        return error;
    }
    error = transport->claim(device->handle, device->info.interface);
    if (error != 0) {
        transport->close(device->handle);
        device->handle = NULL;
        return error;
    }
    error = device_set(device);
    if (error != 0)
        device_close(device);
    else
        device->opened++;
    return error;
}

void device_close(struct device *device)
{
    if (device->handle == NULL)
        return;
    transport->release(device->handle, device->info.interface);
    transport->close(device->handle);
    device->handle = NULL;
}

void device_drop(struct device *device)
{
    device_close(device);
    if (device->info.device != NULL)
        transport->drop(device->info.device);
    device->info.device = NULL;
}

/* Counts the matching devices that can be opened, and keeps a reference to the last of them. */
static int keep_one(struct device *device, const struct wanted *wanted)
{
    struct found list[FOUND_ROOM];
    int count = find_all(device->usb, wanted, list, FOUND_ROOM), open = 0;
    for (int at = 0; at < count; at++) {
        if (list[at].access != 0)
            continue;
        open++;
        device_drop(device);
        device->info = list[at];
        transport->hold(device->info.device);
    }
    found_drop(list, count);
    return open;
}

/* Counts the devices that may be this one: those at its path, or if the path is free, those with its serial number. A device that
 * temporarily can't be read has not left, and another board may have its serial number. */
static int look_for(struct device *device)
{
    const struct wanted here = {.path = device->path, .place = device->place};
    const struct wanted named = {.path = device->bus, .serial = device->serial, .dfu_serial = device->dfu_serial, .place = device->place};
    int same = has_ports(device->path) ? keep_one(device, &here) : 0;
    if (same > 0 || device->serial == NULL || (has_ports(device->path) && !is_free(device->usb, device->path)))
        return same;
    return keep_one(device, &named);
}

/* Reports why a device that returned can't be opened, for example because of access rights or another program. Its access rights may differ
 * from those before it left. */
static void say_why(struct device *device, int error)
{
    const struct wanted any = {.path = device->path, .place = ANYWHERE};
    struct found one = {0};
    int count = has_ports(device->path) ? find_all(device->usb, &any, &one, 1) : 0;
    if (count > 0 && one.access == 0)
        one.access = error;
    if (count > 0 && one.access != 0)
        say_no_access(&one);
    found_drop(&one, count);
}

/* Returns true if the program should keep waiting for the device. Prints a message after 10 seconds, unless --quiet is given. */
static bool is_awaited(const struct device *device, int64_t began_ms, bool *is_said)
{
    int64_t most_ms = (int64_t)device->patience.seconds * 1000;
    int64_t least_ms = device->patience.away_ms != 0 ? device->patience.away_ms : AWAY_MS;
    int64_t away_ms = clock_ms() - began_ms;
    if (*device->is_stop || away_ms >= (most_ms > least_ms ? most_ms : least_ms))
        return false;
    if (away_ms >= AWAY_MS && !*is_said && !device->patience.is_quiet)
        fprintf(stderr, "%sdfu-flash: the device is away; it is waited for up to %u s\n", terminal_is(stderr) ? "\n" : "",
                (unsigned)device->patience.seconds);
    *is_said = *is_said || away_ms >= AWAY_MS;
    return true;
}

/* A device that has left may still be listed, and can't be opened then. A device that has just appeared may get its access rights a moment
 * later. The old reference is dropped first, because on Windows libusb returns the old descriptors as long as a reference exists. */
bool device_reopen(struct device *device)
{
    int64_t began_ms = clock_ms();
    bool is_said = false;
    int error;
    device_drop(device);
    for (;;) {
        int same = look_for(device);
        device->is_many = same > 1;
        if (device->is_many)
            return false;
        error = same == 1 ? device_open(device) : 0;
        if (same == 1 && error == 0)
            return true;
        if (!is_awaited(device, began_ms, &is_said))
            break;
        clock_wait(LOOK_MS);
    }
    say_why(device, error);
    return false;
}

/* Returns true if a device with the requested serial number can be opened at any path. */
static bool is_elsewhere(const struct device *device)
{
    const struct wanted named = {.path = device->bus, .serial = device->serial, .dfu_serial = device->dfu_serial, .place = ANYWHERE};
    struct found list[FOUND_ROOM];
    int count = device->serial == NULL ? 0 : find_all(device->usb, &named, list, FOUND_ROOM);
    bool may_be_opened = false;
    for (int at = 0; at < count; at++)
        may_be_opened = may_be_opened || list[at].access == 0;
    found_drop(list, count);
    return may_be_opened;
}

static bool is_back(const struct device *device)
{
    return (has_ports(device->path) && is_at(device->usb, device->path)) || is_elsewhere(device);
}

void device_await(struct device *device, uint32_t ms)
{
    int64_t end = clock_ms() + ms;
    while (!is_back(device) && !*device->is_stop && clock_ms() < end)
        clock_wait(LOOK_MS);
}

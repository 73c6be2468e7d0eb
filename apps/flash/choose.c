/* SPDX-License-Identifier: MIT OR Apache-2.0 */
/* Chooses the device. If several devices match, none is chosen, because writing to the wrong device does harm. */
#include "advice.h"
#include "clock.h"
#include "device.h"
#include "one_device.h"
#include "messages.h"
#include "status.h"
#include "transport.h"

#include <stdio.h>
#include <string.h>

#define LOOK_MS 100
#define SETTLE_MS 2000 /* time after which udev has set the access rights of a new device */
#define BACK_MS 4000   /* as SETTLE_MS, for a device that may be a known one; longer, because many may arrive at once */

struct wanted wanted_of(const struct words *words)
{
    /* clang-format off */
    struct wanted wanted = {.has_ids = words->has_ids, .vendor = words->vendor, .product = words->product,
                            .path = words->path, .serial = words->serial, .dfu_serial = words->dfu_serial,
                            .is_upgrade = words->is_upgrade,
                            .place = {words->interface, words->alternate, words->setting},
                            .has_dfu_ids = words->has_dfu_ids, .dfu_vendor = words->dfu_vendor, .dfu_product = words->dfu_product};
    /* clang-format on */
    /* A DfuSe device has a setting for each of its memories, and the first is the program memory. */
    if (words->has_address && words->alternate < 0 && words->setting == NULL)
        wanted.place.alternate = 0;
    return wanted;
}

/* One DFU interface may have several alternate settings, each for another part of the memory. The user must select one. */
static void ask_for_one(const struct found *list, int count)
{
    fprintf(stderr, "dfu-flash: more than one device, interface or setting; choose by --device, --path, --serial, --interface or --alt:\n");
    bool is_one = true;
    for (int at = 0; at < count; at++) {
        say_found(stderr, &list[at]);
        is_one = is_one && strcmp(list[at].path, list[0].path) == 0;
    }
    if (is_one)
        advice_is("choose the setting that the file is for, by --alt or --interface");
}

/* Returns true if a setting was requested by name, and the only device can't be opened, so that its settings' names are unknown. */
static bool is_unread(const struct wanted *wanted, const struct found *list, int count)
{
    for (int at = 0; at < count; at++)
        if (list[at].access == 0 || strcmp(list[at].path, list[0].path) != 0)
            return false;
    return wanted->place.name != NULL;
}

/* If a device with the requested serial number was read, the devices whose number can't be read are dropped. */
static int drop_unread(const struct wanted *wanted, struct found *list, int count)
{
    int read = 0;
    for (int at = 0; at < count; at++)
        read += list[at].access == 0;
    if (wanted->serial == NULL || read == 0)
        return count;
    read = 0;
    for (int at = 0; at < count; at++)
        if (list[at].access == 0)
            list[read++] = list[at];
        else
            transport->drop(list[at].device);
    return read;
}

/* Returns true if a device can be opened, and found again after it leaves. */
static bool is_usable(const struct device *device)
{
    return device->info.access == 0 && (has_ports(device->path) || device->serial != NULL);
}

static int say_unusable(struct device *device)
{
    device_drop(device);
    if (device->info.access != 0)
        return say_no_access(&device->info);
    fprintf(stderr, "dfu-flash: the system names no ports, and without --serial a device that left isn't found again\n");
    return STATUS_NO_DEVICE;
}

/* Returns true if one of the devices can be opened, or has been present for the settling time. The access rights of a device are set a
 * moment after it appears. */
static bool is_settled(const struct patience *patience, const struct found *list, int count, int64_t *seen_ms)
{
    int64_t now_ms = clock_ms();
    if (count == 0)
        *seen_ms = now_ms;
    for (int at = 0; at < count; at++)
        if (list[at].access == 0)
            return true;
    return count > 0 && now_ms - *seen_ms >= (patience->is_back ? BACK_MS : SETTLE_MS);
}

static void say_waiting(const struct patience *patience)
{
    if (patience->is_quiet)
        return;
    fputs("dfu-flash: waiting for the device", stderr);
    if (patience->seconds > 0)
        fprintf(stderr, " for up to %u s", (unsigned)patience->seconds);
    fputs("; Ctrl-C ends it\n", stderr);
}

/* Finds the matching devices. With --wait it polls until one is connected and settled, the time is over, or a stop is requested. */
static int look(const struct device *device, const struct wanted *wanted, struct found *list)
{
    const struct patience *patience = &device->patience;
    int64_t began_ms = clock_ms(), seen_ms = began_ms;
    for (bool is_first = true;; is_first = false) {
        int count = find_all(device->usb, wanted, list, FOUND_ROOM);
        if (count < 0)
            return count;
        count = drop_unread(wanted, list, count);
        if (!patience->is_asked || is_settled(patience, list, count, &seen_ms))
            return count;
        if (*device->is_stop || (patience->seconds > 0 && clock_ms() - began_ms >= (int64_t)patience->seconds * 1000))
            return count;
        if (is_first)
            say_waiting(patience);
        /* In a retry (opened > 0) the other devices aren't reported again, because they were connected before. */
        if (is_first && count == 0 && !patience->is_quiet && device->opened == 0)
            say_not_yet(device->usb, wanted);
        found_drop(list, count);
        clock_wait(LOOK_MS);
    }
}

/* Reports that no device matches, and the time limit of --wait if it has passed. */
static int say_none(const struct device *device, const struct wanted *wanted)
{
    int status = say_missing(device->usb, wanted);
    if (device->patience.is_asked && device->patience.seconds > 0 && !device->patience.is_quiet && !*device->is_stop)
        fprintf(stderr, "dfu-flash: none came within %u s\n", (unsigned)device->patience.seconds);
    return status;
}

int device_choose(struct device *device, const struct wanted *wanted)
{
    struct found list[FOUND_ROOM];
    int count = look(device, wanted, list);
    if (count < 0) {
        fprintf(stderr, "dfu-flash: the list of devices can't be had: %s\n", libusb_error_name(count));
        return STATUS_NO_DEVICE;
    }
    if (count == 0)
        return say_none(device, wanted);
    if (count > 1 && !is_unread(wanted, list, count)) {
        ask_for_one(list, count);
        found_drop(list, count);
        return STATUS_SEVERAL;
    }
    device->info = list[0];
    found_drop(list + 1, count - 1);
    device->place = wanted->place;
    memcpy(device->path, list[0].path, sizeof device->path);
    /* A device that was selected by --path is found again only at that path, if the path names ports. */
    device->serial = wanted->path != NULL && has_ports(device->path) ? NULL : wanted->serial;
    device->dfu_serial = wanted->dfu_serial;
    device->bus = wanted->path;
    return is_usable(device) ? STATUS_DONE : say_unusable(device);
}

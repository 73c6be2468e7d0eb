/* SPDX-License-Identifier: MIT OR Apache-2.0 */
/* Explains why no device matches. It applies one criterion after the other to the remaining devices, and reports the first that no device
 * meets. */
#include "advice.h"
#include "properties.h"
#include "messages.h"
#include "standard.h"
#include "status.h"

#include <stdio.h>
#include <string.h>

/* Criteria in the order in which they are applied. */
enum criterion { IDENTIFIERS, PATH, SERIAL, INTERFACE, SETTING, CRITERIA };

/* Returns the criteria up to and including `last`. */
static struct wanted up_to(const struct wanted *wanted, enum criterion last)
{
    struct wanted part = *wanted;
    part.path = last >= PATH ? part.path : NULL;
    part.serial = last >= SERIAL ? part.serial : NULL;
    part.dfu_serial = last >= SERIAL ? part.dfu_serial : NULL;
    part.place.interface = last >= INTERFACE ? part.place.interface : -1;
    if (last < SETTING) {
        part.place.alternate = -1;
        part.place.name = NULL;
    }
    return part;
}

/* Moves the matching devices to the front of the list, and returns their number. */
static int take_fitting(const struct wanted *wanted, struct found *list, int count)
{
    int fitting = 0;
    for (int at = 0; at < count; at++) {
        struct found one = list[at];
        if (!is_wanted(wanted, &one))
            continue;
        list[at] = list[fitting];
        list[fitting++] = one;
    }
    return fitting;
}

static void say_criterion(const struct wanted *wanted, enum criterion failed)
{
    switch (failed) {
    case IDENTIFIERS:
        fprintf(stderr, "%s vendor %04x, product %04x%s (ffff is any), and none has them%s",
                wanted->is_of_file ? "the file is for" : "--device names", wanted->vendor, wanted->product,
                wanted->has_dfu_ids ? " and others for DFU mode" : "", wanted->is_upgrade ? " in DFU mode" : "");
        break;
    case PATH: say_text(stderr, "none of these is at --path ", wanted->path, ""); break;
    case SERIAL:
        say_text(stderr, "none of these has --serial ", wanted->serial, "");
        if (wanted->dfu_serial != NULL)
            say_text(stderr, ", or in DFU mode ", wanted->dfu_serial, "");
        break;
    case INTERFACE: fprintf(stderr, "none of these has --interface %d", wanted->place.interface); break;
    default:
        if (wanted->place.name == NULL)
            fprintf(stderr, "none of these has --alt %d", wanted->place.alternate);
        else
            say_text(stderr, "none of these has --alt ", wanted->place.name, "");
    }
}

static void say_list(const struct found *list, int count)
{
    for (int at = 0; at < count; at++)
        say_found(stderr, &list[at]);
}

/* In DFU mode a device may have other identifiers than the file's. If only one device is in DFU mode, its identifiers are suggested. */
static void say_modes(const struct wanted *wanted, const struct found *list, int count)
{
    const struct found *one = NULL;
    bool is_one = wanted->vendor != ANY_ID && wanted->product != ANY_ID;
    for (int at = 0; at < count; at++) {
        is_one = is_one && (!list[at].is_upgrade || one == NULL || strcmp(one->path, list[at].path) == 0);
        one = list[at].is_upgrade ? &list[at] : one;
    }
    if (wanted->has_dfu_ids || one == NULL)
        return;
    fputs("dfu-flash: in DFU mode a device may have other numbers: ", stderr);
    if (is_one)
        fprintf(stderr, "if the one at %s is %s: --device %04x:%04x,%04x:%04x\n", one->path,
                wanted->is_of_file ? "the board that the file is for" : "the board that is meant", wanted->vendor, wanted->product,
                one->vendor, one->product);
    else
        fputs("see --device RUN,DFU\n", stderr);
}

static void say_nothing(void)
{
    fputs("dfu-flash: no device with DFU is there\n", stderr);
    if (platform_has_usb())
        return;
    fputs("dfu-flash: this system has no USB: neither /dev/bus/usb nor /sys/bus/usb is there, as in a container\n", stderr);
    advice_is("run it on the computer that the device is plugged into, or give the container its /dev/bus/usb and /sys/bus/usb");
}

/* Finds the first criterion that none of the remaining devices meets. The devices that meet all earlier ones are moved to the front of the
 * list, and `left` is their number. */
static enum criterion find_failed(const struct wanted *wanted, struct found *list, int count, int *left)
{
    enum criterion failed = IDENTIFIERS;
    *left = count;
    for (; failed < CRITERIA; failed++) {
        struct wanted part = up_to(wanted, failed);
        int fitting = take_fitting(&part, list, *left);
        if (fitting == 0)
            break;
        *left = fitting;
    }
    return failed;
}

/* Prints the criterion that no device meets, and the connected devices. */
static void say_failed_by(const struct wanted *wanted, enum criterion failed, const struct found *list, int left, int count)
{
    if (failed == CRITERIA) /* some device meets all criteria, so it arrived just now */
        fputs("none was there in time", stderr);
    else
        say_criterion(wanted, failed);
    fputs("; there is:\n", stderr);
    say_list(list, left);
    if (left < count)
        fputs("and, which is not meant:\n", stderr);
    say_list(list + left, count - left);
    if (failed == IDENTIFIERS)
        say_modes(wanted, list, count);
}

int say_missing(libusb_context *usb, const struct wanted *wanted)
{
    const struct wanted any = {.place = ANYWHERE};
    struct found list[FOUND_ROOM];
    int count = find_all(usb, &any, list, FOUND_ROOM), left;
    enum criterion failed;
    if (count <= 0) {
        say_nothing();
        return STATUS_NO_DEVICE;
    }
    failed = find_failed(wanted, list, count, &left);
    advice_is("choose one of those that are there, or plug in the one that is meant");
    fputs("dfu-flash: no device is the one that is asked for: ", stderr);
    say_failed_by(wanted, failed, list, left, count);
    found_drop(list, count);
    return STATUS_NO_DEVICE;
}

void say_not_yet(libusb_context *usb, const struct wanted *wanted)
{
    const struct wanted any = {.place = ANYWHERE};
    struct found list[FOUND_ROOM];
    int count = find_all(usb, &any, list, FOUND_ROOM), left = 0;
    enum criterion failed = count <= 0 ? CRITERIA : find_failed(wanted, list, count, &left);
    if (failed < CRITERIA) {
        fputs("dfu-flash: no device that is there now is the one that is asked for: ", stderr);
        say_failed_by(wanted, failed, list, left, count);
    }
    found_drop(list, count);
}

/* SPDX-License-Identifier: MIT OR Apache-2.0 */
/* The device of a session: opening, closing, and finding it again after it left. */
#ifndef DFU_FLASH_DEVICE_H
#define DFU_FLASH_DEVICE_H

#include "find.h"

#include <libusb.h>
#include <signal.h>
#include <stdbool.h>

/* Settings for the wait for a missing device, from --wait and --quiet. */
struct patience {
    uint32_t away_ms; /* minimum time to wait for a device that left; 0 is 10 seconds */
    bool is_asked;    /* wait for a device that isn't connected yet */
    uint32_t seconds; /* seconds to wait for the device; 0 is forever */
    bool is_quiet;
    bool is_back; /* the device may be a known one, so its access rights are awaited longer */
};

struct device {
    libusb_context *usb;
    libusb_device_handle *handle;         /* NULL while the device isn't open */
    uint64_t opened;                      /* number of times that it was opened */
    struct found info;                    /* descriptors when it was last found */
    char path[PATH_ROOM];                 /* the path at which it is found again */
    const char *serial;                   /* the requested serial number, by which the device is found elsewhere; NULL for none */
    const char *dfu_serial;               /* its serial number in DFU mode; NULL if it is the same */
    const char *bus;                      /* the requested path if it names no ports; else NULL */
    struct place place;                   /* the requested interface and setting */
    bool is_many;                         /* it returned with more than one matching setting */
    const volatile sig_atomic_t *is_stop; /* a wait for the device ends when this is set */
    struct patience patience;             /* from --wait and --quiet */
};

/* Chooses one of the matching devices. Returns an exit status. If none is usable, prints the reason on standard error. With `patience`,
 * waits for a device. */
int device_choose(struct device *device, const struct wanted *wanted);

/* Opens the device and claims its interface. Returns 0 or a libusb error. */
int device_open(struct device *device);

/* Selects the alternate setting of its interface. Returns 0 or a libusb error. */
int device_set(struct device *device);

void device_close(struct device *device);

/* Closes the device, and drops the reference to it that device_choose took. */
void device_drop(struct device *device);

/* Waits up to `ms` milliseconds until a device is at its path or one with its serial number is connected, or until `is_stop` is set. */
void device_await(struct device *device, uint32_t ms);

/* Waits until the device is back with DFU, and opens it. Returns false if it stays away longer than `patience` allows, if `is_stop` is set,
 * or if more than one of its settings matches. If it is back but can't be opened, prints the reason on standard error. */
bool device_reopen(struct device *device);

#endif

/* SPDX-License-Identifier: MIT OR Apache-2.0 */
/* Finds the devices with DFU on the bus. */
#ifndef DFU_FLASH_FIND_H
#define DFU_FLASH_FIND_H

#include <libusb.h>
#include <stdbool.h>
#include <stddef.h>
#include <stdint.h>

#define PATH_ROOM 64   /* a bus number and up to 7 ports */
#define TEXT_ROOM 384  /* a string descriptor has up to 126 UTF-16 units, each up to 3 bytes in UTF-8 */
#define FOUND_ROOM 256 /* largest number of settings that are found, each an entry of a list */

/* One alternate setting of a DFU interface (USB DFU 1.1, sections 4.1.2 and 4.2.3). */
struct found {
    libusb_device *device;             /* a reference that found_drop drops */
    uint16_t vendor, product, release; /* idVendor, idProduct, bcdDevice */
    bool lacks_release;                /* bcdDevice is unknown, and the identifiers are the requested ones */
    char path[PATH_ROOM];              /* bus and ports, such as 1-2.3 */
    char serial[TEXT_ROOM];            /* empty if there is none or it can't be read */
    uint8_t interface, alternate;
    char name[TEXT_ROOM];   /* name of the setting, by its iInterface; empty if there is none */
    bool is_upgrade;        /* in DFU mode (protocol 2); else in run-time mode */
    bool says_runtime;      /* its protocol is 1, which is run-time mode */
    int access;             /* result of opening the device: 0 or a libusb error */
    uint8_t descriptor[9];  /* the functional descriptor */
    size_t descriptor_size; /* 9, or 7 for DFU 1.0; 0 if there is none */
};

/* Selects an interface and its alternate setting. The selection is used only in DFU mode. In run-time mode a device has one of each (USB
 * DFU 1.1, section 4.1.2), and their numbers and names may differ from those of DFU mode. */
struct place {
    int interface, alternate; /* -1 matches any */
    const char *name;         /* name of the setting; NULL matches any */
};

#define ANYWHERE ((struct place){-1, -1, NULL})

/* Criteria for a device. */
struct wanted {
    bool has_ids;
    bool is_of_file;           /* the identifiers are those of the file's suffix, not of --device */
    uint16_t vendor, product;  /* FFFFh matches any */
    const char *path, *serial; /* NULL matches any */
    const char *dfu_serial;    /* serial number in DFU mode; NULL if it is `serial`; "" in either matches any */
    bool is_upgrade;           /* the device must be in DFU mode */
    struct place place;
    bool has_dfu_ids; /* dfu_vendor and dfu_product match too, for example in DFU mode */
    uint16_t dfu_vendor, dfu_product;
};

/* Returns true if the functional descriptor is that of DfuSe (bcdDFUVersion 011Ah). */
bool is_dfuse(const struct found *found);

/* Returns true if a setting is the requested one. In run-time mode every setting is. A setting whose name is a memory map may also be
 * requested by the map's name, such as `Internal Flash`. */
bool is_placed(const struct place *place, const struct found *found);

/* Returns true if a device may match by its identifiers and its path, which are known before it is opened. */
bool may_be(const struct wanted *wanted, const struct found *found);

/* Returns true if a configuration has an interface with DFU. */
bool has_dfu(const struct libusb_config_descriptor *configuration);

/* Returns true if a configuration has a DFU interface in DFU mode. */
bool is_in_dfu_mode(const struct libusb_config_descriptor *configuration);

/* Returns true if a setting matches all criteria, or may match because its device can't be opened. */
bool is_wanted(const struct wanted *wanted, const struct found *found);

/* Returns the length of the version number at the start of a setting's name, such as 1.1.0 in `1.1.0, on trial, 2 starts left`, or 0 if
 * there is none. */
size_t version_of(const char *name);

/* Returns true if two searches in one mode found the same device: the same identifiers, interface and setting, and, if both could read
 * them, the same serial number and name. Two names that are version numbers count as the same. */
bool is_again(const struct found *first, const struct found *now);

/* Writes up to `room` matching settings on the bus to `list`. Returns their number, or a libusb error. */
int find_all(libusb_context *usb, const struct wanted *wanted, struct found *list, int room);

/* Drops the references of `count` entries. */
void found_drop(struct found *list, int count);

/* Writes the path of a device, such as 1-2.3. */
void path_of(libusb_device *device, char path[PATH_ROOM]);

/* Returns true if the path names ports. On a system without port numbers the path is only a bus number, and identifies no device. */
bool has_ports(const char *path);

/* Returns true if a device is at the path, with or without DFU. */
bool is_at(libusb_context *usb, const char *path);

/* Returns true if the bus can be listed and no device is at the path. */
bool is_free(libusb_context *usb, const char *path);

/* Finds the functional descriptor of setting number `at` of an interface: in its extra bytes, in those of the interface's other settings,
 * because it often follows the last of them, in those of the configuration, or by a request. */
void descriptor_find(struct found *found, libusb_device_handle *handle, const struct libusb_config_descriptor *configuration,
                     const struct libusb_interface *interface, int at);

/* Reads the string descriptor of that index as UTF-8, up to its first NUL. The text is empty if it can't be read. */
void string_find(libusb_device_handle *handle, uint8_t index, char text[TEXT_ROOM]);

#endif

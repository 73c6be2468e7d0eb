/* SPDX-License-Identifier: MIT OR Apache-2.0 */
/* Builds the descriptors of the interface for each speed, and its name. */
#define _DEFAULT_SOURCE
#include "descriptors.h"

#include <endian.h>
#include <errno.h>
#include <linux/usb/ch9.h>
#include <linux/usb/functionfs.h>
#include <stddef.h>
#include <string.h>
#include <unistd.h>

struct interface {
    struct usb_interface_descriptor interface;
    uint8_t functional[9];
} __attribute__((packed));

struct descriptors {
    struct usb_functionfs_descs_head_v2 head;
    uint32_t signals, full_count, high_count, super_count;
    struct interface full, high, super;
} __attribute__((packed));

struct named {
    struct usb_functionfs_strings_head head;
    uint16_t language;
    char name[DESCRIPTORS_NAME];
} __attribute__((packed));

static bool write_all(int ep0, const void *bytes, size_t length)
{
    ssize_t count = write(ep0, bytes, length);
    if (count >= 0 && count != (ssize_t)length)
        errno = EIO;
    return count == (ssize_t)length;
}

bool descriptors_write(int ep0, int signals, uint8_t protocol, const uint8_t functional[9], const char *name)
{
    struct interface dfu = {.interface = {.bLength = sizeof dfu.interface,
                                          .bDescriptorType = USB_DT_INTERFACE,
                                          .bInterfaceClass = USB_CLASS_APP_SPEC,
                                          .bInterfaceSubClass = 1,
                                          .bInterfaceProtocol = protocol,
                                          .iInterface = 1}};
    size_t count = strlen(name) + 1, length = offsetof(struct named, name) + count;
    struct named named = {.head = {htole32(FUNCTIONFS_STRINGS_MAGIC), htole32((uint32_t)length), htole32(1), htole32(1)},
                          .language = htole16(0x0409)};
    struct descriptors all = {
        .head = {htole32(FUNCTIONFS_DESCRIPTORS_MAGIC_V2), htole32(sizeof all),
                 htole32(FUNCTIONFS_HAS_FS_DESC | FUNCTIONFS_HAS_HS_DESC | FUNCTIONFS_HAS_SS_DESC | FUNCTIONFS_EVENTFD)},
        .signals = htole32((uint32_t)signals),
        .full_count = htole32(2),
        .high_count = htole32(2),
        .super_count = htole32(2)};
    if (count > sizeof named.name) {
        errno = EINVAL;
        return false;
    }
    memcpy(named.name, name, count);
    memcpy(dfu.functional, functional, sizeof dfu.functional);
    all.full = all.high = all.super = dfu;
    return write_all(ep0, &all, sizeof all) && write_all(ep0, &named, length);
}

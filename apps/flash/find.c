/* SPDX-License-Identifier: MIT OR Apache-2.0 */
/* Finds devices with DFU: those that have an interface of class FEh, subclass 01h (USB DFU 1.1, sections 4.1.2 and 4.2.3) in their active
 * configuration. Protocol 02h is DFU mode, and any other protocol counts as run-time mode. */
#include "find.h"
#include "standard.h"
#include "transport.h"

#include <stdio.h>
#include <string.h>

void path_of(libusb_device *device, char path[PATH_ROOM])
{
    uint8_t ports[7];
    int depth = transport->ports(device, ports, (int)sizeof ports);
    int at = snprintf(path, PATH_ROOM, "%d", transport->bus(device));
    for (int port = 0; port < depth; port++)
        at += snprintf(path + at, (size_t)(PATH_ROOM - at), "%c%d", port == 0 ? '-' : '.', ports[port]);
}

bool has_ports(const char *path)
{
    return strchr(path, '-') != NULL;
}

/* Counts the devices at a path. Returns -1 if the bus can't be listed. */
static int count_at(libusb_context *usb, const char *path)
{
    libusb_device **devices;
    char here[PATH_ROOM];
    int found = 0;
    ssize_t count = transport->list(usb, &devices);
    if (count < 0)
        return -1;
    for (ssize_t at = 0; at < count; at++) {
        path_of(devices[at], here);
        found += strcmp(here, path) == 0;
    }
    transport->free_list(devices, 1);
    return found;
}

bool is_at(libusb_context *usb, const char *path)
{
    return count_at(usb, path) > 0;
}

bool is_free(libusb_context *usb, const char *path)
{
    return count_at(usb, path) == 0;
}

static bool has_ids(const struct found *found, uint16_t vendor, uint16_t product)
{
    return (vendor == ANY_ID || vendor == found->vendor) && (product == ANY_ID || product == found->product);
}

/* A device that doesn't match isn't opened, because another program may be using it. */
bool may_be(const struct wanted *wanted, const struct found *found)
{
    bool is_named = !wanted->has_ids || has_ids(found, wanted->vendor, wanted->product)
                    || (wanted->has_dfu_ids && has_ids(found, wanted->dfu_vendor, wanted->dfu_product));
    return is_named && (wanted->path == NULL || strcmp(wanted->path, found->path) == 0);
}

bool is_dfuse(const struct found *found)
{
    return found->descriptor_size == FUNCTIONAL_BYTES && two_bytes(found->descriptor + AT_VERSION) == VERSION_DFUSE;
}

/* Returns true if `name` is the name in the memory map of a setting: the text between @ and the first /, without trailing spaces. */
static bool is_map_name(const char *name, const char *setting)
{
    size_t length = strlen(name), end;
    if (setting[0] != '@' || strchr(setting, '/') == NULL || length == 0)
        return false;
    for (end = strcspn(setting, "/"); end > 1 && setting[end - 1] == ' '; end--)
        ;
    return end == length + 1 && memcmp(setting + 1, name, length) == 0;
}

bool is_placed(const struct place *place, const struct found *found)
{
    bool is_interface = place->interface < 0 || place->interface == found->interface;
    bool is_alternate = place->alternate < 0 || place->alternate == found->alternate;
    /* If the setting's name can't be read, it may be the requested one. */
    bool is_name =
        place->name == NULL || found->access != 0 || strcmp(place->name, found->name) == 0 || is_map_name(place->name, found->name);
    return !found->is_upgrade || (is_interface && is_alternate && is_name);
}

bool is_wanted(const struct wanted *wanted, const struct found *found)
{
    const char *serial = found->is_upgrade && wanted->dfu_serial != NULL ? wanted->dfu_serial : wanted->serial;
    /* If the serial number can't be read, it may be the requested one. The caller sees that the device can't be opened. */
    bool is_serial = serial == NULL || *serial == '\0' || found->access != 0 || strcmp(serial, found->serial) == 0;
    return may_be(wanted, found) && is_serial && is_placed(&wanted->place, found) && (found->is_upgrade || !wanted->is_upgrade);
}

static bool is_same_text(const char *first, const char *now)
{
    return first[0] == '\0' || now[0] == '\0' || strcmp(first, now) == 0;
}

size_t version_of(const char *name)
{
    const char *at = name;
    size_t digits, parts = 1;
    while ((digits = strspn(at, "0123456789")) > 0 && at[digits] == '.') {
        at += digits + 1;
        parts++;
    }
    return parts > 1 && digits > 0 && (at[digits] == '\0' || at[digits] == ',') ? (size_t)(at - name) + digits : 0;
}

/* A name that is a version number changes with the image, so two version numbers count as the same name. */
static bool is_same_name(const char *first, const char *now)
{
    return is_same_text(first, now) || (version_of(first) > 0 && version_of(now) > 0);
}

bool is_again(const struct found *first, const struct found *now)
{
    return first->vendor == now->vendor && first->product == now->product
           && first->interface == now->interface && first->alternate == now->alternate && is_same_text(first->serial, now->serial)
           && is_same_name(first->name, now->name);
}

/* State of one search of the bus. */
struct look {
    const struct wanted *wanted;
    struct found *list;
    int room, count;
};

static void add_setting(struct look *look, const struct found *base, libusb_device_handle *handle,
                        const struct libusb_config_descriptor *configuration, const struct libusb_interface *interface, int at)
{
    const struct libusb_interface_descriptor *setting = &interface->altsetting[at];
    struct found found = *base;
    if (setting->bInterfaceClass != INTERFACE_CLASS || setting->bInterfaceSubClass != INTERFACE_SUBCLASS)
        return;
    found.interface = setting->bInterfaceNumber;
    found.alternate = setting->bAlternateSetting;
    found.is_upgrade = setting->bInterfaceProtocol == PROTOCOL_DFU_MODE;
    found.says_runtime = setting->bInterfaceProtocol == PROTOCOL_RUNTIME;
    if (handle != NULL)
        string_find(handle, setting->iInterface, found.name);
    if (look->count == look->room || !is_wanted(look->wanted, &found))
        return;
    descriptor_find(&found, handle, configuration, interface, at);
    transport->hold(found.device);
    look->list[look->count++] = found;
}

bool has_dfu(const struct libusb_config_descriptor *configuration)
{
    for (int at = 0; at < configuration->bNumInterfaces; at++) {
        const struct libusb_interface *interface = &configuration->interface[at];
        if (interface->num_altsetting > 0 && interface->altsetting[0].bInterfaceClass == INTERFACE_CLASS
            && interface->altsetting[0].bInterfaceSubClass == INTERFACE_SUBCLASS)
            return true;
    }
    return false;
}

bool is_in_dfu_mode(const struct libusb_config_descriptor *configuration)
{
    for (int at = 0; at < configuration->bNumInterfaces; at++) {
        const struct libusb_interface *interface = &configuration->interface[at];
        if (interface->num_altsetting > 0 && interface->altsetting[0].bInterfaceClass == INTERFACE_CLASS
            && interface->altsetting[0].bInterfaceSubClass == INTERFACE_SUBCLASS
            && interface->altsetting[0].bInterfaceProtocol == PROTOCOL_DFU_MODE)
            return true;
    }
    return false;
}

static void add_interface(struct look *look, const struct found *base, libusb_device_handle *handle,
                          const struct libusb_config_descriptor *configuration, const struct libusb_interface *interface)
{
    for (int at = 0; at < interface->num_altsetting; at++)
        add_setting(look, base, handle, configuration, interface, at);
}

/* A device is opened to read its serial number only if it has DFU. */
static void add_configuration(struct look *look, struct found *base, uint8_t serial, const struct libusb_config_descriptor *configuration)
{
    libusb_device_handle *handle = NULL;
    if (!has_dfu(configuration))
        return;
    base->access = transport->open(base->device, &handle);
    if (base->access == 0)
        string_find(handle, serial, base->serial);
    else
        handle = NULL;
    for (int at = 0; at < configuration->bNumInterfaces; at++)
        add_interface(look, base, handle, configuration, &configuration->interface[at]);
    if (handle != NULL)
        transport->close(handle);
}

static void add_device(struct look *look, libusb_device *device)
{
    struct libusb_device_descriptor fields;
    struct libusb_config_descriptor *configuration;
    struct found base;
    memset(&base, 0, sizeof base);
    if (transport->fields(device, &fields) != 0)
        return;
    base.device = device;
    base.vendor = fields.idVendor;
    base.product = fields.idProduct;
    base.release = fields.bcdDevice;
    path_of(device, base.path);
    if (!may_be(look->wanted, &base))
        return;
    if (transport->active(device, &configuration) != 0)
        return;
    add_configuration(look, &base, fields.iSerialNumber, configuration);
    transport->free_active(configuration);
}

int find_all(libusb_context *usb, const struct wanted *wanted, struct found *list, int room)
{
    struct look look = {wanted, list, room, 0};
    libusb_device **devices;
    ssize_t count = transport->list(usb, &devices);
    if (count < 0)
        return (int)count;
    for (ssize_t at = 0; at < count; at++)
        add_device(&look, devices[at]);
    transport->free_list(devices, 1);
    return look.count;
}

void found_drop(struct found *list, int count)
{
    for (int at = 0; at < count; at++)
        transport->drop(list[at].device);
}

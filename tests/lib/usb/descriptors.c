/* The descriptors of the devices on the bus: one configuration with one interface of class FEh, subclass 01h, protocol 1 in run-time mode
 * and 2 in DFU mode (USB DFU 1.1, sections 4.1 and 4.2). In DFU mode the interface has one alternate setting or more, and the functional
 * descriptor follows the last. An application without DFU has an interface of another class. */
#include "descriptors.h"
#include "bus.h"
#include "settings.h"

#include <stdio.h>
#include <stdlib.h>
#include <string.h>

#define MOST_UNITS 126 /* units of a string descriptor */
#define MOST_EXTRA 512

enum { NO_STRING, SERIAL_STRING, INTERFACE_STRING }; /* with several settings their names follow the last one */

void describe_device(bool is_app, struct libusb_device_descriptor *out)
{
    const struct ids *ids = bus_is_swapped() ? &settings.swapped : is_app ? &settings.app : &settings.dfu;
    *out = (struct libusb_device_descriptor){
        .bLength = 18,
        .bDescriptorType = 1,
        .bcdUSB = 0x0200,
        .bMaxPacketSize0 = 8,
        .idVendor = ids->vendor,
        .idProduct = ids->product,
        .bcdDevice = ids->release,
        .iSerialNumber = SERIAL_STRING,
        .bNumConfigurations = settings.configurations,
    };
}

int describe_function(bool is_app, uint8_t out[9])
{
    const uint8_t size = is_app ? settings.app_descriptor : settings.descriptor;
    const uint16_t transfer = is_app ? settings.app_transfer : settings.said;
    const uint8_t bytes[9] = {size,
                              0x21,
                              is_app ? settings.app_attributes : settings.attributes,
                              (uint8_t)settings.detach_ms,
                              (uint8_t)(settings.detach_ms >> 8),
                              (uint8_t)transfer,
                              (uint8_t)(transfer >> 8),
                              (uint8_t)settings.version,
                              (uint8_t)(settings.version >> 8)};
    memcpy(out, bytes, size);
    return size;
}

/* Reads the bytes of a hexadecimal setting. Returns their number. */
static int raw_bytes(const char *hex, uint8_t *out, size_t room)
{
    size_t count = strlen(hex) / 2;
    unsigned byte = 0;
    if (strlen(hex) % 2 != 0 || count > room)
        fail_loudly("bytes are two digits each, and at most %u: %s", (unsigned)room, hex);
    for (size_t at = 0; at < count; at++) {
        if (sscanf(hex + 2 * at, "%2x", &byte) != 1)
            fail_loudly("no bytes: %s", hex);
        out[at] = (uint8_t)byte;
    }
    return (int)count;
}

/* Memory of one configuration in a single block, which ends with the last byte of the functional descriptor. */
struct whole {
    struct libusb_config_descriptor configuration;
    struct libusb_interface interface;
    struct libusb_interface_descriptor alternates[MOST_ALTERNATES];
    uint8_t function[];
};

struct libusb_config_descriptor *describe_configuration(bool is_app)
{
    uint8_t extra[MOST_EXTRA];
    const int length = settings.extra != NULL ? raw_bytes(settings.extra, extra, sizeof extra) : describe_function(is_app, extra);
    struct whole *whole = calloc(1, sizeof *whole + (size_t)length);
    int count = is_app ? 1 : (int)settings.alternates;
    if (whole == NULL)
        fail_loudly("no memory for a descriptor");
    for (int at = 0; at < count; at++)
        whole->alternates[at] = (struct libusb_interface_descriptor){
            .bLength = 9,
            .bDescriptorType = 4,
            .bInterfaceNumber = bus_interface(),
            .bAlternateSetting = (uint8_t)at,
            .bInterfaceClass = is_app && !settings.app_has_dfu ? 0xff : 0xfe,
            .bInterfaceSubClass = 1,
            .bInterfaceProtocol = is_app ? settings.app_protocol : 2,
            .iInterface = (uint8_t)(INTERFACE_STRING + (count > 1 ? 1 + at : 0)),
        };
    whole->alternates[count - 1].extra = whole->function;
    whole->alternates[count - 1].extra_length = length;
    memcpy(whole->function, extra, (size_t)length);
    whole->interface = (struct libusb_interface){whole->alternates, count};
    whole->configuration = (struct libusb_config_descriptor){
        .bLength = 9,
        .bDescriptorType = 2,
        .wTotalLength = (uint16_t)(18 + 9 * count),
        .bNumInterfaces = 1,
        .bConfigurationValue = 1,
        .bmAttributes = 0x80,
        .MaxPower = 50,
        .interface = &whole->interface,
    };
    return &whole->configuration;
}

void forget_configuration(struct libusb_config_descriptor *found)
{
    free(found);
}

/* Returns the name of the setting with that number, from USB_MAPS. */
static const char *map_name(unsigned number)
{
    static char name[6 * MOST_UNITS + 1];
    const char *at = settings.maps;
    size_t length;
    for (; number > 0; number--)
        at += strcspn(at, "|") + 1;
    length = strcspn(at, "|");
    if (length >= sizeof name)
        fail_loudly("a name of USB_MAPS is too long");
    memcpy(name, at, length);
    name[length] = '\0';
    return name;
}

/* Converts a text to UTF-16 code units: one for each ASCII character, or \uXXXX for any. */
static unsigned units_of(const char *text, uint16_t units[MOST_UNITS])
{
    unsigned count = 0;
    while (*text != '\0') {
        unsigned unit = (uint8_t)*text;
        int used = 1;
        if (count == MOST_UNITS)
            fail_loudly("a string is too long: %s", text);
        if (text[0] == '\\' && sscanf(text, "\\u%4x%n", &unit, &used) != 1)
            fail_loudly("a string isn't understood: %s", text);
        units[count++] = (uint16_t)unit;
        text += used;
    }
    return count;
}

static int own_string(unsigned number, uint8_t *out, uint16_t room)
{
    unsigned length;
    const uint8_t *bytes = bus_string(number, &length);
    if (bytes == NULL)
        return USB_ERROR_PIPE;
    length = length < room ? length : room;
    memcpy(out, bytes, length);
    return (int)length;
}

int describe_string(unsigned number, bool is_other, uint8_t *out, uint16_t room)
{
    static const char *const names[] = {"stand-in", "boot", "kernel", "data", "more"};
    const char *text = number < INTERFACE_STRING ? is_other || bus_is_swapped() ? "OTHER" : settings.serial : "";
    uint8_t bytes[2 + 2 * MOST_UNITS] = {4, 3, 0x09, 0x04};
    if (number > INTERFACE_STRING + MOST_ALTERNATES)
        return own_string(number, out, room);
    if (number >= INTERFACE_STRING)
        text = settings.maps == NULL ? names[number - INTERFACE_STRING]
                                     : map_name(number == INTERFACE_STRING ? 0 : number - INTERFACE_STRING - 1);
    if (number == INTERFACE_STRING && settings.name != NULL)
        text = bus_generation() > 1 && settings.next_name != NULL ? settings.next_name : settings.name;
    if (number == INTERFACE_STRING && bus_is_swapped() && settings.swapped_name != NULL)
        text = settings.swapped_name;
    if (settings.string != NULL) {
        const int given = raw_bytes(settings.string, bytes, sizeof bytes);
        memcpy(out, bytes, given < room ? (size_t)given : room);
        return given < room ? given : room;
    }
    uint16_t units[MOST_UNITS];
    unsigned length = units_of(text, units);
    if (number != NO_STRING)
        bytes[0] = (uint8_t)(2 + 2 * length);
    for (unsigned i = 0; number != NO_STRING && i < length; i++) {
        bytes[2 + 2 * i] = (uint8_t)units[i];
        bytes[3 + 2 * i] = (uint8_t)(units[i] >> 8);
    }
    int count = bytes[0] < room ? bytes[0] : room;
    memcpy(out, bytes, (size_t)count);
    return count;
}

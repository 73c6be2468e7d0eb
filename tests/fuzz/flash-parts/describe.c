/* Configuration descriptors of libusb. Each part has its own block of memory, so that the sanitizer detects a read beyond its end. */
#include "usb.h"
#include "books.h"

#include <string.h>

static const unsigned char *copy(const struct extra *extra)
{
    unsigned char *bytes;
    if (extra->length == 0)
        return NULL;
    bytes = take((size_t)extra->length);
    memcpy(bytes, extra->bytes, (size_t)extra->length);
    return bytes;
}

static struct libusb_interface interface_of(const struct function *function)
{
    struct libusb_interface_descriptor *settings = function->count == 0 ? NULL : take(function->count * sizeof *settings);
    for (unsigned at = 0; at < function->count; at++) {
        const struct setting *from = &function->settings[at % MOST_SETTINGS];
        settings[at] = (struct libusb_interface_descriptor){
            .bLength = 9, .bDescriptorType = 4, .bInterfaceNumber = function->number, .bAlternateSetting = from->alternate,
            .bInterfaceClass = from->class, .bInterfaceSubClass = from->subclass, .bInterfaceProtocol = from->protocol,
            .iInterface = from->name, .extra = copy(&from->extra), .extra_length = from->extra.length};
    }
    return (struct libusb_interface){settings, function->count};
}

int libusb_get_active_config_descriptor(libusb_device *device, struct libusb_config_descriptor **out)
{
    struct libusb_interface *interfaces;
    struct libusb_config_descriptor *configuration;
    const struct face *face = &device->face;
    int error;
    call_begins("libusb_get_active_config_descriptor");
    error = call_fails();
    if (error != 0)
        return error;
    interfaces = take(face->count * sizeof *interfaces);
    for (unsigned at = 0; at < face->count; at++)
        interfaces[at] = interface_of(&face->functions[at % MOST_FUNCTIONS]);
    configuration = take(sizeof *configuration);
    *configuration = (struct libusb_config_descriptor){
        .bLength = 9, .bDescriptorType = 2, .wTotalLength = 9, .bNumInterfaces = face->count, .bConfigurationValue = 1,
        .bmAttributes = 0x80, .MaxPower = 50, .interface = interfaces, .extra = copy(&face->extra), .extra_length = face->extra.length};
    books.configurations++;
    *out = configuration;
    return 0;
}

void libusb_free_config_descriptor(struct libusb_config_descriptor *configuration)
{
    if (configuration == NULL)
        return;
    for (unsigned at = 0; at < configuration->bNumInterfaces; at++) {
        const struct libusb_interface *interface = &configuration->interface[at];
        for (int setting = 0; setting < interface->num_altsetting; setting++)
            give((void *)(uintptr_t)interface->altsetting[setting].extra);
        give((void *)(uintptr_t)interface->altsetting);
    }
    give((void *)(uintptr_t)configuration->interface);
    give((void *)(uintptr_t)configuration->extra);
    give(configuration);
    books.configurations--;
}

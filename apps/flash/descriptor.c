/* SPDX-License-Identifier: MIT OR Apache-2.0 */
/* Reads the functional descriptor (USB DFU 1.1, section 4.1.3) and the strings of a device, by standard USB requests. They are read before
 * a session and after a device has returned. */
#include "find.h"
#include "standard.h"
#include "../common/text.h"
#include "transport.h"

#include <string.h>

/* Finds the functional descriptor in a sequence of descriptors, each of which begins with its length. Returns false if there is no complete
 * one. */
static bool is_in(const unsigned char *bytes, int length, struct found *found)
{
    int at = 0;
    while (at + 2 <= length && bytes[at] >= 2) {
        int size = bytes[at];
        if (bytes[at + 1] == FUNCTIONAL_TYPE && at + size <= length && (size == FUNCTIONAL_BYTES || size == FUNCTIONAL_BYTES_1_0)) {
            memcpy(found->descriptor, bytes + at, (size_t)size);
            found->descriptor_size = (size_t)size;
            return true;
        }
        at += size;
    }
    return false;
}

void descriptor_find(struct found *found, libusb_device_handle *handle, const struct libusb_config_descriptor *configuration,
                     const struct libusb_interface *interface, int at)
{
    const struct libusb_interface_descriptor *settings = interface->altsetting;
    unsigned char bytes[FUNCTIONAL_BYTES];
    if (is_in(settings[at].extra, settings[at].extra_length, found))
        return;
    for (int other = 0; other < interface->num_altsetting; other++)
        if (is_in(settings[other].extra, settings[other].extra_length, found))
            return;
    if (is_in(configuration->extra, configuration->extra_length, found))
        return;
    if (handle != NULL) {
        int length = transport_descriptor(handle, FUNCTIONAL_TYPE, 0, 0, bytes, sizeof bytes);
        is_in(bytes, length, found);
    }
}

void string_find(libusb_device_handle *handle, uint8_t index, char text[TEXT_ROOM])
{
    unsigned char bytes[255];
    int length;
    text[0] = '\0';
    if (index == 0)
        return;
    /* String 0 lists the languages of the device, and the first of them is used. */
    length = transport_descriptor(handle, LIBUSB_DT_STRING, 0, 0, bytes, sizeof bytes);
    if (length < 4)
        return;
    length = transport_descriptor(handle, LIBUSB_DT_STRING, index, two_bytes(bytes + 2), bytes, sizeof bytes);
    if (length > bytes[0])
        length = bytes[0];
    if (length > 2)
        text_from_units(bytes + 2, (size_t)(length - 2) / 2, text, TEXT_ROOM);
}

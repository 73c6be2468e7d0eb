/* Calls of libusb-1.0 for an open device: control transfers, resets, and claims and settings of its interface. */
#include "abi.h"
#include "boards.h"
#include "bus.h"
#include "descriptors.h"
#include "device.h"
#include "settings.h"

#include <stdlib.h>
#include <string.h>

#define GET_DESCRIPTOR 6
#define GET_STATUS 0
#define STRING 3
#define FUNCTIONAL 0x21

libusb_device *libusb_ref_device(libusb_device *device);
void libusb_unref_device(libusb_device *device);

int libusb_open(libusb_device *device, libusb_device_handle **out)
{
    static unsigned opens, denials;
    *out = NULL;
    boards_enter(device->board);
    boards_pass_time();
    if (device->is_other && settings.other_denied != 0)
        return settings.other_denied;
    if (settings.denied != 0 && opens++ >= settings.opens && denials++ < settings.denials)
        return settings.denied;
    if (!device->is_other && device->generation != bus_generation())
        return USB_ERROR_NO_DEVICE;
    *out = malloc(sizeof **out);
    if (*out == NULL)
        fail_loudly("no memory for a handle");
    (*out)->device = libusb_ref_device(device);
    (*out)->is_claimed = false;
    return 0;
}

void libusb_close(libusb_device_handle *handle)
{
    if (handle == NULL)
        return;
    libusb_unref_device(handle->device);
    free(handle);
}

libusb_device *libusb_get_device(libusb_device_handle *handle)
{
    return handle->device;
}

/* Returns 0 if the handle is of the current enumeration of its device, or of the second device; else LIBUSB_ERROR_NO_DEVICE. */
static int held(const libusb_device_handle *handle)
{
    boards_enter(handle->device->board);
    boards_pass_time();
    return handle->device->is_other || handle->device->generation == bus_generation() ? 0 : USB_ERROR_NO_DEVICE;
}

int libusb_claim_interface(libusb_device_handle *handle, int interface)
{
    int error = held(handle);
    if (error != 0 || interface != bus_interface())
        return error != 0 ? error : USB_ERROR_NOT_FOUND;
    boards_wake(handle->device->board);
    handle->is_claimed = settings.claimed == 0;
    return settings.claimed;
}

/* libusb returns LIBUSB_ERROR_NOT_FOUND for an interface that was not claimed; here the test fails. */
int libusb_release_interface(libusb_device_handle *handle, int interface)
{
    if (!handle->is_claimed)
        fail_loudly("an interface is released that was not claimed");
    handle->is_claimed = false;
    return interface == bus_interface() ? held(handle) : USB_ERROR_NOT_FOUND;
}

int libusb_set_interface_alt_setting(libusb_device_handle *handle, int interface, int setting)
{
    int error = held(handle);
    int most = handle->device->is_app ? 1 : (int)settings.alternates;
    if (error != 0 || interface != bus_interface() || setting < 0 || setting >= most)
        return error != 0 ? error : USB_ERROR_NOT_FOUND;
    bus_set_interface(setting);
    return 0;
}

int libusb_set_auto_detach_kernel_driver(libusb_device_handle *handle, int enable)
{
    (void)handle;
    (void)enable;
    return USB_ERROR_NOT_SUPPORTED;
}

int libusb_reset_device(libusb_device_handle *handle)
{
    int error = held(handle);
    if (error != 0)
        return error;
    if (handle->device->is_other)
        fail_loudly("the other device is reset");
    if (bus_is_deaf())
        return USB_ERROR_IO;
    if (settings.resets_nothing)
        return 0;
    return bus_reset() ? 0 : USB_ERROR_NOT_FOUND;
}

/* Answers GET_STATUS, and GET_DESCRIPTOR for strings, as every device does. U-Boot's device also answers GET_DESCRIPTOR for the functional
 * descriptor, which is optional. */
static int standard(const libusb_device *device, uint8_t kind, uint8_t request, uint16_t value, uint8_t *data, uint16_t length)
{
    uint8_t function[9];
    if (kind == 0x80 && request == GET_STATUS && length == 2) {
        memset(data, 0, 2);
        return 2;
    }
    if ((kind & 0x80) == 0 || request != GET_DESCRIPTOR)
        fail_loudly("request %u of type %02x is not in this stand-in", request, kind);
    if (value >> 8 == STRING)
        return describe_string(value & 0xff, device->is_other, data, length);
    if (value >> 8 != FUNCTIONAL || strcmp(settings.device, "uboot") != 0)
        return USB_ERROR_PIPE;
    int count = describe_function(device->is_app, function);
    count = length < count ? length : count;
    memcpy(data, function, (size_t)count);
    return count;
}

int libusb_control_transfer(libusb_device_handle *handle, uint8_t kind, uint8_t request, uint16_t value, uint16_t index,
                            unsigned char *data, uint16_t length, unsigned int timeout)
{
    const uint8_t setup[8] = {kind,
                              request,
                              (uint8_t)value,
                              (uint8_t)(value >> 8),
                              (uint8_t)index,
                              (uint8_t)(index >> 8),
                              (uint8_t)length,
                              (uint8_t)(length >> 8)};
    int error = held(handle);
    if (error != 0)
        return settings.leaves_untold ? USB_ERROR_IO : error;
    if ((kind & 0x60) == 0)
        return standard(handle->device, kind, request, value, data, length);
    if ((kind & 0x7f) != 0x21)
        fail_loudly("a request of type %02x is not one of the class to an interface", kind);
    if (handle->device->is_other)
        fail_loudly("a request of the class goes to the other device");
    if (index != bus_interface())
        fail_loudly("a request of the class goes to interface %u", index);
    return bus_transfer(setup, data, length, timeout);
}

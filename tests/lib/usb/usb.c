/* The calls of libusb-1.0 that the tested programs make: contexts, lists of devices, descriptors and handles. Any other call is missing
 * when the program is linked or loaded, which ends the test. */
#include "abi.h"
#include "boards.h"
#include "bus.h"
#include "descriptors.h"
#include "device.h"
#include "settings.h"

#include <stdlib.h>
#include <string.h>

int libusb_init(libusb_context **context)
{
    boards_start();
    if (context != NULL)
        *context = NULL;
    return 0;
}

void libusb_exit(libusb_context *context)
{
    (void)context;
}

int libusb_set_option(libusb_context *context, int option, ...)
{
    (void)context;
    (void)option;
    return 0;
}

const struct libusb_version *libusb_get_version(void)
{
    static const struct libusb_version version = {1, 0, 26, 0, "", "stand-in"};
    return &version;
}

libusb_device *libusb_ref_device(libusb_device *device)
{
    device->holders++;
    return device;
}

void libusb_unref_device(libusb_device *device)
{
    if (--device->holders == 0)
        free(device);
}

static libusb_device *listed(int board, bool is_other)
{
    libusb_device *device = calloc(1, sizeof *device);
    if (device == NULL)
        fail_loudly("no memory for a device");
    *device = (libusb_device){1, bus_generation(), is_other, bus_is_app(), board};
    return device;
}

ssize_t libusb_get_device_list(libusb_context *context, libusb_device ***out)
{
    (void)context;
    ssize_t count = 0;
    int boards = boards_start();
    libusb_device **list = calloc((size_t)boards + 2, sizeof *list);
    if (list == NULL)
        fail_loudly("no memory for a list");
    for (int board = 0; board < boards; board++) {
        boards_enter(board);
        boards_pass_time();
        if (settings.devices > 0 && boards_lists())
            list[count++] = listed(board, false);
    }
    if (settings.devices > 1)
        list[count++] = listed(0, true);
    *out = list;
    return count;
}

void libusb_free_device_list(libusb_device **list, int unrefs)
{
    for (int i = 0; unrefs && list[i] != NULL; i++)
        libusb_unref_device(list[i]);
    free(list);
}

uint8_t libusb_get_bus_number(libusb_device *device)
{
    boards_enter(device->board);
    return settings.bus;
}

/* Each enumeration gives the device another address. */
uint8_t libusb_get_device_address(libusb_device *device)
{
    return device->is_other ? 120 : (uint8_t)(device->generation % 100 + 1);
}

/* The other device is on the next port. */
int libusb_get_port_numbers(libusb_device *device, uint8_t *ports, int room)
{
    boards_enter(device->board);
    if (room < (int)settings.port_count)
        return USB_ERROR_OVERFLOW;
    if (settings.port_count == 0)
        return 0;
    memcpy(ports, settings.ports, settings.port_count);
    ports[settings.port_count - 1] += device->is_other;
    return (int)settings.port_count;
}

int libusb_get_device_descriptor(libusb_device *device, struct libusb_device_descriptor *out)
{
    boards_enter(device->board);
    describe_device(device->is_app, out);
    return 0;
}

int libusb_get_config_descriptor(libusb_device *device, uint8_t number, struct libusb_config_descriptor **out)
{
    boards_enter(device->board);
    if (number >= settings.configurations)
        return USB_ERROR_NOT_FOUND;
    *out = describe_configuration(device->is_app);
    if (number + 1 < settings.configurations)
        (*out)->bNumInterfaces = 0;
    return 0;
}

int libusb_get_active_config_descriptor(libusb_device *device, struct libusb_config_descriptor **out)
{
    boards_enter(device->board);
    return libusb_get_config_descriptor(device, settings.configurations - 1, out);
}

void libusb_free_config_descriptor(struct libusb_config_descriptor *found)
{
    forget_configuration(found);
}

const char *libusb_error_name(int error)
{
    static const char *const names[] = {
        "LIBUSB_SUCCESS",           "LIBUSB_ERROR_IO",     "LIBUSB_ERROR_INVALID_PARAM", "LIBUSB_ERROR_ACCESS",   "LIBUSB_ERROR_NO_DEVICE",
        "LIBUSB_ERROR_NOT_FOUND",   "LIBUSB_ERROR_BUSY",   "LIBUSB_ERROR_TIMEOUT",       "LIBUSB_ERROR_OVERFLOW", "LIBUSB_ERROR_PIPE",
        "LIBUSB_ERROR_INTERRUPTED", "LIBUSB_ERROR_NO_MEM", "LIBUSB_ERROR_NOT_SUPPORTED"};
    return error <= 0 && error >= USB_ERROR_NOT_SUPPORTED ? names[-error] : "LIBUSB_ERROR_OTHER";
}

const char *libusb_strerror(int error)
{
    return libusb_error_name(error);
}

/* Contexts and device lists of libusb, and the calls for a device that is not open. */
#include "usb.h"
#include "books.h"
#include "bus.h"
#include "clock.h"
#include "random.h"
#include "temper.h"

#include <stdlib.h>

#define MOST_CALLS 2000000 /* more calls than this mean an endless loop */

static char context;

void call_begins(const char *name)
{
    outcome->calls++;
    if (books.contexts != 1 && name != NULL)
        fault("%s is called without a context", name);
    if (outcome->calls > MOST_CALLS)
        fault("%d calls of libusb, and the program is not done", MOST_CALLS);
    if (outcome->calls == temper.patience)
        bus_end();
    if (chance(temper.strays))
        bus_stray();
    if (chance(temper.stops))
        signal_comes();
    if (chance(8))
        clock_pass(1);
}

int call_fails(void)
{
    static const int errors[] = {LIBUSB_ERROR_IO, LIBUSB_ERROR_ACCESS, LIBUSB_ERROR_BUSY, LIBUSB_ERROR_TIMEOUT, LIBUSB_ERROR_OVERFLOW,
                                 LIBUSB_ERROR_INTERRUPTED, LIBUSB_ERROR_NO_MEM, LIBUSB_ERROR_NOT_SUPPORTED, LIBUSB_ERROR_OTHER};
    return chance(temper.fails) ? errors[below(sizeof errors / sizeof errors[0])] : 0;
}

int libusb_init(libusb_context **out)
{
    call_begins(NULL);
    if (call_fails() != 0)
        return LIBUSB_ERROR_OTHER;
    books.contexts++;
    *out = (libusb_context *)&context;
    return 0;
}

void libusb_exit(libusb_context *given)
{
    if ((char *)given != &context)
        fault("libusb_exit is called with another context");
    books.contexts--;
    books_close();
}

libusb_device *libusb_ref_device(libusb_device *device)
{
    device->references++;
    books.references++;
    return device;
}

void libusb_unref_device(libusb_device *device)
{
    if (device->references == 0)
        fault("a reference is given back that was not taken");
    device->references--;
    books.references--;
    if (device->references == 0 && device->handles == 0 && !device->is_listed)
        give(device);
}

ssize_t libusb_get_device_list(libusb_context *given, libusb_device ***out)
{
    int error;
    size_t count = 0;
    libusb_device **list;
    call_begins("libusb_get_device_list");
    if ((char *)given != &context)
        fault("a list of devices is asked for in another context");
    error = call_fails();
    if (error != 0)
        return error;
    list = take((bus.count + 1) * sizeof *list);
    for (unsigned at = 0; at < bus.count; at++)
        if (bus.boards[at].device != NULL)
            list[count++] = libusb_ref_device(bus.boards[at].device);
    books.lists++;
    *out = list;
    return (ssize_t)count;
}

void libusb_free_device_list(libusb_device **list, int unrefs)
{
    for (size_t at = 0; unrefs && list[at] != NULL; at++)
        libusb_unref_device(list[at]);
    books.lists--;
    give(list);
}

/* Checks that the program holds a reference to a device whose descriptors it reads. */
static const struct libusb_device *held(const libusb_device *device)
{
    if (device->references == 0 && device->handles == 0)
        fault("a device is read of which no reference is held");
    return device;
}

uint8_t libusb_get_bus_number(libusb_device *device)
{
    return held(device)->place.bus;
}

uint8_t libusb_get_device_address(libusb_device *device)
{
    return held(device)->address;
}

int libusb_get_port_numbers(libusb_device *device, uint8_t *ports, int room)
{
    const struct place *place = &held(device)->place;
    if (room < place->depth)
        return LIBUSB_ERROR_OVERFLOW;
    for (int at = 0; at < place->depth; at++)
        ports[at] = place->ports[at];
    return place->depth;
}

int libusb_get_device_descriptor(libusb_device *device, struct libusb_device_descriptor *out)
{
    const struct face *face = &held(device)->face;
    int error = call_fails();
    if (error != 0)
        return error;
    *out = (struct libusb_device_descriptor){.bLength = 18, .bDescriptorType = 1, .bcdUSB = 0x200, .bMaxPacketSize0 = 64,
                                             .idVendor = face->vendor, .idProduct = face->product, .bcdDevice = face->release,
                                             .iManufacturer = 4, .iProduct = 5, .iSerialNumber = face->serial,
                                             .bNumConfigurations = 1};
    return 0;
}

const char *libusb_error_name(int error)
{
    return error == LIBUSB_ERROR_ACCESS ? "LIBUSB_ERROR_ACCESS" : error == 0 ? "LIBUSB_SUCCESS" : "LIBUSB_ERROR_SOMETHING";
}

const char *libusb_strerror(int error)
{
    return libusb_error_name(error);
}

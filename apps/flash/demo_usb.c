/* SPDX-License-Identifier: MIT OR Apache-2.0 */
/* Implements the USB operations with the simulated board, including its descriptors (USB 2.0, chapter 9). */
#include "demo_usb.h"
#include "demo_board.h"
#include "standard.h"

#include <stdlib.h>
#include <string.h>

#define GET_DESCRIPTOR 6
#define LANGUAGE 0x0409
#define SERIAL_STRING 1
#define NAME_STRING 2

/* The device of one enumeration, with its number of references. It is cast to libusb's types, which are opaque. */
struct plugged {
    unsigned holders, generation;
    bool is_app;
};

static struct plugged *plugged_of(libusb_device *device)
{
    return (struct plugged *)(void *)device;
}

static struct plugged *held_by(libusb_device_handle *handle)
{
    return (struct plugged *)(void *)handle;
}

static int LIBUSB_CALL begin(libusb_context **context)
{
    *context = NULL;
    return 0;
}

static void LIBUSB_CALL end(libusb_context *context)
{
    (void)context;
}

static libusb_device *LIBUSB_CALL hold(libusb_device *device)
{
    plugged_of(device)->holders++;
    return device;
}

static void LIBUSB_CALL drop(libusb_device *device)
{
    if (--plugged_of(device)->holders == 0)
        free(plugged_of(device));
}

static ssize_t LIBUSB_CALL list(libusb_context *context, libusb_device ***out)
{
    struct plugged *one = malloc(sizeof *one);
    (void)context;
    *out = calloc(2, sizeof **out);
    if (*out == NULL || one == NULL || !demo_has_power()) {
        free(one);
        return *out == NULL ? LIBUSB_ERROR_NO_MEM : 0;
    }
    *one = (struct plugged){.holders = 1, .generation = demo_generation(), .is_app = demo_is_app()};
    (*out)[0] = (libusb_device *)(void *)one;
    return 1;
}

static void LIBUSB_CALL free_list(libusb_device **devices, int drops)
{
    for (int at = 0; drops && devices[at] != NULL; at++)
        drop(devices[at]);
    free(devices);
}

static uint8_t LIBUSB_CALL bus(libusb_device *device)
{
    (void)device;
    return 0;
}

static uint8_t LIBUSB_CALL address(libusb_device *device)
{
    return (uint8_t)(plugged_of(device)->generation % 120 + 1);
}

static int LIBUSB_CALL ports(libusb_device *device, uint8_t *numbers, int room)
{
    (void)device;
    numbers[0] = 1;
    return room > 0 ? 1 : LIBUSB_ERROR_OVERFLOW;
}

static int LIBUSB_CALL fields(libusb_device *device, struct libusb_device_descriptor *out)
{
    (void)device;
    memset(out, 0, sizeof *out);
    out->idVendor = demo_vendor();
    out->idProduct = demo_product();
    out->bcdDevice = 0x0100;
    out->iSerialNumber = SERIAL_STRING;
    return 0;
}

/* Builds a configuration that has one interface with one setting, followed by the functional descriptor. */
static int LIBUSB_CALL active(libusb_device *device, struct libusb_config_descriptor **out)
{
    static unsigned char functional[FUNCTIONAL_BYTES];
    static struct libusb_interface_descriptor setting;
    static struct libusb_interface interface;
    static struct libusb_config_descriptor configuration;
    demo_functional(functional);
    setting.bInterfaceClass = INTERFACE_CLASS;
    setting.bInterfaceSubClass = INTERFACE_SUBCLASS;
    setting.bInterfaceProtocol = plugged_of(device)->is_app ? PROTOCOL_RUNTIME : PROTOCOL_DFU_MODE;
    setting.iInterface = NAME_STRING;
    setting.extra = functional;
    setting.extra_length = sizeof functional;
    interface.altsetting = &setting;
    interface.num_altsetting = 1;
    configuration.bNumInterfaces = 1;
    configuration.interface = &interface;
    *out = &configuration;
    return 0;
}

static void LIBUSB_CALL free_active(struct libusb_config_descriptor *configuration)
{
    (void)configuration;
}

static int reach(libusb_device_handle *handle)
{
    return demo_has_power() && held_by(handle)->generation == demo_generation() ? 0 : LIBUSB_ERROR_NO_DEVICE;
}

static int LIBUSB_CALL open(libusb_device *device, libusb_device_handle **out)
{
    *out = (libusb_device_handle *)(void *)hold(device);
    if (reach(*out) == 0)
        return 0;
    drop(device);
    *out = NULL;
    return LIBUSB_ERROR_NO_DEVICE;
}

static void LIBUSB_CALL close(libusb_device_handle *handle)
{
    drop((libusb_device *)(void *)handle);
}

static int LIBUSB_CALL claim(libusb_device_handle *handle, int interface)
{
    (void)interface;
    return reach(handle);
}

static int LIBUSB_CALL set(libusb_device_handle *handle, int interface, int setting)
{
    (void)interface;
    (void)setting;
    return reach(handle);
}

static int LIBUSB_CALL reset(libusb_device_handle *handle)
{
    int error = reach(handle);
    return error != 0 ? error : demo_reset() ? 0 : LIBUSB_ERROR_NOT_FOUND;
}

/* Builds a string descriptor: its length, its type, and the text in UTF-16 with the low byte first. */
static int string(unsigned index, unsigned char *bytes, uint16_t length)
{
    static const char *const texts[] = {"", "SIMULATED", "simulated board"};
    unsigned char all[64] = {4, LIBUSB_DT_STRING, LANGUAGE & 0xff, LANGUAGE >> 8};
    size_t count = 4;
    if (index >= sizeof texts / sizeof *texts)
        return LIBUSB_ERROR_PIPE;
    if (index > 0)
        count = 2 + 2 * strlen(texts[index]);
    for (size_t at = 2; index > 0 && at < count; at += 2) {
        all[at] = (unsigned char)texts[index][at / 2 - 1];
        all[at + 1] = 0;
    }
    all[0] = (unsigned char)count;
    count = count < length ? count : length;
    memcpy(bytes, all, count);
    return (int)count;
}

static int LIBUSB_CALL transfer(libusb_device_handle *handle, uint8_t kind, uint8_t request, uint16_t value, uint16_t index,
                                unsigned char *data, uint16_t length, unsigned int timeout)
{
    const uint8_t setup[8] = {kind,
                              request,
                              (uint8_t)value,
                              (uint8_t)(value >> 8),
                              (uint8_t)index,
                              (uint8_t)(index >> 8),
                              (uint8_t)length,
                              (uint8_t)(length >> 8)};
    int error = reach(handle);
    (void)timeout;
    if (error != 0)
        return error;
    if (kind == KIND_OUT || kind == KIND_IN)
        return demo_request(setup, data);
    return request == GET_DESCRIPTOR && value >> 8 == LIBUSB_DT_STRING ? string(value & 0xff, data, length) : LIBUSB_ERROR_PIPE;
}

const struct transport demo_transport = {
    .begin = begin,
    .end = end,
    .list = list,
    .free_list = free_list,
    .hold = hold,
    .drop = drop,
    .bus = bus,
    .address = address,
    .ports = ports,
    .fields = fields,
    .active = active,
    .free_active = free_active,
    .open = open,
    .close = close,
    .claim = claim,
    .release = claim,
    .set = set,
    .reset = reset,
    .transfer = transfer,
};

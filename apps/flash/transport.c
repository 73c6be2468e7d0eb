/* SPDX-License-Identifier: MIT OR Apache-2.0 */
/* The table of libusb's calls, and the selection of another table. */
#include "transport.h"

#define GET_DESCRIPTOR 6
#define DESCRIPTOR_MS 1000

static const struct transport of_libusb = {
    .begin = libusb_init,
    .end = libusb_exit,
    .list = libusb_get_device_list,
    .free_list = libusb_free_device_list,
    .hold = libusb_ref_device,
    .drop = libusb_unref_device,
    .bus = libusb_get_bus_number,
    .address = libusb_get_device_address,
    .ports = libusb_get_port_numbers,
    .fields = libusb_get_device_descriptor,
    .active = libusb_get_active_config_descriptor,
    .free_active = libusb_free_config_descriptor,
    .open = libusb_open,
    .close = libusb_close,
    .claim = libusb_claim_interface,
    .release = libusb_release_interface,
    .set = libusb_set_interface_alt_setting,
    .reset = libusb_reset_device,
    .transfer = libusb_control_transfer,
};

const struct transport *transport = &of_libusb;

void transport_use(const struct transport *other)
{
    transport = other;
}

int transport_descriptor(libusb_device_handle *handle, uint8_t type, uint8_t index, uint16_t language, uint8_t *bytes, uint16_t length)
{
    return transport->transfer(handle, LIBUSB_ENDPOINT_IN, GET_DESCRIPTOR, (uint16_t)(type << 8 | index), language, bytes, length,
                               DESCRIPTOR_MS);
}

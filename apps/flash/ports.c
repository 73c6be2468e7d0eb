/* SPDX-License-Identifier: MIT OR Apache-2.0 */
/* Lists the bus. libusb is initialized for each list and closed after it, because a process in which libusb is initialized must not be
 * forked: the child would get libusb's descriptors, but not its threads. */
#include "ports.h"
#include "transport.h"

#include <string.h>

static void add(struct port *port, libusb_device *device, const struct wanted *wanted)
{
    struct libusb_device_descriptor fields;
    struct libusb_config_descriptor *configuration;
    struct found found;
    memset(&found, 0, sizeof found);
    path_of(device, found.path);
    memcpy(port->path, found.path, sizeof port->path);
    port->is_wanted = port->is_misfit = false;
    if (transport->fields(device, &fields) != 0)
        return;
    port->vendor = found.vendor = fields.idVendor;
    port->product = found.product = fields.idProduct;
    if (transport->active(device, &configuration) != 0)
        return;
    port->is_wanted = may_be(wanted, &found) && has_dfu(configuration);
    port->is_misfit = !may_be(wanted, &found) && has_dfu(configuration);
    port->is_upgrade = is_in_dfu_mode(configuration);
    transport->free_active(configuration);
}

int ports_look(const struct wanted *wanted, struct port *ports)
{
    libusb_context *usb;
    libusb_device **devices;
    int error = transport->begin(&usb), count = 0;
    ssize_t length;
    if (error != 0)
        return error;
    length = transport->list(usb, &devices);
    for (ssize_t at = 0; at < length && count < PORTS_ROOM; at++)
        add(&ports[count++], devices[at], wanted);
    if (length >= 0)
        transport->free_list(devices, 1);
    transport->end(usb);
    return length < 0 ? (int)length : count;
}

/* Attaches the device of the stand-in (tests/lib/usb) to Linux's bus by vhci_hcd, the kernel's host controller for devices behind a socket,
 * with the USB/IP protocol. Programs then use the device through the kernel's USB and the real libusb.
 *
 * The kernel reports no reset to such a device. The requests after a reset show it: the kernel reads 64 bytes of the device descriptor, and
 * finally sets a configuration. A reset is therefore reported to the device if a configuration was set before, and once for each
 * enumeration. The device's descriptors may differ after a reset, and then the kernel enumerates it again.
 *
 * A device that leaves, by itself or by a fate, closes its socket, and is attached again, unless its application has no USB. A lost
 * transfer gets no answer before the program's timeout.
 *
 * usage: attached [PORT]    (as root, until SIGTERM; PORT is a port of the controller, 0 to 7, by default 0. The settings are those of the
 * stand-in, in tests/lib/usb/settings.h) */
#define _GNU_SOURCE
#include "abi.h"
#include "bus.h"
#include "descriptors.h"
#include "settings.h"

#include <arpa/inet.h>
#include <errno.h>
#include <fcntl.h>
#include <poll.h>
#include <signal.h>
#include <stdio.h>
#include <stdlib.h>
#include <string.h>
#include <sys/socket.h>
#include <unistd.h>

enum { SUBMIT = 1, UNLINK = 2, SUBMITTED = 3, UNLINKED = 4 };

#define ATTACH "/sys/devices/platform/vhci_hcd.0/attach"
#define DEVICE 0x10001 /* bus and device number, which are not used */
#define FULL_SPEED 2

/* Header of a USB/IP packet; all numbers have their high byte first. */
struct header {
    uint32_t command, number, device, direction, endpoint;
    uint32_t fields[5]; /* of SUBMIT: flags, length; of UNLINK: the number; of an answer: status, length */
    uint8_t setup[8];
};

static volatile sig_atomic_t is_stopped;
static int line = -1;
static long port;
static bool is_configured;
static unsigned generation;

static void on_stop(int number)
{
    (void)number;
    is_stopped = 1;
}

static bool attach(void)
{
    int ends[2];
    char words[64];
    int file = open(ATTACH, O_WRONLY), length;
    bool is_attached = false;
    if (file < 0 || socketpair(AF_UNIX, SOCK_STREAM, 0, ends) != 0)
        fail_loudly("there is no %s", ATTACH);
    length = snprintf(words, sizeof words, "%ld %d %d %d", port, ends[1], DEVICE, FULL_SPEED);
    is_attached = write(file, words, (size_t)length) == length;
    close(file);
    close(ends[1]);
    if (is_attached)
        line = ends[0];
    else
        close(ends[0]);
    is_configured = false;
    generation = bus_generation();
    return is_attached;
}

static void detach(void)
{
    if (line >= 0) {
        shutdown(line, SHUT_RDWR);
        close(line);
    }
    line = -1;
}

static bool transfer_all(void *bytes, size_t length, bool is_in)
{
    for (size_t done = 0; done < length;) {
        ssize_t count = is_in ? read(line, (char *)bytes + done, length - done) : write(line, (char *)bytes + done, length - done);
        if (count < 0 && errno == EINTR)
            continue;
        if (count <= 0)
            return false;
        done += (size_t)count;
    }
    return true;
}

static int cut(const uint8_t *bytes, int length, uint8_t *out, int room)
{
    length = length < room ? length : room;
    memcpy(out, bytes, (size_t)length);
    return length;
}

static int get_device(uint8_t *out, int room)
{
    struct libusb_device_descriptor device;
    describe_device(bus_is_app(), &device);
    const uint8_t bytes[18] = { 18, 1, 0x00, 0x02, 0, 0, 0, 8, (uint8_t)device.idVendor, (uint8_t)(device.idVendor >> 8),
                                (uint8_t)device.idProduct, (uint8_t)(device.idProduct >> 8), (uint8_t)device.bcdDevice,
                                (uint8_t)(device.bcdDevice >> 8), device.iManufacturer, device.iProduct, device.iSerialNumber,
                                device.bNumConfigurations };
    return cut(bytes, sizeof bytes, out, room);
}

static int get_configuration(uint8_t *out, int room)
{
    struct libusb_config_descriptor *configuration = describe_configuration(bus_is_app());
    uint8_t bytes[256] = { 9, 2, 0, 0, configuration->bNumInterfaces, configuration->bConfigurationValue, configuration->iConfiguration,
                           configuration->bmAttributes, configuration->MaxPower };
    int length = 9;
    for (int at = 0; at < configuration->interface->num_altsetting; at++) {
        const struct libusb_interface_descriptor *one = &configuration->interface->altsetting[at];
        const uint8_t words[9] = { 9, 4, one->bInterfaceNumber, one->bAlternateSetting, 0, one->bInterfaceClass,
                                   one->bInterfaceSubClass, one->bInterfaceProtocol, one->iInterface };
        memcpy(bytes + length, words, 9);
        length += 9;
        if (one->extra_length > 0)
            memcpy(bytes + length, one->extra, (size_t)one->extra_length);
        length += one->extra_length;
    }
    bytes[2] = (uint8_t)length;
    forget_configuration(configuration);
    return cut(bytes, length, out, room);
}

static void tell_reset(void)
{
    if (!is_configured)
        return;
    is_configured = false;
    bus_reset();
    if (bus_is_there())
        generation = bus_generation(); /* the device stays the same on the bus, even with other descriptors */
}

/* Answers a standard request. Returns the number of bytes, or an error of libusb. */
static int standard(const uint8_t setup[8], uint8_t *out, int room)
{
    static const uint8_t zeros[2];
    int value = setup[2], kind = setup[3];
    switch (setup[0] << 8 | setup[1]) {
    case 0x8006:
        if (kind == 1 && room == 64)
            tell_reset();
        return kind == 1 ? get_device(out, room) : kind == 2 ? get_configuration(out, room)
            : kind == 3 ? describe_string((unsigned)value, false, out, (uint16_t)room) : USB_ERROR_PIPE;
    case 0x0009: is_configured = value != 0; return 0;
    case 0x010b: bus_set_interface(value); return 0;
    case 0x8000: return cut(zeros, 2, out, room);
    case 0x0001: case 0x0003: return 0;
    default: return USB_ERROR_PIPE;
    }
}

static int handle(const uint8_t setup[8], uint8_t *data)
{
    uint16_t length = (uint16_t)(setup[6] | setup[7] << 8);
    if ((setup[0] & 0x60) == 0)
        return standard(setup, data, length);
    if ((setup[0] & 0x7f) != 0x21 || setup[4] != bus_interface())
        return USB_ERROR_PIPE;
    return bus_transfer(setup, data, length, 1);
}

/* Handles one packet: a transfer, or the cancellation of one. Returns false if the device left, or if the connection ended. */
static bool serve(void)
{
    static uint8_t data[65536];
    struct header request, answer = { 0 };
    if (!transfer_all(&request, sizeof request, true))
        return false;
    uint32_t length = ntohl(request.fields[1]);
    bool is_in = ntohl(request.direction) == 1;
    answer.command = htonl(ntohl(request.command) == SUBMIT ? SUBMITTED : UNLINKED);
    answer.number = request.number;
    if (ntohl(request.command) == UNLINK) {
        answer.fields[0] = htonl((uint32_t)-ECONNRESET);
        return transfer_all(&answer, sizeof answer, false);
    }
    if (!is_in && length > 0 && !transfer_all(data, length, true))
        return false;
    bus_pass_time();
    int count = handle(request.setup, data);
    if (count == USB_ERROR_NO_DEVICE)
        return false;
    if (count == USB_ERROR_TIMEOUT)
        return true;
    answer.fields[0] = htonl(count < 0 ? (uint32_t)-EPIPE : 0);
    answer.fields[1] = htonl(count < 0 ? 0 : is_in ? (uint32_t)count : length);
    return transfer_all(&answer, sizeof answer, false) && (!is_in || count <= 0 || transfer_all(data, (size_t)count, false));
}

int main(int count, char **words)
{
    struct sigaction action = { .sa_handler = on_stop };
    port = count > 1 ? strtol(words[1], NULL, 10) : 0;
    sigaction(SIGTERM, &action, NULL);
    signal(SIGPIPE, SIG_IGN);
    bus_start();
    while (!is_stopped) {
        bus_pass_time();
        if (line < 0 && (!bus_lists() || !attach())) {
            usleep(50000);
            continue;
        }
        struct pollfd wait = { .fd = line, .events = POLLIN }; /* (a request is handled at once; an event of the clock may be 20 ms late) */
        bool is_ready = poll(&wait, 1, 20) > 0, is_there = true;
        bus_pass_time();
        if (is_ready && bus_generation() == generation)
            is_there = serve();
        if (!is_there || bus_generation() != generation)
            detach();
    }
    detach();
    return 0;
}

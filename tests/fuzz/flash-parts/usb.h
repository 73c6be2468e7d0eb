/* Definitions of libusb's opaque types. */
#ifndef FUZZ_USB_H
#define FUZZ_USB_H

#include "board.h"

#include <libusb.h>

/* A device as it was enumerated; later changes of the board don't change it. */
struct libusb_device {
    struct board *board;
    struct face face;
    enum mode mode;
    struct place place;
    uint8_t address;
    bool is_listed; /* the device is on the bus */
    int references; /* number of references that the program holds */
    int handles;
};

struct libusb_device_handle {
    struct libusb_device *device;
    bool claimed[256];
    uint8_t alternates[256]; /* current alternate setting of each interface */
    bool is_lost;            /* set after a reset that enumerated the device as another one */
};

/* Counts a call of libusb, and lets random events happen. Calls of libusb begin with it. */
void call_begins(const char *name);

/* Returns an error by which the call fails at random, or 0. */
int call_fails(void);

/* Returns true if the device of a handle is still on the bus. */
bool handle_is_there(const struct libusb_device_handle *handle);

/* Carries out a request of the class, with the faults of `temper`. Returns the result of libusb_control_transfer. */
int class_transfer(struct libusb_device_handle *handle, const uint8_t setup[8], uint8_t *data, uint16_t length, unsigned timeout);

/* Carries out a standard request for a string or a descriptor. */
int standard_transfer(const struct libusb_device *device, uint8_t request, uint16_t value, uint8_t *data, uint16_t length);

#endif

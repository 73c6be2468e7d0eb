/* A device in a program's list: its state when the list was made. */
#ifndef USB_DEVICE_H
#define USB_DEVICE_H

#include <stdbool.h>

struct libusb_device {
    unsigned holders, generation;
    bool is_other; /* the second device, which has only descriptors */
    bool is_app;
    int board; /* number of the board, from 0 */
};

struct libusb_device_handle {
    struct libusb_device *device;
    bool is_claimed;
};

#endif

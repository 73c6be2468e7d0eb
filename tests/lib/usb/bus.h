/* The bus: which devices are listed, the result of each transfer, and the time that passes. */
#ifndef USB_BUS_H
#define USB_BUS_H

#include <stdbool.h>
#include <stdint.h>

/* State of a device on the bus. With several boards (boards.h) the processes that use them share it. */
struct seen {
    unsigned generation, away;
    bool is_app, is_there, is_swapped;
    int setting;       /* current alternate setting */
    uint64_t ended_ms; /* time when the process that used it ended, or 0 */
};

/* Reads the settings and makes the device, once; later calls do nothing. */
void bus_start(void);

/* State of the device to which the calls below apply. */
extern struct seen *seen;

/* Makes the selected device by its settings, once. */
void bus_make(void);

/* Returns the milliseconds since a start that is the same in each process. */
uint64_t bus_ms(void);

/* Lets the time since the last call pass on the device. */
void bus_pass_time(void);

/* Makes a control transfer of the class. Returns the number of bytes, or an error of libusb. `timeout` is in ms. The time of a new state
 * begins with the answer; in an unchanged state no part of a millisecond is lost. */
int bus_transfer(const uint8_t setup[8], uint8_t *data, uint16_t length, unsigned timeout);

/* Resets the bus. Returns true if the device has the same descriptors afterwards. */
bool bus_reset(void);

/* Returns true if no transfer reaches the device any more. */
bool bus_is_deaf(void);

/* Selects an alternate setting of the interface. */
void bus_set_interface(int setting);

/* Counts a new list of devices. Returns true if the device is in it. */
bool bus_lists(void);

/* Returns the number of the enumeration, from 1. For an old handle another number is another device. */
unsigned bus_generation(void);

bool bus_is_app(void);

/* Returns true if the device is on the bus, or will return to it. */
bool bus_is_there(void);

/* Returns the bytes of a string descriptor that the model defines itself, with their number; NULL if there is none. */
const uint8_t *bus_string(unsigned number, unsigned *length);

/* Returns true if another board has replaced the device. */
bool bus_is_swapped(void);

/* Returns the interface number of the current board. */
uint8_t bus_interface(void);

#endif

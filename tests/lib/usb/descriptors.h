/* The descriptors of the devices on the bus. */
#ifndef USB_DESCRIPTORS_H
#define USB_DESCRIPTORS_H

#include "abi.h"

#include <stdbool.h>

void describe_device(bool is_app, struct libusb_device_descriptor *out);

/* Returns a configuration with one interface and the functional descriptor after it. forget_configuration frees it. */
struct libusb_config_descriptor *describe_configuration(bool is_app);
void forget_configuration(struct libusb_config_descriptor *found);

/* Answers GET_DESCRIPTOR for a string. Returns the number of bytes, or an error of libusb. */
int describe_string(unsigned number, bool is_other, uint8_t *out, uint16_t room);

/* Writes the functional descriptor. Returns its number of bytes. */
int describe_function(bool is_app, uint8_t out[9]);

#endif

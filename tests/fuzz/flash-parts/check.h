/* Checks that the program sends only requests that the device may receive, and that its reports are true. */
#ifndef FUZZ_CHECK_H
#define FUZZ_CHECK_H

#include "usb.h"

/* Checks a request of the class: its device, interface and setting must be the selected ones. */
void check_request(const struct libusb_device_handle *handle, const uint8_t setup[8], uint16_t index);

/* Checks a reset of a device. */
void check_reset(const struct libusb_device_handle *handle);

/* Counts a successful reset of a device that stalled the request before it in run-time mode. In a fair run too many in a row are a fault.
 */
void check_stalled(struct board *board);

/* Checks the exit status of the program. */
void check_status(int status);

/* Returns true if a block was sent, or may have been. */
bool check_has_downloaded(void);

/* Checks the text that the program printed. */
void check_printed(int status);

#endif

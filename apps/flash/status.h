/* SPDX-License-Identifier: MIT OR Apache-2.0 */
/* The exit statuses. share/man/dfu-flash.1 has the same list; tests/apps/flash compares them. */
#ifndef DFU_FLASH_STATUS_H
#define DFU_FLASH_STATUS_H

enum status {
    STATUS_DONE = 0,        /* Installed, Verified, Uploaded or Detached; or a list, a dry run, help or the version was printed */
    STATUS_REFUSED = 1,     /* refused before a byte of the image was sent */
    STATUS_WORDS = 2,       /* the words aren't understood */
    STATUS_FILE = 3,        /* a file or a stream failed, or there was no memory */
    STATUS_NO_DEVICE = 4,   /* no such device */
    STATUS_NO_ACCESS = 5,   /* the device may not be opened, or another program or a driver has it */
    STATUS_DEVICE = 6,      /* the device refused the image */
    STATUS_GIVEN_UP = 7,    /* the limits are spent, or what came was too much, or there was no memory for it */
    STATUS_UNCONFIRMED = 8, /* the device can't tell whether the image is in place */
    STATUS_DIFFERENT = 9,   /* the device gave back another image */
    STATUS_GONE = 10,       /* the device left and did not come back, or answers no more */
    STATUS_ABORTED = 11,    /* given up by Ctrl-C or a signal */
    STATUS_SEVERAL = 12,    /* more than one device, interface or setting: choose one */
    STATUS_OTHER = 13,      /* another device came back */
    STATUS_BROKEN = 14,     /* a mistake of this program */
    STATUS_STALLED = 15,    /* the device could not be brought to DFU mode */
    STATUS_UNRESET = 16,    /* a reset is missing, which this system does not make */
    STATUS_SHORT = 17       /* fewer boards were flashed than --count asks for */
};

#endif

/* SPDX-License-Identifier: MIT OR Apache-2.0 */
/* The exit statuses. share/man/dfu-gadget.1 has the same list; tests/apps/gadget compares them. */
#ifndef DFU_GADGET_STATUS_H
#define DFU_GADGET_STATUS_H

enum status {
    STATUS_DONE = 0,    /* the work is done; run was ended by a signal; a dry run found all that is needed */
    STATUS_REFUSED = 1, /* refused: what is there is kept, or it holds no image, or a number doesn't fit */
    STATUS_WORDS = 2,   /* the words aren't understood */
    STATUS_FILE = 3,    /* a file or a stream failed, or there was no memory */
    STATUS_MISSING = 4, /* something that run needs is missing: --dry-run says what */
    STATUS_MEDIUM = 5,  /* the medium could not be read any more */
    STATUS_BUS = 6,     /* FunctionFS or the controller failed */
    STATUS_BROKEN = 7   /* a mistake of this program */
};

#endif

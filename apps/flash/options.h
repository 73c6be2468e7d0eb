/* SPDX-License-Identifier: MIT OR Apache-2.0 */
/* The long options, with their codes for words.c. */
#ifndef DFU_FLASH_OPTIONS_H
#define DFU_FLASH_OPTIONS_H

#include <getopt.h>

/* clang-format off */
enum option_code {
    DEVICE = 256, PATH, SERIAL, INTERFACE, ALTERNATE, NO_VERIFY, RAW, UPLOAD, FORCE, DETACH, WAIT, TIMEOUT, LIMITS, TRANSFER_SIZE, DRY_RUN,
    QUIET, VERBOSE, JSON, LIST, DEMO, REPORT, PORTS, BOARDS, RETRY, STAMP, STAMP_AT, ALL, LOG, ADDRESS, LENGTH, NO_LEAVE, HELP, VERSION
};
/* clang-format on */

/* Options for getopt_long. The last one has no name. */
extern const struct option options[];

#endif

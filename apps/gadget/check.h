/* SPDX-License-Identifier: MIT OR Apache-2.0 */
/* The program of --check, which accepts or refuses an image before it is installed. */
#ifndef DFU_GADGET_CHECK_H
#define DFU_GADGET_CHECK_H

#include <stdint.h>

struct check {
    const char *program; /* NULL if there is none; then every image is accepted */
    const char *medium;
};

/* Runs the program with MEDIUM, AT and LENGTH, and waits for it. Returns 0 if it accepts the image by exit status 0. Else returns a status
 * code of DFU 1.1: errTARGET for exit status 2, or errFILE for any other end, also if it can't be run or takes longer than CHECK_MS. */
#define CHECK_MS 4000
uint8_t check_image(const struct check *check, uint32_t at, uint32_t length);

#endif

/* SPDX-License-Identifier: MIT OR Apache-2.0 */
/* Runs a program for an image of the medium. */
#ifndef DFU_GADGET_PROGRAM_H
#define DFU_GADGET_PROGRAM_H

#include <stdint.h>

/* Starts PROGRAM MEDIUM AT LENGTH without a shell, in its own process group, with its output on standard error. Returns its process ID, or
 * -1 after printing why. *child is then a descriptor for which poll reports the end of the process, or -1 if there is none. */
int program_start(const char *program, const char *medium, uint32_t at, uint32_t length, int *child);

/* Waits for the process. Returns its exit status, or -1 if a signal ended it. */
int program_end(int process);

#endif

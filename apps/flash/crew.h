/* SPDX-License-Identifier: MIT OR Apache-2.0 */
/* The worker processes of --all, and the results of those that have ended. */
#ifndef DFU_FLASH_CREW_H
#define DFU_FLASH_CREW_H

#include "worker.h"

#include <stdbool.h>
#include <stdint.h>

struct crew {
    struct worker workers[BAYS_ROOM];
    int count;
    int64_t came_ms;          /* time when the last device arrived or the last session ended */
    int worst;                /* exit status so far: the highest, but 8 only if all others are 0 or 8 */
    unsigned flashed, failed; /* numbers of flashed and of failed devices */
    unsigned unwritten;       /* number of flashed devices whose line in the log or report is missing */
    unsigned unconfirmed;     /* number of failed devices that are unconfirmed */
    unsigned taken;           /* number of devices that have the whole image, including unconfirmed ones */
    uint16_t vendor, product; /* identifiers of the devices */
    bool is_json, is_out;     /* is_out: all records were written to standard output */
    const struct words *words;
    struct image *image;
};

void crew_make(struct crew *crew, const struct words *words);

/* Starts a process for the device in the bay. */
void crew_begin(struct crew *crew, const struct words *words, struct image *image, struct bay *bay);

/* Waits up to `ms` milliseconds for output of a process. Prints the output, and the record of each process that has ended. */
void crew_step(struct crew *crew, int ms);

/* Sends SIGINT to each process, and sets a deadline for its end. */
void crew_stop(struct crew *crew);

/* Removes the progress rows from the terminal at the end of the run. */
void crew_end(struct crew *crew);

#endif

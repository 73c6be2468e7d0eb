/* SPDX-License-Identifier: MIT OR Apache-2.0 */
/* A process that flashes one of several devices. */
#ifndef DFU_FLASH_WORKER_H
#define DFU_FLASH_WORKER_H

#include "bays.h"
#include "image.h"
#include "reader.h"
#include "words.h"

#include <stdbool.h>
#include <stdint.h>
#include <sys/types.h>

struct worker {
    pid_t process;
    struct bay *bay;
    struct reader out, err;
    char row[160]; /* progress line of the process */
    char *record;  /* record of the process, which is the last line of its output, or NULL */
    int64_t began_ms;
    int64_t deadline_ms; /* time at which the process is killed; 0 is never */
    bool is_killed;
    struct stamp *stamp; /* entry of --stamp's list that is reserved for the device, or NULL */
    bool has_stamp;      /* the device has taken the entry */
    uint32_t tries;      /* number of the device's sessions */
    bool is_early;       /* the process still checks if the device is a new one */
    char *kept;          /* messages that are kept while is_early is true, or NULL */
    bool has_serial;     /* a serial number of the device was reported */
    int mode;            /* mode of the first serial number that was reported */
    bool has_image;      /* the device took the whole image */
    bool is_proved;      /* the image is proved to be in place */
};

/* Starts a process that flashes the device in the bay with this image. With `has_rows` it reports its progress. Returns false, after
 * printing why, if no process can be started. */
bool worker_begin(struct worker *worker, const struct words *words, struct image *image, struct bay *bay, bool has_rows);

/* Reads the available output. Each line of standard error is passed to `say`, with the worker. */
void worker_read(struct worker *worker, void (*say)(void *worker, const char *line));

/* Processes a line of standard output. */
void worker_take(void *worker, const char *line);

/* Stores a line of standard error. */
void worker_keep(struct worker *worker, const char *line);

/* Returns true if both streams of the process are closed, so that the process is about to end. */
bool worker_is_ending(const struct worker *worker);

/* Returns true if the process has ended. Then `status` is its exit status, or that of an internal error, with the reason in `why`. */
bool worker_has_ended(struct worker *worker, int *status, const char **why);

/* Sends SIGINT to the process, so that it gives up. The process is killed after the deadline. */
void worker_stop(struct worker *worker, int64_t deadline_ms);

/* Kills the process. */
void worker_kill(struct worker *worker);

/* Frees the memory and closes the streams of a process that has ended. */
void worker_drop(struct worker *worker);

/* Called in the worker process: reports the device's serial number in a mode to the first process. */
void worker_print_serial(bool is_upgrade, const char *serial);

/* Called in the worker process: reports the number of the session that begins, and if the device takes its --stamp entry. Returns false if
 * the message can't be written. */
bool worker_print_begun(uint32_t number, bool has_stamp);

/* Called in the worker process: reports that the device took the whole image, and if the image is in place, even if a report or a log can't
 * be written. */
void worker_print_taken(bool is_proved);

#endif

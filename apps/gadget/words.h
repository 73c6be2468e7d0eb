/* SPDX-License-Identifier: MIT OR Apache-2.0 */
/* Parses the command line and the file of --config. */
#ifndef DFU_GADGET_WORDS_H
#define DFU_GADGET_WORDS_H

#include <stdbool.h>
#include <stddef.h>
#include <stdint.h>

enum job { JOB_NONE, JOB_FORMAT, JOB_IMAGE, JOB_RUN, JOB_START, JOB_CONFIRM, JOB_END, JOB_HELP, JOB_VERSION };

struct words {
    enum job job;
    const char *medium; /* the MEDIUM argument */
    const char *image;  /* the IMAGE argument of `format` */
    uint32_t most;      /* --most; 0 if not given */
    uint32_t tries;     /* --tries; 0 if not given, so that no image runs on trial */
    uint32_t at;        /* the AT argument of `confirm` */
    bool force;
    const char *controller;            /* NULL if not given */
    const char *config;                /* NULL if not given */
    const char *application, *upgrade; /* gadgets of the two modes */
    const char *command;               /* --on-installed; NULL if not given */
    const char *check;                 /* --check; NULL if not given */
    const char *root;
    bool dfu_mode, dry_run, verbose;
    const char *log; /* file of --verbose=FILE, or NULL */
    uint8_t attributes;
    uint16_t detach_ms, transfer, erase_ms, program_ms;
    uint32_t busy_ms, manifest_ms, least;
};

/* Parses the command line into `words`, after the file of --config, so that the command line has priority. Returns STATUS_DONE; or, after
 * printing why, STATUS_WORDS if the arguments are invalid, or STATUS_FILE if the file can't be read. */
int words_read(struct words *words, int count, char **texts);

/* Sets an option by its name, from the file of --config; `value` is NULL if it has none. Returns false, after printing why, if the option
 * isn't accepted. */
bool words_option(struct words *words, const char *name, const char *value);

/* Reads the file of --config. Returns the same statuses as words_read. */
int config_read(struct words *words);

/* Print the help text, and the version, on standard output. */
void words_help(void);
void words_version(void);

#endif

/* The command line of the program. */
#ifndef FUZZ_WORDS_H
#define FUZZ_WORDS_H

#include "board.h"

#include <stdbool.h>
#include <stdint.h>

#define MOST_WORDS 32

enum job { JOB_NONE, JOB_DOWNLOAD, JOB_UPLOAD, JOB_DETACH, JOB_LIST };

/* Meaning of the command line if is_sound; else the other fields are unknown. */
struct asked {
    bool is_sound;
    enum job job;
    bool has_ids, has_pair, is_forced, is_dry, is_json, is_piped; /* is_piped: FILE is standard input */
    uint16_t vendor, product, dfu_vendor, dfu_product; /* dfu_vendor and dfu_product are set for a pair RUN,DFU */
    uint32_t timeout;                    /* seconds; 0 without the option */
    bool is_patient;                     /* --wait is given: for `wait` seconds, or without a limit if `wait` is 0 */
    uint32_t wait;
    char path[64], serial[MOST_TEXT], name[MOST_TEXT]; /* empty without the option */
    int interface, alternate;            /* -1 without the option */
    int count;
    char *words[MOST_WORDS + 1];
};

extern struct asked asked;

/* Draws arguments for the boards on the bus, or random arguments. */
void words_throw(void);

#endif

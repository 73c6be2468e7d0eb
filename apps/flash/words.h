/* SPDX-License-Identifier: MIT OR Apache-2.0 */
/* Parses the command line. */
#ifndef DFU_FLASH_WORDS_H
#define DFU_FLASH_WORDS_H

#include <stdbool.h>
#include <stdint.h>

struct bay;

enum job { JOB_DOWNLOAD, JOB_UPLOAD, JOB_DETACH, JOB_LIST, JOB_DEMO, JOB_HELP, JOB_VERSION };

struct words {
    enum job job;
    const char *file; /* FILE, or OUT of an upload */
    bool verify, force, dry_run, quiet, json, verbose;
    enum job beside; /* the job given together with --demo; JOB_DOWNLOAD if none was */
    bool has_ids;    /* --device was given */
    uint16_t vendor, product;
    bool has_dfu_ids; /* --device RUN,DFU: in DFU mode the device may have these identifiers */
    uint16_t dfu_vendor, dfu_product;
    bool is_upgrade;           /* -d ,DFU: the device must be in DFU mode */
    const char *path, *serial; /* NULL if not given */
    const char *dfu_serial;    /* -S A,B: serial number in DFU mode; NULL if it is the same; "" in either matches any */
    const char *log;           /* file of --verbose=FILE, or NULL */
    int interface, alternate;  /* -1 if not given */
    const char *setting;       /* --alt as a name; NULL if it is a number or wasn't given */
    bool has_limits;           /* --limits was given */
    uint32_t actions;
    uint16_t restarts;
    uint16_t transfer;          /* --transfer-size; 0 if not given */
    uint32_t timeout;           /* seconds of --timeout; 0 if not given */
    bool wait;                  /* --wait was given */
    uint32_t away_ms;           /* time to wait for a device that left; 0 is the default */
    uint32_t patience;          /* seconds of --wait; 0 is forever */
    bool has_address;           /* an address was given by --address or -s, so the device must speak DfuSe */
    uint32_t address, length;   /* --address and --length; the length is 0 if not given */
    bool is_to_end;             /* an upload without a length ends with its segment, as with -s */
    bool leaves;                /* :leave was given with -s */
    bool is_by_letter;          /* FILE was given by -D */
    bool stays;                 /* --no-leave was given, or -s without :leave */
    bool raw;                   /* --raw was given */
    bool all;                   /* --all was given */
    const char *folder;         /* folder of --log, or NULL */
    const char *report, *ports; /* --report and --ports, or NULL */
    uint32_t boards, retry;     /* --count and --retry; 0 if not given */
    const char *stamp;          /* list of --stamp, or NULL */
    uint64_t stamp_place;       /* --stamp-at: address or offset of the stamp */
    uint32_t stamp_bytes;       /* --stamp-at: size of the stamp in bytes; 0 if not given */
    const struct bay *bay;      /* with --all: bay of the device; else NULL */
    uint32_t tries;             /* number of earlier sessions in that bay, with --retry and --stamp */
};

/* Parses the command line into `words`. Returns false, after printing why, if it is invalid. */
bool words_read(struct words *words, int count, char **texts);

/* Returns true if the options may be combined with each other and with the job; else prints why not. */
bool words_fit(const struct words *words);

/* Prints an error message and the argument that it is about, which may be empty. Returns false. */
bool words_refuse(const char *what, const char *word);

/* Print the help text, and the version, on standard output. */
void words_help(void);
void words_version(void);

#endif

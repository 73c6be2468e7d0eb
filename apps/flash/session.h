/* SPDX-License-Identifier: MIT OR Apache-2.0 */
/* A session: the proved host decides the actions, and this program carries them out. */
#ifndef DFU_FLASH_SESSION_H
#define DFU_FLASH_SESSION_H

#include "answer.h"
#include "dfuse.h"
#include "progress.h"

#include <dfu_host.h>
#include <dfu_watch.h>
#include <stdbool.h>
#include <stdint.h>

enum goal { GOAL_DOWNLOAD, GOAL_VERIFIED, GOAL_UPLOAD, GOAL_DETACH };

/* Ends of a session: with the host's report, or without one. */
enum end {
    END_REPORT,
    END_GONE,      /* the device left and didn't return */
    END_SILENT,    /* the device doesn't answer any more */
    END_MANY,      /* the device returned with more than one matching setting */
    END_OTHER,     /* another device returned, or one with another functional descriptor */
    END_REFUSED,   /* the host refused to begin after the device reached DFU mode */
    END_ABORTED,   /* a signal stopped a DfuSe session, whose host has no abort */
    END_TIMED_OUT, /* the session was given up because of --timeout */
    END_BROKEN,    /* an internal error, such as a session state that the host's library refuses */
    END_STALLED,   /* the device stays in run-time mode and stalls the requests there */
    END_UNRESET    /* the system can't make the reset, and the user didn't pull the plug */
};

/* First byte in which the device's content differs from the image. */
struct difference {
    bool exists;
    uint64_t at;       /* its offset in the image; with DfuSe its address */
    int wanted, found; /* the image's byte and the device's; -1 after the end of either */
};

struct session {
    bool is_upload, wants_verified; /* an upload was requested; --no-verify wasn't given */
    enum goal goal;                 /* purpose of the session, by the options and the descriptor */
    const uint8_t *file;            /* file of a download, with its suffix; never NULL */
    size_t file_length;             /* length of the file with its suffix */
    size_t payload_length;          /* number of image bytes to send, or for a DfuSe upload to read; else 0 for an upload */
    uint8_t *kept;                  /* bytes of an upload */
    size_t room;                    /* size of the buffer `kept` */
    const char *made;               /* name of the file that was made of an upload, or NULL */
    struct dfu_ids ids;             /* identifiers for the file's check: the first found device's or --device's */
    struct found first[2];          /* the device when it was first found in run-time mode and in DFU mode */
    bool has_first[2];              /* true for each mode in which the device was found */
    bool has_limits;
    uint32_t actions; /* limits of actions and of restarts, from --limits or by the file's size */
    uint16_t restarts;
    uint16_t transfer;           /* requested block size in bytes; 0 for the device's own */
    struct dfu_session host;     /* state of the proved host (dfu_host.h) */
    uint8_t begin_descriptor[9]; /* functional descriptor when the session began */
    size_t begin_descriptor_size;
    int32_t runtime_refusal;      /* the host's refusal of the run-time descriptor, or 0 */
    uint8_t substitute[9];        /* replacement for a refused descriptor */
    struct difference difference; /* result of the last comparison */
    bool is_aborted;
    bool is_whole;          /* the device acknowledged the last block and the end of the image */
    bool is_fetched;        /* the last block of an upload was received */
    struct dfu_watch watch; /* state of dfu_watch.h, which decides when the session gives up, except with DfuSe */
    struct wire wire;
    struct progress progress;
    struct dfuse dfuse;        /* state of a DfuSe session */
    uint64_t taken, restarted; /* numbers of actions and of restarts */
    int64_t began_ms;
    uint32_t tries; /* number of earlier sessions, with --retry */
    bool had_sent;  /* a block was sent in one of those sessions */
    enum end end;
    struct dfu_action done; /* the report, if `end` is END_REPORT */
    int32_t refusal;        /* the refusal, if `end` is END_REFUSED */
};

/* Refusals by this program, in addition to the host's. */
#define REFUSED_ANY (-102)           /* the file is for any device, so --all would send it to every one */
#define REFUSED_NO_ADDRESS (-103)    /* the device speaks DfuSe, and neither an address nor a DfuSe file was given */
#define REFUSED_RUN_TIME (-104)      /* the device speaks DfuSe, and is in run-time mode */
#define REFUSED_NOT_DFUSE (-105)     /* an address or a DfuSe file was given, and the device doesn't speak DfuSe */
#define REFUSED_OWN_ADDRESS (-106)   /* an address was given, and the file has addresses of its own */
#define REFUSED_LARGE_BLOCKS (-107)  /* the blocks of a DfuSe device are larger than Linux allows */
#define REFUSED_MIXED (-108)         /* the file has images for several settings, and none was selected */
#define REFUSED_NO_STAMP (-121)      /* no entry of the --stamp list is free */
#define REFUSED_STAMP_OUTSIDE (-122) /* the stamp's location isn't in the image */
#define REFUSED_NO_ROOM (-123)       /* the bytes at the stamp's location aren't all the same */
#define REFUSED_NO_RESET (-120)      /* only a reset leads to DFU mode, and this system can't make one */

/* Returns the name of a goal as one word. */
const char *goal_name(enum goal goal);

/* Begins a session with the device that was found. Sends nothing. Returns 0, or a refusal by the host or by this program. */
int32_t session_begin(struct session *session);

/* Carries out the host's actions until the host reports a result or the session ends otherwise. */
void session_run(struct session *session);

#endif

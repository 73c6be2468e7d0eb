/* SPDX-License-Identifier: MIT OR Apache-2.0 */
/* Bays: the paths on the bus at which devices are plugged in, flashed and pulled out again. */
#ifndef DFU_FLASH_BAYS_H
#define DFU_FLASH_BAYS_H

#include "ports.h"

#include <stdbool.h>
#include <stdint.h>

#define BAYS_ROOM 256

/* Exit status of a process whose device has a serial number and is, or counts as, the previous one. The process did nothing and reports
 * nothing. */
#define BAY_SAME 100

/* Exit status if the device can't be distinguished from the previous one, because it has no serial number. */
#define BAY_TAKEN 102

/* Exit status if a board returned that may not be the previous one, so that it needs a new stamp entry. Nothing was sent to it. */
#define BAY_NEXT 103

/* Exit status if a device can't be used, so that its serial number is unknown and it counts as the previous one. */
#define BAY_UNREAD 104

/* Exit status if the device left while its descriptors were read. */
#define BAY_LEFT 105

enum bay_state {
    BAY_FREE, /* the next device counts as a different one */
    BAY_BUSY, /* a process is flashing a device */
    BAY_DONE  /* a session ended, and the device isn't known to be pulled out */
};

struct bay {
    char path[PATH_ROOM];
    enum bay_state state;
    bool was_back, is_there;   /* in BAY_DONE: was_back if a device was seen after the session, is_there if the last poll found one */
    int64_t since_ms;          /* time when a device was last seen, or when the session ended */
    bool is_late;              /* the device arrived so late that it may be a different one */
    bool is_doubtful;          /* a person had time to replace the device, or it returned once more */
    bool has_said;             /* a message about a device that counts as the previous one was printed */
    bool has_failed;           /* the previous device doesn't have the image */
    bool has_retried;          /* the previous device was tried again without being seen in between */
    bool has_serial[2];        /* true for each mode (run-time, DFU) in which the previous device was seen */
    char serial[2][TEXT_ROOM]; /* serial number of the previous device in each mode */
};

struct bays {
    struct bay list[BAYS_ROOM];
    int count;
};

/* Records that a device was seen. Returns its bay if a process must examine it, or NULL. */
struct bay *bays_see(struct bays *bays, const struct port *port, int64_t now_ms);

/* Returns true if a process is flashing a device at this path, or one was flashed there and isn't known to be pulled out. */
bool bays_have(const struct bays *bays, const char *path);

/* Ends a poll of the bus. A device that isn't among `ports` counts as pulled out once it has been away long enough. */
void bays_miss(struct bays *bays, const struct port *ports, int count, int64_t now_ms);

/* Returns true if the device in a bay counts as the previous one unless there is evidence against it. */
bool bay_is_early(const struct bay *bay);

/* Returns BAY_SAME or BAY_TAKEN if the device in a bay is, or counts as, the previous one; else 0. */
int bay_verdict(const struct bay *bay, const struct found *info);

/* Returns BAY_LEFT or BAY_UNREAD if the device in a bay counts as the previous one although no session began with it; else 0. `status` is
 * the reason for which no session began. */
int bay_verdict_unused(const struct bay *bay, const struct found *info, int status);

/* Returns a message about a device that counts as the previous one but may be different. `status` is the exit status of its process.
 * Returns NULL if there is no message, or if one was printed since the last session ended. */
const char *bay_words(struct bay *bay, int status);

/* Records that the process for this bay has ended without doing anything, because the device counts as the previous one. */
void bay_end_same(struct bay *bay, int64_t now_ms);

/* Records the end of a session, and with `has_failed` that the device doesn't have the image. */
void bay_end(struct bay *bay, bool has_failed, int64_t now_ms);

#endif

/* SPDX-License-Identifier: MIT OR Apache-2.0 */
/* Decides when a flashing tool gives up a device: because the device stalls GETSTATUS in run-time mode, does not answer, or disconnects, or
 * because another device connects instead. The calls are in the archive of dfu_host.h, and watch its sessions. dfu-flash and the page for
 * WebUSB use them; a program may have its own rules instead.
 *
 * The calls send nothing, allocate nothing and keep no state. The program keeps the record, which is all 0 before its first session with a
 * device, and makes these calls around each action of the session:
 *
 *     static const struct dfu_watch none; struct dfu_watch w = none;
 *     dfu_host_next(.., &a)
 *     if (dfu_watch_before(&w, &a, 0) != DFU_GOES_ON) the session ends with that result; send nothing
 *     carry out the action; facts = the state of the device now
 *     switch (dfu_watch_after(&w, &a, seen, &facts)) {
 *     case DFU_GOES_ON: dfu_host_take(.., seen, ..), with DFU_SEEN_NOTHING for seen if the device is gone
 *     case DFU_BEGINS_ANEW: begin another session with the device's current descriptor
 *     default: the session ends with that result
 *     }
 *
 * Proved, for any record, action and facts: each call returns and writes what this header says; a session continues only after fewer than
 * 24 requests and resets in a row without an answer; it begins anew at most once, and only before a block was sent. A call never refuses,
 * and touches only the records that its pointers name. No pointer may be NULL, and no two records may overlap. */
#ifndef DFU_WATCH_H
#define DFU_WATCH_H

#include "dfu_host.h"

#ifdef __cplusplus
extern "C" {
#endif

/* Record of the results of a session's requests so far. A program may read it, and writes no field. */
struct dfu_watch {
    uint32_t silent; /* number of requests and resets in a row without an answer */
    uint32_t resets; /* number of resets in a row after requests that the device stalled in run-time mode */
    uint8_t stalled; /* 1 if the device stalled the last request in run-time mode, else 0 */
    uint8_t sent;    /* 1 if the session sent a block or the end of a download, else 0 */
    uint8_t anew;    /* 1 if the first session was replaced by another one, else 0 */
};

/* State of the device after an action, as the program observes it. 0 is no, any other number is yes. */
struct dfu_facts {
    uint8_t reached; /* the device was connected, so the request was sent */
    uint8_t gone;    /* the device disconnected, and did not reconnect in time */
    uint8_t many;    /* the device reconnected with several alternate settings, and the program can't tell which one to use */
    uint8_t stopped; /* the user has stopped the session */
    uint8_t open;    /* the program has a device open */
    uint8_t upgrade; /* the open device is in DFU mode */
    uint8_t again;   /* the open device is the one that the program first found in that mode */
    uint8_t same;    /* the open device has the functional descriptor with which the session began */
};

/* Results of dfu_watch_before and dfu_watch_after: a session continues, begins anew, or ends. */
enum {
    DFU_GOES_ON = 0,      /* the session continues with the action or its outcome */
    DFU_BEGINS_ANEW = 1,  /* begin another session: in DFU mode the device has another functional descriptor */
    DFU_ENDS_GONE = 2,    /* the session is over: the device disconnected, and did not reconnect */
    DFU_ENDS_MANY = 3,    /* the session is over: the device reconnected with several alternate settings */
    DFU_ENDS_SILENT = 4,  /* the session is over: 24 requests and resets in a row had no answer */
    DFU_ENDS_OTHER = 5,   /* the session is over: another device is open, or the descriptor changed again or after a block was sent */
    DFU_ENDS_STALLED = 6, /* the session is over: after three resets in a row the device still stalls requests in run-time mode */
    DFU_ENDS_REFUSED = 7  /* the session is over: no image may be sent or read with a descriptor that isn't the device's own */
};

/* Decides before an action: returns DFU_GOES_ON, DFU_ENDS_REFUSED or DFU_ENDS_STALLED. by_another is not 0 if the session uses a functional
 * descriptor other than the device's own, to bring the device to DFU mode (USB DFU 1.1, section 4.2.4). */
uint32_t dfu_watch_before(const struct dfu_watch *watch, const struct dfu_action *action, uint32_t by_another);

/* Decides before a DFU_RESET: returns 1 if the program must first send a DETACH, because the device stalled a request in run-time mode;
 * after a DETACH the reset leads to DFU mode (section 5.1). Else returns 0. */
uint32_t dfu_watch_detaches(const struct dfu_watch *watch);

/* Decides before a request to a device that was opened again: returns 1 if it is not the session's device, and then the program must send
 * nothing to it; else 0. A device in run-time mode after a block was sent may run another image, and is not compared. */
uint32_t dfu_watch_is_other(const struct dfu_watch *watch, const struct dfu_facts *facts);

/* Decides after an action with the outcome `seen`: returns the result of the first cause that applies.
 *
 * | Cause                                                                   | Result                                    |
 * |-------------------------------------------------------------------------|-------------------------------------------|
 * | the device is gone, and the user did not stop the session               | DFU_ENDS_MANY if facts.many is not 0,     |
 * |                                                                         | else DFU_ENDS_GONE                        |
 * | 24 requests and resets in a row had no answer                           | DFU_ENDS_SILENT                           |
 * | another device is open (dfu_watch_is_other)                             | DFU_ENDS_OTHER                            |
 * | the device is in DFU mode with a changed functional descriptor          | DFU_BEGINS_ANEW, once, and only before a  |
 * |                                                                         | block or the end of a download was sent;  |
 * |                                                                         | else DFU_ENDS_OTHER                       |
 * | none of these                                                           | DFU_GOES_ON                               |
 */
uint32_t dfu_watch_after(struct dfu_watch *watch, const struct dfu_action *action, uint32_t seen, const struct dfu_facts *facts);

#ifdef __cplusplus
}
#endif

#endif

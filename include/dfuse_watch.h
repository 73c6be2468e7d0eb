/* SPDX-License-Identifier: MIT OR Apache-2.0 */
/* Decides when a flashing tool gives up a device of DfuSe: because the device does not answer or disconnects, or because another device
 * connects instead. These calls do for sessions of dfuse_host.h what dfu_watch.h does for those of dfu_host.h. Here facts.again says that
 * the device, its map and its descriptor are the same. dfu-flash and the page for WebUSB use these calls; a program may have its own rules
 * instead.
 *
 * Make these calls around each action of a session, with a record that is all 0 before the session:
 *
 *     static const struct dfuse_watch none; struct dfuse_watch w = none;
 *     dfuse_next(.., body, .., &a)
 *     if (a.what == DFU_WAIT) wait for dfuse_watch_wait(&w, a.value) ms; else send; facts = the state of the device now
 *     switch (dfuse_watch_after(&w, &session, &a, a.length > 0 ? body[0] : 0, seen, &facts)) {
 *     case DFU_GOES_ON: dfuse_take(.., seen, ..)
 *     case DFU_GOES_RESTARTED: dfuse_take(.., DFU_SEEN_RESTART, ..)
 *     case DFU_GOES_TO_STOP: nothing is reported
 *     default: the session ends with that result
 *     }
 *
 * Proved, for any records and facts: each call returns and writes what this header says. A call never refuses, and touches only the records
 * that its pointers name. No pointer may be NULL, and no two records may overlap. */
#ifndef DFUSE_WATCH_H
#define DFUSE_WATCH_H

#include "dfu_host.h"
#include "dfu_image.h"
#include "dfu_watch.h"
#include "dfuse_file.h"
#include "dfuse_host.h"

#ifdef __cplusplus
extern "C" {
#endif

/* Record of the results of a session's requests so far. A program may read it, and writes no field. */
struct dfuse_watch {
    uint32_t silent; /* number of requests in a row without an answer */
    uint32_t waits;  /* number of waits of 0 ms in a row, up to 4; a longer wait, or a request other than GETSTATUS, ends the row */
    uint8_t sent;    /* 1 if a request of the session may have changed the memory, else 0 */
};

/* Results of dfuse_watch_after, in addition to DFU_GOES_ON and the ends of dfu_watch.h. */
enum {
    DFU_GOES_RESTARTED = 8, /* the device was told to leave, and counts as gone: report a restart instead of the outcome */
    DFU_GOES_TO_STOP = 9    /* the device is gone, and the user has stopped the session: report nothing */
};

/* Returns 1 if the host told the device to leave, so that it may be gone at any request; else 0. */
uint32_t dfuse_watch_closes(const struct dfuse_session *session);

/* Returns the milliseconds to wait if the host requests a wait of `ms`: the same number, but 5 from the fourth wait of 0 ms in a row. */
uint32_t dfuse_watch_wait(struct dfuse_watch *watch, uint32_t ms);

/* Decides after an action with the outcome `seen`: returns the result of the first cause that applies. `command` is the first byte of the
 * action's body, or 0.
 *
 * | Cause                                                                   | Result                                    |
 * |-------------------------------------------------------------------------|-------------------------------------------|
 * | the host told the device to leave, the action is a request, and the     | DFU_GOES_RESTARTED                        |
 * | device is gone, another one is open, `seen` is DFU_SEEN_LEFT, or 3      |                                           |
 * | requests in a row had no answer                                         |                                           |
 * | the device is gone, and the user has stopped the session                | DFU_GOES_TO_STOP                          |
 * | the device is gone                                                      | DFU_ENDS_MANY if facts.many is not 0,     |
 * |                                                                         | else DFU_ENDS_GONE                        |
 * | 24 requests in a row had no answer, and the device was not told to      | DFU_ENDS_SILENT                           |
 * | leave                                                                   |                                           |
 * | another device is open, and the first one was not told to leave         | DFU_ENDS_OTHER                            |
 * | none of these                                                           | DFU_GOES_ON                               |
 */
uint32_t dfuse_watch_after(struct dfuse_watch *watch, const struct dfuse_session *session, const struct dfuse_action *action,
                           uint32_t command, uint32_t seen, const struct dfu_facts *facts);

#ifdef __cplusplus
}
#endif

#endif

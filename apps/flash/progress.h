/* SPDX-License-Identifier: MIT OR Apache-2.0 */
/* Shows the progress of a session. */
#ifndef DFU_FLASH_PROGRESS_H
#define DFU_FLASH_PROGRESS_H

#include <stdbool.h>
#include <stdint.h>

enum progress_part { PROGRESS_NONE, PROGRESS_SENDING, PROGRESS_COMPARING, PROGRESS_FETCHING, PROGRESS_ERASING };

/* Ways to show the progress: none; lines on standard error; a bar there, if it is a terminal; or, for a program that shows many sessions,
 * lines on standard output that begin with a tab and contain a bar. */
enum progress_style { PROGRESS_SILENT, PROGRESS_LINES, PROGRESS_BAR, PROGRESS_ROWS };

struct progress {
    enum progress_style style;
    uint64_t total;          /* bytes to transfer; 0 for an upload of unknown length */
    enum progress_part part; /* current part of the session */
    int64_t began_ms, shown_ms;
    uint64_t told_mark; /* tenths that were printed, or multiples of 65,536 bytes if the total is unknown */
    bool is_open;       /* a bar is on the current line of the terminal */
    int shown;          /* length of that line */
    uint32_t said_ms;   /* longest wait that was reported */
};

/* Chooses no progress with `is_quiet`. Else chooses a bar if standard error is a terminal, or lines if it isn't, or if `is_lines` is true
 * because other lines are printed there too. */
enum progress_style progress_style(bool is_quiet, bool is_lines);

void progress_begin(struct progress *progress, enum progress_style style, uint64_t total);

/* Shows that `bytes` bytes of this part are done. */
void progress_at(struct progress *progress, enum progress_part part, uint64_t bytes);

/* Reports that the device requests a wait of over 10 seconds, unless an equal or longer one was reported before. */
void progress_wait(struct progress *progress, uint32_t ms);

/* Ends the terminal line that shows the bar, if there is one. */
void progress_end(struct progress *progress);

#endif

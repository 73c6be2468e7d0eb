/* SPDX-License-Identifier: MIT OR Apache-2.0 */
/* Rows at the end of a terminal, one for each device that is being flashed. */
#ifndef DFU_FLASH_TERMINAL_ROWS_H
#define DFU_FLASH_TERMINAL_ROWS_H

#include "worker.h"

#include <stdbool.h>

struct rows {
    bool are_on; /* standard error is a terminal that can show rows */
    int drawn;   /* number of rows on the terminal */
    int64_t shown_ms;
};

void rows_begin(struct rows *rows, bool is_quiet);

/* Redraws the rows, at limited intervals. */
void rows_draw(struct rows *rows, const struct worker *workers, int count);

/* Removes the rows, for example before other lines are printed. */
void rows_clear(struct rows *rows);

#endif

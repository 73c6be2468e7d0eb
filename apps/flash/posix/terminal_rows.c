/* SPDX-License-Identifier: MIT OR Apache-2.0 */
/* Draws rows at the end of a terminal. Each drawing moves the cursor up to the first row, and clears everything below it. */
#define _POSIX_C_SOURCE 200809L
#include "../terminal_rows.h"
#include "../bar.h"
#include "../clock.h"

#include <stdio.h>
#include <stdlib.h>
#include <string.h>
#include <unistd.h>

#define SHOW_MS 100

void rows_begin(struct rows *rows, bool is_quiet)
{
    const char *kind = getenv("TERM");
    memset(rows, 0, sizeof *rows);
    rows->are_on = !is_quiet && isatty(STDERR_FILENO) == 1 && kind != NULL && strcmp(kind, "dumb") != 0;
}

void rows_clear(struct rows *rows)
{
    if (rows->drawn > 0)
        fprintf(stderr, "\033[%dA\r\033[J", rows->drawn);
    fflush(stderr);
    rows->drawn = 0;
    rows->shown_ms = 0;
}

/* Returns true if a worker has a row. A worker that still checks if its device is new has none before its first progress line. */
static bool is_shown(const struct worker *worker)
{
    return !worker->is_early || worker->row[0] != '\0';
}

/* Rows are cut to the terminal's width, and there are no more rows than lines. */
void rows_draw(struct rows *rows, const struct worker *workers, int count)
{
    int columns = bar_columns() - 1, most = bar_lines() - 3, more = 0;
    int64_t now_ms = clock_ms();
    if (!rows->are_on || (rows->shown_ms != 0 && now_ms - rows->shown_ms < SHOW_MS))
        return;
    rows_clear(rows);
    rows->shown_ms = now_ms;
    for (int at = 0; at < count; at++) {
        char line[256];
        if (!is_shown(&workers[at]))
            continue;
        if (rows->drawn >= most) {
            more++;
            continue;
        }
        snprintf(line, sizeof line, "%-9s %s", workers[at].bay->path,
                 workers[at].row[0] != '\0' ? workers[at].row : "looking at the device");
        fprintf(stderr, "%.*s\n", columns, line);
        rows->drawn++;
    }
    if (more > 0)
        rows->drawn += fprintf(stderr, "and %d more\n", more) > 0;
    fflush(stderr);
}

/* SPDX-License-Identifier: MIT OR Apache-2.0 */
/* Shows the progress of a session by a bar, or by a line for each ten percent. For an upload of unknown length, a line is printed for each
 * 65,536 bytes. */
#include "progress.h"
#include "bar.h"
#include "clock.h"
#include "messages.h"
#include "terminal.h"

#include <inttypes.h>
#include <stdio.h>
#include <string.h>

#define SHOW_MS 100 /* minimum time between two drawings of a bar */
#define LINE_BYTES 65536
#define LONG_MS 10000   /* waits longer than this are reported */
#define BAR_MOST 30     /* largest width of a bar */
#define ROW_BAR_MOST 10 /* largest width of a bar in a row */

static const char *const names[] = {"", "downloading", "comparing", "uploading", "erasing"};

enum progress_style progress_style(bool is_quiet, bool is_lines)
{
    return is_quiet ? PROGRESS_SILENT : !is_lines && terminal_is(stderr) ? PROGRESS_BAR : PROGRESS_LINES;
}

void progress_begin(struct progress *progress, enum progress_style style, uint64_t total)
{
    *progress = (struct progress){.style = style, .total = total};
}

/* Spaces overwrite the rest of the previous text, which may have been longer. */
static void show_bar(struct progress *progress, const char *line)
{
    int length = (int)strlen(line);
    fprintf(stderr, "\r%s%s%*s", say_mark, line, progress->shown > length ? progress->shown - length : 0, "");
    fflush(stderr);
    progress->shown = length;
    progress->is_open = true;
}

static void draw(struct progress *progress, uint64_t bytes)
{
    char line[BAR_ROOM];
    int64_t now = clock_ms();
    bool is_row = progress->style == PROGRESS_ROWS;
    bool is_last = progress->total > 0 && bytes == progress->total;
    if (!is_last && progress->shown_ms != 0 && now - progress->shown_ms < SHOW_MS)
        return;
    progress->shown_ms = now;
    bar_line(line, names[progress->part], bytes, progress->total, now - progress->began_ms, is_row ? ROW_BAR_MOST : BAR_MOST,
             is_row ? BAR_ROOM : bar_columns() - (int)strlen(say_mark));
    if (!is_row) {
        show_bar(progress, line);
        return;
    }
    printf("\t%s\n", line);
    fflush(stdout);
}

static void tell(struct progress *progress, uint64_t bytes)
{
    uint64_t tenths = progress->total > 0 ? 10 * bytes / progress->total : bytes / LINE_BYTES;
    if (tenths <= progress->told_mark)
        return;
    progress->told_mark = tenths;
    if (progress->total > 0)
        fprintf(stderr, "%s%s: %" PRIu64 "%%, %" PRIu64 " of %" PRIu64 " bytes\n", say_mark, names[progress->part], 10 * tenths, bytes,
                progress->total);
    else
        fprintf(stderr, "%s: %" PRIu64 " bytes\n", names[progress->part], bytes);
}

static void begin_part(struct progress *progress, enum progress_part part)
{
    progress_end(progress);
    progress->part = part;
    progress->began_ms = clock_ms();
    progress->shown_ms = 0;
    progress->told_mark = 0;
}

void progress_at(struct progress *progress, enum progress_part part, uint64_t bytes)
{
    if (progress->style == PROGRESS_SILENT)
        return;
    if (part != progress->part)
        begin_part(progress, part);
    /* During the comparison a device may return more bytes than the image has. */
    if (progress->total > 0 && bytes > progress->total)
        bytes = progress->total;
    if (progress->style == PROGRESS_LINES)
        tell(progress, bytes);
    else
        draw(progress, bytes);
}

void progress_wait(struct progress *progress, uint32_t ms)
{
    uint32_t seconds = ms / 1000;
    if (progress->style == PROGRESS_SILENT || ms <= LONG_MS || ms <= progress->said_ms)
        return;
    progress_end(progress);
    progress->said_ms = ms;
    fputs("dfu-flash: the device asks for a wait of ", stderr);
    if (seconds >= 3600)
        fprintf(stderr, "%" PRIu32 " h ", seconds / 3600);
    if (seconds >= 60)
        fprintf(stderr, "%" PRIu32 " min ", seconds / 60 % 60);
    fprintf(stderr, "%" PRIu32 " s\n", seconds % 60);
}

void progress_end(struct progress *progress)
{
    if (progress->is_open)
        fputc('\n', stderr);
    progress->is_open = false;
    progress->shown = 0;
}

/* SPDX-License-Identifier: MIT OR Apache-2.0 */
#include "bar.h"
#include "terminal.h"

#include <inttypes.h>
#include <stdio.h>
#include <string.h>

#define BAR 30   /* largest width of the bar */
#define LEAST 5  /* smallest width of the bar */
#define FRAME 20 /* columns around the bar: the text before it, brackets, the percentage */
#define AMOUNT_ROOM 96

int bar_columns(void)
{
    int columns, lines;
    return terminal_size(&columns, &lines) ? columns : 80;
}

int bar_lines(void)
{
    int columns, lines;
    return terminal_size(&columns, &lines) ? lines : 24;
}

/* Appends the remaining time at the average rate so far, rounded up. */
static void add_left(char *text, size_t room, uint64_t bytes, uint64_t total, int64_t passed_ms)
{
    double seconds = (double)passed_ms / 1000 * ((double)(total - bytes) / (double)bytes);
    const char *unit = seconds < 99 ? "s" : seconds < 5940 ? "min" : "h";
    double count = seconds < 99 ? seconds : seconds < 5940 ? seconds / 60 : seconds / 3600;
    if (count < 9999)
        snprintf(text, room, ", %d %s left", (int)count + 1, unit);
}

/* Writes the number of bytes that are done, the rate and the remaining time. */
static void write_amount(char text[AMOUNT_ROOM], uint64_t bytes, uint64_t total, int64_t passed_ms)
{
    int at = snprintf(text, AMOUNT_ROOM, "%" PRIu64, bytes);
    if (total > 0)
        at += snprintf(text + at, (size_t)(AMOUNT_ROOM - at), " of %" PRIu64, total);
    at += snprintf(text + at, (size_t)(AMOUNT_ROOM - at), " bytes");
    if (passed_ms > 0)
        at += snprintf(text + at, (size_t)(AMOUNT_ROOM - at), ", %.1f kB/s", (double)bytes / (double)passed_ms);
    if (bytes > 0 && bytes < total)
        add_left(text + at, (size_t)(AMOUNT_ROOM - at), bytes, total, passed_ms);
}

void bar_line(char line[BAR_ROOM], const char *what, uint64_t bytes, uint64_t total, int64_t passed_ms, int most, int columns)
{
    char amount[AMOUNT_ROOM];
    char bar[BAR + 1];
    int width = most < BAR ? most : BAR, room;
    write_amount(amount, bytes, total, passed_ms);
    room = columns - 1 - FRAME - (int)strlen(amount);
    width = room < width ? room : width;
    for (int at = 0; at < width; at++)
        bar[at] = (uint64_t)at * total < bytes * (uint64_t)width ? '=' : ' ';
    bar[width > 0 ? width : 0] = '\0';
    if (total == 0)
        snprintf(line, BAR_ROOM, "%-11s %s", what, amount);
    else if (width < LEAST)
        snprintf(line, BAR_ROOM, "%-11s %3" PRIu64 "%% %s", what, 100 * bytes / total, amount);
    else
        snprintf(line, BAR_ROOM, "%-11s [%s] %3" PRIu64 "%% %s", what, bar, 100 * bytes / total, amount);
    if (columns < BAR_ROOM)
        line[columns > 1 ? columns - 1 : 0] = '\0';
}

/* SPDX-License-Identifier: MIT OR Apache-2.0 */
/* Stores the suggested next step. A step that is set here replaces the general one from the tables of next.c, and may be a command line
 * built from the arguments of this run. */
#include "advice.h"
#include "../common/text.h"

#include <stdio.h>
#include <string.h>

#define LINE_ROOM 4096

static struct {
    int count;
    char **texts;
    char step[LINE_ROOM], seen[512], both[LINE_ROOM + 520];
} known;

void advice_keep(int count, char **texts)
{
    known.count = count;
    known.texts = texts;
}

void advice_is(const char *step)
{
    snprintf(known.step, sizeof known.step, "%s", step);
}

void advice_unless(const char *step)
{
    if (known.step[0] == '\0')
        advice_is(step);
}

void advice_first(const char *seen)
{
    snprintf(known.seen, sizeof known.seen, "%s", seen);
}

void advice_forget(void)
{
    known.step[0] = known.seen[0] = '\0';
}

const char *advice_seen(void)
{
    return known.seen[0] != '\0' ? known.seen : NULL;
}

const char *advice_or(const char *step)
{
    const char *best = known.step[0] != '\0' ? known.step : step;
    if (known.seen[0] == '\0' || best == NULL)
        return best;
    snprintf(known.both, sizeof known.both, "%s: %s", known.seen, best);
    return known.both;
}

/* Appends the program's arguments, quoted for a shell, after the first `length` bytes of the line. Returns false if one of them can't be
 * typed or the line has no room for them. */
static bool add_words(char *line, size_t length)
{
    for (int at = 1; at < known.count; at++) {
        if (length + 2 >= LINE_ROOM)
            return false;
        line[length++] = ' ';
        line[length] = '\0';
        if (!text_word(known.texts[at], line + length, LINE_ROOM - length))
            return false;
        length += strlen(line + length);
    }
    return true;
}

void advice_if(const char *condition)
{
    char step[LINE_ROOM];
    memcpy(step, known.step, sizeof step);
    snprintf(known.step, sizeof known.step, "%s, %.*s", condition, LINE_ROOM - 200, step);
}

void advice_run(const char *more)
{
    char line[LINE_ROOM];
    int length = snprintf(line, sizeof line, "run: dfu-flash %s", more);
    if (length < 0 || length >= LINE_ROOM)
        return;
    if (known.count < 2 || !add_words(line, (size_t)length))
        snprintf(line, sizeof line, "run it again with %s before the other words", more);
    advice_is(line);
}

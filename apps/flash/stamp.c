/* SPDX-License-Identifier: MIT OR Apache-2.0 */
/* Chooses the entry of the list for a board. A line of LIST.used has a time, an entry's name, a path and a report, separated by tabs. The
 * first report of each board is `begun`. */
#include "stamp.h"
#include "advice.h"
#include "find.h"
#include "messages.h"
#include "stamp_list.h"
#include "station.h"
#include "status.h"
#include "used.h"

#include <stdio.h>
#include <stdlib.h>
#include <string.h>

#define LINE_ROOM 4096

/* The board of this process. */
static struct {
    struct stamp *mine;
    char path[PATH_ROOM];
    bool is_quiet, is_taken, is_ended;
} board;

static void mark_used(struct stamp *stamp, const char *lost_at)
{
    if (stamp == NULL)
        return;
    stamp->state = STAMP_USED;
    stamp->lost_at = lost_at;
}

/* Parses a line of LIST.used. An entry that is no longer in the list is ignored. An entry that the list has in another form, such as
 * hexadecimal, also counts as used. */
static bool take_used(size_t number, char *line, struct stamp **sorted)
{
    char *fields[4], *lost_at;
    if (*line == '\0' || *line == '#')
        return true;
    for (int at = 0; at < 4; at++) {
        fields[at] = line;
        line = line == NULL ? NULL : strchr(line, '\t');
        if (line != NULL)
            *line++ = '\0';
        if ((line == NULL) != (at == 3))
            return stamp_list_fail(".used", number, "it is no time, entry, path and report, with a tab between each");
    }
    lost_at = strcmp(fields[3], "begun") == 0 ? fields[2] : NULL;
    mark_used(stamp_list_written(fields[1], sorted), lost_at);
    mark_used(stamp_list_named(fields[1], sorted), lost_at);
    return true;
}

static bool add(const char *name, const char *path, const char *report)
{
    char line[LINE_ROOM], time[32];
    int length;
    station_time(time);
    length = snprintf(line, sizeof line, "%s\t%s\t%s\t%s\n", time, name, path, report);
    return length > 0 && (size_t)length < sizeof line && used_add(line, (size_t)length);
}

/* Reports, once, each entry whose board was being flashed when the program was killed. */
static void say_lost(void)
{
    static const struct {
        int status;
        const char *name, *words;
    } killed = {STATUS_BROKEN, "broken", "the program was killed; the device may have the old image, the new one or neither"};
    for (size_t at = 0; at < stamp_list.count; at++) {
        struct stamp *stamp = &stamp_list.stamps[at];
        if (stamp->state != STAMP_USED || stamp->lost_at == NULL)
            continue;
        say_text(stderr, "dfu-flash: the program was killed when the board at ", stamp->lost_at, " had its entry\n");
        stamp_is(stamp, stamp->lost_at);
        station_add(killed.status, killed.name, killed.words, stamp->lost_at, NULL, 0);
        stamp_is(NULL, NULL);
    }
}

static bool take_record(size_t number, char *line, void *with)
{
    return take_used(number, line, with);
}

/* Reports that the record is new or empty, because boards may have entries of the list that aren't recorded. */
static void say_new(void)
{
    say_text(stderr, "dfu-flash: ", stamp_list.file, ".used is new, so the list begins with ");
    say_text(stderr, "", stamp_list.stamps[0].name, "\n");
}

bool stamp_begin(const struct words *words)
{
    struct stamp **sorted;
    const char *why;
    char *text;
    bool is_begun, is_new;
    if (words->stamp == NULL)
        return true;
    stamp_list.file = words->stamp;
    stamp_list.bytes = words->stamp_bytes;
    board.is_quiet = words->quiet;
    if (!stamp_list_read())
        return false;
    sorted = malloc(2 * stamp_list.count * sizeof(struct stamp *));
    if (sorted == NULL)
        return stamp_list_fail("", 0, "there is no memory");
    is_begun = stamp_list_sort(sorted) && (used_open(stamp_list.file, words->dry_run, &text, &why) || stamp_list_fail(".used", 0, why));
    is_new = is_begun && *text == '\0';
    is_begun = is_begun && stamp_list_lines(text, sorted, take_record);
    free(sorted);
    if (is_begun)
        stamp_list_warn();
    if (is_new && !words->quiet && !words->dry_run)
        say_new();
    if (is_begun && !words->quiet && !words->dry_run)
        say_lost();
    return is_begun;
}

struct stamp *stamp_hold(void)
{
    for (size_t at = 0; at < stamp_list.count; at++)
        if (stamp_list.stamps[at].state == STAMP_FREE) {
            stamp_list.stamps[at].state = STAMP_HELD;
            return &stamp_list.stamps[at];
        }
    return NULL;
}

void stamp_release(struct stamp *stamp)
{
    stamp->state = STAMP_FREE;
}

static size_t count_of(enum stamp_state up_to)
{
    size_t count = 0;
    for (size_t at = 0; at < stamp_list.count; at++)
        count += stamp_list.stamps[at].state <= up_to;
    return count;
}

size_t stamp_left(void)
{
    return count_of(STAMP_HELD);
}

size_t stamp_free(void)
{
    return count_of(STAMP_FREE);
}

void stamp_is(struct stamp *stamp, const char *taken_at)
{
    board.mine = stamp;
    board.is_taken = taken_at != NULL;
    board.is_ended = false;
    if (stamp == NULL || taken_at == NULL)
        return;
    stamp->state = STAMP_USED;
    snprintf(board.path, sizeof board.path, "%s", taken_at);
}

bool stamp_take(const char *path)
{
    if (board.mine == NULL || board.is_taken)
        return true;
    snprintf(board.path, sizeof board.path, "%s", path);
    if (!used_is_there()) {
        advice_is("bring that same file back, since it says which entries are used; then run it again");
        return stamp_list_fail(".used", 0, "it was removed or replaced while the program ran, so nothing is sent");
    }
    if (!add(board.mine->name, path, "begun"))
        return stamp_list_fail(".used", 0, "it can't be written, so nothing is sent");
    board.mine->state = STAMP_USED;
    board.is_taken = true;
    return true;
}

void stamp_end(int status, const char *report)
{
    if (stamp_taken() == NULL || board.is_ended)
        return;
    board.is_ended = true;
    if (!add(board.mine->name, board.path, report))
        stamp_list_fail(".used", 0,
                        used_is_there() ? "how the board ended can't be written" : "it was removed or replaced while the program ran");
    if (status != STATUS_DONE && status != STATUS_UNCONFIRMED && !board.is_quiet)
        say_text(stderr, "dfu-flash: ", board.mine->name, " is used: this board may have it, and no other gets it\n");
}

const char *stamp_taken(void)
{
    return board.mine != NULL && board.is_taken ? board.mine->name : NULL;
}

const char *stamp_next(void)
{
    return board.mine != NULL ? board.mine->name : NULL;
}

void stamp_bytes(uint8_t bytes[STAMP_BYTES])
{
    stamp_list_bytes(board.mine->value, bytes);
}

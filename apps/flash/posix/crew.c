/* SPDX-License-Identifier: MIT OR Apache-2.0 */
/* Reads the output of all processes, and prints it in whole lines. */
#define _POSIX_C_SOURCE 200809L
#include "../crew.h"
#include "../clock.h"
#include "../record.h"
#include "../terminal_rows.h"
#include "../same_serial.h"
#include "../stamp.h"
#include "../station.h"
#include "../status.h"
#include "../stop.h"
#include "wake.h"

#include <poll.h>
#include <stdio.h>
#include <stdlib.h>
#include <string.h>

#define ENDING_MS 5
#define GIVE_UP_MS 10000 /* time for a session to end after a signal */

static struct rows rows;

void crew_make(struct crew *crew, const struct words *words)
{
    memset(crew, 0, sizeof *crew);
    crew->is_json = words->json;
    crew->is_out = true;
    crew->came_ms = clock_ms();
    rows_begin(&rows, words->quiet);
}

/* Prints the kept lines of a process, because its device isn't the previous one. */
static void say_kept(struct worker *worker)
{
    for (char *line = worker->kept, *end; line != NULL && (end = strchr(line, '\n')) != NULL; line = end + 1) {
        rows_clear(&rows);
        fprintf(stderr, "%s: %.*s\n", worker->bay->path, (int)(end - line), line);
    }
    free(worker->kept);
    worker->kept = NULL;
}

/* Prints a line of a worker after its path. While the worker checks if the device is a new one, its lines are kept. */
static void print_worker_line(void *with, const char *line)
{
    struct worker *worker = with;
    if (worker->is_early) {
        worker_keep(worker, line);
        return;
    }
    say_kept(worker);
    rows_clear(&rows);
    fprintf(stderr, "%s: %s\n", worker->bay->path, line);
}

/* Returns true if `status` is worse than `than`. STATUS_UNCONFIRMED is less bad than any failure, so that it doesn't hide one. */
static bool is_worse(int status, int than)
{
    if (status == STATUS_DONE || than == STATUS_DONE)
        return status != STATUS_DONE;
    if (status == STATUS_UNCONFIRMED || than == STATUS_UNCONFIRMED)
        return status != STATUS_UNCONFIRMED;
    return status > than;
}

/* A device also counts as flashed if only its line in the log or the report is missing. */
static void count_end(struct crew *crew, int status, bool has_image, bool is_proved)
{
    bool is_unwritten = status == STATUS_FILE && is_proved, is_flashed = status == STATUS_DONE || is_unwritten;
    crew->worst = is_worse(status, crew->worst) ? status : crew->worst;
    crew->flashed += is_flashed;
    crew->unwritten += is_unwritten;
    crew->failed += !is_flashed;
    crew->unconfirmed += status == STATUS_UNCONFIRMED;
    crew->taken += has_image;
    crew->came_ms = clock_ms();
}

/* Starts a process at index `at` of the list, for a board that already had `tries` sessions. Returns true on success. */
static bool begin_at(struct crew *crew, int at, struct bay *bay, uint32_t tries)
{
    struct words words = *crew->words;
    words.tries = tries;
    rows_clear(&rows);
    if (worker_begin(&crew->workers[at], &words, crew->image, bay, rows.are_on))
        return true;
    count_end(crew, STATUS_FILE, false, false);
    bay_end(bay, true, crew->came_ms);
    return false;
}

void crew_begin(struct crew *crew, const struct words *words, struct image *image, struct bay *bay)
{
    crew->words = words;
    crew->image = image;
    crew->count += begin_at(crew, crew->count, bay, 0);
}

/* Prints the record for a process that printed none. */
static void print_lost(const struct crew *crew, const struct worker *worker, int status, const char *why)
{
    static struct found unread;
    static struct log none;
    unread.vendor = crew->vendor;
    unread.product = crew->product;
    unread.lacks_release = true;
    snprintf(unread.serial, sizeof unread.serial, "%s", worker->has_serial ? worker->bay->serial[worker->mode] : "");
    record_each(worker->bay->path, &unread, &none);
    record_since(worker->began_ms);
    record_short(status, status == STATUS_GONE ? "silent" : status == STATUS_ABORTED ? "aborted" : "broken", why, crew->is_json);
}

/* Reports a skipped device if it may be a different one. */
static void say_same(const struct worker *worker, int status)
{
    const char *what = bay_words(worker->bay, status);
    if (what != NULL)
        fprintf(stderr, "%s: %s\n", worker->bay->path, what);
}

/* Releases the stamp entry of a process that has ended, if its device didn't take it. Else the next record contains the entry. */
static void leave_stamp(struct worker *worker)
{
    if (worker->stamp != NULL && !worker->has_stamp)
        stamp_release(worker->stamp);
    stamp_is(worker->has_stamp ? worker->stamp : NULL, worker->has_stamp ? worker->bay->path : NULL);
}

/* Counts the result for a device that isn't the previous one, and stores it for the comparison with the next device in its bay. */
static void end_other(struct crew *crew, struct worker *worker, int status)
{
    bool has_image = worker->has_image || status == STATUS_DONE || status == STATUS_UNCONFIRMED;
    if (has_image && worker->has_serial && !crew->words->quiet)
        same_serial_note(worker->bay, worker->bay->serial[worker->mode]);
    if (!worker->has_serial)
        worker->bay->has_serial[0] = worker->bay->has_serial[1] = false;
    count_end(crew, status, has_image, worker->is_proved);
    bay_end(worker->bay, !has_image, clock_ms());
}

static void end(struct crew *crew, struct worker *worker, int status, const char *why)
{
    bool is_same = status == BAY_SAME || status == BAY_TAKEN || status == BAY_UNREAD || status == BAY_LEFT;
    rows_clear(&rows);
    leave_stamp(worker);
    station_try(worker->tries);
    if (is_same)
        say_same(worker, status);
    else
        say_kept(worker);
    if (why != NULL)
        print_lost(crew, worker, status, why);
    else if (!is_same)
        puts(worker->record);
    if (!record_out()) {
        crew->is_out = false;
        if (why == NULL && !is_same)
            fprintf(stderr, "%s\n", worker->record);
    }
    if (is_same)
        bay_end_same(worker->bay, clock_ms());
    else
        end_other(crew, worker, status);
    stamp_is(NULL, NULL);
    station_try(0);
    worker_drop(worker);
}

/* With --retry and --stamp: the board that returned may be a different one, so a new process starts with another entry. */
static bool begin_next(struct crew *crew, struct worker *worker, int at)
{
    struct bay *bay = worker->bay;
    uint32_t tries = worker->tries;
    worker->stamp = NULL;
    if (stop_cause != STOP_NONE) {
        end(crew, worker, STATUS_ABORTED, "given up by Ctrl-C or a signal; no block was sent");
        return false;
    }
    worker_drop(worker);
    return begin_at(crew, at, bay, tries);
}

/* Removes the processes that have ended, and kills those that exceed their deadline. */
static void reap(struct crew *crew)
{
    int left = 0;
    for (int at = 0; at < crew->count; at++) {
        struct worker *worker = &crew->workers[at];
        const char *why = NULL;
        int status = 0;
        if (worker->deadline_ms != 0 && clock_ms() >= worker->deadline_ms)
            worker_kill(worker);
        if (!worker_has_ended(worker, &status, &why))
            crew->workers[left++] = *worker;
        else if (status == BAY_NEXT)
            left += begin_next(crew, worker, left);
        else
            end(crew, worker, status, why);
    }
    crew->count = left;
}

void crew_step(struct crew *crew, int ms)
{
    struct pollfd polls[2 * BAYS_ROOM + 1];
    nfds_t count = 0;
    rows_draw(&rows, crew->workers, crew->count);
    for (int at = 0; at < crew->count; at++) {
        const struct worker *worker = &crew->workers[at];
        polls[count++] = (struct pollfd){worker->out.from, POLLIN, 0};
        polls[count++] = (struct pollfd){worker->err.from, POLLIN, 0};
        ms = worker_is_ending(worker) && ms > ENDING_MS ? ENDING_MS : ms;
    }
    if (stop_cause == STOP_NONE)
        polls[count++] = (struct pollfd){stop_descriptor(), POLLIN, 0};
    poll(polls, count, ms);
    for (int at = 0; at < crew->count; at++) {
        worker_read(&crew->workers[at], print_worker_line);
        if (!crew->workers[at].is_early)
            say_kept(&crew->workers[at]);
    }
    reap(crew);
}

void crew_stop(struct crew *crew)
{
    for (int at = 0; at < crew->count; at++)
        worker_stop(&crew->workers[at], clock_ms() + GIVE_UP_MS);
}

void crew_end(struct crew *crew)
{
    (void)crew;
    rows_clear(&rows);
}

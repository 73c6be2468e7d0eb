/* SPDX-License-Identifier: MIT OR Apache-2.0 */
/* Each device has its own process that runs a session for one device (one_device.c), so that a hanging device or a crash doesn't affect the
 * others. The process has its own process group, so that Ctrl-C reaches only the first process, which passes the signal on once. */
#define _POSIX_C_SOURCE 200809L
#include "../worker.h"
#include "../clock.h"
#include "../one_device.h"
#include "../record.h"
#include "../stamp.h"
#include "../status.h"
#include "../stop.h"
#include "own.h"
#include "wake.h"

#include <errno.h>
#include <fcntl.h>
#include <signal.h>
#include <stdio.h>
#include <stdlib.h>
#include <string.h>
#include <sys/wait.h>
#include <unistd.h>

#define CHOOSE_S 5     /* time for udev to set the access rights of a new device */
#define GRACE_MS 10000 /* time to give up after --timeout or a signal; a session needs up to 8 s */
#define NAME_ROOM 4096

/* Returns a free file name in FOLDER, made of the bay's path and a number. The caller frees it. Returns NULL if there is none. */
static char *log_name(const char *folder, const char *path)
{
    char *name = malloc(NAME_ROOM);
    for (unsigned number = 1; name != NULL && number < 1000000; number++) {
        int length = snprintf(name, NAME_ROOM, "%s/%s_%u.log", folder, path, number);
        if (length < 0 || length >= NAME_ROOM)
            break;
        if (access(name, F_OK) != 0 && errno == ENOENT)
            return name;
    }
    free(name);
    return NULL;
}

/* Reports that no name for a log is free, or that the name is too long. */
static int say_unnamed(const struct words *words)
{
    static const struct found unread;
    static struct log none;
    fputs("dfu-flash: the log has no free name, or too long a one\n", stderr);
    record_each(words->path, &unread, &none);
    record_none(STATUS_FILE, words->json);
    return STATUS_FILE;
}

/* Flashes the device of the bay, in the new process. */
static void work(const struct words *all, struct image *image, const struct bay *bay, bool has_rows)
{
    struct words words = *all;
    words.bay = bay;
    words.path = bay->path;
    words.has_ids = true;
    words.vendor = all->has_ids ? all->vendor : image->vendor;
    words.product = all->has_ids ? all->product : image->product;
    words.wait = true;
    words.patience = all->patience > CHOOSE_S ? all->patience : CHOOSE_S;
    words.log = all->folder == NULL ? NULL : log_name(all->folder, bay->path);
    stop_catch(0);
    if (all->folder != NULL && words.log == NULL)
        exit(say_unnamed(&words));
    exit(one_run(&words, image, has_rows ? PROGRESS_ROWS : PROGRESS_SILENT));
}

/* Sets up the new process: closes the pipes of the first process, and makes the new process give up when the first one ends. */
static void leave_first(int out, int err, pid_t first)
{
    stop_anew();
    setpgid(0, 0);
    own_end_with_parent();
    if (getppid() != first)
        _exit(STATUS_ABORTED);
    dup2(out, STDOUT_FILENO);
    dup2(err, STDERR_FILENO);
    for (int at = 3; at < 1024; at++)
        if (fcntl(at, F_GETFD) != -1 && (fcntl(at, F_GETFD) & FD_CLOEXEC) != 0)
            close(at);
}

/* Makes a pipe that programs started later don't inherit. */
static bool make_pipe(int ends[2])
{
    if (pipe(ends) != 0)
        return false;
    fcntl(ends[0], F_SETFD, FD_CLOEXEC);
    fcntl(ends[1], F_SETFD, FD_CLOEXEC);
    return true;
}

static bool make_pipes(int out[2], int err[2])
{
    if (!make_pipe(out))
        return false;
    if (make_pipe(err))
        return true;
    close(out[0]);
    close(out[1]);
    return false;
}

bool worker_begin(struct worker *worker, const struct words *words, struct image *image, struct bay *bay, bool has_rows)
{
    int out[2], err[2];
    pid_t first = getpid();
    bool has_pipes = make_pipes(out, err);
    memset(worker, 0, sizeof *worker);
    worker->stamp = stamp_hold();
    worker->tries = words->tries;
    fflush(NULL);
    worker->process = has_pipes ? fork() : -1;
    if (worker->process == 0) {
        leave_first(out[1], err[1], first);
        stamp_is(worker->stamp, NULL);
        work(words, image, bay, has_rows);
    }
    if (has_pipes) {
        close(out[1]);
        close(err[1]);
    }
    if (worker->process < 0) {
        fprintf(stderr, "dfu-flash: no process for the device at %s: %s\n", bay->path, strerror(errno));
        if (has_pipes) {
            close(out[0]);
            close(err[0]);
        }
        if (worker->stamp != NULL)
            stamp_release(worker->stamp);
        return false;
    }
    reader_begin(&worker->out, out[0]);
    reader_begin(&worker->err, err[0]);
    worker->bay = bay;
    worker->began_ms = clock_ms();
    worker->deadline_ms = words->timeout == 0 ? 0 : worker->began_ms + (int64_t)words->timeout * 1000 + GRACE_MS;
    worker->is_early = bay_is_early(bay);
    bay->state = BAY_BUSY;
    return true;
}

void worker_read(struct worker *worker, void (*say)(void *worker, const char *line))
{
    reader_read(&worker->err, say, worker);
    reader_read(&worker->out, worker_take, worker);
}

bool worker_is_ending(const struct worker *worker)
{
    return worker->out.from < 0 && worker->err.from < 0;
}

bool worker_has_ended(struct worker *worker, int *status, const char **why)
{
    static const char late[] =
        "it did not end in time, and its process was killed; the device may have the old image, the new one or neither";
    static const char failed[] = "its process failed; the device may have the old image, the new one or neither";
    int how;
    if (!worker_is_ending(worker) || waitpid(worker->process, &how, WNOHANG) == 0)
        return false;
    *why = NULL;
    *status = WIFEXITED(how) ? WEXITSTATUS(how) : 0;
    if (WIFEXITED(how) && (worker->record != NULL || (*status >= BAY_SAME && *status <= BAY_LEFT)))
        return true;
    *status = worker->is_killed ? STATUS_GONE : STATUS_BROKEN;
    *why = worker->is_killed ? late : failed;
    return true;
}

void worker_stop(struct worker *worker, int64_t deadline_ms)
{
    /* SIGINT is sent, because the worker gets SIGTERM when this process ends, and a second signal of one kind would kill it at once. */
    kill(worker->process, SIGINT);
    if (worker->deadline_ms == 0 || worker->deadline_ms > deadline_ms)
        worker->deadline_ms = deadline_ms;
}

void worker_kill(struct worker *worker)
{
    kill(worker->process, SIGKILL);
    worker->is_killed = true;
    worker->deadline_ms = 0;
}

void worker_drop(struct worker *worker)
{
    reader_drop(&worker->out);
    reader_drop(&worker->err);
    free(worker->record);
    free(worker->kept);
    memset(worker, 0, sizeof *worker);
}

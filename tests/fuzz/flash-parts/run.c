/* Plays runs of dfu-flash: `fuzz RUNS SEED FOLDER [FAULTS]`. Each run is a process with its own seed: SEED, SEED + 1, and so on. A single
 * run prints its events. After FAULTS faults, or 20, no more runs are played. */
#define _GNU_SOURCE
#include "run.h"
#include "books.h"
#include "bus.h"
#include "check.h"
#include "clock.h"
#include "firmware.h"
#include "random.h"
#include "temper.h"
#include "words.h"

#include <fcntl.h>
#include <inttypes.h>
#ifdef __SANITIZE_ADDRESS__
#include <sanitizer/common_interface_defs.h>
#include <sanitizer/lsan_interface.h>
#endif
#include <signal.h>
#include <stdio.h>
#include <stdlib.h>
#include <string.h>
#include <sys/mman.h>
#include <sys/stat.h>
#include <sys/wait.h>
#include <unistd.h>

#define MOST_SECONDS 60   /* maximum real time of one run */
#define MOST_FAULTS 20
#define LEAKS_EVERY 50    /* runs; a check for leaks takes longer than a run */
#define STATUSES 32
#define SAY_EVERY 10000

int flash_main(int count, char **words);
void __gcov_dump(void) __attribute__((weak));
const char *__asan_default_options(void);

int trace_stream = 2;

const char *__asan_default_options(void)
{
    return "exitcode=97:detect_leaks=1:leak_check_at_exit=0:allocator_may_return_null=1:detect_stack_use_after_return=0";
}

/* Opens a file, or one in memory if `name` is NULL. Its descriptor is 200 or more, so that it differs from those of the standard streams.
 */
static int stream(const char *name)
{
    int file = name == NULL ? memfd_create("stream", 0) : open(name, O_WRONLY), high = fcntl(file, F_DUPFD_CLOEXEC, 200);
    close(file);
    return high;
}

/* Opens standard output and standard error: each is a file in memory, is full, or is closed. Standard input is FILE if the command line
 * says so. One run in three ignores SIGHUP. */
static void streams_open(void)
{
    int full = stream("/dev/full"), in = asked.is_piped ? open(FILE_NAME, O_RDONLY) : -1;
    if (in >= 0)
        dup2(in, 0);
    if (in > 0)
        close(in);
    streams.out = chance(40) ? -1 : stream(NULL);
    streams.err = chance(100) ? -1 : stream(NULL);
    dup2(streams.out >= 0 ? streams.out : full, 1);
    dup2(streams.err >= 0 ? streams.err : full, 2);
    if (chance(30) && streams.out < 0)
        close(1);
    if (chance(30) && streams.err < 0)
        close(2);
    if (chance(3))
        signal(SIGHUP, SIG_IGN);
}

/* Returns the number of open files from descriptor 3 on, without pipes: the program keeps the pipe that wakes a wait until its end. */
static int files_open(void)
{
    struct stat file;
    int count = 0;
    for (int at = 3; at < 40; at++)
        count += fstat(at, &file) == 0 && !S_ISFIFO(file.st_mode);
    return count;
}

static void play(uint64_t seed)
{
    int files;
#ifdef __SANITIZE_ADDRESS__
    /* The sanitizer must not use the parent's stream, which is closed here. */
    __sanitizer_set_report_fd((void *)(intptr_t)trace_stream);
#endif
    random_begin(seed);
    temper_throw();
    outcome->is_fair = temper.is_fair;
    bus_make();
    firmware_make();
    words_throw();
    streams_open();
    for (int at = 0; at < asked.count; at++)
        trace("word %d: %s", at, asked.words[at]);
    files = files_open();
    outcome->status = flash_main(asked.count, asked.words);
    fflush(NULL);
    trace("status %d", outcome->status);
    books_close();
    if (files_open() != files)
        fault("files are left open");
    check_status(outcome->status);
    check_printed(outcome->status);
    firmware_check(outcome->status);
#ifdef __SANITIZE_ADDRESS__
    if (seed % LEAKS_EVERY == 0 && __lsan_do_recoverable_leak_check() != 0)
        fault("memory is lost");
#endif
    outcome->is_done = true;
}

/* Returns NULL, or the reason for which a run is faulty. */
static const char *why_bad(int how)
{
    static char text[700];
    if (outcome->fault[0] != '\0')
        return outcome->fault;
    if (WIFEXITED(how) && WEXITSTATUS(how) == 0 && outcome->is_done)
        return NULL;
    if (WIFSIGNALED(how) && outcome->is_killed && (WTERMSIG(how) == SIGINT || WTERMSIG(how) == SIGTERM || WTERMSIG(how) == SIGHUP))
        return NULL;
    if (WIFSIGNALED(how))
        snprintf(text, sizeof text, "signal %d%s", WTERMSIG(how), WTERMSIG(how) == SIGKILL ? ": it hangs" : "");
    else
        snprintf(text, sizeof text, "the run ended with %d: a sanitizer's report", WEXITSTATUS(how));
    return text;
}

/* Plays one run in its own process. */
static const char *run(uint64_t seed)
{
    const struct timespec most = {MOST_SECONDS, 0};
    sigset_t child;
    int how;
    pid_t process;
    memset(outcome, 0, sizeof *outcome);
    sigemptyset(&child);
    sigaddset(&child, SIGCHLD);
    process = fork();
    if (process < 0) {
        perror("fork");
        exit(1);
    }
    if (process == 0) {
        sigprocmask(SIG_UNBLOCK, &child, NULL);
        play(seed);
        temper = (struct temper){0};
        if (__gcov_dump)
            __gcov_dump();
        _exit(0);
    }
    if (sigtimedwait(&child, NULL, &most) < 0)
        kill(process, SIGKILL);
    waitpid(process, &how, 0);
    return why_bad(how);
}

static struct {
    uint64_t calls, transfers, statuses[STATUSES], fair, placed, killed;
} sums;

static void count(void)
{
    sums.calls += outcome->calls;
    sums.transfers += outcome->transfers;
    sums.fair += outcome->is_fair;
    sums.placed += outcome->is_placed;
    if (outcome->is_done)
        sums.statuses[outcome->status % STATUSES]++;
    else
        sums.killed++;
}

static void say_sums(void)
{
    printf("%" PRIu64 " calls of libusb, %" PRIu64 " transfers\n", sums.calls, sums.transfers);
    printf("devices that keep the table in %" PRIu64 " runs, with the image in place in %" PRIu64 "\n", sums.fair, sums.placed);
    for (int status = 0; status < STATUSES; status++)
        if (sums.statuses[status] > 0)
            printf("status %d: %" PRIu64 "\n", status, sums.statuses[status]);
    printf("ended by a signal: %" PRIu64 "\n", sums.killed);
}

static void set_up(void)
{
    sigset_t child;
    outcome = mmap(NULL, sizeof *outcome, PROT_READ | PROT_WRITE, MAP_SHARED | MAP_ANONYMOUS, -1, 0);
    trace_stream = fcntl(2, F_DUPFD_CLOEXEC, 100);
    if (outcome == MAP_FAILED || trace_stream < 0)
        exit(1);
    sigemptyset(&child);
    sigaddset(&child, SIGCHLD);
    sigprocmask(SIG_BLOCK, &child, NULL);
}

int main(int words, char **texts)
{
    uint64_t runs, seed, most = MOST_FAULTS, passed = 0, failed = 0;
    if (words < 4 || words > 5 || chdir(texts[3]) != 0)
        return 2;
    if (words == 5)
        most = strtoull(texts[4], NULL, 10);
    runs = strtoull(texts[1], NULL, 10);
    seed = strtoull(texts[2], NULL, 10);
    is_traced = runs == 1;
    set_up();
    for (uint64_t at = 0; at < runs && failed < most; at++) {
        const char *bad = run(seed + at);
        count();
        passed += bad == NULL;
        failed += bad != NULL;
        if (bad != NULL)
            printf("seed %" PRIu64 ": %s\n", seed + at, bad);
        if ((at + 1) % SAY_EVERY == 0)
            printf("%" PRIu64 " played\n", at + 1);
        fflush(stdout);
    }
    say_sums();
    printf("%" PRIu64 " passed, %" PRIu64 " failed\n", passed, failed);
    return failed != 0 || passed == 0;
}

/* SPDX-License-Identifier: MIT OR Apache-2.0 */
/* --all: the first process polls the bus, and starts one process for each device that matches the file. */
#define _POSIX_C_SOURCE 200809L
#include "../all_devices.h"
#include "../bays.h"
#include "../clock.h"
#include "../crew.h"
#include "../misfits.h"
#include "../next.h"
#include "../one_device.h"
#include "../record.h"
#include "../messages.h"
#include "../session.h"
#include "../stamp.h"
#include "../standard.h"
#include "../station.h"
#include "../status.h"
#include "../stop.h"
#include "../summary.h"
#include "../transport.h"

#include <stdio.h>
#include <sys/stat.h>
#include <unistd.h>

#define LOOK_MS 250

static struct {
    const struct words *words;
    struct image image;
    struct wanted wanted;
    struct bays bays;
    struct crew crew;
    struct port spare[PORTS_ROOM]; /* without --wait: devices that were connected at the start, kept in case another one fails */
    int spares, used;              /* numbers of spare devices: all, and those that were used */
    bool is_stopped;
} all;

static int say_file(void)
{
    record_none(STATUS_FILE, all.words->json);
    return STATUS_FILE;
}

/* Returns true if no folder for logs was given, or if logs can be created in it. */
static bool has_folder(void)
{
    const char *folder = all.words->folder;
    struct stat found;
    if (folder == NULL || (stat(folder, &found) == 0 && S_ISDIR(found.st_mode) && access(folder, W_OK | X_OK) == 0))
        return true;
    return say_failed(folder, " can't have the logs", "it has to be a folder that is there, in which files can be made");
}

/* Reads the image. Refuses an image for any device, unless --device names the identifiers, because it would be sent to every device with
 * DFU on the bus. */
static int take_file(void)
{
    int32_t refusal = image_read(&all.image, all.words);
    all.wanted = wanted_of(all.words);
    if (refusal == IMAGE_UNREAD)
        return say_file();
    if (refusal == IMAGE_WORDS)
        return STATUS_WORDS;
    if (refusal == 0)
        station_image(all.words, &all.image);
    if (refusal == 0 && !all.wanted.has_ids) {
        all.wanted.has_ids = all.wanted.is_of_file = true;
        all.wanted.vendor = all.image.vendor;
        all.wanted.product = all.image.product;
    }
    if (refusal == 0 && all.words->stamp != NULL && stamp_left() == 0)
        refusal = REFUSED_NO_STAMP;
    if (refusal == 0 && (all.wanted.vendor == ANY_ID || all.wanted.product == ANY_ID))
        refusal = REFUSED_ANY;
    if (refusal != 0)
        return record_refused(refusal, all.words->json) ? STATUS_REFUSED : STATUS_FILE;
    return STATUS_DONE;
}

/* Returns true if no more devices are needed. With --count, enough devices have the image or are being flashed. With --stamp and --wait, no
 * entry is free for another board. Without --wait, a session is started even for a board without an entry, and is refused. */
static bool is_enough(void)
{
    if (all.words->stamp != NULL && all.words->wait && stamp_free() == 0)
        return true;
    return all.words->boards != 0 && all.crew.taken + (unsigned)all.crew.count >= all.words->boards;
}

/* Lists the bus, and starts a process for each new device. Returns 0, or a libusb error after printing it. */
static int look(void)
{
    static struct port ports[PORTS_ROOM];
    int count = ports_look(&all.wanted, ports);
    int64_t now_ms = clock_ms();
    if (count < 0) {
        fprintf(stderr, "dfu-flash: the list of devices can't be had: %s\n", libusb_error_name(count));
        return count;
    }
    bays_miss(&all.bays, ports, count, now_ms);
    for (int at = 0; at < count; at++) {
        struct bay *bay = bays_see(&all.bays, &ports[at], now_ms);
        if (bay != NULL && !is_enough())
            crew_begin(&all.crew, all.words, &all.image, bay);
        else if (bay != NULL && !all.words->wait)
            all.spare[all.spares++] = ports[at];
    }
    if (!all.words->quiet)
        misfits_see(&all.bays, ports, count, all.crew.count == 0);
    return 0;
}

/* Without --wait, replaces a board that failed by one that was connected from the beginning. */
static void replace_failed(void)
{
    while (all.used < all.spares && !all.is_stopped && !is_enough()) {
        struct bay *bay = bays_see(&all.bays, &all.spare[all.used++], clock_ms());
        if (bay != NULL)
            crew_begin(&all.crew, all.words, &all.image, bay);
    }
}

/* Returns true if --all continues, because a process is running, or with --wait because another device may arrive. With --wait=SECONDS, the
 * time counts from the last arrival of a device or end of a session. */
static bool goes_on(void)
{
    int64_t patience_ms = (int64_t)all.words->patience * 1000;
    if (all.crew.count > 0)
        return true;
    if (all.is_stopped || !all.words->wait || is_enough())
        return false;
    return patience_ms == 0 || clock_ms() - all.crew.came_ms < patience_ms;
}

/* Handles the first signal: stops the running processes, and starts no more. */
static void stop(void)
{
    if (stop_cause == STOP_NONE || all.is_stopped)
        return;
    all.is_stopped = true;
    crew_stop(&all.crew);
}

static void loop(void)
{
    int64_t looked_ms = clock_ms();
    while (goes_on()) {
        crew_step(&all.crew, LOOK_MS);
        stop();
        replace_failed();
        if (!all.words->wait || all.is_stopped || clock_ms() - looked_ms < LOOK_MS)
            continue;
        looked_ms = clock_ms();
        look();
    }
    crew_end(&all.crew);
}

/* Reports that the program waits for devices, and if no process was started, why none of the connected devices matches. */
static void say_wait(void)
{
    libusb_context *usb;
    fputs("dfu-flash: each device that comes is flashed; Ctrl-C ends it\n", stderr);
    if (all.crew.count > 0 || transport->begin(&usb) != 0)
        return;
    say_not_yet(usb, &all.wanted);
    transport->end(usb);
}

/* Reports that no device matches, unless a signal stopped the run. Returns the exit status. */
static int say_none(void)
{
    libusb_context *usb;
    if (all.is_stopped)
        return STATUS_ABORTED;
    if (transport->begin(&usb) == 0) {
        say_missing(usb, &all.wanted);
        transport->end(usb);
    }
    return record_none(STATUS_NO_DEVICE, all.words->json);
}

int all_run(const struct words *words)
{
    int64_t began_ms = clock_ms();
    int status;
    all.words = words;
    next_for_all();
    status = has_folder() ? take_file() : say_file();
    if (status != STATUS_DONE)
        return status;
    stop_catch(0);
    crew_make(&all.crew, words);
    all.crew.vendor = all.wanted.vendor;
    all.crew.product = all.wanted.product;
    if (look() != 0)
        return record_none(STATUS_NO_DEVICE, words->json);
    if (words->wait && !words->quiet)
        say_wait();
    loop();
    if (all.crew.flashed + all.crew.failed == 0)
        return say_none();
    summary_print(&all.crew, words, (double)(clock_ms() - began_ms) / 1000);
    if (words->stamp != NULL && !words->quiet) {
        say_text(stderr, "dfu-flash: ", words->stamp, " has ");
        fprintf(stderr, "%zu more\n", stamp_left());
    }
    return all.crew.is_out ? all.crew.worst : STATUS_FILE;
}

/* SPDX-License-Identifier: MIT OR Apache-2.0 */
/* Runs one session, or lists the devices: the order of the steps, and the messages of a run that ends early. */
#define _POSIX_C_SOURCE 200809L
#include "one_device.h"
#include "advice.h"
#include "again.h"
#include "bays.h"
#include "clock.h"
#include "device.h"
#include "dfu_mode.h"
#include "files.h"
#include "list.h"
#include "next.h"
#include "record.h"
#include "messages.h"
#include "session.h"
#include "stamp.h"
#include "standard.h"
#include "station.h"
#include "status.h"
#include "stop.h"
#include "work.h"
#include "worker.h"
#include "transport.h"

#include <inttypes.h>
#include <stdio.h>
#include <stdlib.h>
#include <string.h>

#define RETRY_S 30 /* minimum time in seconds to wait for the device before the next attempt */

static bool is_again_now; /* a session of this process has already ended */

static struct device device;
static struct session session;
static uint8_t no_file[1], no_room[1]; /* the host's library needs valid pointers even for no bytes */

/* Records that there is no session, for a reason that was printed before. If several devices match a download without --path, --serial and
 * --dry-run, the step of next.c stays, which suggests --all. */
static int say_none(const struct words *words, int status)
{
    if (status == STATUS_SEVERAL && (words->job != JOB_DOWNLOAD || words->dry_run || words->path != NULL || words->serial != NULL))
        advice_unless("choose one of those that are listed, by --path, --serial, --interface or --alt");
    return record_none(status, words->json);
}

/* Records that a signal arrived before the session began. */
static int say_stopped(const struct words *words)
{
    bool is_out = record_short(STATUS_ABORTED, "aborted", "given up by Ctrl-C or a signal; no block was sent", words->json);
    return is_out ? STATUS_ABORTED : STATUS_FILE;
}

/* Reads the file, unless it was read before. If no device is selected by an option, the identifiers in the suffix select it. */
static int take_file(const struct words *words, struct image *image, struct wanted *wanted)
{
    int32_t refusal = image->bytes != NULL ? 0 : image_read(image, words);
    if (image->bytes != NULL)
        session.file = image->bytes;
    if (refusal == IMAGE_UNREAD) {
        advise_name(words->file);
        return say_none(words, STATUS_FILE);
    }
    if (refusal == IMAGE_WORDS)
        return STATUS_WORDS;
    if (refusal == DFU_FILE_NO_SIGNATURE || (refusal == DFU_FILE_TOO_SHORT && image->length > 0))
        advise_raw(device.usb, words);
    if (refusal < 0)
        return work_refused(&session, words, refusal);
    session.file_length = image->length;
    session.payload_length = image->payload;
    session.dfuse.file = image->is_dfuse ? &image->dfuse_info : NULL;
    station_image(words, image);
    if (image->is_dfuse && wanted->place.alternate < 0 && wanted->place.name == NULL)
        wanted->place.alternate = (int)image->dfuse_info.setting;
    if (!words->has_ids && words->path == NULL && words->serial == NULL) {
        wanted->has_ids = wanted->is_of_file = true;
        wanted->vendor = image->vendor;
        wanted->product = image->product;
    }
    return STATUS_DONE;
}

static int run_detach(const struct words *words, const struct wanted *wanted)
{
    struct verdict verdict;
    int status = device_choose(&device, wanted);
    if (status != STATUS_DONE)
        return say_none(words, status);
    work_ask(&session, words);
    session.goal = GOAL_DETACH;
    session.began_ms = clock_ms();
    status = device.info.is_upgrade ? STATUS_DONE : work_begin(&session, words);
    if (status != STATUS_DONE)
        return status;
    verdict = dfu_mode(&session);
    stop_no_more();
    return work_print(&session, words, &verdict);
}

/* Writes this board's stamp entry into the image. A dry run prints the entry. */
static int32_t take_stamp(const struct words *words, struct image *image)
{
    int32_t refusal = stamp_image(image, words);
    if (refusal != 0)
        return refusal;
    station_image(words, image);
    if (!words->quiet && words->dry_run)
        fprintf(stderr, "dfu-flash: %s would be written at 0x%" PRIx64 "\n", stamp_next(), words->stamp_place);
    return 0;
}

/* Clears the session, except its log, the number of attempts, and the fact that a block was sent. */
static void forget(void)
{
    struct log log = session.wire.trace.log;
    uint32_t tries = session.tries;
    bool had_sent = session.had_sent || session.watch.sent != 0 || session.dfuse.watch.sent != 0;
    memset(&session, 0, sizeof session);
    session.wire.trace.log = log;
    session.tries = tries;
    session.had_sent = had_sent;
    session.wire.device = &device;
    session.file = no_file;
    session.kept = no_room;
}

/* Begins the next attempt after the device returned. Returns BAY_NEXT if the board needs another stamp entry; else an exit status. */
static int begin_again(const struct words *words, struct image *image, struct wanted *wanted)
{
    bool is_next = words->stamp != NULL && !again_is_same(&session);
    if (is_next)
        again_leave_entry(&session, words);
    advice_forget();
    forget();
    return is_next && words->bay != NULL ? BAY_NEXT : take_file(words, image, wanted);
}

/* Returns a BAY_ status if the device counts as the previous one. Else returns 0, and with STATUS_DONE reports the serial number. */
static int compare_before(const struct bay *bay, int status)
{
    int same = 0;
    if (session.tries == 0 && status != STATUS_DONE)
        same = bay_verdict_unused(bay, &device.info, stop_cause != STOP_NONE ? STATUS_ABORTED : status);
    else if (session.tries == 0)
        same = bay_verdict(bay, &device.info);
    if (same == 0 && status == STATUS_DONE)
        worker_print_serial(device.info.is_upgrade, device.info.serial);
    return same;
}

/* Reads the file, chooses the device, and begins the session or refuses it. No DFU request is sent. */
static int prepare(const struct words *words, struct image *image, struct wanted *wanted)
{
    int32_t refusal;
    int status = words->job == JOB_UPLOAD ? STATUS_DONE : take_file(words, image, wanted), same;
    if (status != STATUS_DONE)
        return status;
    if (words->job == JOB_UPLOAD && !file_may_make(words->file, words->force))
        return say_none(words, STATUS_FILE);
    status = device_choose(&device, wanted);
    if (is_again_now && status != STATUS_DONE)
        return work_end(&session, words);
    if (is_again_now)
        status = begin_again(words, image, wanted);
    if (status == BAY_NEXT)
        return status;
    same = words->bay != NULL ? compare_before(words->bay, status) : 0;
    if (same != 0)
        return same;
    if (status != STATUS_DONE)
        return stop_cause != STOP_NONE ? say_stopped(words) : say_none(words, status);
    work_ask(&session, words);
    refusal = words->stamp == NULL ? 0 : take_stamp(words, image);
    refusal = refusal != 0 ? refusal : session_begin(&session);
    if (refusal == 0 && !is_again_now)
        work_say_board(&session, words, image);
    return refusal < 0 ? work_refused(&session, words, refusal) : STATUS_DONE;
}

static int flash(const struct words *words, struct image *image, struct wanted *wanted, enum progress_style style)
{
    int status = prepare(words, image, wanted);
    if (status != STATUS_DONE)
        return status;
    if (!words->dry_run)
        return work_run(&session, words, style);
    list_plan(&session, words->json);
    return record_out() ? STATUS_DONE : STATUS_FILE;
}

/* Prints the device's serial number in each mode, for the comparison with the next device in the bay. */
static void print_serials(void)
{
    for (int mode = 0; mode < 2; mode++)
        if (session.has_first[mode])
            worker_print_serial(mode, session.first[mode].serial);
}

/* Flashes the device. With --retry, waits for the device and flashes it again as long as `flash` returns WORK_AGAIN. */
static int flash_again(const struct words *words, struct image *image, struct wanted *wanted, enum progress_style style)
{
    struct words again = *words;
    char path[PATH_ROOM];
    int status = flash(words, image, wanted, style);
    while (status == WORK_AGAIN) {
        memcpy(path, device.path, sizeof path);
        again.path = has_ports(path) ? path : words->path;
        device_drop(&device);
        is_again_now = true;
        device.patience.is_asked = true;
        device.patience.seconds = words->patience > RETRY_S ? words->patience : RETRY_S;
        *wanted = wanted_of(&again);
        status = flash(&again, image, wanted, style);
    }
    return status;
}

int one_run(const struct words *words, struct image *image, enum progress_style style)
{
    struct wanted wanted = wanted_of(words);
    int error, status;
    memset(&device, 0, sizeof device);
    memset(&session, 0, sizeof session);
    session.tries = words->tries;
    session.had_sent = words->tries > 0;
    forget();
    error = transport->begin(&device.usb);
    record_of(&device.info, &session.wire.trace.log);
    if (words->bay != NULL)
        record_each(words->path, &device.info, &session.wire.trace.log);
    if (error != 0) {
        fprintf(stderr, "dfu-flash: USB can't be had: %s\n", libusb_error_name(error));
        return say_none(words, STATUS_NO_DEVICE);
    }
    device.is_stop = &stop_cause;
    device.patience = (struct patience){words->away_ms, words->wait, words->patience, words->quiet || words->bay != NULL, false};
    device.patience.is_back = words->bay != NULL && bay_is_early(words->bay);
    if (words->job == JOB_LIST)
        status = list_devices(device.usb, &wanted, words->json);
    else
        status = words->job == JOB_DETACH ? run_detach(words, &wanted) : flash_again(words, image, &wanted, style);
    if (words->bay != NULL)
        print_serials();
    log_close(&session.wire.trace.log);
    device_drop(&device);
    transport->end(device.usb);
    return status;
}

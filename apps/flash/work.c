/* SPDX-License-Identifier: MIT OR Apache-2.0 */
/* Carries out a session with the device that was found: sets it up from the options, begins it, runs it, and reports its end. */
#include "work.h"
#include "advice.h"
#include "clock.h"
#include "device.h"
#include "files.h"
#include "next.h"
#include "record.h"
#include "messages.h"
#include "stamp.h"
#include "standard.h"
#include "station.h"
#include "status.h"
#include "stop.h"
#include "worker.h"

#include <inttypes.h>
#include <stdio.h>

int work_refused(const struct session *session, const struct words *words, int32_t refusal)
{
    advise_refused(session, refusal);
    if (refusal == REFUSED_RUN_TIME)
        advise_detach(words);
    return record_refused(refusal, words->json) ? STATUS_REFUSED : STATUS_FILE;
}

/* Returns true if the suffix has the identifiers that --device gives for DFU mode. */
static bool is_for_dfu_mode(const struct session *session, const struct words *words)
{
    const uint8_t *end = session->file + session->file_length;
    return words->job == JOB_DOWNLOAD && words->has_dfu_ids && session->file_length >= PRODUCT_BACK
           && two_bytes(end - VENDOR_BACK) == words->dfu_vendor && two_bytes(end - PRODUCT_BACK) == words->dfu_product;
}

/* Returns the identifiers that the file must have: those of the device that was found. If --device gives the identifiers of both modes,
 * they are those of run-time mode, unless the file has those of DFU mode. */
static struct dfu_ids target(const struct session *session, const struct words *words)
{
    struct dfu_ids ids = {session->wire.device->info.release, session->wire.device->info.product, session->wire.device->info.vendor};
    if (words->has_dfu_ids && words->vendor != ANY_ID)
        ids.vendor = words->vendor;
    if (words->has_dfu_ids && words->product != ANY_ID)
        ids.product = words->product;
    if (is_for_dfu_mode(session, words)) {
        ids.vendor = words->dfu_vendor;
        ids.product = words->dfu_product;
    }
    return ids;
}

void work_ask(struct session *session, const struct words *words)
{
    session->is_upload = words->job == JOB_UPLOAD;
    session->wants_verified = words->verify;
    session->ids = target(session, words);
    session->has_limits = words->has_limits;
    session->actions = words->actions;
    session->restarts = words->restarts;
    session->transfer = words->transfer;
    session->dfuse.has_address = words->has_address;
    session->dfuse.stays = words->stays;
    session->dfuse.address = words->address;
    session->dfuse.length = words->length;
    session->wire.trace.is_on = words->verbose || words->log != NULL;
}

void work_say_board(const struct session *session, const struct words *words, const struct image *image)
{
    const struct found *info = &session->wire.device->info;
    if (words->job != JOB_DOWNLOAD || words->quiet || words->has_ids || words->path != NULL || words->serial != NULL
        || (image->vendor != ANY_ID && image->product != ANY_ID))
        return;
    fputs("dfu-flash: the file is for any board", stderr);
    if (image->vendor != ANY_ID)
        fprintf(stderr, " of vendor %04x", image->vendor);
    if (image->product != ANY_ID)
        fprintf(stderr, " with product %04x", image->product);
    fprintf(stderr, "; it %s sent to %04x:%04x at %s\n", words->dry_run ? "would be" : "is", info->vendor, info->product, info->path);
}

/* Marks the --stamp entry as taken by this board. With --all the first process is informed before the entry is recorded. */
static bool take_entry(const struct session *session, const struct words *words)
{
    if (words->bay != NULL && !worker_print_begun(session->tries + 1, words->stamp != NULL))
        return false;
    if (!stamp_take(session->wire.device->path))
        return false;
    if (words->stamp != NULL && !words->quiet) {
        say_text(stderr, "dfu-flash: the board gets ", stamp_taken(), "");
        fprintf(stderr, " at 0x%" PRIx64 "\n", words->stamp_place);
    }
    return true;
}

/* Opens the log and the device, and takes the board's stamp entry. From then on signals and --timeout end the session. */
int work_begin(struct session *session, const struct words *words)
{
    int error;
    if (session->wire.trace.log.file == NULL && !log_open(&session->wire.trace.log, words->log))
        return record_none(STATUS_FILE, words->json);
    error = device_open(session->wire.device);
    if (error != 0) {
        session->wire.device->info.access = error;
        return record_none(say_no_access(&session->wire.device->info), words->json);
    }
    station_try(session->tries + 1);
    if (words->job == JOB_DOWNLOAD && !take_entry(session, words))
        return record_none(STATUS_FILE, words->json);
    log_board(&session->wire.trace.log, session->wire.device->info.serial, station_port(session->wire.device->path), stamp_taken());
    stop_catch(words->timeout);
    session->began_ms = clock_ms();
    return STATUS_DONE;
}

int work_print(const struct session *session, const struct words *words, const struct verdict *verdict)
{
    bool has_image = verdict->status == STATUS_DONE || verdict->status == STATUS_UNCONFIRMED;
    bool is_out;
    if (words->bay != NULL && has_image)
        worker_print_taken(verdict->status == STATUS_DONE);
    is_out = record_print(session, verdict, words->json);
    if (verdict->code != 0 && !words->json && !words->quiet)
        fprintf(stderr, "dfu-flash: %s: %s\n", code_name(verdict->code), code_words(verdict->code, session->is_upload));
    if (!words->json)
        next_say(next_of_session(verdict->name, record_status(verdict->status) != verdict->status));
    return is_out ? record_status(verdict->status) : STATUS_FILE;
}

/* Creates the file of an upload. */
static bool make_file(struct session *session, const struct words *words)
{
    if (!file_make(words->file, words->force, session->kept, (size_t)session->host.kept))
        return false;
    session->made = words->file;
    if (!words->quiet) {
        say_text(stderr, "dfu-flash: ", words->file, "");
        fprintf(stderr, " has its %llu byte%s\n", (unsigned long long)session->host.kept, session->host.kept == 1 ? "" : "s");
    }
    return true;
}

/* With --retry a session whose device left or stopped answering is repeated, and only the last session has a record. */
static bool is_tried_again(struct session *session, const struct words *words, const struct verdict *verdict)
{
    bool is_lost = session->end == END_GONE || session->end == END_SILENT;
    if (!is_lost || session->tries >= words->retry || stop_cause != STOP_NONE)
        return false;
    session->tries++;
    if (!words->quiet)
        fprintf(stderr, "%sdfu-flash: %s: %s; it is tried again, %u of %u\n", say_mark, verdict->name, verdict->words,
                (unsigned)session->tries, (unsigned)words->retry);
    return true;
}

/* If another device returned, the record describes the device that left, as it was first seen in that mode, and the next step names the
 * other one. */
static void name_left(struct session *session)
{
    struct found *info = &session->wire.device->info;
    libusb_device *opened = info->device;
    const struct found *left = &session->first[session->has_first[info->is_upgrade] ? info->is_upgrade : !info->is_upgrade];
    if (session->end != END_OTHER || left->path[0] == '\0')
        return;
    advise_other(left, info);
    *info = *left;
    info->device = opened;
}

int work_end(struct session *session, const struct words *words)
{
    const struct verdict verdict = verdict_of(session);
    return work_print(session, words, &verdict);
}

int work_run(struct session *session, const struct words *words, enum progress_style style)
{
    struct verdict verdict;
    bool is_whole;
    int status = work_begin(session, words);
    if (status != STATUS_DONE)
        return status;
    progress_begin(&session->progress, style, session->payload_length);
    session_run(session);
    stop_no_more();
    progress_end(&session->progress);
    if (session->end == END_REFUSED)
        return work_refused(session, words, session->refusal);
    verdict = verdict_of(session);
    is_whole = verdict.status == STATUS_DONE || (verdict.status == STATUS_UNRESET && session->is_fetched);
    if (is_tried_again(session, words, &verdict))
        return WORK_AGAIN;
    name_left(session);
    if (session->goal == GOAL_UPLOAD && is_whole && !make_file(session, words))
        return record_none(STATUS_FILE, words->json);
    return work_print(session, words, &verdict);
}

/* SPDX-License-Identifier: MIT OR Apache-2.0 */
/* Prints the last line of standard output: the record of the device, or with --all of each device. */
#include "record.h"
#include "advice.h"
#include "clock.h"
#include "json.h"
#include "next.h"
#include "standard.h"
#include "station.h"
#include "status.h"

#include <stddef.h>
#include <stdio.h>

/* The device that records are about; the path is NULL if the run has only one device. */
static struct {
    const char *path;
    const struct found *info;
    struct log *log;
    int64_t began_ms;
} each;

void record_each(const char *path, const struct found *info, struct log *log)
{
    each.path = path;
    each.info = info;
    each.log = log;
    each.began_ms = clock_ms();
}

void record_since(int64_t ms)
{
    each.began_ms = ms;
}

void record_of(const struct found *info, struct log *log)
{
    each.info = info;
    each.log = log;
    each.began_ms = each.path == NULL ? clock_ms() : each.began_ms;
}

/* Closes the log before the record is printed, because the record states if the log is complete. */
static void end_log(int status, const char *report)
{
    char time[32];
    station_log(each.log == NULL ? NULL : each.log->name);
    if (each.log == NULL)
        return;
    station_time(time);
    log_end(each.log, report, status, time);
    log_close(each.log);
}

int record_status(int status)
{
    bool is_cut = each.log != NULL && each.log->is_cut;
    return is_cut && (status == STATUS_DONE || status == STATUS_UNCONFIRMED) ? STATUS_FILE : status;
}

/* Returns true if the device was found. Until then its identifiers are 0. */
static bool is_known(void)
{
    return each.info != NULL && (each.info->vendor != 0 || each.info->product != 0);
}

static const char *path_known(void)
{
    return each.path != NULL ? each.path : is_known() && each.info->path[0] != '\0' ? each.info->path : NULL;
}

/* Returns the seconds since the session began, or 0 if the record isn't about a session. */
static double each_seconds(void)
{
    return each.began_ms == 0 ? 0 : (double)(clock_ms() - each.began_ms) / 1000;
}

/* For a simulated board the report's name begins with `simulated`, so that a program that reads only the name isn't misled. */
static void begin(int status, const char *report)
{
    char name[48];
    printf("{%s\"status\":%d", *say_mark != '\0' ? "\"simulated\":true," : "", status);
    if (*say_mark != '\0')
        snprintf(name, sizeof name, "simulated %s", report);
    json_text("report", *say_mark != '\0' ? name : report);
}

static void end(const char *path, const char *step)
{
    json_text("next", step);
    if (*say_mark == '\0')
        station_json(path);
    if (each.path != NULL && each.log->name != NULL)
        json_text("log", each.log->name);
    if (each.log != NULL && each.log->is_cut)
        json_truth("log_whole", false);
    if (each.path != NULL)
        printf(",\"seconds\":%.3f", each_seconds());
    puts("}");
}

/* Prints the beginning of a text line: the mark of a simulated board, and with --all the path, port, serial number, stamp entry and seconds
 * of the device. */
static void begin_line(void)
{
    fputs(say_mark, stdout);
    if (each.path == NULL)
        return;
    printf("%s ", each.path);
    if (station_port(each.path) != NULL)
        say_text(stdout, "", station_port(each.path), " ");
    if (each.info->serial[0] != '\0')
        say_text(stdout, "serial ", each.info->serial, " ");
    station_print();
    printf("%.1f s ", each_seconds());
}

void record_begin(const struct session *session, int status, const char *report, const char *words)
{
    begin(status, report);
    json_text("words", words);
    json_session(session);
}

/* If standard output failed, prints the report on standard error, so that the outcome isn't lost. */
static bool is_printed(const char *name, const char *code, const char *words)
{
    if (record_out())
        return true;
    fprintf(stderr, "%sdfu-flash: %s%s%s: %s\n", say_mark, name, *code != '\0' ? " " : "", code, words);
    return false;
}

static void print_record(const struct session *session, const struct verdict *verdict, const char *step)
{
    begin(record_status(verdict->status), verdict->name);
    if (verdict->code != 0)
        json_text("code", code_name(verdict->code));
    json_text("words", verdict->words);
    if (verdict->code != 0)
        json_text("meaning", code_words(verdict->code, session->is_upload));
    json_session(session);
    if (session->dfuse.is_active)
        json_address(session->dfuse.address);
    json_number("bytes", session->goal == GOAL_UPLOAD ? session->host.kept : session->payload_length);
    if (session->made != NULL)
        json_text("file", session->made);
    json_number("actions", session->taken);
    json_number("transfers", session->wire.transfers);
    json_number("restarts", session->restarted);
    json_number("milliseconds", (uint64_t)(clock_ms() - session->began_ms));
    if (verdict->status == STATUS_DIFFERENT && session->difference.exists)
        json_difference(&session->difference, session->dfuse.is_active);
    end(session->wire.device->path, step);
}

bool record_print(const struct session *session, const struct verdict *verdict, bool is_json)
{
    const char *step, *code = verdict->code != 0 ? code_name(verdict->code) : "";
    bool is_added;
    end_log(verdict->status, verdict->name);
    advise_ended(session, verdict);
    station_code(code);
    is_added = station_add(record_status(verdict->status), verdict->name, verdict->words, session->wire.device->path,
                           &session->wire.device->info, each_seconds());
    step = next_of_session(verdict->name, record_status(verdict->status) != verdict->status);
    if (is_json) {
        print_record(session, verdict, step);
        return is_printed(verdict->name, code, verdict->words) && is_added;
    }
    begin_line();
    printf("%s%s%s: %s\n", verdict->name, *code != '\0' ? " " : "", code, verdict->words);
    return is_printed(verdict->name, code, verdict->words) && is_added;
}

static void print_short(int status, const char *name, const char *words, const char *step)
{
    begin(status, name);
    json_text("words", words);
    json_text("reason", status == STATUS_FILE ? say_reason() : NULL);
    if (is_known())
        json_ids(each.info);
    json_text("path", path_known());
    json_text("serial", is_known() && each.info->serial[0] != '\0' ? each.info->serial : NULL);
    end(path_known(), step);
}

/* Prints a short record. In text output the next step follows the line. */
static bool end_short(int status, const char *report, const char *words, const char *step, bool is_json)
{
    bool is_out;
    end_log(status, report);
    is_out = station_add(status, report, words, path_known(), each.info, each_seconds());
    if (is_json)
        print_short(status, report, words, step);
    else {
        begin_line();
        printf("%s: %s\n", report, words);
    }
    is_out = is_printed(report, "", words) && is_out;
    if (!is_json)
        next_say(step);
    return is_out;
}

bool record_short(int status, const char *report, const char *words, bool is_json)
{
    return end_short(status, report, words, next_of_end(report), is_json);
}

bool record_refused(int32_t refusal, bool is_json)
{
    return end_short(STATUS_REFUSED, refusal_name(refusal), refusal_words(refusal), next_of_refusal(refusal), is_json);
}

/* Reasons why there is no session, by the status. */
static const struct {
    int status;
    const char *name, *words;
} nones[] = {
    {STATUS_FILE, "file", "a file or a stream failed, or there was no memory"},
    {STATUS_NO_ACCESS, "no-access", "the device may not be opened, or another program or a driver has it"},
    {STATUS_SEVERAL, "several", "more than one device, interface or setting; choose by --device, --path, --serial, --interface or --alt"},
    {STATUS_NO_DEVICE, "none", "there is no such device"},
};

int record_none(int status, bool is_json)
{
    const struct verdict broken = verdict_broken();
    bool is_silent = !is_json && each.path == NULL;
    for (size_t at = 0; at < sizeof nones / sizeof *nones; at++) {
        if (nones[at].status != status)
            continue;
        end_log(status, nones[at].name);
        if (is_silent && !station_add(status, nones[at].name, nones[at].words, path_known(), each.info, each_seconds()))
            return STATUS_FILE;
        if (is_silent)
            next_say(next_of_end(nones[at].name));
        return (is_silent || record_short(status, nones[at].name, nones[at].words, is_json)) ? status : STATUS_FILE;
    }
    return record_short(broken.status, broken.name, broken.words, is_json) ? broken.status : STATUS_FILE;
}

bool record_out(void)
{
    if (fflush(stdout) == 0 && !ferror(stdout))
        return true;
    fputs("dfu-flash: standard output failed\n", stderr);
    return false;
}

/* SPDX-License-Identifier: MIT OR Apache-2.0 */
/* Lines of the report: JSON, or CSV (RFC 4180) if the file name ends in .csv. If the file exists and isn't such a report, no line is added,
 * and the file stays unchanged. */
#include "station.h"
#include "advice.h"
#include "append.h"
#include "json.h"
#include "next.h"
#include "ports_file.h"
#include "report_line.h"
#include "messages.h"
#include "stamp.h"
#include "status.h"

#include <errno.h>
#include <inttypes.h>
#include <stdio.h>
#include <string.h>
#include <time.h>

#define OLD_COLUMNS "time,status,report,words,image,crc32,vendor,product,release,serial,path,port,seconds"
#define COLUMNS OLD_COLUMNS ",tries"

static const char *header = COLUMNS "\n";
static const char stamp_header[] = COLUMNS ",stamp\n"; /* header of a report with --stamp */
static const char json_front[] = "{\"time\":\"";

static struct {
    int file;
    bool is_open, is_csv, has_image, has_failed;
    const char *name, *image, *code, *log;
    uint32_t crc, tries;
} station;

void station_time(char text[32])
{
    time_t seconds = time(NULL);
    const struct tm *utc = gmtime(&seconds);
    if (utc == NULL || strftime(text, 32, "%Y-%m-%dT%H:%M:%SZ", utc) == 0)
        text[0] = '\0';
}

/* Reports once that the report lacks a line, with the next step. Returns false. */
static bool say_unwritten(bool is_full, const char *step)
{
    bool has_moved = !is_full && append_has_moved();
    if (!station.has_failed)
        say_failed(station.name, " can't be written", is_full ? "there is no room for the whole line" : append_why());
    if (!station.has_failed)
        next_say(has_moved ? "put the report back, or name another file by --report: what is missing in it was printed" : step);
    station.has_failed = true;
    return false;
}

/* Returns the reason why lines can't be added to a file that begins with `front`, or NULL. */
static const char *why_not(const char *front)
{
    const char *wanted = station.is_csv ? header : json_front;
    if (*front == '\0' || strncmp(front, wanted, strlen(wanted)) == 0)
        return NULL;
    if (strncmp(front, OLD_COLUMNS, strlen(OLD_COLUMNS)) == 0 && strncmp(front, COLUMNS, strlen(COLUMNS)) != 0 && station.is_csv)
        return "it is a report of before the column `tries`: name another file";
    if (strncmp(front, COLUMNS "\n", sizeof COLUMNS) == 0 && station.is_csv)
        return "it is a report without the column `stamp`, and --stamp adds one: name another file";
    if (strcmp(front, stamp_header) == 0 && station.is_csv)
        return "it is a report with the column `stamp`, which goes with --stamp: name another file";
    return "what is there is no report of this program, and stays as it is";
}

/* Opens the report. Returns true if lines may be added, because it is new or begins like a report. */
static bool open_report(const char *name)
{
    char front[sizeof stamp_header];
    const char *why, *end = strrchr(name, '.');
    station.is_csv = end != NULL && (strcmp(end, ".csv") == 0 || strcmp(end, ".CSV") == 0);
    station.name = name;
    station.file = append_open(name, front, sizeof front, &why);
    if (station.file >= 0 && why_not(front) != NULL) {
        station.file = -1;
        why = why_not(front);
    }
    if (station.file < 0)
        return say_failed(name, " can't be the report", why);
    station.is_open = true;
    report_mend(station.file, name, station.is_csv ? header : NULL);
    return front[0] != '\0' || !station.is_csv || append_line(station.file, header, strlen(header))
           || say_unwritten(false, "make room, or name another file by --report, and run it again");
}

bool station_begin(const struct words *words)
{
    header = words->stamp != NULL ? stamp_header : header;
    station.image = words->job == JOB_DOWNLOAD ? words->file : NULL;
    return (words->ports == NULL || ports_file_read(words->ports)) && (words->report == NULL || open_report(words->report));
}

void station_image(const struct words *words, const struct image *image)
{
    station.has_image = true;
    station.image = words->file;
    station.crc = image_crc(image);
}

const char *station_port(const char *path)
{
    return path == NULL ? NULL : ports_file_name(path);
}

void station_json(const char *path)
{
    char time[32];
    station_time(time);
    json_text("time", time);
    json_text("port", station_port(path));
    json_text("stamp", stamp_taken());
    if (station.tries > 0)
        json_number("tries", station.tries);
    json_text("image", station.image);
    if (station.has_image)
        json_hex("crc32", station.crc, 8);
}

void station_try(uint32_t number)
{
    station.tries = number;
}

void station_print(void)
{
    if (stamp_taken() != NULL)
        say_text(stdout, "stamp ", stamp_taken(), " ");
    if (station.tries > 1)
        printf("tries %" PRIu32 " ", station.tries);
}

void station_code(const char *name)
{
    station.code = name;
}

void station_log(const char *name)
{
    station.log = name;
}

/* Appends the text of the result, with details in parentheses: the status code, the reason of a failed file, or what advice.h reports. */
static void put_words(struct report_line *line, int status, const char *words)
{
    char text[REPORT_LINE_ROOM];
    const char *seen = station.code != NULL && *station.code != '\0' ? station.code : status == STATUS_FILE ? say_reason() : advice_seen();
    snprintf(text, sizeof text, seen != NULL ? "%s (%s)" : "%s", words, seen);
    report_line_member(line, "words", text, false);
}

bool station_add(int status, const char *report, const char *words, const char *path, const struct found *info, double seconds)
{
    struct report_line line = {.is_csv = station.is_csv};
    char time[32], number[16], crc[9], ids[3][8] = {"", "", ""}, took[32], tries[16];
    bool is_known = info != NULL && (info->vendor != 0 || info->product != 0);
    stamp_end(status, report);
    if (!station.is_open)
        return true;
    station_time(time);
    snprintf(number, sizeof number, "%d", status);
    snprintf(crc, sizeof crc, "%08" PRIx32, station.crc);
    snprintf(took, sizeof took, "%.3f", seconds);
    snprintf(tries, sizeof tries, "%" PRIu32, station.tries);
    for (int at = 0; is_known && at < 3; at++)
        snprintf(ids[at], sizeof ids[at], "%04x", at == 0 ? info->vendor : at == 1 ? info->product : info->release);
    if (!station.is_csv)
        report_line_put(&line, "{", 1);
    report_line_member(&line, "time", time, false);
    report_line_member(&line, "status", number, true);
    report_line_member(&line, "report", report, false);
    put_words(&line, status, words);
    report_line_member(&line, "image", station.image, false);
    report_line_member(&line, "crc32", station.has_image ? crc : NULL, false);
    report_line_member(&line, "vendor", is_known ? ids[0] : NULL, false);
    report_line_member(&line, "product", is_known ? ids[1] : NULL, false);
    report_line_member(&line, "release", is_known && !info->lacks_release ? ids[2] : NULL, false);
    report_line_member(&line, "serial", info != NULL && info->serial[0] != '\0' ? info->serial : NULL, false);
    report_line_member(&line, "path", path, false);
    report_line_member(&line, "port", station_port(path), false);
    report_line_member(&line, "seconds", took, true);
    report_line_member(&line, "tries", station.tries > 0 ? tries : NULL, true);
    if (header == stamp_header)
        report_line_member(&line, "stamp", stamp_taken(), false);
    if (!station.is_csv)
        report_line_member(&line, "log", station.log, false);
    report_line_put(&line, station.is_csv ? "\n" : "}\n", station.is_csv ? 1 : 2);
    errno = 0;
    return (!line.is_full && append_line(station.file, line.text, line.length))
           || say_unwritten(line.is_full, "make room, or name another file by --report: what is missing in it was printed");
}

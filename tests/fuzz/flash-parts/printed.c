/* Checks the text that the program printed: it has no control characters for a terminal, and its record is JSON with the exit status. */
#include "books.h"
#include "check.h"
#include "run.h"
#include "temper.h"
#include "words.h"

#include <ctype.h>
#include <stdio.h>
#include <string.h>
#include <unistd.h>

#define MOST_PRINTED 4000000

struct streams streams;

/* Returns the number of bytes of a UTF-8 character, or 0 if it is not valid. */
static int character(const unsigned char *at)
{
    int more = at[0] < 0x80 ? 0 : at[0] < 0xc2 ? -1 : at[0] < 0xe0 ? 1 : at[0] < 0xf0 ? 2 : at[0] < 0xf5 ? 3 : -1;
    for (int next = 1; next <= more; next++)
        if ((at[next] & 0xc0) != 0x80)
            return 0;
    if ((at[0] == 0xe0 && at[1] < 0xa0) || (at[0] == 0xed && at[1] > 0x9f) || (at[0] == 0xf0 && at[1] < 0x90))
        return 0;
    return more + 1;
}

static void check_text(const char *stream, const char *text, bool has_bar)
{
    const unsigned char *at = (const unsigned char *)text;
    /* Unknown arguments are printed as they were given, so this output is not checked. */
    if (!asked.is_sound)
        return;
    while (*at != '\0') {
        int length = character(at);
        bool is_control = *at < 0x20 || *at == 0x7f || (*at == 0xc2 && at[1] < 0xa0);
        if (length == 0)
            fault("%s has the byte %02x, which is no text", stream, *at);
        if (is_control && *at != '\n' && !(*at == '\r' && has_bar))
            fault("%s has the control character %02x", stream, *at == 0xc2 ? at[1] : *at);
        at += length;
    }
}

static const char *string_end(const char *at)
{
    if (*at++ != '"')
        return NULL;
    while (*at != '"') {
        if ((unsigned char)*at < 0x20)
            return NULL;
        if (*at == '\\' && strchr("\"\\/bfnrtu", *++at) == NULL)
            return NULL;
        at++;
    }
    return at + 1;
}

/* Returns the end of a JSON value: a string, a number, true, false, null, or with `depth` an array or an object of values; NULL if it is
 * none. */
static const char *value_end(const char *at, int depth)
{
    char close = *at == '{' ? '}' : ']';
    bool is_record = *at == '{';
    if (*at == '"')
        return string_end(at);
    if (isdigit((unsigned char)*at) || islower((unsigned char)*at)) {
        while (isalnum((unsigned char)*at))
            at++;
        return at;
    }
    if ((*at != '{' && *at != '[') || depth == 0)
        return NULL;
    if (at[1] == close)
        return at + 2;
    do {
        at++;
        if (is_record) {
            at = string_end(at);
            if (at == NULL || *at++ != ':')
                return NULL;
        }
        at = value_end(at, depth - 1);
    } while (at != NULL && *at == ',');
    return at != NULL && *at == close ? at + 1 : NULL;
}

static void check_record(const char *line, int status)
{
    char begin[32];
    const char *end = value_end(line, 4);
    snprintf(begin, sizeof begin, "{\"status\":%d,", status);
    if (strncmp(line, begin, strlen(begin)) != 0)
        fault("the record doesn't begin with the status %d: %s", status, line);
    if (end == NULL || strcmp(end, "\n") != 0)
        fault("the record isn't JSON: %s", line);
}

static const char *last_line(const char *text)
{
    const char *at = text + strlen(text);
    while (at > text + 1 && at[-2] != '\n')
        at--;
    return at > text ? at - 1 : text;
}

static void read_all(int stream, char *text)
{
    ssize_t count = pread(stream, text, MOST_PRINTED, 0);
    text[count > 0 ? count : 0] = '\0';
    if (count > 0 && memchr(text, '\0', (size_t)count) != NULL)
        fault("a stream has a byte 00");
}

/* Checks that each line of a list in JSON is a JSON value. */
static void check_list(const char *out)
{
    while (asked.is_json && *out != '\0') {
        out = value_end(out, 4);
        if (out == NULL || *out++ != '\n')
            fault("a line of the list isn't JSON");
    }
}

/* Checks that the report states that no block was sent only if none was, and that the old image may remain only if one was. */
static void check_harm(const char *line)
{
    if (strstr(line, "no block was sent") != NULL && check_has_downloaded())
        fault("a block was sent, and the report is: %s", line);
    if (strstr(line, "may have the old image") != NULL && !check_has_downloaded())
        fault("no block was sent, and the report is: %s", line);
}

static void check_out(const char *out, int status)
{
    const char *line = last_line(out);
    /* Refused arguments cause no report and no record. */
    if (!asked.is_sound || status == 2)
        return;
    check_harm(line);
    if (asked.job == JOB_LIST && status == 0) {
        check_list(out);
        return;
    }
    if (asked.is_json) {
        check_record(line, status);
        return;
    }
    if (asked.job == JOB_DOWNLOAD && !asked.is_dry && status == 0 && strncmp(line, "verified: ", 10) != 0
        && strncmp(line, "installed: ", 11) != 0)
        fault("the status is 0, and the report is: %s", line);
    if (asked.job == JOB_DETACH && status == 0 && strncmp(line, "detached: ", 10) != 0)
        fault("the status is 0, and the report is: %s", line);
    if (asked.job == JOB_UPLOAD && !asked.is_dry && status == 0 && strncmp(line, "uploaded: ", 10) != 0)
        fault("the status is 0, and the report is: %s", line);
}

void check_printed(int status)
{
    static char out[MOST_PRINTED + 1], err[MOST_PRINTED + 1];
    if (streams.err >= 0) {
        read_all(streams.err, err);
        trace("on standard error: %s", err);
        check_text("standard error", err, temper.is_terminal);
    }
    if (streams.out < 0) {
        if (status == 0 && asked.is_sound && asked.job != JOB_LIST)
            fault("standard output failed, and the status is 0");
        return;
    }
    read_all(streams.out, out);
    trace("on standard output: %s", out);
    check_text("standard output", out, false);
    check_out(out, status);
}

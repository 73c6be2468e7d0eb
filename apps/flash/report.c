/* SPDX-License-Identifier: MIT OR Apache-2.0 */
/* Repairs the last line of a report that a power cut has broken off, or that an editor has left without a newline. */
#include "station.h"
#include "append.h"

#include <errno.h>
#include <string.h>

static const char *columns; /* first line of a CSV report */

/* Counts the commas outside of quotation marks. Sets `is_quoted` if a quotation isn't closed. */
static size_t commas(const char *line, size_t length, bool *is_quoted)
{
    size_t count = 0;
    *is_quoted = false;
    for (size_t at = 0; at < length; at++) {
        *is_quoted = *is_quoted != (line[at] == '"');
        count += line[at] == ',' && !*is_quoted;
    }
    return count;
}

static bool is_csv_line(const char *line, size_t length)
{
    bool is_quoted;
    size_t wanted = commas(columns, strlen(columns), &is_quoted);
    return length == 0 || (commas(line, length, &is_quoted) == wanted && !is_quoted && line[length - 1] != '\0');
}

static bool is_json_line(const char *line, size_t length)
{
    return length == 0 || line[length - 1] == '}';
}

void report_mend(int file, const char *name, const char *header)
{
    columns = header;
    append_mend(file, name, header != NULL ? is_csv_line : is_json_line);
    errno = 0;
}

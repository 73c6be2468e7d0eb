/* SPDX-License-Identifier: MIT OR Apache-2.0 */
#include "report_line.h"
#include "../common/text.h"

#include <stdint.h>
#include <stdio.h>
#include <string.h>

void report_line_put(struct report_line *line, const char *bytes, size_t length)
{
    line->is_full = line->is_full || length >= sizeof line->text - line->length;
    if (line->is_full)
        return;
    memcpy(line->text + line->length, bytes, length);
    line->length += length;
}

/* Writes a byte that can't be part of a line as \xNN. In JSON the backslash is escaped as well. */
static void put_escaped(struct report_line *line, unsigned char byte)
{
    char digits[8];
    int length = snprintf(digits, sizeof digits, line->is_csv ? "\\x%02x" : "\\\\x%02x", byte);
    report_line_put(line, digits, (size_t)length);
}

static void put_text(struct report_line *line, const char *text)
{
    report_line_put(line, "\"", 1);
    while (*text != '\0') {
        uint32_t character = 0;
        size_t length = text_character(text, &character);
        if (length == 0 || text_is_control(character))
            for (size_t at = 0; at < (length > 0 ? length : 1); at++)
                put_escaped(line, (unsigned char)text[at]);
        else if (*text == '"')
            report_line_put(line, line->is_csv ? "\"\"" : "\\\"", 2);
        else if (*text == '\\' && !line->is_csv)
            report_line_put(line, "\\\\", 2);
        else
            report_line_put(line, text, length);
        text += length > 0 ? length : 1;
    }
    report_line_put(line, "\"", 1);
}

void report_line_member(struct report_line *line, const char *name, const char *text, bool is_number)
{
    bool is_first = line->length == 0 || line->text[line->length - 1] == '{';
    if (text == NULL && !line->is_csv)
        return;
    if (!is_first)
        report_line_put(line, ",", 1);
    if (!line->is_csv) {
        put_text(line, name);
        report_line_put(line, ":", 1);
    }
    if (text != NULL && is_number)
        report_line_put(line, text, strlen(text));
    else if (text != NULL)
        put_text(line, text);
}

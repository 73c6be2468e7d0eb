/* SPDX-License-Identifier: MIT OR Apache-2.0 */
/* Each line of the list is an entry: text, or hexadecimal bytes after 0x. If the line has a tab, the part before it is the entry's name in
 * records, so that the records don't contain a key. Empty lines and lines that begin with # are ignored. */
#include "stamp_list.h"
#include "files.h"
#include "messages.h"
#include "used.h"
#include "../common/text.h"

#include <ctype.h>
#include <stdio.h>
#include <stdlib.h>
#include <string.h>

#define BLANKS " \t\r"
#define DIGITS "0123456789abcdefABCDEF"

struct stamp_list stamp_list;

bool stamp_list_fail(const char *ending, size_t line, const char *why)
{
    char place[40];
    snprintf(place, sizeof place, line > 0 ? "%s, line %zu" : "%s", ending, line);
    return say_failed(stamp_list.file, place, why);
}

const char *stamp_list_bytes(const char *value, uint8_t bytes[STAMP_BYTES])
{
    static char long_one[64];
    bool is_hex = value[0] == '0' && (value[1] == 'x' || value[1] == 'X');
    size_t length = strlen(value), digits = is_hex ? length - 2 : 0;
    memset(bytes, 0, STAMP_BYTES);
    if (is_hex && (digits == 0 || digits % 2 != 0 || value[2 + strspn(value + 2, DIGITS)] != '\0'))
        return "0x is before bytes, of two hexadecimal digits each";
    if (!text_is_typed(value))
        return "it has a control character, or is no UTF-8";
    length = is_hex ? digits / 2 : length;
    snprintf(long_one, sizeof long_one, "it has %zu bytes, and its place %zu", length, stamp_list.bytes);
    if (length > stamp_list.bytes)
        return long_one;
    for (size_t at = 0; at < length; at++) {
        const char pair[3] = {value[is_hex ? 2 + 2 * at : at], is_hex ? value[3 + 2 * at] : '\0', '\0'};
        bytes[at] = is_hex ? (uint8_t)strtoul(pair, NULL, 16) : (uint8_t)value[at];
    }
    return NULL;
}

/* Removes the blanks at both ends. */
static char *trim(char *text)
{
    size_t length;
    text += strspn(text, BLANKS);
    for (length = strlen(text); length > 0 && strchr(BLANKS, text[length - 1]) != NULL; length--)
        text[length - 1] = '\0';
    return text;
}

/* Sets the name and the value of an entry. Hexadecimal bytes without a name are named by their digits in lower case, so that equal bytes
 * have the same name. */
static void name_it(struct stamp *stamp)
{
    char *tab = strchr(stamp->name, '\t');
    stamp->value = tab == NULL ? stamp->name : trim(tab + 1);
    if (tab != NULL) {
        *tab = '\0';
        stamp->name = trim(stamp->name);
    } else if (strncmp(stamp->name, "0x", 2) == 0 || strncmp(stamp->name, "0X", 2) == 0)
        for (char *at = stamp->name; *at != '\0'; at++)
            *at = (char)tolower((unsigned char)*at);
}

/* Returns the reason why a line is invalid, or NULL. The blanks at its ends aren't removed yet. */
static const char *why_none(char *line)
{
    size_t length;
    line += strspn(line, " \r");
    for (length = strlen(line); length > 0 && strchr(" \r", line[length - 1]) != NULL; length--)
        ;
    if (length > 0 && (line[0] == '\t' || line[length - 1] == '\t'))
        return "it has a tab with nothing before it, or behind it";
    return line[0] == '"' ? "it begins with a quotation mark, which would be written too" : NULL;
}

/* Returns true if a text seems to contain more than an entry, such as another column or a comment. */
static bool is_odd(const char *text)
{
    return strpbrk(text, ",;") != NULL || strstr(text, " #") != NULL || strstr(text, "  ") != NULL;
}

void stamp_list_warn(void)
{
    const struct stamp *first = NULL;
    size_t more = 0;
    for (size_t at = stamp_list.count; at-- > 0;) {
        const struct stamp *stamp = &stamp_list.stamps[at];
        if (stamp->state == STAMP_USED || (!is_odd(stamp->name) && !is_odd(stamp->value)))
            continue;
        more += first != NULL;
        first = stamp;
    }
    if (first == NULL)
        return;
    say_text(stderr, "dfu-flash: ", stamp_list.file, ", ");
    fprintf(stderr, "line %zu is taken as it stands: ", first->line);
    say_text(stderr, "", first->name, "");
    if (more > 0)
        fprintf(stderr, "; so are %zu more", more);
    fputc('\n', stderr);
}

static bool take_line(size_t number, char *line, size_t *room)
{
    uint8_t bytes[STAMP_BYTES];
    struct stamp *stamp;
    const char *why = why_none(line);
    line = trim(line);
    if (*line == '\0' || *line == '#')
        return true;
    if (stamp_list.count == *room) {
        stamp = realloc(stamp_list.stamps, (2 * *room + 64) * sizeof *stamp);
        if (stamp == NULL)
            return stamp_list_fail("", number, "there is no memory");
        stamp_list.stamps = stamp;
        *room = 2 * *room + 64;
    }
    stamp = &stamp_list.stamps[stamp_list.count++];
    *stamp = (struct stamp){.name = line, .line = number};
    name_it(stamp);
    if (why == NULL && *stamp->value == '"')
        why = "it begins with a quotation mark, which would be written too";
    why = why != NULL ? why : stamp_list_bytes(stamp->value, bytes);
    if (why == NULL && (!text_is_typed(stamp->name) || strlen(stamp->name) > 2 * STAMP_BYTES + 2))
        why = "its name is too long, has a control character, or is no UTF-8";
    return why == NULL || stamp_list_fail("", number, why);
}

static int by_name(const void *one, const void *other)
{
    return strcmp((*(struct stamp *const *)one)->name, (*(struct stamp *const *)other)->name);
}

static int by_bytes(const void *one, const void *other)
{
    uint8_t ones[STAMP_BYTES], others[STAMP_BYTES];
    stamp_list_bytes((*(struct stamp *const *)one)->value, ones);
    stamp_list_bytes((*(struct stamp *const *)other)->value, others);
    return memcmp(ones, others, STAMP_BYTES);
}

bool stamp_list_sort(struct stamp **sorted)
{
    int (*const orders[])(const void *, const void *) = {by_name, by_bytes};
    for (size_t at = 0; at < 2 * stamp_list.count; at++)
        sorted[at] = &stamp_list.stamps[at % stamp_list.count];
    for (int order = 0; order < 2; order++, sorted += stamp_list.count) {
        qsort(sorted, stamp_list.count, sizeof(struct stamp *), orders[order]);
        for (size_t at = 1; at < stamp_list.count; at++) {
            char why[80];
            size_t first = sorted[at - 1]->line, second = sorted[at]->line;
            if (orders[order](&sorted[at - 1], &sorted[at]) != 0)
                continue;
            snprintf(why, sizeof why, "it is the same as line %zu", first < second ? first : second);
            return stamp_list_fail("", first < second ? second : first, why);
        }
    }
    return true;
}

static struct stamp *find(const struct stamp *key, struct stamp **sorted, int (*order)(const void *, const void *))
{
    struct stamp **found = bsearch(&key, sorted, stamp_list.count, sizeof(struct stamp *), order);
    return found == NULL ? NULL : *found;
}

struct stamp *stamp_list_named(char *name, struct stamp **sorted)
{
    const struct stamp key = {.name = name};
    return find(&key, sorted, by_name);
}

struct stamp *stamp_list_written(char *text, struct stamp **sorted)
{
    const struct stamp key = {.value = text};
    uint8_t bytes[STAMP_BYTES];
    return stamp_list_bytes(text, bytes) != NULL ? NULL : find(&key, sorted + stamp_list.count, by_bytes);
}

bool stamp_list_lines(char *text, void *with, bool (*take)(size_t number, char *line, void *with))
{
    size_t number = 1;
    for (char *line = text; line != NULL; number++) {
        char *end = strchr(line, '\n');
        if (end != NULL)
            *end++ = '\0';
        if (!take(number, line, with))
            return false;
        line = end;
    }
    return true;
}

/* Returns true if a line has its four fields, and its report isn't a part of `begun` that was broken off. */
static bool is_record(const char *line)
{
    for (int tab = 0; tab < 3; tab++) {
        line = strchr(line, '\t');
        if (line == NULL)
            return false;
        line++;
    }
    return strncmp("begun", line, strlen(line)) != 0 || strcmp("begun", line) == 0;
}

size_t used_whole(const char *text)
{
    const char *end = strrchr(text, '\n'), *last = end == NULL ? text : end + 1;
    return (size_t)(last - text) + (is_record(last) ? strlen(last) : 0);
}

static bool take_entry(size_t number, char *line, void *with)
{
    return take_line(number, line, with);
}

bool stamp_list_read(void)
{
    static const char mark[] = "\xef\xbb\xbf";
    uint8_t *bytes;
    size_t length, room = 0;
    char *text;
    if (!file_read(stamp_list.file, &bytes, &length))
        return false;
    bytes[length] = '\0'; /* file_read leaves room for the NUL (FILE_SPARE) */
    text = (char *)bytes;
    if (strlen(text) != length)
        return stamp_list_fail("", 0, "there is a NUL in it");
    if (!stamp_list_lines(strncmp(text, mark, 3) == 0 ? text + 3 : text, &room, take_entry))
        return false;
    return stamp_list.count > 0 || stamp_list_fail("", 0, "there is no entry in it");
}

/* SPDX-License-Identifier: MIT OR Apache-2.0 */
/* Each line of the file has a path as --list shows it, = and a name, such as `3-1.4 = bay 7`, with optional blanks. Empty lines and lines
 * that begin with # are ignored. */
#include "ports_file.h"
#include "advice.h"
#include "files.h"
#include "find.h"
#include "messages.h"

#include <stdio.h>
#include <stdlib.h>
#include <string.h>

#define BLANKS " \t\r"

static struct {
    char *path, *name;
} * ports;
static size_t count;

/* Removes the blanks at both ends. */
static char *trim(char *text)
{
    size_t length;
    text += strspn(text, BLANKS);
    for (length = strlen(text); length > 0 && strchr(BLANKS, text[length - 1]) != NULL; length--)
        text[length - 1] = '\0';
    return text;
}

/* Returns true if a path has this name already. Two ports with one name couldn't be told apart in a report. */
static bool is_taken(const char *name)
{
    for (size_t at = 0; at < count; at++)
        if (strcmp(ports[at].name, name) == 0)
            return true;
    return false;
}

static bool is_path(const char *text)
{
    return has_ports(text) && text[strspn(text, "0123456789-.")] == '\0' && strlen(text) < PATH_ROOM;
}

static bool fail(const char *file, size_t line, const char *why)
{
    char place[40];
    snprintf(place, sizeof place, ", line %zu", line);
    return say_failed(file, place, why);
}

static bool take_line(const char *file, size_t number, char *line)
{
    char *sign = strchr(line, '='), *path, *name;
    void *more;
    line = trim(line);
    if (*line == '\0' || *line == '#')
        return true;
    if (sign == NULL)
        return fail(file, number, "a line is a path, = and a name, as 3-1.4 = bay 7");
    *sign = '\0';
    path = trim(line);
    name = trim(sign + 1);
    if (!is_path(path))
        return fail(file, number, "what is before = is no path, as 3-1.4");
    if (*name == '\0')
        return fail(file, number, "there is no name after =");
    if (ports_file_name(path) != NULL)
        return fail(file, number, "this path has a name already");
    if (is_taken(name))
        return fail(file, number, "another path has this name already");
    more = realloc(ports, (count + 1) * sizeof *ports);
    if (more == NULL)
        return fail(file, number, "there is no memory");
    ports = more;
    ports[count].path = path;
    ports[count++].name = name;
    return true;
}

/* getopt accepts `--port 3-1.4` as an abbreviation of --ports, where --path was meant. */
static void advise_path(const char *file)
{
    char step[40 + PATH_ROOM];
    snprintf(step, sizeof step, "did you mean --path %s?", file);
    if (is_path(file))
        advice_is(step);
}

bool ports_file_read(const char *file)
{
    uint8_t *bytes;
    size_t length, number = 1;
    char *line;
    if (!file_read(file, &bytes, &length)) {
        advise_path(file);
        return false;
    }
    bytes[length] = '\0'; /* file_read leaves room for the NUL (FILE_SPARE) */
    if (strlen((const char *)bytes) != length)
        return fail(file, 1, "there is a NUL in it");
    for (line = (char *)bytes; line != NULL; number++) {
        char *end = strchr(line, '\n');
        if (end != NULL)
            *end++ = '\0';
        if (!take_line(file, number, line))
            return false;
        line = end;
    }
    return true;
}

const char *ports_file_name(const char *path)
{
    for (size_t at = 0; at < count; at++)
        if (strcmp(ports[at].path, path) == 0)
            return ports[at].name;
    return NULL;
}

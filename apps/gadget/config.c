/* SPDX-License-Identifier: MIT OR Apache-2.0 */
/* Reads the file of --config. It has one option per line, without the leading hyphens, such as `transfer-size 1024`. A line that begins
 * with # is a comment. */
#include "messages.h"
#include "words.h"

#include <errno.h>
#include <stdio.h>
#include <stdlib.h>
#include <string.h>

#define MAX_CONFIG_BYTES 65536 /* size limit of the file in bytes */

/* The buffer is static, because the options keep pointers into it. */
static char *read_all(const char *name)
{
    static char bytes[MAX_CONFIG_BYTES + 1];
    FILE *file = fopen(name, "re");
    size_t length = file == NULL ? 0 : fread(bytes, 1, MAX_CONFIG_BYTES, file);
    bool is_read = file != NULL && !ferror(file);
    if (!is_read)
        say_failed(name, "can't be read");
    else if (length == MAX_CONFIG_BYTES || memchr(bytes, '\0', length) != NULL)
        is_read = say_wrong(name, "it is no file of lines, of up to 65535 bytes");
    if (file != NULL)
        fclose(file);
    bytes[length] = '\0';
    return is_read ? bytes : NULL;
}

/* Removes white space at both ends. */
static char *trim(char *text)
{
    size_t length;
    text += strspn(text, " \t\r");
    length = strlen(text);
    while (length > 0 && strchr(" \t\r", text[length - 1]) != NULL)
        text[--length] = '\0';
    return text;
}

static bool take_line(struct words *words, char *line)
{
    char *value;
    line = trim(line);
    if (*line == '\0' || *line == '#')
        return true;
    value = line + strcspn(line, " \t");
    if (*value == '\0')
        return words_option(words, line, NULL);
    *value++ = '\0';
    return words_option(words, line, trim(value));
}

int config_read(struct words *words)
{
    const char *name = words->config;
    char *line = read_all(name), *next;
    if (line == NULL)
        return STATUS_FILE;
    for (int number = 1; line != NULL; number++, line = next) {
        char where[48];
        next = strchr(line, '\n');
        if (next != NULL)
            *next++ = '\0';
        if (take_line(words, line))
            continue;
        snprintf(where, sizeof where, "line %d is not understood", number);
        say_wrong(name, where);
        return STATUS_WORDS;
    }
    return STATUS_DONE;
}

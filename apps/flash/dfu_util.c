/* SPDX-License-Identifier: MIT OR Apache-2.0 */
/* Decides which options of dfu-util are accepted, which are ignored because they aren't needed here, and which are refused. */
#include "dfu_util.h"
#include "advice.h"

#include <ctype.h>
#include <stddef.h>
#include <stdio.h>
#include <stdlib.h>
#include <string.h>

/* clang-format off */
/* Long options of dfu-util that this program lacks or that mean something else here. */
static const struct {
    const char *name;
    char option;
    bool has_value;
} longs[] = {
    {"download", 'D', true},     {"upload-size", 'Z', true},   {"reset", 'R', false},
    {"intf", 'i', true},         {"altsetting", 'a', true},    {"dfuse-address", 's', true},
    {"cfg", 'c', true},          {"configuration", 'c', true}, {"devnum", 'n', true},
    {"detach-delay", 'E', true},
};

/* Options that are accepted and ignored, each with the reason. */
static struct {
    int option;
    const char *note;
    bool was_given;
} notes[] = {
    {'Z', "-Z of dfu-util isn't needed: an upload ends by itself", false},
    {'c', "-c of dfu-util isn't looked at: the active configuration is taken", false},
    {'E', "-E of dfu-util isn't needed: a device that left is asked for until it is back, 10 seconds or those of --wait", false},
    {'s', ":leave of dfu-util isn't done behind an upload: the device stays in DFU mode, and its reset starts the application", false},
    {'e', "-e of dfu-util isn't done with -D: a download brings a board to DFU mode by itself; one of DfuSe needs dfu-flash --detach first",
     false},
    {'R', "-R of dfu-util isn't needed: a session ends with a reset, and with DfuSe as -s says; U-Boot's `dfu` stays in DFU mode",
     false},
};
/* clang-format on */

#define COUNT(table) (sizeof(table) / sizeof *(table))

/* Returns the short option with its value in the same argument, or NULL if there is no memory. */
static char *join(char option, const char *value)
{
    size_t room = strlen(value) + 3;
    char *word = malloc(room);
    if (word != NULL)
        snprintf(word, room, "-%c%s", option, value);
    return word;
}

char *dfu_util_short(char *word)
{
    if (strncmp(word, "--", 2) != 0)
        return word;
    for (size_t at = 0; at < COUNT(longs); at++) {
        size_t length = strlen(longs[at].name);
        const char *rest = word + 2 + length;
        char *joined;
        if (strncmp(word + 2, longs[at].name, length) != 0)
            continue;
        if (*rest != '\0' && !(longs[at].has_value && rest[0] == '=' && rest[1] != '\0'))
            continue;
        joined = join(longs[at].option, *rest == '=' ? rest + 1 : "");
        return joined != NULL ? joined : word;
    }
    return word;
}

/* dfu-util reads numbers as C does: one with a leading 0 is octal or hexadecimal. */
static bool has_base(const char *value)
{
    return value[0] == '0' && (isdigit((unsigned char)value[1]) || value[1] == 'x' || value[1] == 'X');
}

static bool is_number(const char *value)
{
    size_t base = value[0] == '0' && (value[1] == 'x' || value[1] == 'X') ? 2 : 0;
    return value[base] != '\0' && value[base + strspn(value + base, base > 0 ? "0123456789abcdefABCDEF" : "0123456789")] == '\0';
}

void dfu_util_pass(int option)
{
    for (size_t at = 0; at < COUNT(notes); at++)
        notes[at].was_given = notes[at].was_given || notes[at].option == option;
}

/* Records an ignored option that takes a number. Returns false if its value isn't a number, and true for any other option. */
static bool is_passed(int option, const char *value)
{
    if (option != 'Z' && option != 'c' && option != 'E')
        return true;
    dfu_util_pass(option);
    return is_number(value) || words_refuse("-Z, -c and -E of dfu-util take a number", value);
}

static bool refuse_number(void)
{
    advice_is("name its path by --path, as --list shows it");
    return words_refuse("-n of dfu-util is --path PATH here, which stays the same when the device is plugged in again", "");
}

bool dfu_util_is_same(int option, const char *value)
{
    if (option == 'n')
        return refuse_number();
    if ((option == 'a' || option == 'i' || option == 't') && has_base(value))
        return words_refuse("-a, -i and -t take decimal numbers, with no 0 in front", value);
    return is_passed(option, value);
}

void dfu_util_notes(bool is_quiet)
{
    for (size_t at = 0; at < COUNT(notes); at++)
        if (notes[at].was_given && (!is_quiet || notes[at].option == 's'))
            fprintf(stderr, "dfu-flash: %s\n", notes[at].note);
}

/* SPDX-License-Identifier: MIT OR Apache-2.0 */
/* Parses the values of options, and refuses invalid ones. */
#include "values.h"
#include "advice.h"
#include "dfu_util.h"
#include "stamp.h"
#include "usage.h"

#include <ctype.h>
#include <errno.h>
#include <stdlib.h>
#include <string.h>

#define MAX_SECONDS 1000000 /* about eleven days */
#define MAX_TRANSFER 4096   /* limit of a control transfer on Linux, in bytes */
#define DIGITS "0123456789"

/* Parses a decimal number up to `most`, without a sign or any other character. */
static bool is_number(const char *text, unsigned long most, unsigned long *number)
{
    char *end;
    if (text == NULL || !isdigit((unsigned char)text[0]))
        return false;
    errno = 0;
    *number = strtoul(text, &end, 10);
    return errno == 0 && *end == '\0' && *number <= most;
}

/* Parses four hexadecimal digits at the start of `text`. */
static bool is_identifier(const char *text, uint16_t *identifier)
{
    char digits[5] = {0};
    for (int at = 0; at < 4; at++)
        if (!isxdigit((unsigned char)text[at]))
            return false;
    memcpy(digits, text, 4);
    *identifier = (uint16_t)strtoul(digits, NULL, 16);
    return true;
}

/* Parses VID:PID, with four hexadecimal digits each, at the start of `text`. */
static bool is_pair(const char *text, uint16_t *vendor, uint16_t *product)
{
    return is_identifier(text, vendor) && text[4] == ':' && is_identifier(text + 5, product);
}

bool value_is_ids(const char *text)
{
    uint16_t vendor, product;
    return strlen(text) == 9 && is_pair(text, &vendor, &product);
}

/* Accepts one pair, or two pairs separated by a comma, for run-time mode and DFU mode, or the forms of dfu-util. */
bool value_device(const char *text, struct words *words)
{
    bool is_first = is_pair(text, &words->vendor, &words->product);
    words->has_ids = true;
    if (is_first && text[9] == '\0')
        return true;
    words->has_dfu_ids = is_first && text[9] == ',' && is_pair(text + 10, &words->dfu_vendor, &words->dfu_product) && text[19] == '\0';
    return words->has_dfu_ids || dfu_util_ids(text, words)
           || words_refuse("--device takes VID:PID or VID:PID,VID:PID, four hexadecimal digits each", text);
}

bool value_path(const char *text, struct words *words)
{
    words->path = text;
    return *text != '\0' || words_refuse("--path takes a path, as --list shows it", "");
}

bool value_serial(const char *text, struct words *words)
{
    words->serial = text;
    return *text != '\0' || words_refuse("--serial takes a serial number, as --list shows it", "");
}

bool value_interface(const char *text, struct words *words)
{
    unsigned long number;
    if (!is_number(text, 255, &number))
        return words_refuse("--interface takes a number from 0 to 255, as --list shows it", text);
    words->interface = (int)number;
    return true;
}

/* Accepts the number of an alternate setting, or its name. A text of digits is a number. */
bool value_setting(const char *text, struct words *words)
{
    unsigned long number;
    bool is_digits = text[strspn(text, DIGITS)] == '\0';
    if (is_digits && !is_number(text, 255, &number))
        return words_refuse("--alt takes a number from 0 to 255, or a name, as --list shows them", text);
    words->alternate = is_digits ? (int)number : -1;
    words->setting = is_digits ? NULL : text;
    return true;
}

bool value_limits(const char *first, const char *second, struct words *words)
{
    unsigned long actions, restarts;
    if (!is_number(first, UINT32_MAX, &actions) || !is_number(second, UINT16_MAX, &restarts))
        return words_refuse("--limits takes two numbers, ACTIONS and RESTARTS", "");
    words->actions = (uint32_t)actions;
    words->restarts = (uint16_t)restarts;
    words->has_limits = true;
    return true;
}

/* Parses a number from 1 to `most`. `what` is the error message. */
static bool is_count(const char *what, const char *text, unsigned long most, uint32_t *count)
{
    unsigned long number;
    if (!is_number(text, most, &number) || number == 0) {
        advice_unless("give it a decimal number behind it");
        return words_refuse(what, text);
    }
    *count = (uint32_t)number;
    return true;
}

bool value_timeout(const char *text, struct words *words)
{
    return is_count("--timeout takes seconds, from 1 to 1000000", text, MAX_SECONDS, &words->timeout);
}

bool value_boards(const char *text, struct words *words)
{
    return is_count("--count takes boards, from 1 to 1000000", text, MAX_SECONDS, &words->boards);
}

bool value_retry(const char *text, struct words *words)
{
    return is_count("--retry takes how often, from 1 to 100", text, 100, &words->retry);
}

bool value_wait(const char *text, struct words *words)
{
    words->wait = true;
    words->patience = 0;
    return text == NULL || is_count("--wait takes seconds, as --wait=30, from 1 to 1000000", text, MAX_SECONDS, &words->patience);
}

bool value_is_seconds(const char *word)
{
    return word != NULL && *word != '\0' && word[strspn(word, DIGITS)] == '\0';
}

/* The argument after --verbose isn't its value, so a file needs the form --verbose=FILE. */
bool value_verbose(const char *text, struct words *words)
{
    words->verbose = words->verbose || text == NULL;
    words->log = text != NULL ? text : words->log;
    return text == NULL || *text != '\0' || words_refuse("--verbose takes the name of a file, as --verbose=FILE", "");
}

bool value_transfer(const char *text, struct words *words)
{
    uint32_t bytes = 0;
    bool is_read;
    if (*text != '\0' && text[strspn(text, DIGITS)] == '\0' && strcmp(text, "0") != 0)
        advice_is("leave it out, or type 4096: a control transfer carries no more on Linux, and a device's larger blocks are cut to that");
    is_read = is_count("--transfer-size takes bytes, from 1 to 4096", text, MAX_TRANSFER, &bytes);
    words->transfer = (uint16_t)bytes;
    return is_read;
}

bool value_is_hexadecimal(const char *text, uint32_t *number, const char **rest)
{
    size_t digits;
    if (text[0] != '0' || (text[1] != 'x' && text[1] != 'X'))
        return false;
    digits = strspn(text + 2, DIGITS "abcdefABCDEF");
    if (digits < 1 || digits > 8)
        return false;
    *number = (uint32_t)strtoul(text + 2, NULL, 16);
    *rest = text + 2 + digits;
    return true;
}

bool value_address(const char *text, struct words *words)
{
    const char *rest;
    words->has_address = value_is_hexadecimal(text, &words->address, &rest) && *rest == '\0';
    if (!words->has_address)
        usage_advise_address("--address", text);
    return words->has_address || words_refuse("--address takes an address as 0x08000000", text);
}

bool value_is_length(const char *text, uint32_t *length, const char **rest)
{
    char digits[11] = {0};
    size_t count = strspn(text, DIGITS);
    unsigned long number;
    if (value_is_hexadecimal(text, length, rest))
        return *length > 0;
    if (count < 1 || count > 10)
        return false;
    memcpy(digits, text, count);
    if (!is_number(digits, UINT32_MAX, &number) || number == 0)
        return false;
    *length = (uint32_t)number;
    *rest = text + count;
    return true;
}

bool value_length(const char *text, struct words *words)
{
    const char *rest;
    return (value_is_length(text, &words->length, &rest) && *rest == '\0')
           || words_refuse("--length takes bytes, from 1 to 4294967295, or as 0x1000", text);
}

bool value_stamp(const char *text, struct words *words)
{
    words->stamp = text;
    return (*text != '\0' && strcmp(text, "-") != 0)
           || words_refuse("--stamp takes the name of a file, beside which LIST.used is kept", text);
}

/* Accepts PLACE:BYTES. PLACE may be 0, and BYTES is from 1 to 256. */
bool value_stamp_at(const char *text, struct words *words)
{
    const char *rest = text + strspn(text, "0");
    uint32_t place = 0;
    bool is_zero = rest != text && *rest == ':';
    bool is_read = (is_zero || value_is_length(text, &place, &rest)) && *rest == ':'
                   && value_is_length(rest + 1, &words->stamp_bytes, &rest) && *rest == '\0' && words->stamp_bytes <= STAMP_BYTES;
    words->stamp_place = place;
    return is_read || words_refuse("--stamp-at takes a place and from 1 to 256 bytes, as 0x40:16", text);
}

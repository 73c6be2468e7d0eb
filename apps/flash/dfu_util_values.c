/* SPDX-License-Identifier: MIT OR Apache-2.0 */
/* Parses values as dfu-util 0.11 does: identifiers with up to four digits, a serial number for each mode, and an address with modifiers. */
#include "dfu_util.h"
#include "advice.h"
#include "standard.h"
#include "usage.h"
#include "values.h"

#include <ctype.h>
#include <stdio.h>
#include <stdlib.h>
#include <string.h>

#define MAX_DIGITS 4

/* Parses one identifier at the start of `text`: up to four hexadecimal digits, with or without 0x, or * for any. A missing number leaves
 * `id` unchanged. Returns the end, or NULL if there are more digits. */
static const char *take_id(const char *text, uint16_t *id)
{
    char digits[MAX_DIGITS + 1] = {0};
    size_t count = 0;
    if (*text == '*') {
        *id = ANY_ID;
        return text + 1;
    }
    if (text[0] == '0' && (text[1] == 'x' || text[1] == 'X') && isxdigit((unsigned char)text[2]))
        text += 2;
    while (isxdigit((unsigned char)text[count]))
        count++;
    if (count > MAX_DIGITS)
        return NULL;
    memcpy(digits, text, count);
    if (count > 0)
        *id = (uint16_t)strtoul(digits, NULL, 16);
    return text + count;
}

/* Parses VENDOR:PRODUCT, either of which may be missing. Returns the end, or NULL if one of them has too many digits. */
static const char *take_ids(const char *text, uint16_t *vendor, uint16_t *product)
{
    const char *end = take_id(text, vendor);
    if (end != NULL && *end == ':')
        end = take_id(end + 1, product);
    return end;
}

/* The identifiers after a comma are those of DFU mode, and a missing one is the same as in run-time mode. With nothing or a hyphen before
 * the comma, the device must be in DFU mode. */
bool dfu_util_ids(const char *text, struct words *words)
{
    const char *end = text, *rest;
    bool has_any = strpbrk(text, "0123456789abcdefABCDEF*") != NULL;
    words->has_ids = true;
    words->has_dfu_ids = words->is_upgrade = false;
    words->vendor = words->product = ANY_ID;
    if (text[0] == '-' && text[1] == ',')
        end = ++text;
    if (*text == ',')
        words->is_upgrade = true;
    else
        end = take_ids(text, &words->vendor, &words->product);
    words->dfu_vendor = words->vendor;
    words->dfu_product = words->product;
    rest = end;
    if (end != NULL && *end == ',')
        rest = take_ids(end + 1, &words->dfu_vendor, &words->dfu_product);
    if (rest == NULL || *rest != '\0' || !has_any)
        return false;
    words->has_dfu_ids = *end == ',' && !words->is_upgrade;
    if (words->is_upgrade) {
        words->vendor = words->dfu_vendor;
        words->product = words->dfu_product;
    }
    return true;
}

bool dfu_util_device(const char *text, struct words *words)
{
    return dfu_util_ids(text, words) || words_refuse("-d takes VID:PID, or VID:PID,VID:PID for both modes, hexadecimal digits", text);
}

bool dfu_util_serial(char *text, struct words *words)
{
    char *comma = strchr(text, ',');
    words->serial = text;
    words->dfu_serial = NULL;
    if (comma != NULL) {
        *comma = '\0';
        words->dfu_serial = comma + 1;
    }
    return *text != '\0' || (comma != NULL && comma[1] != '\0')
           || words_refuse("-S takes a serial number, as --list shows it, or one for each mode with a comma between them", "");
}

/* Modifiers that dfu-util accepts after an address, each with the reason why it is refused here. */
static const struct {
    const char *word, *answer;
} modifiers[] = {
    {"mass-erase", "-s of dfu-util has mass-erase; here the pages of the image are erased before they are written, and nothing erases all"},
    {"unprotect", "-s of dfu-util has unprotect, which erases all; here nothing takes protection away, and ST's tools do"},
    {"will-reset", "-s of dfu-util has will-reset, for option bytes; here they are never written, and ST's tools do it"},
    {"force", "-s of dfu-util has force; here nothing is written that the device's map doesn't have"},
};

static bool is_modifier(const char *text, const char *word)
{
    size_t length = strlen(word);
    return strncmp(text, word, length) == 0 && (text[length] == '\0' || text[length] == ':');
}

/* Returns the reason why the modifier at the start of `text` is refused here, or NULL. */
static const char *answer_to(const char *text)
{
    for (size_t number = 0; number < sizeof modifiers / sizeof *modifiers; number++)
        if (is_modifier(text, modifiers[number].word))
            return modifiers[number].answer;
    return NULL;
}

/* Returns true if the text has no refused modifier after its colons. Else prints one line for each reason. */
static bool is_harmless(const char *text)
{
    const char *last = NULL;
    for (const char *at = strchr(text, ':'); at != NULL; at = strchr(at + 1, ':')) {
        const char *answer = answer_to(at + 1);
        if (answer == NULL || answer == last)
            continue;
        if (last != NULL)
            fprintf(stderr, "dfu-flash: %s\n", last);
        advice_is(last != NULL ? "leave those words out" : "leave that word out");
        last = answer;
    }
    return last == NULL || words_refuse(last, text);
}

/* dfu-util stays in DFU mode unless `leave` is given, and reads to the end of the segment unless a length is given. `:leave` without an
 * address is for a DfuSe file, after which the device leaves here by default. */
bool dfu_util_address(const char *text, struct words *words)
{
    const char *rest;
    if (!is_harmless(text))
        return false;
    if (strcmp(text, ":leave") == 0) {
        words->leaves = true;
        return true;
    }
    if (!value_is_hexadecimal(text, &words->address, &rest)) {
        usage_advise_address("-s", text);
        return words_refuse("-s takes an address as 0x08000000, which may have :leave or a length after it", text);
    }
    words->has_address = words->stays = words->is_to_end = true;
    while (*rest == ':') {
        if (is_modifier(rest + 1, "leave")) {
            words->stays = false;
            words->leaves = true;
            rest += 6;
        } else if (!value_is_length(rest + 1, &words->length, &rest))
            return words_refuse("-s takes :leave or a length after the address; nothing else of dfu-util's is here", text);
    }
    return *rest == '\0' || words_refuse("-s takes :leave or a length after the address", text);
}

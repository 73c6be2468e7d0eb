/* SPDX-License-Identifier: MIT OR Apache-2.0 */
#include "json.h"
#include "session.h"
#include "../common/text.h"

#include <inttypes.h>
#include <stdio.h>
#include <string.h>

/* JSON allows only UTF-8, so each invalid byte becomes the replacement character U+FFFD. */
static void print_quoted(const char *text)
{
    putchar('"');
    while (*text != '\0') {
        uint32_t character = 0;
        size_t length = text_character(text, &character);
        if (length == 0)
            fputs("\\ufffd", stdout);
        else if (text_is_control(character))
            printf("\\u%04" PRIx32, character);
        else if (character == '"' || character == '\\')
            printf("\\%c", (char)character);
        else
            fwrite(text, 1, length, stdout);
        text += length > 0 ? length : 1;
    }
    putchar('"');
}

void json_text(const char *name, const char *text)
{
    if (text == NULL)
        return;
    printf(",\"%s\":", name);
    print_quoted(text);
}

void json_number(const char *name, uint64_t number)
{
    printf(",\"%s\":%" PRIu64, name, number);
}

void json_truth(const char *name, bool value)
{
    printf(",\"%s\":%s", name, value ? "true" : "false");
}

/* Prints a name that begins with a version as two fields: the version, and the text after it, such as `on trial, 2 starts left`. */
static void json_version(const struct found *found)
{
    size_t length = version_of(found->name);
    char version[TEXT_ROOM] = "";
    if (length == 0)
        return;
    memcpy(version, found->name, length);
    json_text("version", version);
    if (strncmp(found->name + length, ", ", 2) == 0)
        json_text("trial", found->name + length + 2);
}

void json_setting(const struct found *found)
{
    json_number("interface", found->interface);
    json_number("alt", found->alternate);
    if (found->name[0] != '\0')
        json_text("name", found->name);
    json_version(found);
}

void json_hex(const char *name, uint32_t number, int digits)
{
    printf(",\"%s\":\"%0*" PRIx32 "\"", name, digits, number);
}

void json_ids(const struct found *found)
{
    json_hex("vendor", found->vendor, 4);
    json_hex("product", found->product, 4);
    if (!found->lacks_release)
        json_hex("release", found->release, 4);
}

void json_address(uint32_t address)
{
    json_hex("address", address, 8);
}

void json_difference(const struct difference *difference, bool is_address)
{
    if (is_address)
        json_hex("place", (uint32_t)difference->at, 8);
    else
        json_number("place", difference->at);
    if (difference->wanted >= 0)
        json_hex("wanted", (uint32_t)difference->wanted, 2);
    if (difference->found >= 0)
        json_hex("found", (uint32_t)difference->found, 2);
}

void json_session(const struct session *session)
{
    const struct found *info = &session->wire.device->info;
    json_text("goal", goal_name(session->goal));
    printf(",\"vendor\":\"%04x\",\"product\":\"%04x\",\"release\":\"%04x\"", session->ids.vendor, session->ids.product,
           session->ids.device);
    json_text("path", session->wire.device->path);
    if (info->serial[0] != '\0')
        json_text("serial", info->serial);
    json_setting(info);
}

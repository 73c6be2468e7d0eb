/* SPDX-License-Identifier: MIT OR Apache-2.0 */
/* Escapes untrusted text. The strings of a device and the names of files may contain any bytes. Bytes that a terminal would interpret as a
 * command, or that would reorder the displayed text, are escaped. */
#include "text.h"

#include <string.h>

/* Control characters are C0, DEL, C1, the line and paragraph separators, and the characters that change the writing direction. */
bool text_is_control(uint32_t character)
{
    return character < 0x20 || (character >= 0x7f && character < 0xa0) || (character >= 0x200e && character <= 0x200f)
           || (character >= 0x2028 && character <= 0x202e) || (character >= 0x2066 && character <= 0x2069);
}

/* Accepts only valid UTF-8: each character in its shortest form, and no surrogates. */
size_t text_character(const char *text, uint32_t *character)
{
    static const uint32_t least[] = {0, 0, 0x80, 0x800, 0x10000};
    const unsigned char *bytes = (const unsigned char *)text;
    unsigned char first = bytes[0];
    size_t count = first < 0x80 ? 1 : first >> 5 == 6 ? 2 : first >> 4 == 14 ? 3 : first >> 3 == 30 ? 4 : 0;
    uint32_t point = count <= 1 ? first : first & (0x7fu >> count);
    for (size_t at = 1; at < count; at++) {
        if (bytes[at] >> 6 != 2)
            return 0;
        point = point << 6 | (bytes[at] & 0x3f);
    }
    *character = point;
    return point < least[count] || point > 0x10ffff || (point >= 0xd800 && point < 0xe000) ? 0 : count;
}

void text_print(FILE *out, const char *text)
{
    while (*text != '\0') {
        uint32_t character = 0;
        size_t length = text_character(text, &character), end = length > 0 ? length : 1;
        if (length > 0 && !text_is_control(character))
            fwrite(text, 1, length, out);
        else
            for (size_t at = 0; at < end; at++)
                fprintf(out, "\\x%02x", (unsigned char)text[at]);
        text += end;
    }
}

bool text_is_typed(const char *text)
{
    while (*text != '\0') {
        uint32_t character = 0;
        size_t length = text_character(text, &character);
        if (length == 0 || text_is_control(character))
            return false;
        text += length;
    }
    return true;
}

bool text_word(const char *text, char *word, size_t room)
{
    static const char safe[] = "ABCDEFGHIJKLMNOPQRSTUVWXYZabcdefghijklmnopqrstuvwxyz0123456789_./+,:=@%-";
    bool is_safe = text[0] != '\0' && text[strspn(text, safe)] == '\0';
    size_t at = 0;
    /* A single quote in the text becomes four bytes, which close the quoted word, add an escaped quote, and open it again. */
    if (!text_is_typed(text) || 4 * strlen(text) + 3 > room)
        return false;
    if (!is_safe)
        word[at++] = '\'';
    for (; *text != '\0'; text++)
        if (*text == '\'') {
            memcpy(word + at, "'\\''", 4);
            at += 4;
        } else
            word[at++] = *text;
    if (!is_safe)
        word[at++] = '\'';
    word[at] = '\0';
    return true;
}

/* A lone surrogate becomes three bytes that aren't valid UTF-8, so they are escaped when they are printed. */
static size_t put_point(uint32_t point, char bytes[4])
{
    size_t count = point < 0x80 ? 1 : point < 0x800 ? 2 : point < 0x10000 ? 3 : 4;
    static const unsigned char fronts[] = {0, 0, 0xc0, 0xe0, 0xf0};
    for (size_t at = count - 1; at > 0; at--) {
        bytes[at] = (char)(0x80 | (point & 0x3f));
        point >>= 6;
    }
    bytes[0] = (char)(fronts[count] | point);
    return count;
}

void text_from_units(const unsigned char *bytes, size_t count, char *text, size_t room)
{
    size_t length = 0;
    for (size_t at = 0; at < count; at++) {
        uint32_t point = (uint32_t)(bytes[2 * at] | bytes[2 * at + 1] << 8);
        uint32_t next = at + 1 < count ? (uint32_t)(bytes[2 * at + 2] | bytes[2 * at + 3] << 8) : 0;
        char character[4];
        size_t more;
        if (point >> 10 == 0xd800 >> 10 && next >> 10 == 0xdc00 >> 10) {
            point = 0x10000 + ((point & 0x3ff) << 10) + (next & 0x3ff);
            at++;
        }
        more = put_point(point, character);
        if (point == 0 || length + more >= room)
            break;
        memcpy(text + length, character, more);
        length += more;
    }
    text[length] = '\0';
}

void text_hex(FILE *out, const uint8_t *bytes, size_t count)
{
    for (size_t at = 0; at < count; at++)
        fprintf(out, "%02x", bytes[at]);
}

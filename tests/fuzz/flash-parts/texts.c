/* Finds functions and settings in a face, and converts its texts to UTF-8. */
#include "board.h"

#include <string.h>

const struct function *board_function(const struct face *face)
{
    for (unsigned at = 0; at < MOST_FUNCTIONS; at++)
        if (face->functions[at].count > 0 && face->functions[at].settings[0].class == 0xfe)
            return &face->functions[at];
    return &face->functions[0];
}

static bool is_dfu(const struct setting *setting, int alternate)
{
    return setting->class == 0xfe && setting->subclass == 1 && setting->alternate == alternate;
}

const struct setting *face_setting(const struct face *face, int interface, int alternate)
{
    for (unsigned at = 0; at < face->count && at < MOST_FUNCTIONS; at++) {
        const struct function *function = &face->functions[at];
        for (unsigned setting = 0; setting < function->count && setting < MOST_SETTINGS; setting++)
            if (function->number == interface && is_dfu(&function->settings[setting], alternate))
                return &function->settings[setting];
    }
    return NULL;
}

/* Writes a character as UTF-8. Returns its number of bytes. */
static int put(uint32_t point, char *at)
{
    if (point < 0x80) {
        at[0] = (char)point;
        return 1;
    }
    if (point < 0x800) {
        at[0] = (char)(0xc0 | point >> 6);
        at[1] = (char)(0x80 | (point & 0x3f));
        return 2;
    }
    if (point < 0x10000) {
        at[0] = (char)(0xe0 | point >> 12);
        at[1] = (char)(0x80 | (point >> 6 & 0x3f));
        at[2] = (char)(0x80 | (point & 0x3f));
        return 3;
    }
    at[0] = (char)(0xf0 | point >> 18);
    at[1] = (char)(0x80 | (point >> 12 & 0x3f));
    at[2] = (char)(0x80 | (point >> 6 & 0x3f));
    at[3] = (char)(0x80 | (point & 0x3f));
    return 4;
}

static bool is_half(uint32_t unit, uint32_t first)
{
    return unit >= first && unit < first + 0x400;
}

void face_text(const struct face *face, uint8_t number, char text[MOST_TEXT])
{
    const struct text *told = &face->texts[number < MOST_TEXTS ? number : 0];
    int length = 0;
    text[0] = '\0';
    for (unsigned at = 0; at < told->count && told->units[at] != 0; at++) {
        uint32_t point = told->units[at], next = at + 1 < told->count ? told->units[at + 1] : 0;
        if (is_half(point, 0xd800) && is_half(next, 0xdc00)) {
            point = 0x10000 + ((point - 0xd800) << 10) + (next - 0xdc00);
            at++;
        } else if (is_half(point, 0xd800) || is_half(point, 0xdc00)) {
            text[0] = '\0';
            return;
        }
        length += put(point, text + length);
    }
    text[length] = '\0';
}

bool face_says(const struct face *face, uint8_t number, const char *text)
{
    char told[MOST_TEXT];
    face_text(face, number, told);
    return strcmp(told, text) == 0;
}

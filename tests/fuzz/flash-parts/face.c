#include "face.h"
#include "random.h"

#include <string.h>

static void say(struct text *text, const char *characters)
{
    text->count = 0;
    for (; *characters != '\0'; characters++)
        text->units[text->count++] = (uint8_t)*characters;
}

/* Draws a text: in ASCII, or with characters that JSON or a terminal must escape. */
static void some_text(struct text *text, const char *stem)
{
    static const uint16_t odd[] = {0xe9, 0x1b, 0x22, 0x5c, 0x0a, 0x00, 0x7f, 0x9b, 0x20ac, 0xd83d, 0xde00, 0x202e, 0xfeff, 0xffff};
    say(text, stem);
    text->units[text->count++] = (uint16_t)('A' + below(3));
    if (chance(5))
        for (uint32_t more = below(12); more > 0; more--)
            text->units[text->count++] = odd[below(sizeof odd / sizeof odd[0])];
}

static void put_functional(struct extra *extra, const uint8_t bytes[9], int length)
{
    if (chance(3)) {
        const uint8_t other[4] = {4, 0x24, 1, 2};
        memcpy(extra->bytes, other, sizeof other);
        extra->length = sizeof other;
    }
    memcpy(extra->bytes + extra->length, bytes, (size_t)length);
    extra->length += length;
}

/* Puts the functional descriptor after the configuration, after each setting, or after the last one; or into none of them, so that only
 * GET_DESCRIPTOR returns it. */
static void place_functional(struct face *face, struct function *function, const uint8_t bytes[9], int length)
{
    switch (below(6)) {
    case 0:
        put_functional(&face->extra, bytes, length);
        break;
    case 1:
        for (unsigned at = 0; at < function->count; at++)
            put_functional(&function->settings[at].extra, bytes, length);
        break;
    case 2:
        memcpy(face->asked.bytes, bytes, 9);
        face->asked.length = length;
        break;
    default:
        put_functional(&function->settings[function->count - 1].extra, bytes, length);
    }
}

static void make_functional(struct face *face, struct function *function, const struct model *model, enum mode mode)
{
    bool is_dfuse = chance(60);
    int length = chance(12) ? 7 : 9;
    uint8_t bytes[9] = {(uint8_t)length, 0x21, model->attributes, (uint8_t)model->detach_ms, (uint8_t)(model->detach_ms >> 8),
                        (uint8_t)model->transfer, (uint8_t)(model->transfer >> 8), is_dfuse ? 0x1a : 0x10, 1};
    if (mode == RUN_TIME && chance(4)) {
        any_bytes(bytes + 2, 5);
        if (chance(4))
            return;
    }
    place_functional(face, function, bytes, length);
}

static void make_dfu(struct face *face, struct function *function, const struct board *board, enum mode mode)
{
    function->number = (uint8_t)(mode == RUN_TIME ? below(4) : chance(5) ? below(256) : 0);
    function->count = (uint8_t)(mode == RUN_TIME || !chance(4) ? 1 : between(2, MOST_SETTINGS));
    for (unsigned at = 0; at < function->count; at++)
        function->settings[at] = (struct setting){(uint8_t)at, 0xfe, 1, mode == UPGRADE ? 2 : 1, (uint8_t)(2 + at), {{0}, 0}};
    make_functional(face, function, &board->model, mode);
}

static void make_foreign(struct function *function, uint8_t number)
{
    function->number = number;
    function->count = (uint8_t)between(1, 2);
    for (unsigned at = 0; at < function->count; at++)
        function->settings[at] = (struct setting){(uint8_t)at, (uint8_t)(chance(2) ? 3 : 0xff), 1, 1, 0,
                                                  {{9, 0x21, 1, 2, 3, 64, 0, 16, 1}, 9}};
}

void face_make(struct face *face, const struct board *board, enum mode mode)
{
    static const uint16_t vendors[] = {0x1209, 0x1209, 0x0483}, products[] = {1, 1, 2, 0xff};
    unsigned before = mode == RUN_TIME ? below(MOST_FUNCTIONS) : chance(8);
    const struct face *other = &board->faces[RUN_TIME];
    memset(face, 0, sizeof *face);
    face->vendor = vendors[below(3)];
    face->product = products[below(4)];
    face->release = (uint16_t)(chance(4) ? below(65536) : 0x0100);
    if (mode == UPGRADE && !chance(4)) {
        face->vendor = other->vendor;
        face->product = other->product;
        face->release = other->release;
    }
    face->serial = !chance(5);
    some_text(&face->texts[1], "S-");
    if (mode == UPGRADE && !chance(6))
        face->texts[1] = other->texts[1];
    for (unsigned at = 2; at < MOST_TEXTS; at++)
        some_text(&face->texts[at], at == 2 ? "boot" : at == 3 ? "kernel" : "data");
    for (unsigned at = 0; at < before; at++)
        make_foreign(&face->functions[at], (uint8_t)(mode == RUN_TIME ? 4 + at : 200));
    face->count = (uint8_t)(before + 1);
    if (mode == RUN_TIME && chance(15))
        make_foreign(&face->functions[before], 9);
    else
        make_dfu(face, &face->functions[before], board, mode);
}

static void spoil_extra(struct extra *extra)
{
    extra->length = chance(6) ? 0 : (int)below(chance(2) ? 12 : MOST_EXTRA + 1);
    if (chance(3))
        any_bytes(extra->bytes, sizeof extra->bytes);
    else {
        extra->bytes[0] = (uint8_t)(chance(3) ? below(20) : chance(2) ? 9 : 7);
        extra->bytes[1] = 0x21;
    }
}

static void spoil_function(struct function *function)
{
    struct setting *setting = &function->settings[below(MOST_SETTINGS)];
    switch (below(5)) {
    case 0: function->count = (uint8_t)(chance(2) ? 0 : below(129)); break;
    case 1: function->number = (uint8_t)below(256); break;
    case 2: any_bytes(&setting->alternate, 5); break;
    case 3: *setting = (struct setting){(uint8_t)below(4), 0xfe, 1, (uint8_t)between(1, 2), (uint8_t)below(8), setting->extra}; break;
    default: spoil_extra(&setting->extra);
    }
}

/* Damages one field of a face. */
static void spoil(struct face *face)
{
    switch (below(7)) {
    case 0: face->vendor = (uint16_t)below(65536); break;
    case 1: face->product = (uint16_t)below(4); break;
    case 2: face->count = (uint8_t)below(33); break;
    case 3: spoil_extra(chance(2) ? &face->extra : &face->asked); break;
    case 4: face->serial = (uint8_t)below(256); break;
    case 5: spoil_extra(&face->functions[below(MOST_FUNCTIONS)].settings[0].extra); break;
    default: spoil_function(&face->functions[below(MOST_FUNCTIONS)]);
    }
}

void face_spoil(struct face *face)
{
    for (uint32_t times = between(1, 4); times > 0; times--)
        spoil(face);
}

/* SPDX-License-Identifier: MIT OR Apache-2.0 */
/* Prints memory maps, which the library parses, and finds the ranges and permissions of parts of the memory. */
#include "dfuse.h"
#include "json.h"

#include <inttypes.h>
#include <stdio.h>
#include <string.h>

static const uint8_t *bytes_of(const struct found *found)
{
    return (const uint8_t *)found->name;
}

/* Writes the letters of the allowed operations, or - for each that isn't allowed. */
static void letters(uint32_t access, char out[4])
{
    out[0] = access & DFUSE_READABLE ? 'r' : '-';
    out[1] = access & DFUSE_ERASABLE ? 'e' : '-';
    out[2] = access & DFUSE_WRITABLE ? 'w' : '-';
    out[3] = '\0';
}

static uint64_t end_of(const struct dfuse_range *range)
{
    return range->start + range->size * range->count;
}

static void print_range(const struct dfuse_range *range)
{
    char access[4];
    letters(range->access, access);
    printf("    %08" PRIx64 "..%08" PRIx64 " %" PRIu32 " page%s of %" PRIu64 " byte%s %s\n", range->start, end_of(range) - 1, range->count,
           range->count == 1 ? "" : "s", range->size, range->size == 1 ? "" : "s", access);
}

/* If a device can't be opened, its setting's name is unknown, and so is its memory map. */
static bool is_unread(const struct found *found)
{
    return found->access != 0 && found->name[0] == '\0';
}

void dfuse_print_map(const struct found *found)
{
    struct dfuse_range range;
    size_t length = strlen(found->name);
    int32_t refusal = 0;
    if (is_unread(found)) {
        puts("    the memory map can't be read without access");
        return;
    }
    for (uint32_t number = 0; refusal == 0; number++) {
        refusal = dfuse_read_range(bytes_of(found), length, number, &range);
        if (refusal == 0)
            print_range(&range);
    }
    if (refusal != DFUSE_NO_RANGE)
        printf("    no memory map: %s: %s\n", refusal_name(refusal), refusal_words(refusal));
}

static void print_range_json(const struct dfuse_range *range, bool is_first)
{
    char access[4];
    letters(range->access, access);
    printf("%s{\"start\":\"%08" PRIx64 "\",\"end\":\"%08" PRIx64 "\"", is_first ? "" : ",", range->start, end_of(range) - 1);
    json_number("pages", range->count);
    json_number("size", range->size);
    json_text("access", access);
    putchar('}');
}

void dfuse_print_json(const struct found *found)
{
    struct dfuse_range range;
    size_t length = strlen(found->name);
    int32_t refusal = dfuse_read_range(bytes_of(found), length, 0, &range);
    json_text("protocol", "DfuSe");
    if (is_unread(found))
        return;
    if (refusal != 0) {
        json_text("no_map", refusal_name(refusal));
        return;
    }
    fputs(",\"map\":[", stdout);
    for (uint32_t number = 0; dfuse_read_range(bytes_of(found), length, number, &range) == 0; number++)
        print_range_json(&range, number == 0);
    putchar(']');
}

/* Finds the range that contains an address. Returns 0, DFUSE_NO_RANGE, or the error of a string that isn't a map. */
static int32_t range_at(const uint8_t *map, size_t map_length, uint64_t address, struct dfuse_range *range)
{
    int32_t refusal;
    for (uint32_t number = 0;; number++) {
        refusal = dfuse_read_range(map, map_length, number, range);
        if (refusal != 0 || (range->start <= address && address < end_of(range)))
            return refusal;
    }
}

int32_t dfuse_may_read(const uint8_t *map, size_t map_length, uint64_t start, uint64_t end)
{
    struct dfuse_range range;
    bool is_readable = true;
    while (start < end) {
        int32_t refusal = range_at(map, map_length, start, &range);
        if (refusal != 0)
            return refusal == DFUSE_NO_RANGE ? DFUSE_OUTSIDE : refusal;
        is_readable = is_readable && (range.access & DFUSE_READABLE) != 0;
        start = end_of(&range);
    }
    return is_readable ? 0 : DFUSE_NOT_READABLE;
}

bool dfuse_first(const uint8_t *map, size_t map_length, bool is_upload, struct dfuse_range *range)
{
    uint32_t wanted = is_upload ? DFUSE_READABLE : DFUSE_READABLE | DFUSE_ERASABLE | DFUSE_WRITABLE;
    for (uint32_t number = 0; dfuse_read_range(map, map_length, number, range) == 0; number++)
        if ((range->access & wanted) == wanted)
            return true;
    return false;
}

void dfuse_areas(const uint8_t *map, size_t map_length, char *text, size_t room)
{
    struct dfuse_range range, next;
    size_t length = 0;
    uint32_t number = 0;
    text[0] = '\0';
    while (dfuse_read_range(map, map_length, number++, &range) == 0) {
        uint64_t end = end_of(&range);
        for (; dfuse_read_range(map, map_length, number, &next) == 0 && next.start == end; number++)
            end = end_of(&next);
        if (room - length < sizeof ", 08000000 to 08003fff ..") {
            snprintf(text + length, room - length, " ..");
            return;
        }
        length +=
            (size_t)snprintf(text + length, room - length, "%s%08" PRIx64 " to %08" PRIx64, length > 0 ? ", " : "", range.start, end - 1);
    }
}

bool dfuse_end_of(const uint8_t *map, size_t map_length, uint64_t address, uint64_t *end)
{
    struct dfuse_range range;
    if (range_at(map, map_length, address, &range) != 0)
        return false;
    *end = end_of(&range);
    return true;
}

uint64_t dfuse_pages(const uint8_t *map, size_t map_length, uint64_t start, uint64_t end)
{
    struct dfuse_range range;
    uint64_t pages = 0;
    while (start < end && range_at(map, map_length, start, &range) == 0) {
        uint64_t last = (end < end_of(&range) ? end : end_of(&range)) - 1;
        pages += (last - range.start) / range.size - (start - range.start) / range.size + 1;
        start = end_of(&range);
    }
    return pages;
}

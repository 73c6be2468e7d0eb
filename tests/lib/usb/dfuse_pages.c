/* The memory of the DfuSe device. Its map is read here by simple rules, without code of the tested program. */
#include "dfuse_pages.h"
#include "settings.h"

#include <stdlib.h>
#include <string.h>

#define MOST_RANGES 32
enum { READABLE = 1, ERASABLE = 2, WRITABLE = 4 };

struct range {
    uint32_t start, size, count;
    size_t at; /* offset of the range in the memory */
    unsigned may;
};

static struct {
    struct range ranges[MOST_RANGES];
    int count;
    size_t size;
    uint8_t *memory, *kept;
} store;

static uint32_t number(const char **text, int base)
{
    char *end;
    unsigned long found = strtoul(*text, &end, base);
    if (end == *text || found > UINT32_MAX)
        fail_loudly("USB_PAGES is no map: %s", *text);
    *text = end;
    return (uint32_t)found;
}

/* Reads a range from `address` on: COUNT*SIZE, a unit and a letter. Sets `address` to its end. Returns the text that follows. */
static const char *add_range(const char *at, uint32_t *address)
{
    struct range *range = &store.ranges[store.count++];
    if (store.count == MOST_RANGES)
        fail_loudly("USB_PAGES has too many ranges");
    *range = (struct range){.start = *address, .at = store.size};
    range->count = number(&at, 10);
    if (*at++ != '*')
        fail_loudly("USB_PAGES has no * here: %s", at - 1);
    range->size = number(&at, 10) * (*at == 'K' ? 1024 : *at == 'M' ? 1048576 : 1);
    at += *at == 'K' || *at == 'M' || *at == 'B' || *at == ' ';
    range->may = (unsigned)*at++ & 7;
    store.size += (size_t)range->size * range->count;
    *address += range->size * range->count;
    return at;
}

static void lay(const char *map)
{
    const char *at = strchr(map, '/');
    while (at != NULL && *at == '/') {
        uint32_t address;
        at++;
        address = number(&at, 16);
        do
            at = add_range(at + 1, &address);
        while (*at == ',');
    }
    if (at == NULL || *at != '\0')
        fail_loudly("USB_PAGES is no map: %s", map);
}

void pages_make(void)
{
    struct part image = read_image(settings.image);
    lay(settings.pages);
    store.memory = malloc(store.size);
    store.kept = malloc(store.size);
    if (store.memory == NULL || store.kept == NULL)
        fail_loudly("no memory for the pages");
    memset(store.memory, 0xff, store.size);
    memcpy(store.memory, image.at, image.size < store.size ? image.size : store.size);
    pages_keep();
}

static const struct range *range_of(uint32_t address)
{
    for (int i = 0; i < store.count; i++)
        if (address >= store.ranges[i].start && address - store.ranges[i].start < (uint64_t)store.ranges[i].size * store.ranges[i].count)
            return &store.ranges[i];
    return NULL;
}

/* Returns the byte at an address on a page that allows this operation, or NULL. */
static uint8_t *cell(uint32_t address, unsigned may)
{
    const struct range *range = range_of(address);
    return range == NULL || (range->may & may) != may ? NULL : store.memory + range->at + (address - range->start);
}

bool pages_has(uint32_t address)
{
    return range_of(address) != NULL;
}

bool pages_erase(uint32_t address)
{
    const struct range *range = range_of(address);
    uint8_t *at = cell(address, ERASABLE);
    if (at == NULL)
        return false;
    memset(at - (address - range->start) % range->size, 0xff, range->size);
    return true;
}

bool pages_write(uint32_t address, const uint8_t *bytes, size_t length)
{
    for (size_t i = 0; i < length; i++) {
        uint8_t *at = cell(address + (uint32_t)i, WRITABLE);
        if (at == NULL || (settings.cells == 1 && *at != 0xff))
            return false;
        if (address + (uint32_t)i != settings.lies)
            *at = settings.cells == 0 ? *at & bytes[i] : bytes[i];
    }
    return true;
}

size_t pages_read(uint32_t address, uint8_t *out, size_t length)
{
    for (size_t i = 0; i < length; i++) {
        const uint8_t *at = cell(address + (uint32_t)i, READABLE);
        if (at == NULL)
            return i;
        out[i] = *at;
    }
    return length;
}

void pages_keep(void)
{
    memcpy(store.kept, store.memory, store.size);
}

void pages_tear(void)
{
    bool is_kept = false;
    for (size_t i = 0; i < store.size; i++)
        if (store.memory[i] != store.kept[i]) {
            if (is_kept)
                store.memory[i] = store.kept[i];
            is_kept = !is_kept;
        }
}

struct part pages_memory(void)
{
    return (struct part){store.memory, store.size};
}

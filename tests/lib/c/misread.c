/* Tests the start of a bootloader whose flash is misread: one check finds a changed bit, or all bytes read FFh, and the next check reads
 * correctly. The image must never be lost, and a part that was never written must receive its first image. With the argument `old` the test
 * uses an earlier version of the start, which formatted after the first DFU_NO_MEDIUM, and so lost images. */
#include <stdio.h>
#include <string.h>

/* The inline calls of the header call `power_on` and `is_blank` below instead of the library. */
#define dfu_core_power_on power_on
#define dfu_core_is_blank is_blank
#include "dfu_device_memory.h"
#undef dfu_core_power_on
#undef dfu_core_is_blank

/* The library's calls, declared here because the header declared power_on and is_blank instead. */
int32_t dfu_core_power_on(const struct dfu_config *config, struct dfu_record *record, const uint8_t *flash, size_t size);
int32_t dfu_core_is_blank(const struct dfu_config *config, const uint8_t *flash, size_t size);

enum { UNIT = 16, SECTOR = 256, CAPACITY = 1024, IMAGE = 300, LOOKS = 4, WELL = -1, EMPTY = -2 };

/* Fault of each check: WELL for none; the number of the bit that is inverted; or EMPTY, where every byte reads FFh. */
static int fate[LOOKS], looks;
static uint8_t part[2 * (2 * SECTOR + CAPACITY)], kept[sizeof part];

static void misread(int turn)
{
    const int what = looks < LOOKS ? fate[looks] : WELL;
    if (what >= 0)
        part[what / 8] ^= (uint8_t)(1u << what % 8);
    if (what == EMPTY && turn == 0)
        memcpy(kept, part, sizeof part), memset(part, 0xff, sizeof part);
    if (what == EMPTY && turn == 1)
        memcpy(part, kept, sizeof part);
    looks += turn;
}

int32_t power_on(const struct dfu_config *config, struct dfu_record *record, const uint8_t *flash, size_t size)
{
    misread(0);
    const int32_t n = dfu_core_power_on(config, record, flash, size);
    misread(1);
    return n;
}

int32_t is_blank(const struct dfu_config *config, const uint8_t *flash, size_t size)
{
    misread(0);
    const int32_t n = dfu_core_is_blank(config, flash, size);
    misread(1);
    return n;
}

static const struct dfu_config config = {DFU_VERSION, 0x0100, 1, 0x1209, 255, 64, 7, 0, 0, 0, 1, UNIT, SECTOR, 0, 0};
static uint8_t block[DFU_BLOCK_SIZE(64, UNIT)], image[IMAGE], shipped[sizeof part];
static const struct dfu_driver driver = DFU_MEMORY_DRIVER(part);
static struct dfu_device dfu = {
    .config = &config, .flash = part, .size = sizeof part, .block = block, .most = sizeof block, .driver = &driver};
static int is_old, cases, kept_well, lost;

/* Starts the device like the listing of docs/PORTING.md and examples/c/nor_bootloader.c; with is_old like the earlier version. */
static int32_t start(void)
{
    if (!is_old)
        return dfu_device_power_on_or_format(&dfu, image, 0);
    const int32_t n = dfu_device_power_on(&dfu);
    return n == DFU_NO_MEDIUM ? dfu_device_format(&dfu, image, 0) : n;
}

/* Starts the shipped part with these faults. The image is kept if no byte of the part changed. */
static void try(int first, int second, int third, int fourth, int32_t wanted)
{
    const int given[LOOKS] = {first, second, third, fourth};
    memcpy(part, shipped, sizeof part);
    memcpy(fate, given, sizeof fate);
    looks = 0;
    const int32_t n = start();
    const int is_kept = memcmp(part, shipped, sizeof part) == 0;
    cases++;
    kept_well += is_kept && n == wanted;
    lost += !is_kept;
}

static int told(const char *what)
{
    printf("%s: %d, as it was and answered right %d, lost by the format %d\n", what, cases, kept_well, lost);
    const int is_right = cases == kept_well && lost == 0;
    cases = kept_well = lost = 0;
    return is_right;
}

/* A part that was never written is formatted; if a bit is misread, the format waits for the next start. */
static int blank_part(void)
{
    int is_right = 1, waited = 0;
    memset(shipped, 0xff, sizeof shipped);
    for (int bit = 0; bit < 8 * (int)sizeof part; bit++)
        for (int look = 0; look < LOOKS; look++) {
            memcpy(part, shipped, sizeof part);
            for (int each = 0; each < LOOKS; each++)
                fate[each] = each == look ? bit : WELL;
            looks = 0;
            const int32_t n = start();
            const int is_front = bit / 8 % (int)(sizeof part / 2) < 2 * SECTOR;
            const int waits = look >= 2 && is_front;
            waited += n == DFU_NO_MEDIUM;
            looks = LOOKS;
            is_right &= n == (waits ? DFU_NO_MEDIUM : 0) && (!waits || memcmp(part, shipped, sizeof part) == 0) && start() == 0;
        }
    printf("a new part: %d starts with a misread bit, %d wait for the next one\n", 4 * 8 * (int)sizeof part, waited);
    return is_right;
}

int main(int count, char **words)
{
    int is_right = 1;
    (void)words;
    is_old = count > 1;
    for (int i = 0; i < IMAGE; i++)
        image[i] = (uint8_t)(i * 7 + 1);
    if (dfu_memory_format(&config, shipped, sizeof shipped, image, IMAGE) != 0)
        return 1;
    for (int bit = 0; bit < 8 * (int)sizeof part; bit++)
        try(bit, WELL, WELL, WELL, 0);
    is_right &= told("a bit misread once");
    if (is_old)
        return !is_right;
    for (int look = 0; look < LOOKS; look++)
        try(look == 0 ? EMPTY : WELL, look == 1 ? EMPTY : WELL, look == 2 ? EMPTY : WELL, look == 3 ? EMPTY : WELL, 0);
    try(EMPTY, EMPTY, WELL, WELL, DFU_NO_MEDIUM);
    try(EMPTY, EMPTY, EMPTY, WELL, DFU_NO_MEDIUM);
    try(EMPTY, EMPTY, WELL, EMPTY, DFU_NO_MEDIUM);
    is_right &= told("the whole part misread, at up to three looks");
    /* Two or three misread checks. Both checks for an image fail, because of a bit of the gate, the header or the image, or because the
     * part reads as empty. Then a check for a blank part may find the part empty too. */
    for (int bit = 0; bit < 8 * IMAGE; bit++) {
        const int of_image = 8 * 2 * SECTOR + bit;
        try(bit % 8, of_image, WELL, WELL, DFU_NO_MEDIUM);
        try(of_image, 8 * SECTOR + 8 + bit % 120, WELL, WELL, DFU_NO_MEDIUM);
        try(EMPTY, of_image, EMPTY, WELL, DFU_NO_MEDIUM);
        try(of_image, EMPTY, WELL, EMPTY, DFU_NO_MEDIUM);
    }
    is_right &= told("two or three looks misread");
    is_right &= blank_part();
    return !is_right;
}

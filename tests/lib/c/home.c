/* Tests two areas in simulated flash, with rows worked out by hand, and with updates and the copy after each. Each operation is cut off in
 * several ways, and after such a cut each later operation is cut off too. A bootloader and a program that runs from the first slot serve
 * the downloads. After each cut the old or the new image must be active, whole. The copy must end within its bound; each of its operations
 * must lie in the first slot, and program only bytes that were erased since power-on, once. While the program of the first slot serves a
 * download, no byte of that slot may change.
 *
 * `home STEP` tries every STEP-th second cut, and prints the number of lives. */
#include "dfu_home.h"
#include <setjmp.h>
#include <stdio.h>
#include <stdlib.h>
#include <string.h>

enum { BLOCK = 512, MOST = 1 << 16, TEARS = 5 };
static uint8_t flash[MOST], programmed[MOST], kept[MOST], block[DFU_BLOCK_SIZE(BLOCK, 256)], data[BLOCK];
static struct dfu_config config = {.version = DFU_VERSION, .vendor = 1, .product = 1, .device = 1, .detach_ms = 1000, .transfer = BLOCK,
                                   .attributes = DFU_CAN_DNLOAD | DFU_CAN_UPLOAD | DFU_MANIFESTATION_TOLERANT, .least = 1};
static uint32_t size, seed = 1;
static long operations, cut[2], copied, most_copied;
static int tear[2], wrong, guards;
static unsigned long lives, cuts;
static jmp_buf off;

static uint8_t draw(void) {
    seed = seed * 1664525u + 1013904223u;
    return (uint8_t)(seed >> 20);
}
static void expect(const char *what, int holds) {
    if (!holds && wrong < 10)
        printf("home: %s, unit %u, sector %u, cuts %ld and %ld, tears %d and %d\n", what, (unsigned)config.unit, (unsigned)config.sector,
               cut[0], cut[1], tear[0], tear[1]);
    wrong += !holds;
}
/* Returns the way in which the next operation is torn, or -1 if it succeeds. */
static int next_tear(void) {
    operations++;
    return operations == cut[0] ? tear[0] : operations == cut[1] ? tear[1] : -1;
}
static int erase(void *own, uint32_t at, uint32_t length) {
    int how;
    (void)own;
    if (guards && at < size / 2)
        return 1;
    how = next_tear();
    expect("an erase that is no sector", length == config.sector && at % length == 0 && at + length <= size);
    for (uint32_t i = 0; i < length && how != 0; i++)
        flash[at + i] = how == 2 ? draw() : how == 4 ? 0xa5 : how == 1 && i >= length / 2 ? flash[at + i] : 0xff;
    memset(programmed + at, how >= 0, length);
    if (how >= 0)
        longjmp(off, 1);
    return 0;
}
static int program(void *own, uint32_t at, const uint8_t *bytes, uint32_t length) {
    int how;
    (void)own;
    if (guards && at < size / 2)
        return 1;
    how = next_tear();
    expect("a program that is no units", length && length <= 256 && length % config.unit == 0 && at % config.unit == 0 && at + length <= size);
    for (uint32_t i = 0; i < length; i++) {
        expect("a byte is programmed that is not blank", flash[at + i] == 0xff);
        expect("a byte is programmed twice", !programmed[at + i]);
        if (how != 0 && (how != 1 || i < length / 2))
            flash[at + i] = how == 2 ? draw() : how == 4 ? 0xa5 : bytes[i];
        programmed[at + i] = 1;
    }
    if (how >= 0)
        longjmp(off, 1);
    return 0;
}
static const struct dfu_driver driver = {NULL, erase, program};
static struct dfu_device dfu = {.config = &config, .flash = flash, .block = block, .most = sizeof block, .driver = &driver};

enum { IMAGES = 3 };
static uint8_t images[IMAGES][MOST];
static uint32_t lengths[IMAGES];

static int32_t request(uint8_t type, uint8_t what, uint16_t value, uint16_t length) {
    const uint8_t setup[8] = {type, what, (uint8_t)value, (uint8_t)(value >> 8), 0, 0, (uint8_t)length, (uint8_t)(length >> 8)};
    const int32_t n = guards ? dfu_home_transfer(&dfu, setup) : 0;
    return n != 0 ? n : dfu_device_serve(&dfu, setup, data, data, sizeof data);
}
/* Downloads an image to the spare slot. If `from_home`, the program of the first slot serves it, and that slot must not change. */
static void download(int image, int from_home) {
    uint16_t number = 0;
    guards = from_home;
    memcpy(kept, flash, size / 2);
    expect("begin", dfu_device_begin(&dfu) == 0);
    for (uint32_t at = 0; at < lengths[image]; at += BLOCK, number++) {
        const uint32_t some = lengths[image] - at < BLOCK ? lengths[image] - at : BLOCK;
        memcpy(data, images[image] + at, some);
        expect("a block", request(0x21, DFU_DNLOAD, number, (uint16_t)some) == 0);
        expect("its status", request(0xa1, DFU_GETSTATUS, 0, 6) == 6 && data[4] == DFU_STATE_DNLOAD_IDLE);
    }
    expect("the close", request(0x21, DFU_DNLOAD, number, 0) == 0);
    expect("in place", request(0xa1, DFU_GETSTATUS, 0, 6) == 6 && data[4] == DFU_STATE_IDLE);
    if (from_home) {
        expect("the first slot stays", memcmp(kept, flash, size / 2) == 0);
        expect("a second download is refused", dfu_home_may_download(&dfu) == 0 && request(0x21, DFU_DNLOAD, 0, 16) == DFU_NOT_HOME);
        expect("the first slot still stays", memcmp(kept, flash, size / 2) == 0);
    }
    guards = 0;
}
static int which(const struct dfu_place *place) {
    for (int i = 0; i < IMAGES; i++)
        if (place->length == lengths[i] && memcmp(flash + place->at, images[i], lengths[i]) == 0)
            return i;
    return -1;
}
/* Starts the bootloader. Returns the image that it starts, which must be whole in the first slot. */
static int start(void) {
    struct dfu_place before, place;
    const long first = operations;
    int image;
    guards = 0;
    memset(programmed, 1, sizeof programmed); /* erases before the start don't count */
    expect("an image is active", dfu_device_image(&dfu, &before) == 0);
    image = which(&before);
    expect("it is whole", image >= 0);
    expect("it settles", dfu_home_settle(&dfu, &place) == 0);
    expect("the same image is in the first slot", place.at == DFU_HOME_AT(config.unit, config.sector) && which(&place) == image);
    expect("a download may come", dfu_home_may_download(&dfu) == 1);
    if (operations > first)
        copied++, most_copied = operations - first > most_copied ? operations - first : most_copied;
    expect("within the bound", (uint32_t)(operations - first) <= size / 128);
    return image;
}
/* Installs image 1 over image 0 with these cuts; after that two more updates must succeed. Returns the number of operations. */
static long life(long first, int first_tear, long second, int second_tear, int from_home) {
    volatile int taken = 0;
    int image;
    long all;
    lives++;
    cut[0] = cut[1] = -1;
    memset(flash, 0, sizeof flash), memset(programmed, 1, sizeof programmed);
    expect("a format", dfu_device_format(&dfu, images[0], lengths[0]) == 0);
    operations = 0;
    cut[0] = first, tear[0] = first_tear, cut[1] = second, tear[1] = second_tear;
    if (setjmp(off))
        cuts++;
    if (!taken) {
        taken = 1;
        expect("the first image starts", start() == 0);
        download(1, from_home);
    }
    image = start();
    all = operations;
    expect("the old or the new image starts", image == 0 || image == 1);
    expect("without a cut the new one", first > 0 || image == 1);
    cut[0] = cut[1] = -1;
    download(2, 1), expect("a later update", start() == 2);
    download(0, 0), expect("and one more", start() == 0);
    return all;
}
static void part(uint32_t unit, uint32_t sector, uint32_t sectors, uint32_t a, uint32_t b, uint32_t c) {
    config.unit = unit, config.sector = sector, config.attributes |= DFU_MANIFESTATION_TOLERANT;
    dfu.size = size = DFU_MEDIUM_SIZE(unit, sector, sector * sectors);
    lengths[0] = a, lengths[1] = b, lengths[2] = c;
}
static void all_cuts(long step, int from_home) {
    const long all = life(-1, 0, -1, 0, from_home);
    long at = 0;
    for (long first = 1; first <= all; first++)
        for (int how = 0; how < TEARS; how++) {
            const long then = life(first, how, -1, 0, from_home);
            for (long second = first + 1; second <= then; second++)
                if (at++ % step == 0)
                    life(first, how, second, (int)(at / step % TEARS), from_home);
        }
}
static void is_due(int32_t n, struct dfu_home_record *record, uint32_t kind, uint32_t at, uint32_t length) {
    struct dfu_ask ask = {9, 9, 9, {9}};
    const int32_t result = dfu_home_next(&dfu, record, &ask);
    lives++;
    expect("a row", result == n && (n == DFU_WRITE_PENDING ? ask.kind == kind && ask.at == at && ask.length == length
                                              : ask.kind == 9 && ask.at == 9 && ask.length == 9 && ask.bytes[0] == 9));
    if (result == DFU_WRITE_PENDING)
        dfu_home_took(&dfu, record, &ask, dfu_device_carry_out(&driver, &ask));
}
static int never(void *own, uint32_t at, uint32_t length) {
    (void)own, (void)at, (void)length;
    operations++;
    return 1;
}
/* Checks operations worked out by hand, for images of 600 bytes, sectors of 512 and a unit of 16. A slot has 5 sectors; the first header is
 * at offset 512, and its data at 1,024. */
static void rows(void) {
    static const struct dfu_driver worn = {NULL, never, program};
    struct dfu_home_record record = {DFU_NOWHERE, 0};
    struct dfu_place place = {7, 7};
    struct dfu_ask ask;
    part(16, 512, 3, 100, 600, 900);
    cut[0] = cut[1] = -1;
    memset(flash, 0xff, sizeof flash);
    is_due(DFU_NO_MEDIUM, &record, 0, 0, 0);
    expect("no image", dfu_home_may_download(&dfu) == DFU_NO_MEDIUM && dfu_home_settle(&dfu, &place) == DFU_NO_MEDIUM && place.at == 7);
    expect("a format", dfu_device_format(&dfu, images[0], 100) == 0);
    is_due(0, &record, 0, 0, 0);
    download(1, 1);
    memset(programmed, 1, sizeof programmed);
    is_due(DFU_WRITE_PENDING, &record, DFU_ERASE, 0, 512); /* closes the gate */
    is_due(DFU_WRITE_PENDING, &record, DFU_ERASE, 1024, 512), is_due(DFU_WRITE_PENDING, &record, DFU_PROGRAM, 1024, 256);
    is_due(DFU_WRITE_PENDING, &record, DFU_PROGRAM, 1280, 256), is_due(DFU_WRITE_PENDING, &record, DFU_ERASE, 1536, 512);
    is_due(DFU_WRITE_PENDING, &record, DFU_PROGRAM, 1536, 256);
    is_due(DFU_WRITE_PENDING, &record, DFU_ERASE, 512, 512), is_due(DFU_WRITE_PENDING, &record, DFU_PROGRAM, 512, 16);
    is_due(DFU_WRITE_PENDING, &record, DFU_ERASE, 0, 512), is_due(DFU_WRITE_PENDING, &record, DFU_PROGRAM, 0, 16);
    is_due(0, &record, 0, 0, 0);
    expect("generation 2, version 2, length 600", flash[512] == 2 && flash[513] == 2 && flash[516] == 88 && flash[517] == 2);
    expect("the header but for its generation", memcmp(flash + 513, flash + size / 2 + 513, 15) == 0 && flash[size / 2 + 512] == 1);
    expect("ten operations were counted", record.count == 10);

    /* If a byte of the image decays, only its sector is copied, and the header stays. */
    flash[1600] ^= 1, record.last = DFU_NOWHERE, record.count = 0, memset(programmed, 1, sizeof programmed);
    is_due(DFU_WRITE_PENDING, &record, DFU_ERASE, 0, 512), is_due(DFU_WRITE_PENDING, &record, DFU_ERASE, 1536, 512);
    is_due(DFU_WRITE_PENDING, &record, DFU_PROGRAM, 1536, 256), is_due(DFU_WRITE_PENDING, &record, DFU_ERASE, 0, 512);
    record.last = DFU_NOWHERE, record.count = 0, is_due(DFU_WRITE_PENDING, &record, DFU_ERASE, 0, 512); /* after a loss of power */
    is_due(DFU_WRITE_PENDING, &record, DFU_PROGRAM, 0, 16), is_due(0, &record, 0, 0, 0);

    /* On a part that never erases, the copy ends at its bound, and the image stays active. */
    download(2, 1);
    dfu.driver = &worn, operations = 0;
    expect("worn", dfu_home_settle(&dfu, &place) == DFU_NOT_WRITTEN && (uint32_t)operations == size / 128 && place.at == 7);
    dfu.driver = NULL;
    expect("no driver", dfu_home_settle(&dfu, &place) == DFU_WRITE_PENDING);
    dfu.driver = &driver;
    expect("the image stays", start() == 2);

    config.unit = 17, is_due(DFU_NO_CONFIG, &record, 0, 0, 0);
    expect("no unit", dfu_home_may_download(&dfu) == DFU_NO_CONFIG);
    config.unit = 16, config.sector = 500, is_due(DFU_NO_CONFIG, &record, 0, 0, 0);
    config.sector = 0, is_due(DFU_NO_SECTORS, &record, 0, 0, 0);
    config.sector = 512, dfu.size = size - 512, is_due(DFU_NO_MEDIUM, &record, 0, 0, 0);
    dfu.size = size;
    ask.kind = DFU_ERASE, ask.at = 0xffffffff, ask.length = 512, record.count = 0xffffffff;
    expect("an operation outside", dfu_home_took(&dfu, &record, &ask, 0) == 0 && record.last == DFU_NOWHERE && record.count == 0xffffffff);
    ask.kind = 3, ask.at = 0, expect("none", dfu_home_took(&dfu, &record, &ask, 0) == 0 && record.last == DFU_NOWHERE);
}
int main(int count, char **words) {
    const long step = count > 1 ? atol(words[1]) : 1;
    for (int k = 0; k < IMAGES; k++)
        for (uint32_t i = 0; i < MOST; i++)
            images[k][i] = (uint8_t)(i * 7 + i / 256 * 13 + (uint32_t)k * 91);
    rows();
    part(16, 1024, 3, 2500, 3072, 700), all_cuts(step, 0), all_cuts(step, 1);
    part(64, 256, 4, 1000, 300, 1024), all_cuts(step, 1);
    part(256, 4096, 1, 4096, 1, 257), all_cuts(step, 0), all_cuts(step, 1);
    part(1, 512, 2, 700, 701, 1000), all_cuts(step, 1);
    printf("%lu lives, %lu cuts, %ld copies, of at most %ld operations\n", lives, cuts, copied, most_copied);
    return wrong != 0;
}

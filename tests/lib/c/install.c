/* Tests a run area in simulated flash, with rows worked out by hand, and with installs over areas that held other bytes. Each operation in
 * turn is cut off, fails, or reports a false success, after a random number of its bytes. The image may be started only if the area holds
 * all of it. Each operation must lie in the area, change a byte that differs, and program a byte at most once after its erase. An erase
 * before power-on doesn't count. The sectors after the image must not change. Without faults the number of operations must not exceed its
 * bound.
 *
 * `install RUNS` makes this many installs, and prints their number. */
#include "dfu_install.h"
#include <stdio.h>
#include <stdlib.h>
#include <string.h>

enum { MOST = 16384, WELL = 0, FAILS, LIES, CUT };
static uint8_t area[MOST], slots[MOST], kept[MOST], before[MOST], programmed[MOST];
static struct dfu_install install;
static uint32_t length, seed = 1;
static unsigned long runs, operations, starts, losses;
static int wrong;

static uint32_t draw(uint32_t below) {
    seed ^= seed << 13, seed ^= seed >> 17, seed ^= seed << 5;
    return seed % below;
}
static void expect(const char *what, int holds) {
    if (!holds && wrong < 10)
        printf("install: %s, sector %u, area %u, image %u, run %lu\n", what, (unsigned)install.area.sector, (unsigned)install.size,
               (unsigned)length, runs);
    wrong += !holds;
}
static void power_comes(void) {
    install.area.last = DFU_NOWHERE;
    memset(programmed, 1, sizeof programmed); /* erases before power-on don't count */
}

/* Checks that the operation is allowed. */
static void look(const struct dfu_ask *ask) {
    const uint32_t end = ask->at + ask->length, whole = ask->kind == DFU_ERASE ? install.area.sector : 256;
    const uint32_t seen = end < length ? end : length;
    expect("an operation outside of the area", end <= install.size && ask->length == whole && ask->at % whole == 0);
    expect("an operation that mends nothing", ask->at < length && memcmp(area + ask->at, slots + ask->at, seen - ask->at) != 0);
    for (uint32_t i = 0; i < ask->length && ask->kind == DFU_PROGRAM; i++) {
        expect("a byte is programmed that is not blank", area[ask->at + i] == 0xff);
        expect("a byte is programmed twice", !programmed[ask->at + i]);
        expect("another byte", ask->bytes[i] == (ask->at + i < length ? slots[ask->at + i] : 0xff));
    }
}
/* Carries out an operation, with this fault. */
static void carry_out(const struct dfu_ask *ask, int harm) {
    const uint32_t done = harm == WELL ? ask->length : draw(ask->length + 1);
    for (uint32_t i = 0; i < done; i++)
        area[ask->at + i] = ask->kind == DFU_ERASE ? 0xff : ask->bytes[i];
    if (harm != WELL && draw(2))
        for (uint32_t i = done; i < ask->length && draw(4); i++)
            area[ask->at + i] = (uint8_t)draw(256);
    int is_blank = 1; /* an erase that leaves only FFh counts, even if it failed */
    for (uint32_t i = 0; i < ask->length; i++)
        is_blank &= area[ask->at + i] == 0xff;
    memset(programmed + ask->at, ask->kind == DFU_PROGRAM || !is_blank, ask->length);
}

/* Copies the image to the area, with this fault in operation `at`, and with random faults in other operations if `often`. */
static void bring(uint32_t at, int harm, int often) {
    struct dfu_ask ask;
    const uint32_t most = DFU_INSTALL_OPERATIONS(length, install.area.sector);
    uint32_t count = 0, since = 0;
    int32_t n;
    runs++;
    memcpy(before, area, sizeof area);
    power_comes();
    while ((n = dfu_install_next(&install, slots, length, &ask)) == DFU_WRITE_PENDING && since <= most) {
        int now = count == at ? harm : often && draw(often) == 0 && count < 4 * most ? FAILS + (int)draw(3) : WELL;
        look(&ask);
        carry_out(&ask, now);
        operations++, count++, since = now == WELL ? since + 1 : 0;
        if (now == CUT)
            losses++, power_comes();
        else
            dfu_install_took(&install, slots, length, &ask, now == FAILS);
        if (often && draw(200) == 0) /* the image to start changes */
            for (uint32_t i = 0; i < 100; i++)
                slots[draw(length)] = (uint8_t)draw(256), since = 0;
    }
    expect("it comes to the start within the bound", n == 0 && since <= most);
    expect("what is started is the image", memcmp(area, slots, length) == 0);
    starts += n == 0;
    const uint32_t edge = (length + install.area.sector - 1) / install.area.sector * install.area.sector;
    expect("what stands beside the image stays", memcmp(area + edge, before + edge, sizeof area - edge) == 0);
}
static void begin(uint32_t sector, uint32_t sectors) {
    install = (struct dfu_install){.run = area, .size = sector * sectors, .area = {sector, DFU_NOWHERE}};
    length = draw(4) ? 1 + draw(sector * sectors) : 256 * (1 + draw(sector * sectors / 256));
    for (uint32_t i = 0; i < MOST; i++)
        slots[i] = draw(8) ? (uint8_t)draw(256) : 0xff;
    if (draw(3) == 0 && length > 256)
        memset(slots + 256 * draw(length / 256), 0xff, 256);
    const uint32_t kind = draw(4), same = draw(length + 1);
    for (uint32_t i = 0; i < MOST; i++)
        area[i] = kind == 0 ? 0xff : kind == 1 ? (uint8_t)draw(256) : i < same ? slots[i] : kind == 2 ? 0xff : (uint8_t)draw(256);
}

static int fed;
static int driver_erase(void *own, uint32_t at, uint32_t count) {
    fed++;
    memset((uint8_t *)own + at, 0xff, count);
    return 0;
}
static int driver_program(void *own, uint32_t at, const uint8_t *bytes, uint32_t count) {
    fed++;
    memcpy((uint8_t *)own + at, bytes, count);
    return 0;
}
static int never(void *own, uint32_t at, uint32_t count) {
    (void)own, (void)at, (void)count;
    fed++;
    return 1;
}
static void is_due(int32_t n, uint32_t kind, uint32_t at) {
    struct dfu_ask ask = {9, 9, 9, {9}};
    const int32_t result = dfu_install_next(&install, slots, length, &ask);
    runs++;
    expect("a row", result == n && (n == DFU_WRITE_PENDING ? ask.kind == kind && ask.at == at : ask.kind == 9 && ask.bytes[0] == 9));
    if (result == DFU_WRITE_PENDING) {
        carry_out(&ask, WELL);
        expect("took", dfu_install_took(&install, slots, length, &ask, 0) == 0);
    }
}
/* Checks operations worked out by hand, for an image of 600 bytes, where byte i is i modulo 251, in two sectors of 512 bytes. */
static void rows(void) {
    static const struct dfu_driver driver = {area, driver_erase, driver_program}, worn = {area, never, driver_program};
    install = (struct dfu_install){.run = area, .size = 1024, .area = {512, DFU_NOWHERE}};
    for (uint32_t i = 0; i < MOST; i++)
        slots[i] = (uint8_t)(i % 251);
    memset(area, 0xff, sizeof area);
    length = 600;
    is_due(DFU_WRITE_PENDING, DFU_ERASE, 0), is_due(DFU_WRITE_PENDING, DFU_PROGRAM, 0), is_due(DFU_WRITE_PENDING, DFU_PROGRAM, 256);
    is_due(DFU_WRITE_PENDING, DFU_ERASE, 512), is_due(DFU_WRITE_PENDING, DFU_PROGRAM, 512), is_due(0, 0, 0);
    install.area.last = DFU_NOWHERE, is_due(0, 0, 0);
    area[600] = 0, is_due(0, 0, 0);
    area[599] = 0, is_due(DFU_WRITE_PENDING, DFU_ERASE, 512), is_due(DFU_WRITE_PENDING, DFU_PROGRAM, 512), is_due(0, 0, 0);
    length = 0, is_due(DFU_NO_IMAGE, 0, 0);
    length = 1025, is_due(DFU_TOO_LARGE, 0, 0);
    install.area.sector = 500, length = 0, is_due(DFU_WRONG_SIZE, 0, 0);
    install.area.sector = 0, is_due(DFU_WRONG_SIZE, 0, 0);
    install.area.sector = 512, install.size = 1000, length = 600, is_due(DFU_WRONG_SIZE, 0, 0);
    install.size = 1024;

    memset(area, 0, 1024);
    expect("no driver", dfu_install_settle(&install, slots, length) == DFU_WRITE_PENDING && fed == 0);
    install.driver = &driver;
    expect("settled", dfu_install_settle(&install, slots, length) == 0 && memcmp(area, slots, 600) == 0 && fed == 5);
    expect("nothing more is due", dfu_install_settle(&install, slots, length) == 0 && fed == 5);
    area[0]++, fed = 0, install.driver = &worn;
    expect("worn", dfu_install_settle(&install, slots, length) == DFU_NOT_WRITTEN && fed == DFU_INSTALL_OPERATIONS(600, 512));
    expect("too large", dfu_install_settle(&install, slots, 1025) == DFU_TOO_LARGE);
}

int main(int count, char **words) {
    const unsigned long wanted = count > 1 ? (unsigned long)atol(words[1]) : 100000;
    static const uint32_t sectors[] = {256, 512, 1024, 2048, 4096};
    rows();
    while (runs < wanted && !wrong) {
        begin(sectors[draw(5)], 1 + draw(4));
        memcpy(kept, area, sizeof area);
        const uint32_t most = DFU_INSTALL_OPERATIONS(length, install.area.sector);
        for (int harm = FAILS; harm <= CUT; harm++)
            for (uint32_t at = 0; at < most; at++)
                memcpy(area, kept, sizeof area), bring(at, harm, 0);
        for (int i = 0; i < 10; i++)
            memcpy(area, kept, sizeof area), bring(most, WELL, 2 + (int)draw(10));
    }
    printf("%lu runs, %lu operations, %lu losses of power, %lu starts, %d wrong\n", runs, operations, losses, starts, wrong);
    return wrong != 0;
}

/* Installs over mapped flash, and over flash that is not mapped: with DFU_READ the device's flash is memory without access, so any read
 * other than by the program's function ends the program with a signal. It tests units of 1, 16, 64 and 256 bytes, in place and in sectors;
 * formats, downloads and uploads; operations that fail or report a false success; and calls for the image, the candidate and a blank part.
 * The output must be the same for both kinds of flash. */
#define _DEFAULT_SOURCE
#include <stdio.h>
#include <stdlib.h>
#include <string.h>
#include <sys/mman.h>

#include "dfu_device.h"

#define TRANSFER 100
#define MOST 4096

static struct dfu_config config = {DFU_VERSION, 0x0100, 1, 0x1209, 20, TRANSFER, 7, 0, 0, 0, 1, 1, 0, 0, 0};
static uint8_t part[MOST], block[DFU_BLOCK_SIZE(TRANSFER, 256)], out[TRANSFER];
static uint32_t dice = 1, sum, operations, trouble, installed, refused;
static unsigned long reads;
static const uint8_t *flash;
static struct dfu_device device;

static void stop(const char *what) {
    printf("%s\n", what);
    exit(1);
}

static uint32_t roll(uint32_t sides) {
    dice = dice * 1664525u + 1013904223u;
    return (dice >> 8) % sides;
}

static void note(int32_t n, const uint8_t *bytes, size_t count) {
    sum = sum * 16777619u ^ (uint32_t)n;
    for (size_t i = 0; i < count; i++)
        sum = sum * 16777619u ^ bytes[i];
}

#ifdef DFU_READ
/* The program's function for DFU_READ, as for SPI flash: the offset is the distance from the first address of `flash`. */
void DFU_READ(const unsigned char *from, unsigned char *to, size_t count) {
    size_t at = (uintptr_t)from - (uintptr_t)flash;
    if (at > device.size || count > device.size - at)
        stop("a read outside of the flash");
    memcpy(to, part + at, count);
    reads++;
}
#endif

/* Returns 1 if this operation succeeds; else it fails, or reports a false success. */
static int works(void) {
    operations++;
    return trouble == 0 || operations % trouble != 0;
}

static int part_erase(void *own, uint32_t at, uint32_t length) {
    (void)own;
    if (works()) {
        memset(part + at, 0xff, length);
        return 0;
    }
    part[at] = 0xa5;
    return (int)roll(2);
}

static int part_program(void *own, uint32_t at, const uint8_t *bytes, uint32_t length) {
    (void)own;
    for (uint32_t i = 0; config.sector != 0 && i < length; i++)
        if (part[at + i] != 0xff)
            stop("a program of flash that is not erased");
    if (works()) {
        memcpy(part + at, bytes, length);
        return 0;
    }
    part[at] = (uint8_t)~bytes[0];
    return (int)roll(2);
}

static const struct dfu_driver driver = {NULL, part_erase, part_program};

static int32_t ask(uint8_t kind, uint8_t request, uint16_t value, uint16_t length, const uint8_t *body) {
    uint8_t setup[8] = {kind, request, (uint8_t)value, (uint8_t)(value >> 8), 0, 0, (uint8_t)length, (uint8_t)(length >> 8)};
    struct dfu_place place = {0, 0};
    int32_t n = dfu_device_serve(&device, setup, body, out, sizeof out);
    note(n, out, n > 0 ? (size_t)n : 0);
    note(dfu_device_work(&device), part, device.size);
    note(dfu_device_candidate(&device, &place), NULL, 0);
    note((int32_t)(place.at + place.length), NULL, 0);
    return n;
}

/* Downloads a new image, and uploads it. */
static void install(void) {
    uint8_t image[700];
    struct dfu_place place = {0, 0};
    uint32_t length = 1 + roll(sizeof image);
    for (uint32_t i = 0; i < length; i++)
        image[i] = (uint8_t)roll(256);
    note(dfu_device_begin(&device), NULL, 0);
    for (uint32_t at = 0; at < length; at += TRANSFER) {
        ask(0x21, DFU_DNLOAD, (uint16_t)(at / TRANSFER), (uint16_t)(length - at < TRANSFER ? length - at : TRANSFER), image + at);
        ask(0xa1, DFU_GETSTATUS, 0, 6, NULL);
    }
    ask(0x21, DFU_DNLOAD, (uint16_t)(length / TRANSFER + 1), 0, NULL);
    ask(0xa1, DFU_GETSTATUS, 0, 6, NULL);
    ask(0xa1, DFU_GETSTATUS, 0, 6, NULL);
    if (dfu_device_image(&device, &place) != 0)
        stop("no image is active");
    note((int32_t)place.at, part + place.at, place.length);
    if (place.length == length && memcmp(part + place.at, image, length) == 0)
        installed++;
    else
        refused++;
    note(dfu_device_begin(&device), NULL, 0);
    for (uint32_t at = 0; at < place.length; at += TRANSFER) {
        uint32_t count = place.length - at < TRANSFER ? place.length - at : TRANSFER;
        int32_t n = ask(0xa1, DFU_UPLOAD, (uint16_t)(at / TRANSFER), TRANSFER, NULL);
        if (n != (int32_t)count || memcmp(out, part + place.at + at, count) != 0)
            stop("an upload of other bytes");
    }
}

static void try_part(uint32_t unit, uint32_t sector) {
    static const uint8_t first[] = {1, 2, 3};
    config.unit = unit;
    config.sector = sector;
    device.size = DFU_MEDIUM_SIZE(unit, sector, 1024);
    memset(part, 0xff, sizeof part);
    sum = operations = trouble = installed = refused = 0;
    note(dfu_device_is_blank(&device), NULL, 0);
    note(dfu_device_power_on_or_format(&device, first, sizeof first), part, device.size);
    note(dfu_device_is_blank(&device), NULL, 0);
    for (uint32_t i = 0; i < 60; i++) {
        trouble = i % 3 == 2 ? 7 + roll(20) : 0;
        install();
    }
    trouble = 2;
    note(dfu_device_format(&device, first, sizeof first), part, device.size);
    printf("unit %u, sector %u: %u operations, %u installed, %u not, sum %08x\n", (unsigned)unit, (unsigned)sector, (unsigned)operations,
           (unsigned)installed, (unsigned)refused, (unsigned)sum);
    if (installed < 30 || refused < 1)
        stop("too few of one kind");
}

int main(void) {
    flash = part;
#ifdef DFU_READ
    flash = mmap(NULL, MOST, PROT_NONE, MAP_PRIVATE | MAP_ANONYMOUS, -1, 0);
    if (flash == MAP_FAILED)
        stop("no memory");
#endif
    device = (struct dfu_device){.config = &config, .flash = flash, .block = block, .most = sizeof block, .driver = &driver};
    for (uint32_t k = 0; k < 4; k++)
        for (uint32_t sector = 0; sector <= 512; sector += 256)
            try_part((const uint32_t[]){1, 16, 64, 256}[k], sector);
    fprintf(stderr, "%lu reads by the program's function\n", reads);
    return 0;
}

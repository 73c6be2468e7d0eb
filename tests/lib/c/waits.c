/* Computes how long a host waits for a download, with different values of busy_ms, and with each block's own time: the numbers of
 * docs/PORTING.md, "How long a host waits". The device is that of the library; the times of the part are modelled, and the bus takes none.
 * After each answer with dfuDNBUSY the host waits bwPollTimeout, and its next request gets NAK until the block is written. With each
 * block's own time the host may wait at most one and a half times as long as the part is busy; else the exit status is 1. */
#include <stdio.h>
#include <string.h>

#include "dfu_device_memory.h"

struct part {
    const char *name;
    uint32_t unit, sector, image, erase_ms, erase_most, tenths, program_most; /* tenths: tenths of a millisecond for 256 bytes */
};

static uint32_t erases, programs;

static int erase(void *own, uint32_t at, uint32_t length)
{
    erases++;
    return dfu_memory_erase(own, at, length);
}

static int program(void *own, uint32_t at, const uint8_t *bytes, uint32_t length)
{
    programs++;
    return dfu_memory_program(own, at, bytes, length);
}

static uint8_t data[4096], flash[2 * (2 * 4096 + 524288)];
static double waited, needed, longest;

/* Makes a request, and does the work after its answer. Computes the typical and the maximum time for which the part is busy. */
static int32_t ask(struct dfu_device *d, const struct part *p, uint8_t request, uint16_t length, double *busy, double *most)
{
    static uint16_t number;
    const uint8_t kind = request == DFU_DNLOAD ? 0x21 : 0xa1;
    number = (uint16_t)(request == DFU_DNLOAD && dfu_device_state(d) == DFU_STATE_IDLE ? 0 : number);
    const uint16_t value = request == DFU_DNLOAD ? number++ : 0;
    const uint8_t setup[8] = {kind, request, (uint8_t)value, (uint8_t)(value >> 8), 0, 0, (uint8_t)length, (uint8_t)(length >> 8)};
    erases = programs = 0;
    const int32_t n = dfu_device_serve(d, setup, data, data, sizeof data);
    if (dfu_device_work(d) != 0)
        return DFU_STALL;
    *busy = erases * p->erase_ms + programs * p->tenths / 10.0;
    *most = (double)erases * p->erase_most + (double)programs * p->program_most;
    return n;
}

/* Sends GETSTATUS, waits bwPollTimeout, and then until the part is done. Returns 0 if the status is not OK. */
static int poll(struct dfu_device *d, const struct part *p)
{
    double busy, most;
    if (ask(d, p, DFU_GETSTATUS, 6, &busy, &most) != 6 || data[0] != 0)
        return 0;
    const double told = data[1] | data[2] << 8 | data[3] << 16;
    waited += told > busy ? told : busy;
    needed += busy;
    longest = most - told > longest ? most - told : longest;
    return 1;
}

/* Returns the time of a download in seconds, or a negative number if it fails. */
static double session(const struct part *p, uint16_t block, uint32_t busy_ms, uint16_t erase_ms, uint16_t program_ms)
{
    const struct dfu_config config = {DFU_VERSION, 0, 0, 0, 1000, block, 7, 0, busy_ms, 0, 1, p->unit, p->sector, erase_ms, program_ms};
    const size_t size = DFU_MEDIUM_SIZE(p->unit, p->sector, p->image);
    uint8_t memory[DFU_BLOCK_SIZE(4096, 256)];
    const struct dfu_driver driver = {flash, erase, program};
    struct dfu_device d = {.config = &config, .flash = flash, .size = size, .block = memory, .most = sizeof memory, .driver = &driver};
    double busy, most;
    int is_well = size <= sizeof flash && dfu_device_format(&d, data, 1) == 0 && dfu_device_begin(&d) == 0;
    waited = needed = longest = 0;
    for (uint32_t at = 0; is_well && at <= p->image; at += block) {
        is_well = ask(&d, p, DFU_DNLOAD, at < p->image ? block : 0, &busy, &most) == 0 && poll(&d, p);
        if (is_well && dfu_device_state(&d) == DFU_STATE_DNLOAD_SYNC)
            is_well = poll(&d, p);
    }
    is_well = is_well && dfu_device_state(&d) == DFU_STATE_IDLE;
    return is_well ? waited / 1000 : -1;
}

/* Returns a value for busy_ms: the time of a block that erases nothing, or more if a request would wait over 4 s for the longest block. */
static uint32_t chosen(const struct part *p, uint16_t block)
{
    const uint32_t typical = (DFU_BLOCK_PROGRAMS(block) * p->tenths + 9) / 10;
    const uint32_t most = DFU_BLOCK_ERASES(block, p->sector) * p->erase_most + DFU_BLOCK_PROGRAMS(block) * p->program_most;
    return most > 4000 && most - 4000 > typical ? most - 4000 : typical;
}

int main(void)
{
    static const struct part parts[] = {
        {"STM32F1, 20 to 40 ms", 16, 2048, 65536, 20, 40, 70, 9},
        {"nRF52, 85 to 90 ms", 16, 4096, 131072, 85, 90, 26, 3},
        {"QSPI, 45 to 400 ms", 256, 4096, 524288, 45, 400, 7, 3},
        {"STM32F4, 1 to 2 s", 16, 131072, 131072, 1000, 2000, 10, 3},
    };
    for (size_t i = 0; i < sizeof parts / sizeof *parts; i++)
        for (uint16_t block = 1024; block <= 4096; block = (uint16_t)(block * 4)) {
            const struct part *p = &parts[i];
            const uint32_t all = DFU_BLOCK_ERASES(block, p->sector) * p->erase_most + DFU_BLOCK_PROGRAMS(block) * p->program_most;
            const uint32_t few = chosen(p, block);
            const double by_all = session(p, block, all, 0, 0), by_few = session(p, block, few, 0, 0), most = longest;
            const double own = session(p, block, 1, (uint16_t)p->erase_ms, (uint16_t)((p->tenths + 9) / 10));
            if (by_all < 0 || by_few < 0 || own < 0 || needed == 0)
                return 1;
            if (own * 1000 > needed * 1.5) {
                printf("%s: a wait of %.1f s, and the part is busy for %.1f s\n", p->name, own, needed / 1000);
                return 1;
            }
            printf("| %s | %u KiB | %u,%03u | %u | %.1f s | %u | %.1f s | %.1f s | %.1f s |\n", p->name, (unsigned)p->image / 1024,
                   block / 1000u, block % 1000u, (unsigned)all, by_all, (unsigned)few, by_few, most / 1000, own);
        }
    return 0;
}

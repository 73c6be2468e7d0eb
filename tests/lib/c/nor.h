/* Two simulated chips of QSPI NOR flash, and the driver that docs/PORTING.md describes. A program of a chip covers up to 256 bytes, wraps
 * around at the end of a page, and changes bits only from 1 to 0. The chips are read by commands, so the libraries read them through
 * DFU_READ. If power is lost during an operation, the operation changes nothing, half of its bytes, all of them, or any of their bits. */
#include <setjmp.h>
#include <stdint.h>
#include <stdio.h>
#include <stdlib.h>
#include <string.h>

enum { CHIP = 1 << 15, CHIPS = 2, NOR_PAGE = 256, TEARS = 4, NEVER = -1 };
struct nor {
    uint8_t cells[CHIP];
    const uint8_t *front; /* address of the chip for the libraries: that of the cells, or of memory that must not be read */
    uint32_t sector;
};
static struct nor chips[CHIPS];
static long operations, power_goes_at = NEVER, crossings, reads;
static int tear, splits = 1;
static uint32_t dice = 1;
static jmp_buf power;

static void stop(const char *what) {
    printf("%s\n", what);
    exit(1);
}
static uint32_t roll(uint32_t sides) {
    dice = dice * 1664525u + 1013904223u;
    return (dice >> 8) % sides;
}

/* Returns the bits of byte i that an operation of `length` bytes changes before the loss of power. */
static uint8_t reached(uint32_t i, uint32_t length, int is_cut) {
    if (!is_cut || tear == 2)
        return 0xff;
    return tear == 0 || (tear == 1 && i >= length / 2) ? 0 : tear == 1 ? 0xff : (uint8_t)roll(256);
}
static int is_cut_now(void) {
    return operations++ == power_goes_at;
}
static void sector_erase(struct nor *chip, uint32_t at) {
    const int is_cut = is_cut_now();
    if (at % chip->sector != 0 || at + chip->sector > CHIP)
        stop("an erase that is no sector");
    for (uint32_t i = 0; i < chip->sector; i++)
        chip->cells[at + i] |= reached(i, chip->sector, is_cut);
    if (is_cut)
        longjmp(power, 1);
}
static void page_program(struct nor *chip, uint32_t at, const uint8_t *bytes, uint32_t length) {
    const int is_cut = is_cut_now();
    if (at + length > CHIP)
        stop("a program behind the chip");
    for (uint32_t i = 0; i < length; i++) {
        uint8_t *cell = &chip->cells[at - at % NOR_PAGE + (at + i) % NOR_PAGE];
        *cell &= (uint8_t)(bytes[i] | (uint8_t)~reached(i, length, is_cut));
    }
    if (is_cut)
        longjmp(power, 1);
}

static int nor_erase(void *own, uint32_t at, uint32_t length) {
    (void)length; /* (always one sector) */
    sector_erase(own, at);
    return 0;
}
/* Programs bytes, split at pages, because the chip wraps around there. With `splits` 0 they aren't split, as by a driver with that mistake.
 */
static int nor_program(void *own, uint32_t at, const uint8_t *bytes, uint32_t length) {
    crossings += at / NOR_PAGE != (at + length - 1) / NOR_PAGE;
    while (length > 0) {
        const uint32_t left = NOR_PAGE - at % NOR_PAGE, some = splits && length > left ? left : length;
        page_program(own, at, bytes, some);
        at += some, bytes += some, length -= some;
    }
    return 0;
}

#ifdef DFU_READ
/* The program's function for DFU_READ: the address determines the chip and the offset in it. */
void DFU_READ(const unsigned char *from, unsigned char *to, size_t count);
void DFU_READ(const unsigned char *from, unsigned char *to, size_t count) {
    for (int i = 0; i < CHIPS; i++) {
        const size_t at = (uintptr_t)from - (uintptr_t)chips[i].front;
        if (at <= CHIP && count <= CHIP - at) {
            memcpy(to, chips[i].cells + at, count);
            reads++;
            return;
        }
    }
    stop("a read outside of the flash");
}
#endif

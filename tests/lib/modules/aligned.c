/* Calls the export of aligned.ll with bytes at each alignment. The results must equal sums over the same bytes, computed byte by byte. If a
 * result differs, the program prints the name of the check and exits with status 1. */
#include <stdio.h>
#include <string.h>

#include "dfu_aligned.h"

static uint64_t at(const uint8_t *bytes, size_t place, int count) {
    uint64_t number = 0;
    for (int k = 0; k < count; k++)
        number |= (uint64_t)bytes[place + (size_t)k] << (8 * k);
    return number;
}

/* Returns the sum of the results of aligned.ll's functions, in their order. */
static uint64_t sum(const uint8_t *bytes, const struct dfu_aligned *record, size_t by) {
    uint64_t four = 2 * (at(bytes, 0, 8) + at(bytes, 8, 4) + at(bytes, 6, 4)) + at(bytes, 12, 8) + at(bytes, 20, 4) + at(bytes, 18, 4);
    uint64_t hands_on = at(bytes, 2, 4) + at(bytes, 2, 2) + at(bytes, 0, 8);
    uint64_t any = 2 * at(bytes, 0, 4), again = at(bytes, 12, 8), loop = 0;
    for (size_t k = 0; k < 5; k++)
        loop += at(bytes, 2 * k, 4);
    uint64_t moved = at(bytes, by, 8) + at(bytes, 4 * by, 8) + at(bytes, 6 * by, 8) + at(bytes, by / 8 * 8, 8) + at(bytes, 4 * by + 2, 8)
                     + at(bytes, 2 * by, 8) + at(bytes, 4 * by % 256, 8);
    uint64_t either = at(bytes, 0, 8) + at(bytes, 0, 4), through = at(bytes, 4, 8) + 3 * at(bytes, 0, 4);
    uint64_t of_table = 0x6867666564636261u + at(bytes, 0, 8), stores = by;
    uint64_t both = ((uint64_t)record->other << 32) + record->first;
    return four + hands_on + any + again + loop + moved + either + through + of_table + stores + record->first + both;
}

int main(void) {
    static const struct dfu_aligned record = {0x80706050u, 0x44332211u};
    static _Alignas(8) uint8_t room[136];
    int wrong = 0;
    for (size_t k = 0; k < sizeof room; k++)
        room[k] = (uint8_t)(k * k + 7 * k + 3);
    for (size_t from = 0; from < 8; from++) {
        for (size_t by = 0; by < 16; by++) {
            if ((uint64_t)dfu_aligned_all(room + from, &record, by) != sum(room + from, &record, by)) {
                wrong = 1;
                printf("places, from %d by %d\n", (int)from, (int)by);
            }
        }
    }
    return wrong;
}

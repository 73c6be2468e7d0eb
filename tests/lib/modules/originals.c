/* Calls the exports of originals.ll, and compares the results with the same sums computed here. If a result differs, the program prints the
 * name of the check and exits with status 1. */
#include <stdio.h>
#include <string.h>

#include "dfu_originals.h"

static int wrong;

static void check(const char *what, int64_t found, uint64_t wanted) {
    if ((uint64_t)found != wanted) {
        wrong = 1;
        printf("%s: wanted %llx, found %llx\n", what, (unsigned long long)wanted, (unsigned long long)found);
    }
}

static uint64_t read_of(uint64_t byte, uint64_t word, uint64_t half) {
    return byte | word << 8 | half << 40;
}

/* Computes `originals::sum`, which adds each byte to twice the sum so far. */
static uint64_t sum_of(const uint8_t *bytes, size_t count) {
    uint64_t sum = 0;
    for (size_t i = 0; i < count; i++)
        sum = 2 * sum + bytes[i];
    return sum;
}

static uint64_t plain(const uint8_t *bytes, size_t count) {
    uint64_t sum = 0;
    for (size_t i = 0; i < count; i++)
        sum += bytes[i];
    return sum;
}

int main(void) {
    static const uint8_t record[12] = {5, 1, 2, 3, 0x10, 0x20, 0x30, 0x40, 0x50, 0x60, 7, 8};
    const uint64_t word = 0x40302010, half = 0x6050, all = read_of(5, word, half);
    check("copies", dfu_originals_copies(record),
          all + read_of(5, 0x03020105, half) + read_of(9, word, half) + 3 * all + read_of(5, 77, half));
    for (size_t count = 4; count <= 14; count++) {
        for (size_t fewer = 0; fewer <= count; fewer++) {
            uint8_t bytes[16] = {1, 1, 30, 40, 50, 60, 70, 80, 90, 100, 110, 120, 130, 140, 150, 160};
            const uint8_t *from = bytes + 2;
            const uint64_t wanted = 2 * sum_of(from, count) + sum_of(from, fewer) + from[0] + 2 * plain(from, count);
            check("buffers", dfu_originals_buffers(bytes, count, fewer), wanted);
            check("what C has then", bytes[2] | bytes[3] | bytes[4] | bytes[5], 0);
        }
    }
    return wrong;
}

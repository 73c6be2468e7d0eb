/* Calls each export of sizes.ll with numbers around 2 to the 16, 31, 32 and 63, and compares the results with the same sums in 64 bits. If
 * a result differs, the program prints the name of the check and exits with status 1. */
#include <stdio.h>

#include "dfu_sizes.h"

static int wrong;

static void check(const char *what, int64_t found, uint64_t wanted) {
    if ((uint64_t)found != wanted) {
        wrong = 1;
        printf("%s: wanted %llx, found %llx\n", what, (unsigned long long)wanted, (unsigned long long)found);
    }
}

static uint64_t bits_of(const int *bits, int count) {
    uint64_t number = 0;
    for (int k = 0; k < count; k++)
        number = number << 1 | (uint64_t)(bits[k] != 0);
    return number;
}

static uint64_t sums(uint32_t x, uint32_t y, uint64_t z) {
    uint64_t a = x, b = y, c = (uint16_t)x, d = (uint16_t)y, few = c + 1 < z + 1 ? c + 1 : c;
    int bits[] = {a + b > z, c + d > b, a * d > z, c * d > b, a << 1 > z, c << 16 > b, a - b > z, (a | 1ull << 32) > z, (a | c) > b, ~a > z,
                  a + b > z, (a < b ? 0 : a - b) > b, z + z > b, 0, a < c, few == z};
    return bits_of(bits, 16);
}

static uint64_t parts(uint64_t a, uint64_t b) {
    uint64_t low = a & 0xFFFFFFFF, high = a >> 32, least = a < high ? a : high;
    int bits[] = {low > high, (a & 0x1FFFFFFFF) > b, a >> 31 > b, least > low, (a < b ? a : b) > low, (a > high ? a : high) > b,
                  low > high, a % 4294967298 > b, high > low, a / 3 > b};
    return bits_of(bits, 10);
}

static uint64_t bounded(uint64_t a, uint64_t b, uint64_t c) {
    if (a < 1000)
        return b == 0 ? 1 + a + a : b - 1 > a + a;
    return c <= b ? (b - c > b - b / 2) + a + a : b - c > a + a;
}

static uint64_t capped(uint64_t a, uint64_t b) {
    return (a < b ? a : b) | (a < 70000 ? a : 70000) << 40;
}

static void loops(const uint8_t *bytes, uint64_t a, uint64_t b) {
    const uint64_t count = a - b;
    if (count - 1 < 12)
        check("bytes", dfu_sizes_bytes(bytes, a, b), 9u + (count > 9 ? 77u + (77ull << 32) : 0u));
    check("until", dfu_sizes_until(bytes, a, b), count < 2 ? 100 : 1);
}

int main(void) {
    static const uint64_t numbers[] = {0, 1, 7, 999, 1000, 0xFFFF, 0x10000, 0x7FFFFFFF, 0x80000000, 0xFFFFFFFF, 0x100000000, 0x100000005,
                                       0x1FFFFFFFF, 0x200000000, 0x8000000000000000, 0xFFFFFFFFFFFFFFFF};
    static uint8_t bytes[16] = {9, 0, 0, 0, 0, 0, 0, 0, 0, 77};
    enum { COUNT = sizeof numbers / sizeof numbers[0] };
    for (int i = 0; i < COUNT; i++) {
        for (int j = 0; j < COUNT; j++) {
            uint64_t a = numbers[i], b = numbers[j];
            loops(bytes, a, b);
            check("parts", dfu_sizes_parts(a, b), parts(a, b));
            check("low", dfu_sizes_low(bytes, a, b), 77ull << 48 | (uint64_t)(a + 8 > b) << 40 | (uint32_t)(6 ^ a));
            for (int k = 0; k < COUNT; k++) {
                uint32_t c = (uint32_t)numbers[k], d = (uint32_t)b;
                check("sums", dfu_sizes_sums(c, d, a), sums(c, d, a));
                check("capped", dfu_sizes_capped(b, c, a),
                      capped(b, c) + capped(c, 8) + (b < c ? b : c) + (a < b ? a : b) + (b > 0xFFFFFFFF));
                check("bounded", dfu_sizes_bounded(a, c, d), bounded(a, c, d));
            }
            uint32_t x = (uint32_t)a;
            uint64_t same = x == 7 ? 70 : x, other = x == 7 ? 71 : b;
            check("ways", dfu_sizes_ways(x, b), same + ((same & 1 ? other : same) > same));
        }
    }
    for (uint64_t count = 0; count < 9; count++)
        check("counts", dfu_sizes_counts((uint32_t)count, 0xFFFFFFFF), (uint64_t)(count * 0x55555555 > 0xFFFFFFFF) << 1 | (count == 4));
    return wrong;
}

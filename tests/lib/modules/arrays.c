/* Calls each export of arrays.ll, and compares the results with the same sums in 64 bits. If a result differs, the program prints the name
 * of the check and exits with status 1. */
#include <stdio.h>
#include <string.h>

#include "dfu_arrays.h"

static int wrong;

static void check(const char *what, int64_t found, uint64_t wanted) {
    if ((uint64_t)found != wanted) {
        wrong = 1;
        printf("%s: wanted %llx, found %llx\n", what, (unsigned long long)wanted, (unsigned long long)found);
    }
}

/* Fills the stack below the caller's frame with bytes other than zeros. */
static int dirty(void) {
    volatile uint8_t room[1024];
    for (size_t k = 0; k < sizeof room; k++)
        room[k] = 0xa5;
    return room[17];
}

static uint64_t held(uint64_t c, uint64_t a, uint64_t b) {
    uint64_t halves = (a & 0xFFFFFFFF) | 1ull << 32, any = 100ull << 8 * (a & 7);
    int bits[] = {a > b, 4096 > b, 8192 > a, b > a, halves > b, any > b, a + 4096 > b, c > b, b > a, 0};
    uint64_t number = 0;
    for (int k = 0; k < 10; k++)
        number = number << 1 | (uint64_t)(bits[k] != 0);
    return number;
}

int main(void) {
    static const uint64_t numbers[] = {0, 1, 5, 7, 4095, 4096, 8192, 0xFFFFEFFF, 0xFFFFF000, 0xFFFFFFFF, 0x100000000, 0x100001000,
                                       0x6400000000, 0x8000000000000000, 0xFFFFFFFFFFFFFFFF};
    static const uint64_t cases[] = {0, 5, 40, 40, 40, 40, 40, 28, 40, 9, 9, 40};
    enum { COUNT = sizeof numbers / sizeof numbers[0] };
    uint8_t room[8];
    for (int i = 0; i < COUNT; i++) {
        uint32_t a = (uint32_t)numbers[i];
        check("writes", dfu_arrays_writes(room, a), 3 + (uint64_t)a + 20 + 2);
        check("what came to C", memcmp(room, "\6\0\0\0\0\0\0", 8), 0);
        for (int j = 0; j < COUNT; j++) {
            if (sizeof(size_t) == sizeof(void *))
                check("lost", dfu_arrays_lost(a, numbers[j]), numbers[j] > a);
            for (int k = 0; k < COUNT; k++) {
                memcpy(room, &numbers[k], 8);
                check("the stack", dirty(), 0xa5);
                check("held", dfu_arrays_held(room, a, numbers[j]), held(numbers[k], a, numbers[j]));
            }
        }
    }
    for (uint32_t a = 0; a < 12; a++)
        for (uint64_t b = 0; b < 2; b++)
            check("cases", dfu_arrays_cases(a, b), cases[a] - (a == 1 && b == 0));
    return wrong;
}

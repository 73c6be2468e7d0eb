/* Calls the export of fills.ll, over a stack that is not zeros, and compares the results with values worked out by hand. If a result
 * differs, the program prints the name of the check and exits with status 1. */
#include <stdio.h>
#include <string.h>

#include "dfu_fills.h"

static int wrong;

static void check(const char *what, long long found, long long wanted) {
    if (found != wanted) {
        wrong = 1;
        printf("%s: wanted %lld, found %lld\n", what, wanted, found);
    }
}

/* Fills the stack below the caller's frame with bytes other than zeros. */
static int dirty(int number) {
    volatile uint8_t room[4096];
    for (size_t k = 0; k < sizeof room; k++)
        room[k] = (uint8_t)(0xa5 + number);
    return room[17];
}

int main(void) {
    static const uint8_t six[8] = {6, 0, 0, 0, 0, 0, 0, 0};
    static const int64_t wanted[4][2] = {{0, 2042}, {1, 2064}, {2, 67602}, {8, 1823}};
    uint8_t room[8];
    for (int k = 0; k < 4; k++) {
        memset(room, 0xee, sizeof room);
        check("the stack", dirty(k), 0xa5 + k);
        check("fills", dfu_fills_all(room, (size_t)wanted[k][0]), wanted[k][1]);
        check("what came to C", memcmp(room, six, sizeof room), 0);
    }
    return wrong;
}

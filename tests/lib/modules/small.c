/* Calls each export of kit.ll, and compares the results with values worked out by hand. If a result differs, the program prints the name of
 * the check and exits with status 1. */
#include <stdio.h>
#include <string.h>

#include "dfu_small.h"

static int wrong;

static void check(const char *what, long long found, long long wanted) {
    if (found != wanted) {
        wrong = 1;
        printf("%s: wanted %lld, found %lld\n", what, wanted, found);
    }
}

int main(void) {
    static const uint8_t bytes[6] = {1, 2, 3, 4, 5, 255};
    static const int32_t table[8] = {'A', 'b', '"', '\\', 0, 255, 'y', 'z'};
    uint8_t room[17], moved[7] = "abcdef";

    check("a sum", dfu_small_sum(bytes, 6), 6270);
    check("a sum of nothing", dfu_small_sum(bytes, 0), 0);
    check("a sum of nothing at NULL", dfu_small_sum(NULL, 0), 0);
    check("kinds of 255", dfu_small_kinds(255), 19);
    check("kinds of 7", dfu_small_kinds(7), 29);
    check("kinds of 4", dfu_small_kinds(4), 38);
    check("kinds of 260", dfu_small_kinds(260), 38);
    room[16] = 77;
    check("a pointer", dfu_small_pointer(room + 0, bytes), 0);
    check("the byte behind it", room[8], 255);
    if (sizeof(void *) == 4)
        check("its last bytes", room[4] | room[5] | room[6] | room[7], 0);
    check("a pointer at an odd place", dfu_small_pointer(room + 1, bytes), 0);
    for (uint64_t at = 0; at < 8; at++)
        check("a table", dfu_small_table(at), table[at]);
    dfu_small_move(moved, 3);
    check("moved", memcmp(moved, "bcbcef", 6), 0);
    return wrong;
}

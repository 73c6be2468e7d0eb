/* Calls each export of flow.ll, and compares the results with values worked out by hand. If a result differs, the program prints the name
 * of the check and exits with status 1. */
#include <stdio.h>
#include <string.h>

#include "dfu_flow.h"

static int wrong;

static void check(const char *what, long long found, long long wanted) {
    if (found != wanted) {
        wrong = 1;
        printf("%s: wanted %lld, found %lld\n", what, wanted, found);
    }
}

static void stores(void) {
    static const uint8_t wanted[32] = {0xf8, 0xf7, 0xf6, 0xee, 0xee, 0xf8, 0xf7, 0xf6, 0xf5, 0xf4, 0xf3, 0xee, 0xee, 0xf8, 0xf7, 0xf6,
                                       0xf5, 0xf4, 0xf3, 0xf2, 0xf1, 0xee, 0xee, 0xf8, 0xf7, 0xee, 0xee, 0xfe, 0xff, 0xff, 0xff, 0xee};
    uint8_t room[33];
    for (int by = 0; by < 2; by++) {
        memset(room, 0xee, sizeof room);
        check("numbers of all widths", dfu_flow_stores(room + by, 0xf1f2f3f4f5f6f7f8u), 0xf7f8);
        check("their bytes", memcmp(room + by, wanted, 32), 0);
    }
}

static void memory(void) {
    uint8_t bytes[4] = {1, 2, 3, 4}, wide[8] = {1, 0, 0, 0, 2, 0, 0, 0}, some[3] = {7, 8, 200};
    uint64_t room;
    check("order", dfu_flow_order(bytes), 1020207);
    check("what the order leaves", bytes[0] * 10000 + bytes[1] * 100 + bytes[2], 90907);
    check("order of longer numbers", dfu_flow_wide_order(wide), 1020914);
    check("what that leaves", wide[0] * 100 + wide[4], 1409);
    check("arrays at once", dfu_flow_arrays(7), 23);
    check("arrays one after the other", dfu_flow_arrays(8), -3);
    check("arrays without marks", dfu_flow_touches(100), 130);
    check("a pointer in memory", dfu_flow_pointer(&room, some, 3), 200);
    check("what was copied", memcmp(&room, some, 3), 0);
    check("what was not filled", some[0], 7);
}

int main(void) {
    static const int32_t ways[7] = {40, 40, 21, 31, 40, 8, 9};
    uint8_t byte = 0;

    check("no swap", dfu_flow_swap(10, 3, 0), 7);
    check("three swaps", dfu_flow_swap(10, 3, 3), -7);
    check("four swaps", dfu_flow_swap(10, 3, 4), 7);
    check("the tenth of Fibonacci", dfu_flow_rows(10), 55);
    for (uint32_t k = 0; k < 7; k++)
        check("ways", dfu_flow_ways(k), ways[k]);
    check("the way of -1", dfu_flow_ways(0xffffffffu), 12);
    stores();
    memory();
    check("a product", dfu_flow_product(0xffffffffu, 0xffffffffu), -8589934591);
    check("a product by 0", dfu_flow_product(0, 0xffffffffffffffffu), 0);
    check("a product of 65 bits", dfu_flow_product(0x100000000u, 0x100000000u), 1);
    check("a product of 64 bits", dfu_flow_product(0x100000000u, 0x7fffffffu), 0x7fffffff00000000);
    check("a pair", dfu_flow_pair(1, &byte), 70);
    check("a pair of zeros", dfu_flow_pair(2, &byte), 1);
    check("a pair with one zero", dfu_flow_pair(3, &byte), 31);
    check("row 0", dfu_flow_tables(0), 0x100000007);
    check("row 1", dfu_flow_tables(1), 0xfffeffffffff);
    check("row 2", dfu_flow_tables(2), 0x12c00010000);
    return wrong;
}

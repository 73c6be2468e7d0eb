/* The exports of kit.ll. */
#include <stddef.h>
#include <stdint.h>

struct dfu_small {
    uint8_t first, second[2];
    uint32_t third;
    uint16_t fourth;
};

int64_t dfu_small_sum(const uint8_t *bytes, size_t length);
int32_t dfu_small_kinds(uint32_t byte);
int32_t dfu_small_pointer(uint8_t room[16], const uint8_t *pointer);
int32_t dfu_small_table(uint64_t at);
int32_t dfu_small_move(uint8_t *bytes, size_t count);

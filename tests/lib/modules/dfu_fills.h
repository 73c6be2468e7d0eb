/* The exports of fills.ll. */
#include <stddef.h>
#include <stdint.h>

int64_t dfu_fills_all(uint8_t room[8], size_t number);

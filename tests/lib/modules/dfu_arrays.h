/* The exports of arrays.ll. */
#include <stddef.h>
#include <stdint.h>

int64_t dfu_arrays_held(const uint8_t *bytes, size_t a, uint64_t b);
int64_t dfu_arrays_writes(uint8_t *room, size_t a);
int64_t dfu_arrays_lost(size_t a, uint64_t b);
int64_t dfu_arrays_cases(uint32_t a, uint64_t b);

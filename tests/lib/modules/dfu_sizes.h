/* The exports of sizes.ll. */
#include <stddef.h>
#include <stdint.h>

int64_t dfu_sizes_sums(uint32_t a, uint32_t b, uint64_t c);
int64_t dfu_sizes_parts(uint64_t a, uint64_t b);
int64_t dfu_sizes_bounded(uint64_t a, size_t b, size_t c);
int64_t dfu_sizes_counts(size_t count, uint64_t from);
int64_t dfu_sizes_low(const uint8_t *bytes, uint64_t a, uint64_t b);
int64_t dfu_sizes_ways(uint32_t a, uint64_t b);
int64_t dfu_sizes_bytes(const uint8_t *bytes, uint64_t a, uint64_t b);
int64_t dfu_sizes_until(const uint8_t *bytes, uint64_t a, uint64_t b);
int64_t dfu_sizes_capped(uint64_t a, uint32_t b, uint64_t c);

/* The exports of aligned.ll. */
#include <stddef.h>
#include <stdint.h>

struct dfu_aligned {
    uint32_t first;
    uint32_t other;
};

int64_t dfu_aligned_all(const uint8_t bytes[128], const struct dfu_aligned *record, size_t by);

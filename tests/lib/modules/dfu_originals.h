/* The exports of originals.ll. */
#include <stddef.h>
#include <stdint.h>

int64_t dfu_originals_copies(const uint8_t record[12]);
int64_t dfu_originals_buffers(uint8_t *bytes, size_t count, size_t fewer);

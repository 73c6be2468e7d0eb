/* The export of reads.ll. */
#include <stddef.h>
#include <stdint.h>

int64_t dfu_reads_byte(const uint8_t *flash, size_t at);

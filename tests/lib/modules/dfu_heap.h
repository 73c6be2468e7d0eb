/* The exports of heap.ll, as heap.py produces them. */
#include <stddef.h>
#include <stdint.h>

int32_t dfu_heap_try(uint64_t *said, size_t last, uint64_t *memory, size_t words);
int32_t dfu_heap_none(uint32_t number);

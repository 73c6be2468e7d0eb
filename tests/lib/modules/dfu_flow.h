/* The exports of flow.ll. */
#include <stddef.h>
#include <stdint.h>

int64_t dfu_flow_swap(uint64_t left, uint64_t right, uint64_t turns);
int64_t dfu_flow_rows(uint64_t count);
int32_t dfu_flow_ways(uint32_t number);
int64_t dfu_flow_order(uint8_t bytes[3]);
int64_t dfu_flow_wide_order(uint8_t bytes[8]);
int32_t dfu_flow_arrays(uint32_t number);
int32_t dfu_flow_touches(uint32_t number);
int32_t dfu_flow_stores(uint8_t room[32], uint64_t number);
int64_t dfu_flow_product(uint64_t left, uint64_t right);
int32_t dfu_flow_pair(uint8_t number, uint8_t *pointer);
int64_t dfu_flow_tables(uint64_t row);
int32_t dfu_flow_pointer(uint64_t *room, uint8_t *bytes, size_t count);

/* Declarations of the Pico SDK that the listing of docs/PORTING.md for the RP2040 uses, for tests/c/porting. The SDK itself declares them
 * in hardware/flash.h, hardware/sync.h and pico/platform. */
#ifndef HARDWARE_FLASH_H
#define HARDWARE_FLASH_H
#include <stddef.h>
#include <stdint.h>

#define XIP_BASE 0x10000000u
#define __not_in_flash_func(name) __attribute__((section(".time_critical." #name))) name

void flash_range_erase(uint32_t offset, size_t count);
void flash_range_program(uint32_t offset, const uint8_t *data, size_t count);
#endif

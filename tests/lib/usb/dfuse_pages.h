/* The memory of the DfuSe device: its pages, from the map USB_PAGES, one range after the other. */
#ifndef USB_DFUSE_PAGES_H
#define USB_DFUSE_PAGES_H

#include "model.h"

#include <stdbool.h>
#include <stddef.h>
#include <stdint.h>

/* Makes the pages, with the old image followed by FFh. */
void pages_make(void);

/* Returns true if an address is on a page. */
bool pages_has(uint32_t address);

/* Erases the page of an address. Returns false if there is none, or it can't be erased. */
bool pages_erase(uint32_t address);

/* Writes bytes. Returns false if one of them is on no writable page, or, with USB_CELLS=fail, if a cell isn't erased. */
bool pages_write(uint32_t address, const uint8_t *bytes, size_t length);

/* Reads bytes, up to the first that can't be read. Returns their number. */
size_t pages_read(uint32_t address, uint8_t *out, size_t length);

/* pages_keep saves the memory; pages_tear restores every other byte that has changed since. */
void pages_keep(void);
void pages_tear(void);

/* Returns the whole memory. */
struct part pages_memory(void);

#endif

/* SPDX-License-Identifier: MIT OR Apache-2.0 */
/* The alternate settings. Each has a name, a range of the part, and a store or a raw area. */
#ifndef TABLE_H
#define TABLE_H

#include "dfu_device.h"

#include "board.h"

enum { SETTINGS = 3, INTERFACE = 0 };

/* A range of the part that belongs to one setting. The offsets of operations count from its first byte. */
struct place {
    uint32_t at, length;
};

struct raw;

/* A setting. Either device or raw is NULL. */
struct setting {
    const char *name; /* text of its string descriptor */
    const struct place *place;
    struct dfu_device *device;
    struct raw *raw;
};

extern const struct setting setting_table[SETTINGS];

/* Configuration of all stores. They share it because they share the functional descriptor. */
extern const struct dfu_config shared_config;

/* The driver of the part, for stores and the raw area. `own` is the place; a range that is not inside it is refused. */
int place_erase(void *own, uint32_t at, uint32_t length);
int place_program(void *own, uint32_t at, const uint8_t *bytes, uint32_t length);

#endif

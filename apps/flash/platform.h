/* SPDX-License-Identifier: MIT OR Apache-2.0 */
/* Calls that depend on the operating system, apart from clocks, stops, terminals and files, which have their own headers. The folders posix
 * (with linux or unix) and windows implement them. No other file tests which system it runs on. */
#ifndef DFU_FLASH_PLATFORM_H
#define DFU_FLASH_PLATFORM_H

#include "find.h"

#include <stdbool.h>

/* Converts the program's arguments to UTF-8. Must be called first. Returns false if there is no memory. */
bool platform_words(int *count, char ***texts);

/* Returns the reason why a listed device may be gone when it is opened. */
const char *platform_gone_reason(void);

/* Prints on standard error how to get access to a device that can't be opened, by its `access`. */
void platform_help(const struct found *found);

#endif

/* SPDX-License-Identifier: MIT OR Apache-2.0 */
/* Parses the values of options into `words`. Each function returns false, after printing why, if the value is invalid. */
#ifndef DFU_FLASH_VALUES_H
#define DFU_FLASH_VALUES_H

#include "words.h"

#include <stdbool.h>

bool value_device(const char *text, struct words *words);
bool value_path(const char *text, struct words *words);
bool value_serial(const char *text, struct words *words);
bool value_interface(const char *text, struct words *words);
bool value_setting(const char *text, struct words *words);
bool value_timeout(const char *text, struct words *words);
bool value_boards(const char *text, struct words *words);
bool value_retry(const char *text, struct words *words);
bool value_transfer(const char *text, struct words *words);
bool value_address(const char *text, struct words *words);
bool value_length(const char *text, struct words *words);
bool value_stamp(const char *text, struct words *words);
bool value_stamp_at(const char *text, struct words *words);

/* Parse, at the start of `text`, a hexadecimal number of up to 32 bits after 0x, and a count of at least 1 byte, decimal or hexadecimal.
 * `rest` is set to the text after it. */
bool value_is_hexadecimal(const char *text, uint32_t *number, const char **rest);
bool value_is_length(const char *text, uint32_t *length, const char **rest);

/* Returns true if the text is VID:PID, with four hexadecimal digits each. */
bool value_is_ids(const char *text);

/* Parses --verbose, with `text` NULL, or --verbose=FILE. */
bool value_verbose(const char *text, struct words *words);

/* Parses the two values of --limits, ACTIONS and RESTARTS. `second` is NULL if it is missing. */
bool value_limits(const char *first, const char *second, struct words *words);

/* Parses --wait, with `text` NULL, or --wait=SECONDS. */
bool value_wait(const char *text, struct words *words);

/* Returns true if the argument after --wait has only digits, so that it is the number of seconds. */
bool value_is_seconds(const char *word);

#endif

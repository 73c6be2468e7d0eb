/* SPDX-License-Identifier: MIT OR Apache-2.0 */
/* Options of dfu-util 0.11, so that a command line for dfu-util works here, or a message with the form to use instead is printed. */
#ifndef DFU_FLASH_DFU_UTIL_H
#define DFU_FLASH_DFU_UTIL_H

#include "words.h"

#include <stdbool.h>

/* Options of dfu-util 0.11 for getopt, except -h and -V. */
#define DFU_UTIL_OPTIONS "D:U:ld:p:S:i:a:t:weRZ:n:c:E:vs:"

/* Translates a long option that dfu-flash lacks, or that means something else in dfu-util, into dfu-util's short one, such as `--intf=0`
 * into `-i0`. Returns any other argument unchanged. The caller must not free the result. */
char *dfu_util_short(char *word);

/* Returns true if the option, with its value, means the same here as in dfu-util, or isn't needed here. Else prints the reason or the
 * option to use instead, and returns false. */
bool dfu_util_is_same(int option, const char *value);

/* Records an option that is ignored because of another one, such as -e because of -D. */
void dfu_util_pass(int option);

/* Reports which of the given options are ignored. With `is_quiet`, reports only that the :leave of -s isn't done. */
void dfu_util_notes(bool is_quiet);

/* Read the values of -d, -S and -s as dfu-util does. Each returns false, after printing why, if the value is invalid or isn't accepted
 * here. */
bool dfu_util_device(const char *text, struct words *words);

/* Reads VENDOR:PRODUCT as -d does, but prints nothing if the text is invalid. */
bool dfu_util_ids(const char *text, struct words *words);

bool dfu_util_serial(char *text, struct words *words);
bool dfu_util_address(const char *text, struct words *words);

#endif

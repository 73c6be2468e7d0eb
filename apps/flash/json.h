/* SPDX-License-Identifier: MIT OR Apache-2.0 */
/* JSON records on standard output. */
#ifndef DFU_FLASH_JSON_H
#define DFU_FLASH_JSON_H

#include "find.h"

#include <stdbool.h>
#include <stdint.h>

/* Print a field after a comma: its name, and a text, a number or a boolean. A text that is NULL is unknown, and prints no field. */
void json_text(const char *name, const char *text);
void json_number(const char *name, uint64_t number);
void json_truth(const char *name, bool value);

/* Prints a number with this many hexadecimal digits, in quotes. */
void json_hex(const char *name, uint32_t number, int digits);

/* Prints the identifiers of a device, and its release if that is known. */
void json_ids(const struct found *found);

/* Prints the fields of a setting: interface, alternate setting, name, and the version in the name. */
void json_setting(const struct found *found);

/* Prints the goal of a session and the fields of its device. */
struct session;
void json_session(const struct session *session);

/* Prints the first byte in which the device's content differs from the image, by its offset or its address. */
struct difference;
void json_difference(const struct difference *difference, bool is_address);

/* Prints the first address of a DfuSe session. */
void json_address(uint32_t address);

#endif

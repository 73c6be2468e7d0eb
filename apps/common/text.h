/* SPDX-License-Identifier: MIT OR Apache-2.0 */
/* Printing and quoting of untrusted text: strings of devices, file names, command-line arguments. */
#ifndef DFU_FLASH_TEXT_H
#define DFU_FLASH_TEXT_H

#include <stdbool.h>
#include <stddef.h>
#include <stdint.h>
#include <stdio.h>

/* Returns the number of bytes of the first character of `text`, and writes its code point to `character`. Returns 0 if the bytes aren't
 * valid UTF-8. */
size_t text_character(const char *text, uint32_t *character);

/* Returns true if a terminal may interpret the character as a command, or display other text in a different order because of it. */
bool text_is_control(uint32_t character);

/* Prints a text unchanged, except that bytes of control characters and bytes that aren't UTF-8 are written as \xNN. */
void text_print(FILE *out, const char *text);

/* Returns true if a person can type the text, because none of its bytes has to be escaped. */
bool text_is_typed(const char *text);

/* Writes the text to `word` as one shell word, in quotes if it needs them. Returns false if the text can't be typed, or if `room` is
 * smaller than 4 times the text's length plus 3. */
bool text_word(const char *text, char *word, size_t room);

/* Prints the bytes as hexadecimal digits. */
void text_hex(FILE *out, const uint8_t *bytes, size_t count);

/* Converts UTF-16 with the low byte first to UTF-8. The conversion ends after `count` units, at a NUL, or when the next character doesn't
 * fit into `room`. */
void text_from_units(const unsigned char *bytes, size_t count, char *text, size_t room);

#endif

/* SPDX-License-Identifier: MIT OR Apache-2.0 */
/* Converts texts and errors between this program, which uses UTF-8 and errno, and Windows. */
#ifndef DFU_FLASH_UTF16_H
#define DFU_FLASH_UTF16_H

#include <stddef.h>

/* Convert a text to the other encoding. The caller must free the result. Return NULL on failure, with the reason in errno. */
wchar_t *utf16(const char *text);
char *utf8(const wchar_t *text);

/* Sets errno from the last Windows error. */
void errno_from_windows(void);

#endif

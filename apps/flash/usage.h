/* SPDX-License-Identifier: MIT OR Apache-2.0 */
/* Next steps after an invalid command line. */
#ifndef DFU_FLASH_USAGE_H
#define DFU_FLASH_USAGE_H

/* Returns the next step for an error message by its first words, such as "--path takes a path". Never NULL. The text is valid until the
 * next call. */
const char *usage_step(const char *what);

/* Suggests 0x before an address of bare hexadecimal digits, such as 08000000 or 08000000:leave. Does nothing for other texts. */
void usage_advise_address(const char *option, const char *text);

#endif

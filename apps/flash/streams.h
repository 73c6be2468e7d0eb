/* SPDX-License-Identifier: MIT OR Apache-2.0 */
/* The three standard streams. */
#ifndef DFU_FLASH_STREAMS_H
#define DFU_FLASH_STREAMS_H

/* Reserves the descriptors of standard streams that are closed, so that no file, pipe or device gets their numbers. Using such a stream
 * fails. */
void streams_keep(void);

#endif

/* SPDX-License-Identifier: MIT OR Apache-2.0 */
/* A serial number or a key for each board: the next entry of the list of --stamp is written into the image at --stamp-at. Each entry is
 * used for one board only, even if its session fails, because it is recorded in LIST.used before any of it is sent (used.h). */
#ifndef DFU_FLASH_STAMP_H
#define DFU_FLASH_STAMP_H

#include "image.h"
#include "words.h"

#include <stdbool.h>
#include <stddef.h>
#include <stdint.h>

#define STAMP_BYTES 256 /* maximum size of a stamp */

/* An entry of the list. */
struct stamp;

/* Reads the list and the record of its used entries. Returns false, after printing why, if one of them can't be used. */
bool stamp_begin(const struct words *words);

/* Reserves the next free entry for a board. Returns NULL if there is none. */
struct stamp *stamp_hold(void);

/* Releases an entry that its board didn't take. */
void stamp_release(struct stamp *stamp);

/* Count the unused entries: stamp_left includes reserved ones, and stamp_free doesn't. */
size_t stamp_left(void);
size_t stamp_free(void);

/* Sets the entry for the board of this process, or NULL for none. If `taken_at` isn't NULL, the board at that path has taken it already. */
void stamp_is(struct stamp *stamp, const char *taken_at);

/* Records that the board has the entry. Returns false, after printing why, if that can't be recorded. Nothing may be sent then. */
bool stamp_take(const char *path);

/* Records the result of the board's session. */
void stamp_end(int status, const char *report);

/* Return the entry's name as in records: stamp_taken if the board has taken it, else NULL; stamp_next if it is reserved. */
const char *stamp_taken(void);
const char *stamp_next(void);

/* Finds the offset of --stamp-at in the file. Returns 0, or a refusal if there is no room for an entry. */
int32_t stamp_place(struct image *image, const struct words *words);

/* Writes the entry of this process's board into the image, and rebuilds its suffix. Returns 0 or a refusal. */
int32_t stamp_image(struct image *image, const struct words *words);

/* Writes the bytes of this process's entry, padded to the size of the stamp. */
void stamp_bytes(uint8_t bytes[STAMP_BYTES]);

#endif

/* SPDX-License-Identifier: MIT OR Apache-2.0 */
/* A session with the device that was found. Functions that return int return an exit status. */
#ifndef DFU_FLASH_WORK_H
#define DFU_FLASH_WORK_H

#include "image.h"
#include "progress.h"
#include "session.h"
#include "words.h"

/* Returned instead of an exit status if the session must be repeated for --retry. No record was printed. */
#define WORK_AGAIN 101

/* Sets up the session from the options. */
void work_ask(struct session *session, const struct words *words);

/* Prints which board gets a file that is for any board, unless an option selects the board. */
void work_say_board(const struct session *session, const struct words *words, const struct image *image);

/* Opens the log and the device, and takes the board's stamp entry. From then on signals and --timeout end the session. */
int work_begin(struct session *session, const struct words *words);

/* Runs the session, and prints its record. */
int work_run(struct session *session, const struct words *words, enum progress_style style);

/* Prints the record of a session that can't be repeated, because the device didn't return. */
int work_end(struct session *session, const struct words *words);

/* Print the record of a session that ended, or of one that was refused. */
int work_print(const struct session *session, const struct words *words, const struct verdict *verdict);
int work_refused(const struct session *session, const struct words *words, int32_t refusal);

#endif

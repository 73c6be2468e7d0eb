/* SPDX-License-Identifier: MIT OR Apache-2.0 */
/* Advice after a run that didn't succeed: a line `next:` on standard error, or a member of a JSON record. The manual has the same steps, in
 * NEXT STEPS and in REFUSALS, and tests/apps/flash compares them. */
#ifndef DFU_FLASH_NEXT_H
#define DFU_FLASH_NEXT_H

#include <stdbool.h>
#include <stdint.h>

/* Return the next step for an end, by the name of its report, or for a refusal, or NULL if there is none. A more exact step from advice.h
 * replaces it. */
const char *next_of_end(const char *name);
const char *next_of_refusal(int32_t refusal);

/* Returns the next step after a session. `is_cut`: the session succeeded, but its log wasn't written completely. */
const char *next_of_session(const char *name, bool is_cut);

/* Prints the line `next:` with the step, unless there is no step or --quiet was given. */
void next_say(const char *step);

/* Turns off all later lines `next:`, as --quiet does. */
void next_hush(void);

/* Selects the steps for --all in all later calls. */
void next_for_all(void);

#endif

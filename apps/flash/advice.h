/* SPDX-License-Identifier: MIT OR Apache-2.0 */
/* Suggests next steps that are more exact than those in the tables of next.c, because they contain the command line to type or the cause
 * that was found. */
#ifndef DFU_FLASH_ADVICE_H
#define DFU_FLASH_ADVICE_H

#include "words.h"

#include <libusb.h>
#include <stdbool.h>
#include <stdint.h>

struct found;
struct session;
struct verdict;

/* Keeps the program's arguments, from which suggested command lines are built. */
void advice_keep(int count, char **texts);

/* advice_is sets the next step, which replaces the one from next.c. advice_first sets a text that is printed before the step. */
void advice_is(const char *step);
void advice_unless(const char *step); /* does nothing if a step is set */
void advice_first(const char *seen);

/* Sets the next step to the command line of this run, with the options `more` before its arguments. If that line can't be built, for
 * example because an argument can't be typed, the step only names the options. */
void advice_run(const char *more);

/* Sets a condition that is printed before the step that was set. */
void advice_if(const char *condition);

/* Clears the step and the text of advice_first. */
void advice_forget(void);

/* Returns the text of advice_first, or NULL if none was set. */
const char *advice_seen(void);

/* Returns the step that was set, or `step`, the one from next.c, if none was. If advice_first was called, its text precedes the step. */
const char *advice_or(const char *step);

/* Suggests --device for a raw image without a target, or --address if the device has DfuSe. Does so only if exactly one device is
 * connected. */
void advise_raw(libusb_context *usb, const struct words *words);

/* Suggest the next step after a session that was refused, after one that needs DFU mode, and after one that has ended. */
void advise_refused(const struct session *session, int32_t refusal);
void advise_detach(const struct words *words);
void advise_ended(const struct session *session, const struct verdict *verdict);

/* Sets a text that names the device `came`, which replaced the device `left` on the bus. */
void advise_other(const struct found *left, const struct found *came);

/* Suggests how to get access to a device that another program uses, or whose driver libusb can't use. `access` is the libusb error. */
void advise_access(int access);

/* Suggests the option that an unknown option resembles. Suggests nothing if it resembles none. */
void advise_word(const char *word);

/* Suggests the option for an argument that lacks the hyphens, such as `list` for `--list`. */
void advise_name(const char *word);

#endif

/* SPDX-License-Identifier: MIT OR Apache-2.0 */
/* Texts about found devices, refusals and the results of sessions. */
#ifndef DFU_FLASH_MESSAGES_H
#define DFU_FLASH_MESSAGES_H

#include "find.h"

#include <stdbool.h>
#include <stdint.h>
#include <stdio.h>

/* Prefix of each line about a simulated board; empty for a real one. */
extern const char *say_mark;

/* Prints a line about a device, as --list does. */
void say_found(FILE *out, const struct found *found);

/* Prints an untrusted text, such as a file name, between two texts of this program. */
void say_text(FILE *out, const char *before, const char *text, const char *after);

/* Prints a line about a file that failed: its name, what failed, and why. Returns false. */
bool say_failed(const char *name, const char *what, const char *why);

/* Reports that an upload would replace this file, and suggests the next step. Returns false. */
bool say_there(const char *name);

/* Returns the last reason that these functions printed, for a record, or NULL if there was none. */
const char *say_reason(void);

/* Prints why a device can't be opened or its interface can't be claimed, by its `access`, and how to get access. Returns the exit status.
 */
int say_no_access(const struct found *found);

/* Prints why no device matches, and the connected devices. Returns the exit status. */
int say_missing(libusb_context *usb, const struct wanted *wanted);

/* Prints, at the beginning of a wait, why none of the connected devices matches, or nothing if none is connected. */
void say_not_yet(libusb_context *usb, const struct wanted *wanted);

/* Return the name of a refusal, and its meaning as text. */
const char *refusal_name(int32_t refusal);
const char *refusal_words(int32_t refusal);

struct session;

/* Result of a session, as it is printed and recorded. */
struct verdict {
    int status;      /* exit status of the program */
    char name[24];   /* name of the report, or `gone`, `silent`, `many`, `other`, `broken`, `stalled` */
    char words[160]; /* meaning of the name */
    uint8_t code;    /* bStatus of the device for `refused`, else 0 */
};

/* Meaning of an end: its exit status and its text. If `device` isn't NULL, it names the device in a second text. After a block was sent,
 * that text states that the device may have the old image, the new one or neither; else that no block was sent. */
struct meaning {
    int status;
    const char *words;
    const char *device;
};

/* Copies the status and the text of a meaning, and adds which image the device may have, depending on the blocks that were sent. */
void verdict_words(struct verdict *verdict, const struct session *session, const struct meaning *meaning);

struct verdict verdict_of(const struct session *session);

/* Returns the verdict on a run that ended by an internal error. */
struct verdict verdict_broken(void);

#endif

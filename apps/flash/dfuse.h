/* SPDX-License-Identifier: MIT OR Apache-2.0 */
/* A session with a device that speaks DfuSe, ST's variant of USB DFU. The proved host (dfuse_host.h) decides each action of a download, and
 * these functions carry it out. The code of an upload isn't proved. */
#ifndef DFU_FLASH_DFUSE_H
#define DFU_FLASH_DFUSE_H

#include "messages.h"

#include <dfuse_file.h>
#include <dfuse_watch.h>
#include <stdbool.h>
#include <stdint.h>

struct session;

/* Largest number of elements in an image. */
#define DFUSE_ELEMENTS 256

/* Reports of an upload, which dfuse_host.h doesn't have. */
enum { DFUSE_UPLOADED = 101, DFUSE_NO_MEMORY = 102 };

struct dfuse {
    bool is_active;                             /* the device speaks DfuSe */
    bool has_address, stays;                    /* an address was given; the device stays in DFU mode at the end */
    uint32_t address, length;                   /* first address; number of bytes to upload, or 0 if it wasn't given */
    const struct dfuse_file *file;              /* prefix and suffix of FILE if it is a DfuSe file; else NULL */
    const uint8_t *map;                         /* name of the setting, which contains the memory map */
    size_t map_length;                          /* length of `map` in bytes */
    struct dfuse_element image[DFUSE_ELEMENTS]; /* elements of a download, in ascending order of their addresses */
    uint64_t elements;                          /* number of elements */
    struct dfuse_plan plan;
    struct dfuse_session host; /* state of the proved host (dfuse_host.h) */
    struct dfuse_watch watch;  /* state of dfuse_watch.h, which decides when the session gives up */
    uint8_t string;            /* iString of the last status if that reported dfuERROR, else 0 */
    uint32_t protections;      /* number of times that an upload got errVENDOR */
    uint32_t shown;            /* kind of work that the last progress line showed */
    uint64_t shown_to;         /* number of bytes that the last progress line showed as done */
    struct dfuse_action done;  /* the host's last action, which contains the report */
};

/* Begins a session with a DfuSe device that was found. Sends nothing. Returns 0, or a refusal of dfuse_host.h, dfu_host.h or session.h. */
int32_t dfuse_begin_session(struct session *session);

/* Takes the elements of a DfuSe FILE for the device's setting. Returns 0, or a refusal of dfuse_file.h or dfu_host.h. */
int32_t dfuse_take_file(struct session *session);

/* Counts the bytes of the image whose address is below `address`. */
uint64_t dfuse_below(const struct dfuse *dfuse, uint64_t address);

/* Prints the address and size of each element of a DfuSe file, one per line. */
void dfuse_print_elements(const struct dfuse *dfuse);

/* Prints the elements as a JSON member, with their offsets in the file. */
void dfuse_elements_json(const struct session *session);

/* Carries out the host's actions until the host reports a result or the session ends otherwise. */
void dfuse_run(struct session *session);

/* Uploads the memory from the session's address on. */
void dfuse_read(struct session *session);

/* Sends a request with a body. If the device is away, waits for it first. Sets `is_reached` to true if the request was sent, else to false.
 */
struct answer dfuse_send(struct session *session, const struct dfuse_action *action, const uint8_t *body, bool *is_reached);

/* Returns the course of the session after an action, as dfuse_watch.h decides it. */
uint32_t dfuse_course(struct session *session, const struct dfuse_action *action, const uint8_t *body, const struct answer *answer,
                      bool is_reached);

/* Ends the session for the reason that `course` stands for in dfuse_watch.h. Returns false. */
bool dfuse_end(struct session *session, uint32_t course);

/* Waits for the device's poll time, or a little longer if the device reports 0 repeatedly. */
struct answer dfuse_wait(struct session *session, uint32_t ms);

/* Returns true if the open device is the one with which the session began. */
bool dfuse_is_same(const struct session *session);

/* Finds the verdict on a session that has a report. Returns false if the number of the report, or the way in which the device left, is
 * unknown. */
bool dfuse_verdict(const struct session *session, struct verdict *verdict);

/* Prints the ranges of a setting's memory map, one per line, or the reason why it has none. */
void dfuse_print_map(const struct found *found);

/* Prints the memory map as JSON members. */
void dfuse_print_json(const struct found *found);

/* Returns 0 if every address of a part of the memory can be read. Else returns DFUSE_OUTSIDE, DFUSE_NOT_READABLE, or the error of a string
 * that isn't a map. */
int32_t dfuse_may_read(const uint8_t *map, size_t map_length, uint64_t start, uint64_t end);

/* Finds the first range of a map that accepts images, or for an upload the first that can be read. Returns false if there is none. */
bool dfuse_first(const uint8_t *map, size_t map_length, bool is_upload, struct dfuse_range *range);

/* Writes the areas of the map, such as "08000000 to 08003fff". An area joins adjacent ranges. Areas that don't fit are replaced by "..". */
void dfuse_areas(const uint8_t *map, size_t map_length, char *text, size_t room);

/* Finds the end of the range that contains this address. Returns false if no range contains it. */
bool dfuse_end_of(const uint8_t *map, size_t map_length, uint64_t address, uint64_t *end);

/* Counts the pages that a part of the memory overlaps, up to the first address outside the map. */
uint64_t dfuse_pages(const uint8_t *map, size_t map_length, uint64_t start, uint64_t end);

#endif

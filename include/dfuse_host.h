/* SPDX-License-Identifier: MIT OR Apache-2.0 */
/* The host of DfuSe, ST's variant of USB DFU (bcdDFUVersion 011Ah): decides which request or wait is next, until the bytes of an image were
 * written to their addresses in a device's memory and read back.
 *
 * The library sends nothing, allocates nothing and keeps no state. The program keeps the record of the session, carries out the action of
 * dfuse_next, and reports its outcome to dfuse_take. The code is in dfu_host.c too.
 *
 * Each call returns 0, or a negative number, which is a refusal. A refusal changes nothing.
 *
 * A device describes its memory in the string of an alternate setting, such as
 * "@Internal Flash  /0x08000000/04*016Kg,01*064Kg,07*128Kg". Pass the bytes of that string, without a terminating 0.
 *
 * The loop of a flashing tool:
 *
 *     struct dfuse_session s; struct dfuse_action a; uint8_t body[4096], answer[4096];
 *     struct dfuse_element image[1] = {{.address = 0x08000000, .bytes = bytes, .length = length}};
 *     struct dfuse_plan plan = {0x08000000, 100000, 3, 2048, 32, 1};
 *     if (dfuse_begin(&s, map, map_length, image, 1, &plan) != 0) refused
 *     for (;;) {
 *         uint32_t seen; size_t count = 0;
 *         if (dfuse_next(&s, map, map_length, image, 1, body, sizeof body, &a) != 0) a mistake of the program
 *         if (a.what == DFU_DONE) a.value is the report
 *         if (a.what == DFU_WAIT) { sleep for a.value ms; seen = DFU_SEEN_WAIT; }
 *         else { a control transfer with a.setup, and the first a.length bytes of body; seen = its outcome; }
 *         if (dfuse_take(&s, map, map_length, image, 1, seen, answer, count) != 0) a mistake of the program
 *     }
 *
 * The outcome of an action is reported as in dfu_host.h, by the numbers DFU_SEEN_ACK, DFU_SEEN_BYTES, DFU_SEEN_STALL, DFU_SEEN_NOTHING,
 * DFU_SEEN_WAIT and DFU_SEEN_RESTART. No action is a reset. If the device disconnected and reconnected, it has restarted, even if it
 * disconnected to start its application: report DFU_SEEN_RESTART before any later answer.
 *
 * The rules of dfu_host.h apply. In every call of a session the map, the image and its bytes are those that the session began with, and the
 * record is as the last call left it.
 *
 * Proved, if the program follows the rules:
 * - A session begins exactly if its plan has none of the faults below. Each action is the one of the session's phase, and each dfuse_take
 *   follows a row of the table of Fustrelan's host for DfuSe. A session is over after at most as many calls of dfuse_take as it had
 *   actions.
 * - A session ends with DFUSE_VERIFIED only if each byte of the image was read back after it was last written, and was the image's.
 * - Only pages of the map that hold a byte of the image are erased, and only bytes of the image are written. The front is written last,
 *   after all other bytes were read back.
 * Proved for any record, map and image: each call returns, with an answer or a refusal, and touches only the memory that its pointers and
 * lengths name. Not proved is that a report is true of a device: a device might answer UPLOAD with bytes that differ from its memory, or
 * change its memory without a command. */
#ifndef DFUSE_HOST_H
#define DFUSE_HOST_H

#include "dfu_host.h"

#ifdef __cplusplus
extern "C" {
#endif

/* Counts in the string of a memory map. */
struct dfuse_map {
    DFU_ALIGNED_8 uint64_t name;   /* length of the name in bytes; the name begins after the '@' */
    DFU_ALIGNED_8 uint64_t ranges; /* number of ranges, 1 to 32 */
};

/* A range of a map: consecutive pages of one size. */
struct dfuse_range {
    DFU_ALIGNED_8 uint64_t start; /* address of the first byte, under 2^32 */
    DFU_ALIGNED_8 uint64_t size;  /* number of bytes of each page; the range ends at or before address FFFFFFFFh */
    uint32_t count, access;       /* number of pages, 1 or more; bits DFUSE_READABLE, DFUSE_ERASABLE and DFUSE_WRITABLE */
};

/* Operations that a page allows: bits of access. */
enum { DFUSE_READABLE = 1, DFUSE_ERASABLE = 2, DFUSE_WRITABLE = 4 };

/* Part of an image: bytes, and their address on the device. A pointer takes 8 bytes here even on a processor of 32 bits, so set the members
 * by their names, and only address, bytes and length. */
struct dfuse_element {
    uint32_t address;
    DFU_ALIGNED_8 const uint8_t *bytes;
#if UINTPTR_MAX <= 0xffffffffu
    uint32_t bytes_high; /* upper half of the pointer: 0 */
#endif
    DFU_ALIGNED_8 size_t length;
#if UINTPTR_MAX <= 0xffffffffu
    uint32_t length_high; /* upper half of the length: 0 */
#endif
};

/* Settings of a session, in addition to the map and the image. */
struct dfuse_plan {
    uint32_t start;    /* address from which the device must start its application */
    uint32_t actions;  /* maximum number of calls of dfuse_take in the session; 0 counts as 1 */
    uint16_t restarts; /* maximum number of restarts of the device */
    uint16_t transfer; /* wTransferSize of the device, which limits a block, and with which the device computes addresses */
    uint16_t front;    /* number of first bytes of the image to write last, if its first element and its first page have that many */
    uint16_t leaves;   /* not 0 if the host must tell the device to leave DFU mode after all was compared */
};

/* State of a session between two calls. A program writes no field, and may read work and at to show progress. A field that a phase doesn't
 * use is 0. */
struct dfuse_session {
    uint32_t version, work;              /* DFU_VERSION of the archive; DFUSE_ERASE to DFUSE_OVER */
    DFU_ALIGNED_8 uint64_t at, end;      /* current address; end of the current range, if the step has one of its own */
    DFU_ALIGNED_8 uint64_t pointer;      /* the device's address pointer, if the host knows it */
    uint32_t place, step, more, report;  /* state of pointer, 0 to 2; the step, 0 to 14; its time or a code; the report */
    uint32_t start, actions;             /* start address of the plan; remaining actions */
    uint16_t restarts, transfer, front, leaves;
};

/* Values of dfuse_session.work. */
enum {
    DFUSE_ERASE = 0,         /* erases the pages of the image, from `at` on */
    DFUSE_ERASE_AGAIN = 1,   /* erases the page at `at`, where a write may have been interrupted */
    DFUSE_WRITE = 2,         /* writes all but the front, from `at` on */
    DFUSE_COMPARE = 3,       /* compares all but the front, from `at` on */
    DFUSE_WRITE_FRONT = 4,   /* writes the front, from `at` on */
    DFUSE_COMPARE_FRONT = 5, /* compares the front, from `at` on */
    DFUSE_LEAVE = 6,         /* tells the device to leave DFU mode, after all was compared */
    DFUSE_OVER = 7
};

/* Action that the program must carry out. A field that an action doesn't use is 0. */
struct dfuse_action {
    DFU_ALIGNED_8 uint64_t length; /* DFU_SEND: length of the body, 0 to 65,535 bytes; the body begins the buffer */
    uint32_t what;                 /* DFU_SEND, DFU_WAIT or DFU_DONE */
    uint32_t value;                /* DFU_WAIT: milliseconds to wait; DFU_DONE: the report */
    uint32_t more;                 /* DFU_DONE: with DFUSE_VERIFIED how the device left, with DFUSE_REFUSED its bStatus */
    uint8_t setup[8];              /* DFU_SEND: the setup of a control transfer. Its wIndex, bytes 4 and 5, is 0: replace it by the number
                                    * of the device's DFU interface, and change nothing else */
};

/* Reports. Only DFUSE_VERIFIED says that the device contains the image. */
enum {
    DFUSE_VERIFIED = 1,       /* each byte was read back from the device, and equals that of the image */
    DFUSE_DIFFERENT = 2,      /* a byte that was read back differs from the image */
    DFUSE_REFUSED = 3,        /* the device refused a command; some devices report the status code OK then */
    DFUSE_READ_PROTECTED = 4, /* the device's memory is read-protected */
    DFUSE_GAVE_UP = 5,        /* the session used up its actions */
    DFUSE_RESTARTS_SPENT = 6, /* the device restarted more often than the plan allows */
    DFUSE_NOT_DFU = 7         /* the device runs its application */
};

/* Values of dfuse_action.more with DFUSE_VERIFIED: how the device left DFU mode. */
enum {
    DFUSE_STAYED = 0, /* the host did not tell the device to leave */
    DFUSE_LEFT = 1,   /* the device confirmed that it leaves */
    DFUSE_UNKNOWN = 2 /* the host told the device to leave, and does not know if it left */
};

/* Negative return values, apart from DFU_NO_SESSION (the string is not a map, the record belongs to no session, or another version wrote
 * it) and DFU_NO_SEEN (`seen` is none of the six outcomes). */
enum {
    DFUSE_NO_ROOM = -43,         /* the buffer has fewer bytes than the body */
    DFUSE_NO_RANGE = -44,        /* the map has no range with that number */
    DFUSE_NO_MAP = -51,          /* the string doesn't begin with @, or has no / after the name */
    DFUSE_BAD_ADDRESS = -52,     /* the map has no address of one to eight hexadecimal digits with a / after it */
    DFUSE_BAD_COUNT = -53,       /* a range has no count of one to five digits, at least 1, with a * after it */
    DFUSE_BAD_SIZE = -54,        /* a range has no size of one to five digits, at least 1 */
    DFUSE_BAD_TYPE = -55,        /* a range has no letter from a to g after its size and unit */
    DFUSE_PAST_THE_END = -56,    /* a range ends beyond address FFFFFFFFh */
    DFUSE_TOO_MANY_RANGES = -57, /* there are over 32 ranges */
    DFUSE_TRAILING = -58,        /* after a range there is neither ',' nor '/', nor the end of the string */
    DFUSE_OVERLAPS = -59,        /* two ranges share an address */
    DFUSE_NO_TRANSFER = -61,     /* the plan's transfer is 0 */
    DFUSE_EMPTY = -62,           /* the image has no element, or one without bytes */
    DFUSE_NOT_IN_ORDER = -63,    /* an element has a lower address than the previous one */
    DFUSE_OVERLAPPING = -64,     /* an element begins before the previous one ends */
    DFUSE_OUTSIDE = -65,         /* an address of the image is not in the map */
    DFUSE_NOT_WRITABLE = -66,    /* a page that holds bytes of the image can't be written */
    DFUSE_NOT_ERASABLE = -67,    /* a page that holds bytes of the image can't be erased */
    DFUSE_NOT_READABLE = -68     /* a page that holds bytes of the image can't be read */
};

/* Reads a memory map from the string of an alternate setting. Returns 0; or the first fault in the string, DFUSE_NO_MAP to DFUSE_TRAILING;
 * or DFUSE_OVERLAPS. */
int32_t dfuse_read_map(const uint8_t *text, size_t length, struct dfuse_map *out);

/* Reads the range with that number, from 0, in the order of the string. Returns 0; or the string's fault; or DFUSE_NO_RANGE. */
int32_t dfuse_read_range(const uint8_t *text, size_t length, uint32_t number, struct dfuse_range *out);

/* Begins a session that writes an image and reads it back. Returns 0; or the string's fault; or the first that applies of DFUSE_NO_TRANSFER
 * to DFUSE_NOT_READABLE. The image is a list of elements, whose bytes later calls read too. */
int32_t dfuse_begin(struct dfuse_session *session, const uint8_t *map, size_t map_length,
                    const struct dfuse_element *image, size_t elements, const struct dfuse_plan *plan);

/* Finds the next action of the session, and writes its body to the buffer `body`. Returns 0; or DFU_NO_SESSION; or DFUSE_NO_ROOM. It writes
 * only the action and the bytes of the body. A `room` of plan.transfer bytes, and at least 5, is enough for every body. */
int32_t dfuse_next(const struct dfuse_session *session, const uint8_t *map, size_t map_length,
                   const struct dfuse_element *image, size_t elements, uint8_t *body, size_t room, struct dfuse_action *action);

/* Reports the outcome of an action to the session. Returns 0; or DFU_NO_SESSION; or DFU_NO_SEEN. `bytes` with `count` is the data that the
 * device sent, for DFU_SEEN_BYTES. */
int32_t dfuse_take(struct dfuse_session *session, const uint8_t *map, size_t map_length,
                   const struct dfuse_element *image, size_t elements, uint32_t seen, const uint8_t *bytes, size_t count);

#ifdef __cplusplus
}
#endif

#endif

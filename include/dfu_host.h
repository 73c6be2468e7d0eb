/* SPDX-License-Identifier: MIT OR Apache-2.0 */
/**
 * @file dfu_host.h
 * @brief Decides for a flashing tool which request, wait or reset of USB DFU 1.1 is next. It sends nothing itself. The code is
 * dfu_host.c.
 *
 *     struct dfu_session s; struct dfu_action a; struct dfu_file f; uint8_t answer[65535], none[1]; uint32_t seen; size_t count;
 *     if (dfu_host_file(file, length, &f) != 0) return refused;
 *     if (dfu_host_verified(&s, file, length, descriptor, size, &ids, 100000, 3) != 0) return refused;
 *     while (dfu_host_next(&s, file, f.payload, &a) == 0 && a.what != DFU_DONE) {
 *         count = 0;
 *         if (a.what == DFU_WAIT) { sleep_ms(a.value); seen = DFU_SEEN_WAIT; }
 *         else if (a.what == DFU_RESET) { reset_bus(); seen = DFU_SEEN_RESET; }
 *         else seen = control_transfer(a.setup, file + a.from, a.length, answer, &count);    // DFU_SEEN_..: the table in RULES
 *         if (dfu_host_take(&s, file, f.payload, none, 0, seen, answer, count) != 0) return mistake_of_the_program;
 *     }
 *     return a.value;                                                                        // the report: DFU_VERIFIED ..
 *
 * The library allocates nothing and keeps no state: the program keeps the record of the session. A result of 0 or more is an answer. A
 * negative result is a refusal: the first that applies, in the order in which the call lists them. A refusal changes nothing. The calls
 * below are in the order in which a program uses them. RULES, at the end of this file, lists the duties of the program.
 */
#ifndef DFU_HOST_H
#define DFU_HOST_H

#include <stddef.h>
#include <stdint.h>

#if defined(__BYTE_ORDER__) && defined(__ORDER_LITTLE_ENDIAN__) && __BYTE_ORDER__ != __ORDER_LITTLE_ENDIAN__
#error "dfu_host is for processors that store the low byte of a number first"
#endif
#if UINTPTR_MAX > 0xffffffffffffffffu
#error "dfu_host is for pointers of at most 64 bits"
#endif

/* Version of the library: 10,000 * major + 100 * minor + patch. */
#ifndef DFU_VERSION
#define DFU_VERSION 300
#define DFU_VERSION_TEXT "0.3.0"
#endif

/* Aligns a member of 8 bytes to a multiple of 8, even if the ABI aligns it to less; empty before C11 without __GNUC__. */
#if defined(__cplusplus)
#define DFU_ALIGNED_8 alignas(8)
#elif defined(__STDC_VERSION__) && __STDC_VERSION__ >= 201112L
#define DFU_ALIGNED_8 _Alignas(8)
#elif defined(__GNUC__)
#define DFU_ALIGNED_8 __attribute__((aligned(8)))
#else
#define DFU_ALIGNED_8
#endif

#ifdef __cplusplus
extern "C" {
#endif

/* Numbers of a device from its device descriptor: bcdDevice, idProduct, idVendor. */
struct dfu_ids {
    uint16_t device, product, vendor;
};

/* Length of a DFU file's payload, and the fields of its suffix. */
struct dfu_file {
    DFU_ALIGNED_8 uint64_t payload;        /* length of the payload in bytes; the payload begins the file */
    uint32_t suffix, crc;                  /* bLength, 16 to 255; dwCRC */
    uint16_t device, product, vendor, dfu; /* bcdDevice, idProduct, idVendor (FFFFh: any), bcdDFU */
};

/* State of a session between two calls. A program reads only kept, and writes no field. The calls that begin a session write the version,
 * and later calls refuse a record of another version. A field that a phase doesn't use is 0. */
struct dfu_session {
    uint32_t version, goal;                 /* DFU_VERSION of the archive; goal 1 to 4 */
    DFU_ALIGNED_8 uint64_t number;          /* number of the block, of the part or of the report, by the phase */
    DFU_ALIGNED_8 uint64_t kept;            /* number of bytes stored in the buffer; with DFU_UPLOADED those of the whole image */
    uint32_t phase, more, actions;          /* phase 0 to 24; a poll time or a code; remaining actions */
    uint16_t restarts, transfer, detach_ms; /* remaining restarts; wTransferSize; wDetachTimeOut */
    uint8_t tolerant, will_detach;          /* bitManifestationTolerant and bitWillDetach: 0 or 1 */
};

/* Action that the program must carry out. A field that an action doesn't use is 0. */
struct dfu_action {
    uint32_t what;                 /* DFU_SEND, DFU_WAIT, DFU_RESET or DFU_DONE */
    uint32_t value;                /* DFU_WAIT: milliseconds to wait; DFU_DONE: the report */
    DFU_ALIGNED_8 uint64_t from;   /* DFU_SEND: offset of the body in the payload */
    DFU_ALIGNED_8 uint64_t length; /* DFU_SEND: number of bytes of the body, 0 to 65,535; 0 if the device sends the data */
    uint32_t code;                 /* DFU_DONE with DFU_REFUSED: the device's bStatus, 0 to 15 */
    uint8_t setup[8];              /* DFU_SEND: the setup of a control transfer. Its wIndex, bytes 4 and 5, is 0: replace it by the number
                                    * of the device's DFU interface, and change nothing else */
};

/* Kinds of actions. */
enum {
    DFU_SEND = 0,  /* make a control transfer */
    DFU_WAIT = 1,  /* let time pass */
    DFU_RESET = 2, /* reset the bus of the device */
    DFU_DONE = 3   /* the session is over */
};

/* Outcomes of an action. */
enum {
    DFU_SEEN_ACK = 0,     /* DFU_SEND: the device acknowledged what the host sent */
    DFU_SEEN_BYTES = 1,   /* DFU_SEND: the device answered */
    DFU_SEEN_STALL = 2,   /* DFU_SEND: the device stalled */
    DFU_SEEN_NOTHING = 3, /* the action was not finished */
    DFU_SEEN_WAIT = 4,    /* DFU_WAIT: the time has passed */
    DFU_SEEN_RESET = 5,   /* DFU_RESET: the bus was reset */
    DFU_SEEN_RESTART = 6, /* the device restarted without a request */
    DFU_SEEN_LEFT = 7,    /* the device disconnected by itself after the close, to start its new image */
    /* Other names of the same outcomes. */
    DFU_ACK = DFU_SEEN_ACK,
    DFU_BYTES = DFU_SEEN_BYTES,
    DFU_STALLED = DFU_SEEN_STALL,
    DFU_NOTHING = DFU_SEEN_NOTHING,
    DFU_WAITED = DFU_SEEN_WAIT,
    DFU_WAS_RESET = DFU_SEEN_RESET,
    DFU_RESTARTED = DFU_SEEN_RESTART
};

/* Reports. Only DFU_INSTALLED and DFU_VERIFIED say that the device contains the payload. */
enum {
    DFU_INSTALLED = 1,       /* a tolerant device received the whole payload, confirmed it, and was reset */
    DFU_UNCONFIRMED = 2,     /* a device that confirms no download received the whole payload, and was reset or left by itself */
    DFU_ABORTED = 3,         /* the program called dfu_host_abort */
    DFU_GAVE_UP = 4,         /* the session used up its actions */
    DFU_REFUSED = 5,         /* the device reported dfuERROR with a status code */
    DFU_RESTARTS_SPENT = 6,  /* the device restarted more often than the session allows */
    DFU_UPLOADED = 7,        /* the device sent the whole image: the first `kept` bytes of the buffer */
    DFU_TOO_MANY_BLOCKS = 8, /* the device sent 65,535 full parts */
    DFU_NO_MEMORY = 9,       /* the buffer has no room for a part: see dfu_host_take */
    DFU_VERIFIED = 10,       /* after its reset the device sent back exactly the payload */
    DFU_DIFFERENT = 11       /* after its reset the device sent back other bytes */
};

/* Negative return values: refusals. */
enum {
    DFU_FILE_TOO_SHORT = -1,    /* the file has under 16 bytes */
    DFU_FILE_NO_SIGNATURE = -2, /* the file has no 'UFD' in its suffix */
    DFU_FILE_BAD_LENGTH = -3,   /* the file has a bLength under 16, or over its own length */
    DFU_FILE_DFUSE = -4,        /* the suffix has bcdDFU 011Ah, that of a DfuSe file */
    DFU_FILE_BAD_CRC = -5,      /* the file's dwCRC isn't the CRC of its bytes */
    DFU_FILE_TOO_LARGE = -7,    /* the file has over 16,777,216 bytes */
    DFU_EMPTY_PAYLOAD = -21,    /* the file's payload has no bytes */
    DFU_WRONG_TARGET = -22,     /* the suffix names another device */
    DFU_CANNOT_DOWNLOAD = -23,  /* bitCanDnload is not set in the descriptor */
    DFU_CANNOT_UPLOAD = -24,    /* bitCanUpload is not set in the descriptor */
    DFU_BAD_DESCRIPTOR = -25,   /* wTransferSize in the descriptor is 0 */
    DFU_SHORT = -31,            /* the descriptor has fewer bytes than its first byte states */
    DFU_LONG = -32,             /* the descriptor has more bytes than its first byte states */
    DFU_WRONG_LENGTH = -33,     /* the descriptor's first byte is neither 7 nor 9 */
    DFU_WRONG_TYPE = -34,       /* the descriptor's second byte isn't 21h */
    DFU_NO_SESSION = -41,       /* the record belongs to no session with that payload and buffer, or another version wrote it */
    DFU_NO_SEEN = -42           /* seen is over 7 */
};

/* Reads a file and checks its CRC. Returns 0; or the first that applies of DFU_FILE_TOO_LARGE, DFU_FILE_TOO_SHORT, DFU_FILE_NO_SIGNATURE,
 * DFU_FILE_BAD_LENGTH, DFU_FILE_DFUSE, DFU_FILE_BAD_CRC. */
int32_t dfu_host_file(const uint8_t *file, size_t length, struct dfu_file *out);

/* Begins a session that installs a file. Returns 0; or a refusal of the file; or a refusal of the descriptor; or the first that applies of
 * DFU_EMPTY_PAYLOAD, DFU_WRONG_TARGET, DFU_CANNOT_DOWNLOAD, DFU_BAD_DESCRIPTOR. The descriptor is the DFU functional descriptor, of 9
 * bytes, or 7 in DFU 1.0. `actions` is the maximum number of calls of dfu_host_take in the session (0 counts as 1), and `restarts` the
 * maximum number of restarts of the device. The file is read once. */
int32_t dfu_host_download(struct dfu_session *session, const uint8_t *file, size_t length,
                          const uint8_t *descriptor, size_t size, const struct dfu_ids *device,
                          uint32_t actions, uint16_t restarts);

/* Begins a session like dfu_host_download, which uploads and compares the image after the last reset. A descriptor without bitCanUpload is
 * refused with DFU_CANNOT_UPLOAD, before DFU_BAD_DESCRIPTOR. */
int32_t dfu_host_verified(struct dfu_session *session, const uint8_t *file, size_t length,
                          const uint8_t *descriptor, size_t size, const struct dfu_ids *device,
                          uint32_t actions, uint16_t restarts);

/* Begins a session that uploads the image. Returns 0; or a refusal of the descriptor; or the first that applies of DFU_CANNOT_UPLOAD,
 * DFU_BAD_DESCRIPTOR. */
int32_t dfu_host_upload(struct dfu_session *session, const uint8_t *descriptor, size_t size,
                        uint32_t actions, uint16_t restarts);

/* Finds the next action of the session. Returns 0; or DFU_NO_SESSION. It writes only the action. */
int32_t dfu_host_next(const struct dfu_session *session, const uint8_t *payload, size_t length,
                      struct dfu_action *action);

/* Reports the outcome of an action to the session. Returns 0; or DFU_NO_SESSION; or DFU_NO_SEEN. `kept` with `room` is the buffer of an
 * upload, and any pointer with 0 for a download. `bytes` with `count` is the data that the device sent, for DFU_SEEN_BYTES. The parts of an
 * upload that have wTransferSize bytes or fewer are stored one after the other, from the buffer's first byte on, except the 65,535th full
 * one. The report is DFU_NO_MEMORY exactly if one of these parts, together with those before it, has more bytes than `room`; that part
 * isn't stored. */
int32_t dfu_host_take(struct dfu_session *session, const uint8_t *payload, size_t length, uint8_t *kept, size_t room,
                      uint32_t seen, const uint8_t *bytes, size_t count);

/* Aborts the session. Returns 0; or DFU_NO_SESSION. The next action is an ABORT, and the report is DFU_ABORTED. A session that is over
 * stays as it is. */
int32_t dfu_host_abort(struct dfu_session *session, const uint8_t *payload, size_t length);

/* Writes a report's name, such as gave-up, without a terminating 0, and returns its length, at most 15; or 0 if there is no
 * such report, or out has no room for it. */
int32_t dfu_host_name(uint32_t report, uint8_t *out, size_t room);

/* Returns the version of the archive: DFU_VERSION, if header and archive are of one version. */
int32_t dfu_host_version(void);

/* RULES for a program that runs sessions.
 *
 * Outcomes of a transfer:
 *     acknowledged, if a.setup[0] is 21h (the host sends)      DFU_SEEN_ACK
 *     answered, if a.setup[0] is A1h (the device answers)      DFU_SEEN_BYTES, with any number of bytes
 *     stalled                                                  DFU_SEEN_STALL
 *     not finished for any other reason, such as a timeout     DFU_SEEN_NOTHING
 *     the device left by itself, or another program reset it   DFU_SEEN_RESTART, as soon as it is back
 *     the device left by itself after the close                DFU_SEEN_LEFT instead, at once
 * - A device that leaves because of DFU_RESET, or because of a DETACH that it acknowledged, obeys a request: that is no restart. After
 *   DFU_RESET report DFU_SEEN_RESET in this case too. Carry out the next action once the device is open again.
 * - Each DFU_SEEN_RESTART uses up one of the session's restarts, and the host requests the device's state again.
 * - DFU_SEEN_LEFT is for a device that starts its new image by itself. Report it once, and only if all three hold: the
 *   device acknowledged the DNLOAD of no bytes that closes the download; it answered a later GETSTATUS with
 *   dfuMANIFEST-SYNC or dfuMANIFEST; then it left, or came back reset, without a reset or a request to leave.
 * - DFU_SEEN_LEFT replaces the last reset and uses up no restart. It ends a session of dfu_host_download with DFU_UNCONFIRMED, and in one
 *   of dfu_host_verified the comparison begins. It may be reported before the device is back. In any other phase it counts as
 *   DFU_SEEN_RESTART.
 *
 * A program must always follow these rules:
 * - No pointer is NULL, even with length 0. Each points to as many bytes as its length says.
 * - No two arguments of a call overlap in memory.
 * - The program's buffer for an answer has room for the wLength bytes of a.setup, its bytes 6 and 7 (low byte first).
 * - Only one thread at a time makes calls for a session.
 * These rules let a session continue from its last state:
 * - The record is as the last call left it, from the beginning to the end of a session.
 * - The payload is the same for the whole session: the first dfu_file.payload bytes of the file that it began with. For an
 *   upload it is any pointer with length 0.
 * - The buffer is the same for the whole upload, and the program changes nothing in it.
 * - The library has one version from the beginning to the end: a record of another version is refused.
 *
 * The code is C11, for little-endian processors of 32 or 64 bits, and needs at most memcpy, memmove and memset of a C library.
 *
 * Proved, if the program follows the rules:
 * - A session begins as its file, its descriptor and its limits say.
 * - Each dfu_host_take follows a row of Fustrelan's host table. Each action is the one of the session's phase, and its body is a range of
 *   the payload.
 * - An upload ends with DFU_NO_MEMORY exactly in the case that dfu_host_take describes. In the buffer only the bytes change to which a part
 *   is stored.
 * Checked for whole sessions by reading and by tests, not by proofs: a session is over after at most as many calls of dfu_host_take as it
 * had actions, and it ends with DFU_INSTALLED, DFU_VERIFIED or DFU_UPLOADED only as the laws of the host in Rattle (dfu_host) say.
 * Proved for any record, payload and buffer: each call returns, with an answer or a refusal, and touches only the memory that its pointers
 * and lengths name. */

#ifdef __cplusplus
}
#endif

#endif

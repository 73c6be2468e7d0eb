/* SPDX-License-Identifier: MIT OR Apache-2.0 */
/**
 * @file dfu_device.h
 * @brief Runs the device of USB device firmware upgrade (USB DFU 1.1) in a bootloader; the code is dfu_device.c.
 *
 *     static const struct dfu_config config = {.version = DFU_VERSION, .vendor = 0x1209, .product = 1, .detach_ms = 1000,
 *         .attributes = DFU_CAN_DNLOAD | DFU_CAN_UPLOAD, .transfer = 1024, .busy_ms = 1, .manifest_ms = 1, .least = 1,
 *         .unit = 16, .sector = 1024, .erase_ms = 20, .program_ms = 2};                    // from the data sheet of the flash
 *     static uint8_t block[DFU_BLOCK_SIZE(1024, 16)], data[1024];                          // .transfer and .unit
 *     static struct dfu_device dfu = {.config = &config, .flash = flash, .size = size, .block = block, .most = sizeof block,
 *                                     .driver = &driver};                               // your functions that erase and program
 *     void bootloader(void) {
 *         struct dfu_place place;
 *         int32_t n = dfu_device_power_on_or_format(&dfu, image, length);                  // the first image of a new board
 *         if (n == 0 && upgrade_is_wanted()) n = dfu_device_begin(&dfu);                   // a button or a flag; enters dfuIDLE
 *         while (n == 0 && dfu_device_state(&dfu) != DFU_STATE_APP_IDLE) switch (next_event()) {
 *         case REQUEST:          n = dfu_device_serve(&dfu, setup, data, data, sizeof data); // setup[0] is 21h or A1h
 *                                n >= 0 ? answer(data, n) : stall(); n = 0; break;
 *         case ANSWER_IS_OUT:    dfu_device_work(&dfu); break;                             // writes the flash
 *         case BUS_RESET:        if (configured) dfu_device_reset(&dfu);                   // SET_CONFIGURATION sets it: RULES
 *                                configured = 0; break;
 *         }
 *         if (dfu_device_image(&dfu, &place) == 0 && place.length != 0) start(flash + place.at);
 *     }
 *
 * Compile it by `cc -std=c11 -I include yours.c dfu_device.c`. An image is the bytes that the host sends, in any format. Hosts leave out
 * the suffix of a DFU file, so the first image has none either. The flash is mapped for reading, or a function of the program reads it. It
 * has two slots, each for one image: a download goes to the spare slot, and becomes active in one step at its end, so after a loss of power
 * at any moment the old image or the whole new one is active. The calls below are in the order in which a program uses them. RULES, at the
 * end of this file, lists the duties of the program, and what to do on each refusal.
 */
#ifndef DFU_DEVICE_H
#define DFU_DEVICE_H

#include <stddef.h>
#include <stdint.h>

#if defined(__BYTE_ORDER__) && defined(__ORDER_LITTLE_ENDIAN__) && __BYTE_ORDER__ != __ORDER_LITTLE_ENDIAN__
#error "dfu_device is for processors that store the low byte of a number first"
#endif
#if UINTPTR_MAX > 0xffffffffffffffffu
#error "dfu_device is for pointers of at most 64 bits"
#endif

/* Version of the library: 10,000 * major + 100 * minor + patch. */
#ifndef DFU_VERSION
#define DFU_VERSION 300
#define DFU_VERSION_TEXT "0.3.0"
#endif

/* Casts a value: in C++ by static_cast. */
#ifdef __cplusplus
#define DFU_TO(type, value) static_cast<type>(value)
extern "C" {
#else
#define DFU_TO(type, value) ((type)(value))
#endif

/** @brief Requests, bRequest (USB DFU 1.1, section 3). */
enum dfu_request {
    DFU_DETACH = 0,
    DFU_DNLOAD = 1,
    DFU_UPLOAD = 2,
    DFU_GETSTATUS = 3,
    DFU_CLRSTATUS = 4,
    DFU_GETSTATE = 5,
    DFU_ABORT = 6
};

/** @brief States, bState (section 6.1.2). */
enum dfu_state {
    DFU_STATE_APP_IDLE = 0,
    DFU_STATE_APP_DETACH = 1,
    DFU_STATE_IDLE = 2,
    DFU_STATE_DNLOAD_SYNC = 3,
    DFU_STATE_DNBUSY = 4,
    DFU_STATE_DNLOAD_IDLE = 5,
    DFU_STATE_MANIFEST_SYNC = 6,
    DFU_STATE_MANIFEST = 7,
    DFU_STATE_MANIFEST_WAIT_RESET = 8,
    DFU_STATE_UPLOAD_IDLE = 9,
    DFU_STATE_ERROR = 10
};

/** @brief Status codes, bStatus (section 6.1.2). */
enum dfu_status {
    DFU_STATUS_OK = 0,
    DFU_STATUS_ERR_TARGET = 1,
    DFU_STATUS_ERR_FILE = 2,
    DFU_STATUS_ERR_WRITE = 3,
    DFU_STATUS_ERR_ERASE = 4,
    DFU_STATUS_ERR_CHECK_ERASED = 5,
    DFU_STATUS_ERR_PROG = 6,
    DFU_STATUS_ERR_VERIFY = 7,
    DFU_STATUS_ERR_ADDRESS = 8,
    DFU_STATUS_ERR_NOTDONE = 9,
    DFU_STATUS_ERR_FIRMWARE = 10,
    DFU_STATUS_ERR_VENDOR = 11,
    DFU_STATUS_ERR_USBR = 12,
    DFU_STATUS_ERR_POR = 13,
    DFU_STATUS_ERR_UNKNOWN = 14,
    DFU_STATUS_ERR_STALLED_PKT = 15
};

/** @brief Bits of bmAttributes of the functional descriptor (section 4.1.3). */
enum dfu_attribute {
    DFU_CAN_DNLOAD = 1,
    DFU_CAN_UPLOAD = 2,
    DFU_MANIFESTATION_TOLERANT = 4,
    DFU_WILL_DETACH = 8
};

/** @brief Negative results. DFU_STALL and DFU_WRITE_PENDING are answers. All others are refusals, which change nothing, except
 *         DFU_NOT_WRITTEN: it ends a format, after which there may be no image. */
enum dfu_result {
    DFU_STALL = -1,          /**< stall the request; the device may be in another state now */
    DFU_NO_CONFIG = -2,      /**< the configuration has another version, or a number outside the range that struct dfu_config gives it */
    DFU_NO_MEDIUM = -3,      /**< the flash has no active image, one other than the record names, or 2^32 bytes or more */
    DFU_NO_DEVICE = -4,      /**< the record does not belong to this flash and block, or another version wrote it */
    DFU_NO_ROOM = -5,        /**< out has less room than an answer may need: 6 bytes, or the transfer size if that is more */
    DFU_WRONG_SIZE = -6,     /**< the flash can't be divided into two slots: use DFU_MEDIUM_SIZE bytes */
    DFU_TOO_LARGE = -7,      /**< the image is longer than a slot's data */
    DFU_NOT_WRITTEN = -8,    /**< an operation of a format failed, or its read-back found other bytes */
    DFU_NOT_LONG = -9,       /**< the data stage of this setup has at most config.transfer bytes */
    DFU_NO_BLOCK = -10,      /**< the block's memory has fewer bytes than the transfer size and the unit together */
    DFU_WRITE_PENDING = -11, /**< flash operations are pending: call next, execute it, call took, until took returns another result */
    DFU_BUSY = -12,          /**< operations are pending, and must be carried out first */
    DFU_NO_CLOSE = -13,      /**< this setup doesn't close a download */
    DFU_NO_STATUS = -14,     /**< the status is neither DFU_STATUS_ERR_TARGET nor DFU_STATUS_ERR_FILE */
    DFU_NO_CANDIDATE = -20   /**< there is no received image that may still be refused */
};
/** @brief Former names of two results, kept for one release. */
#define DFU_ASKS DFU_WRITE_PENDING
#define DFU_ASKED DFU_BUSY

/** @brief Kinds of operations of the flash. */
enum dfu_operation {
    DFU_ERASE = 1,  /**< erase the sector at `at`, of `length` bytes, to FFh; `bytes` isn't used */
    DFU_PROGRAM = 2 /**< program the first `length` bytes of `bytes` at `at`; on flash with sectors the range reads FFh before */
};

/** @brief Settings of a device. The program fills them in, the same for every call. */
struct dfu_config {
    uint32_t version;         /**< DFU_VERSION: an archive of another version refuses it */
    uint16_t device;          /**< bcdDevice: this and the next two are for the program's descriptors; no call reads them */
    uint16_t product;         /**< idProduct */
    uint16_t vendor;          /**< idVendor */
    uint16_t detach_ms;       /**< wDetachTimeOut, milliseconds */
    uint16_t transfer;        /**< wTransferSize, bytes: 1 to 4,096 */
    uint8_t attributes;       /**< bmAttributes: enum dfu_attribute; bits 4 to 7 are ignored */
    uint8_t interface_number; /**< bInterfaceNumber: a setup whose wIndex is another number is stalled */
    uint32_t busy_ms;         /**< ms for each block, sent as bwPollTimeout, after which the host polls again: 0 to 16,777,215. At 0 a block
                                   is written before its GETSTATUS is answered, and bwPollTimeout is 0 */
    uint32_t manifest_ms;     /**< ms to make an image active, sent likewise: 0 to 16,777,215, at least 1 if not tolerant */
    uint32_t least;           /**< minimum bytes of an image, 1 to 16,777,216; if a slot holds fewer, no download can succeed */
    uint32_t unit;            /**< bytes of the smallest program, 1, 16, 64 or 256; the length of each program is a multiple of it */
    uint32_t sector;          /**< bytes of a sector: a multiple of 256 up to 262,144; 0: the flash is overwritten without erases */
    uint16_t erase_ms;        /**< ms to erase a sector: added to busy_ms and manifest_ms for each erase that the block or image needs */
    uint16_t program_ms;      /**< ms to program 256 bytes: added in proportion to the bytes that are programmed */
};

/** @brief State of a device between two calls, private to the library. The fields are declared here only because C must know the size of
 *         the struct; dfu_core.h documents them, and another version may change them. A program writes none of them, and reads only
 *         held_length, for the bytes of a candidate. */
struct dfu_record {
    uint32_t version;
    uint32_t mode;
    uint32_t first;
    uint32_t second;
    uint32_t put_end;
    uint32_t slot;
    uint16_t number;
    uint16_t length;
    uint8_t header[16];
    uint32_t work;
    uint32_t spare;
    uint32_t sum;
    uint32_t done;
    uint32_t asked;
    uint8_t generation;
    uint8_t close;
    uint16_t held_length;
};

/** @brief Pending operation of the flash. */
struct dfu_ask {
    uint32_t kind;      /**< DFU_ERASE or DFU_PROGRAM */
    uint32_t at;        /**< offset of the range in the flash: its first byte is flash[at] */
    uint32_t length;    /**< DFU_ERASE: the size of a sector; DFU_PROGRAM: 1 to 256, whole units, which may cross pages of the part */
    uint8_t bytes[256]; /**< DFU_PROGRAM: the bytes to program */
};

/** @brief Place of an image: its first byte is flash[at]. */
struct dfu_place {
    uint32_t at;     /**< offset in the flash, bytes */
    uint32_t length; /**< bytes; 0: there is no application */
};

#include "dfu_core.h" /* private: the proved calls that the inline ones use */

#if defined(__clang__) && defined(__has_warning)
#pragma clang diagnostic push
#if __has_warning("-Wunsafe-buffer-usage")
#pragma clang diagnostic ignored "-Wunsafe-buffer-usage"
#endif
#endif

/** @brief Bytes of stack that a call needs: the maximum measured without optimisation, rounded up. With optimisation 1,500 were enough. */
#define DFU_STACK 3000

/** @brief Bytes of a slot's gate; a slot's header has the same size. */
#define DFU_GATE(unit, sector) ((unit) > (sector) ? ((unit) > 16 ? (unit) : 16) : ((sector) > 16 ? (sector) : 16))

/** @brief Bytes of flash for images of at most `capacity` bytes, which is 1 to 16,777,216, and a multiple of the unit and of the sector.
 *
 *      64 KiB, erased by 1,024, programmed by  16: DFU_MEDIUM_SIZE( 16, 1024,  30720): images of up to  30 KiB
 *     128 KiB, erased by 2,048, programmed by  64: DFU_MEDIUM_SIZE( 64, 2048,  61440): images of up to  60 KiB
 *     256 KiB, erased by 4,096, programmed by 256: DFU_MEDIUM_SIZE(256, 4096, 122880): images of up to 120 KiB
 *
 *  In a microcontroller's own flash the bootloader takes some of these KiB. An image may be in either slot, and no host can choose which:
 *  dfu_install.h has calls that copy it to the one address for which it is linked. */
#define DFU_MEDIUM_SIZE(unit, sector, capacity) (2 * (2 * DFU_GATE(unit, sector) + (capacity)))

/** @brief Bytes of the block's memory: a block, followed by room for a unit, which holds bytes that don't fill a unit yet. With less memory
 *  a call returns DFU_NO_BLOCK. Bytes beyond that are never touched. */
#define DFU_BLOCK_SIZE(transfer, unit) ((transfer) + (unit))

/** @brief Maximum number of erases for one block: one for the gate, and one for each sector that begins in the block. */
#define DFU_BLOCK_ERASES(transfer, sector) \
    ((sector) == 0 ? 0 : 1 + ((transfer) + (sector) - 1) / ((sector) + ((sector) == 0)))
/** @brief Maximum number of programs for one block: one for each 256 bytes, and one for a unit that an earlier block began, or for the gate
 *  of flash without sectors. */
#define DFU_BLOCK_PROGRAMS(transfer) (((transfer) + 255) / 256 + 1)
/** @brief Maximum number of erases that make an image active: for the last unit, the header and the gate. */
#define DFU_COMMIT_ERASES(sector) ((sector) == 0 ? 0 : 3)
/** @brief Maximum number of programs that make an image active: for the last unit, the header and the gate. */
#define DFU_COMMIT_PROGRAMS 3
/** @brief Number of erases in a format with an image of `length` bytes: of both gates, the header, the gate that is opened, and one for
 *  each sector of the image. A format that fails has fewer. */
#define DFU_FORMAT_ERASES(length, sector) \
    ((sector) == 0 ? 0 : 4 + ((length) + (sector) - 1) / ((sector) + ((sector) == 0)))
/** @brief Number of programs in a format: one for each 256 bytes of the image, the header and the gate; and on flash without sectors two
 *  more, which close both gates. */
#define DFU_FORMAT_PROGRAMS(length, sector) (((length) + 255) / 256 + ((sector) == 0 ? 4 : 2))

/** @brief Driver of the flash. Each function returns 0 on success, and any other number on failure. A program has whole units, begins at a
 *  multiple of the unit, and on flash with sectors its range reads FFh before. It may cross pages of the part: if the part wraps around at
 *  the end of a page, the driver must split it. */
struct dfu_driver {
    void *own;                                                                            /**< first argument of both, or NULL */
    /** erases the sector at flash[at] to FFh */
    int (*erase)(void *own, uint32_t at, uint32_t length);
    /** programs 1 to 256 bytes at flash[at]; they begin at a multiple of 4 in memory */
    int (*program)(void *own, uint32_t at, const uint8_t *bytes, uint32_t length);
};

/** @brief A device. The program fills in all but the last two fields. */
struct dfu_device {
    const struct dfu_config *config; /**< settings of the device */
    const uint8_t *flash;            /**< both slots, mapped for reading; or an address (RULES, DFU_READ) */
    size_t size;                     /**< bytes of flash, DFU_MEDIUM_SIZE */
    uint8_t *block;                  /**< memory for a block that is not written yet, and for earlier bytes that fill no unit yet */
    size_t most;                     /**< bytes of block, at least DFU_BLOCK_SIZE */
    const struct dfu_driver *driver; /**< NULL if the program carries out the operations itself */
    struct dfu_record record;        /**< private */
    uint32_t unused;                 /**< fills the struct up to a multiple of 8 bytes */
};

/* THE CALLS, in the order in which a program uses them. A negative result is one of enum dfu_result: the first refusal that applies, in the
 * order in which the call lists them. But while a format is pending, each call that can return DFU_NO_BLOCK, and dfu_device_candidate,
 * returns DFU_BUSY before DFU_NO_CONFIG. A refusal changes nothing, but operations that serve, work, reset or settle carried out before it
 * stay done. No call writes the flash except through the driver.
 *
 * 1. Power. */

/** @brief Starts the device after a loss of power. If the flash was never written, formats it with this image of 0 bytes or more. Before it
 *         formats, it calls dfu_device_power_on twice and dfu_device_is_blank twice, so that no image is lost because a byte was misread
 *         once. (If flash is read through a cache, make these calls by hand, and invalidate the cache between any two.)
 * @return 0: appIDLE; DFU_NO_CONFIG; DFU_NO_MEDIUM: there is no image and the flash is not blank, and nothing was written; the results of
 *         dfu_device_format */
static inline int32_t dfu_device_power_on_or_format(struct dfu_device *d, const uint8_t *image, size_t length);

/** @brief Starts the device after a loss of power: sets the record to appIDLE, whatever it held before.
 * @return 0; DFU_NO_CONFIG, DFU_NO_MEDIUM */
static inline int32_t dfu_device_power_on(struct dfu_device *d);

/** @brief Starts the device in dfuIDLE, for an upgrade, as dfu_device_power_on, a DETACH and a bus reset would.
 * @return 0; DFU_NO_CONFIG, DFU_NO_MEDIUM */
static inline int32_t dfu_device_begin(struct dfu_device *d);

/** @brief Writes the functional descriptor (section 4.1.3), for the configuration descriptor.
 * @return 9, the number of bytes written to out; DFU_NO_CONFIG */
static inline int32_t dfu_device_functional(const struct dfu_config *config, uint8_t out[9]);

/* 2. Requests, answers, resets and time, with a driver. */

/** @brief Answers a request of this class: does the pending work, handles the setup, and carries out the operations that it needs.
 * @param setup  the 8 bytes of the SETUP stage, with bmRequestType 21h or A1h
 * @param body   the wLength bytes of the data stage if the host sends at most config.transfer bytes; else it is not read
 * @param out    room for the answer, `room` bytes: at least 6, and at least config.transfer. It may be the same memory as body
 * @return 0 to 4,096: the number of bytes of out that are the answer, where 0 may also acknowledge; DFU_STALL: stall endpoint 0; the
 *         refusals of dfu_device_work and dfu_device_handle: stall too */
static inline int32_t dfu_device_serve(struct dfu_device *d, const uint8_t setup[8], const uint8_t *body, uint8_t *out, size_t room);

/** @brief Does the pending work: writes the received block, or makes the image active. Call it right after each answer was sent. One call
 *         does all of the work, and the time of dfuDNBUSY or dfuMANIFEST passes in it. Call it after a stall too: without pending work it
 *         does nothing. If an operation fails, the device enters dfuERROR, and its next answer to GETSTATUS says so. Then the old image is
 *         active, or the whole new one if it was being made active.
 * @return 0; DFU_WRITE_PENDING without a driver; the refusals of dfu_device_elapse, dfu_device_next and dfu_device_took */
static inline int32_t dfu_device_work(struct dfu_device *d);

/** @brief Handles the bus reset that counts (RULES): does the pending work; then appDETACH leads to dfuIDLE, and every other state to
 *         appIDLE.
 * @return 0; the other results of dfu_device_work; the refusals of dfu_device_elapse */
static inline int32_t dfu_device_reset(struct dfu_device *d);

/** @brief Reports that `ms` milliseconds have passed. Only appDETACH, dfuDNBUSY and dfuMANIFEST count them. With a driver, call it only in
 *         appDETACH. A call changes the state at most once, and drops the rest of its time.
 * @return 0; DFU_WRITE_PENDING; DFU_NO_CONFIG, DFU_NO_BLOCK, DFU_NO_DEVICE, DFU_BUSY, DFU_NO_MEDIUM, DFU_NO_DEVICE, as dfu_device_handle */
static inline int32_t dfu_device_elapse(struct dfu_device *d, uint32_t ms);

/** @brief Returns the state.
 * @return enum dfu_state, 0 to 10; DFU_NO_DEVICE if the record is damaged */
static inline int32_t dfu_device_state(const struct dfu_device *d);

/** @brief Returns the status code, which is DFU_STATUS_OK in every state but dfuERROR.
 * @return enum dfu_status, 0 to 15; DFU_NO_DEVICE as dfu_device_state */
static inline int32_t dfu_device_code(const struct dfu_device *d);

/** @brief Finds the active image. The result is valid until another image becomes active.
 * @return 0, and place is set; DFU_NO_CONFIG, DFU_NO_MEDIUM */
static inline int32_t dfu_device_image(const struct dfu_device *d, struct dfu_place *place);

/** @brief Returns the milliseconds until dfu_device_elapse changes the state.
 * @return 1 or more, where 2,147,483,647 means that many or more; 0 if no time changes the state; DFU_NO_CONFIG; DFU_NO_DEVICE as
 *         dfu_device_state */
static inline int32_t dfu_device_due(const struct dfu_device *d);

/* 3. For a USB stack that acknowledges the data stage while it receives it. */

/** @brief Returns 1, before the data stage, if dfu_device_handle will stall this setup with any body of wLength bytes.
 * @return 1 or 0; DFU_NO_CONFIG, DFU_NO_DEVICE, DFU_BUSY */
static inline int32_t dfu_device_would_stall(const struct dfu_device *d, const uint8_t setup[8]);

/** @brief Handles a setup whose data stage is longer than config.transfer, without its bytes. dfu_device_handle calls it for such a setup.
 * @return DFU_STALL; DFU_NO_CONFIG, DFU_NO_DEVICE, DFU_BUSY, DFU_NOT_LONG */
static inline int32_t dfu_device_too_long(struct dfu_device *d, const uint8_t setup[8]);

/* 4. A check of images, for a program that accepts only images of its maker (RULES). */

/** @brief Returns 1 if this setup closes a download: a DNLOAD with wLength 0 to this interface in dfuDNLOAD-IDLE, after at least
 *         config.least bytes were received. Then dfu_device_handle would acknowledge it, and the work after that would make the image
 *         active; so a program that checks images does it now. After 1 dfu_device_refuse_close can refuse the image; after 0 it returns
 *         DFU_NO_CLOSE.
 * @return 1 or 0; DFU_NO_CONFIG, DFU_NO_DEVICE, DFU_BUSY */
static inline int32_t dfu_device_closes(const struct dfu_device *d, const uint8_t setup[8]);

/** @brief Finds the received image that may still be refused: in dfuDNLOAD-IDLE, in dfuMANIFEST-SYNC before it is active, and in
 *         dfuMANIFEST. Its bytes are those at `place`, followed by record.held_length bytes, 0 to unit - 1, at block + config.transfer.
 * @return 0, and place is set; DFU_NO_CONFIG, DFU_NO_DEVICE, DFU_BUSY, DFU_NO_MEDIUM, DFU_NO_DEVICE, as dfu_device_handle;
 *         DFU_NO_CANDIDATE */
static inline int32_t dfu_device_candidate(const struct dfu_device *d, struct dfu_place *place);

/** @brief Refuses the image whose download this setup closes. Call it instead of dfu_device_handle, which would accept the image. The
 *         device enters dfuERROR with the status, and nothing is written.
 * @param status DFU_STATUS_ERR_TARGET if the image is not for this device, DFU_STATUS_ERR_FILE if it fails a test, such as a signature's
 * @return DFU_STALL; DFU_NO_CONFIG, DFU_NO_DEVICE, DFU_BUSY, DFU_NO_STATUS, DFU_NO_CLOSE */
static inline int32_t dfu_device_refuse_close(struct dfu_device *d, const uint8_t setup[8], uint32_t status);

/** @brief Refuses an image after its download was closed, for a check that takes longer than a transfer may. From dfuMANIFEST-SYNC, if the
 *         image isn't active yet, and from dfuMANIFEST, the device enters dfuERROR with the status, and the image doesn't become active. In
 *         any other state the call does nothing.
 * @param status as for dfu_device_refuse_close
 * @return 0; DFU_NO_CONFIG, DFU_NO_DEVICE, DFU_BUSY, DFU_NO_STATUS */
static inline int32_t dfu_device_refuse(struct dfu_device *d, uint32_t status);

/* 5. Flash that the program writes itself, without a driver. It calls handle and answered instead of serve and work, and then
 *
 *     while (n == DFU_WRITE_PENDING && dfu_device_next(&dfu, &ask) == 0) {
 *         do what ask says; failed = not 0 if the flash could not;
 *         n = dfu_device_took(&dfu, failed, out, sizeof out);
 *     }
 *
 * Afterwards n is the answer of the call that returned DFU_WRITE_PENDING. Meanwhile the host gets NAK, and every other call returns
 * DFU_BUSY. */

/** @brief Answers a setup with its body, as dfu_device_serve does, but neither does the pending work nor carries out operations.
 * @return 0 to 4,096: the number of bytes of out that are the answer, where 0 may also acknowledge; DFU_STALL: the state may have changed;
 *         DFU_WRITE_PENDING; DFU_NO_ROOM, DFU_NO_CONFIG, DFU_NO_BLOCK, DFU_NO_DEVICE (the record is invalid for any flash),
 *         DFU_BUSY, DFU_NO_MEDIUM (the record's header is not in an open slot of the flash), DFU_NO_DEVICE (the record belongs to another
 *         flash) */
static inline int32_t dfu_device_handle(struct dfu_device *d, const uint8_t setup[8], const uint8_t *body, uint8_t *out, size_t room);

/** @brief Reports that an answer was sent: the time of dfuDNBUSY or dfuMANIFEST passes at once.
 * @return 0; DFU_WRITE_PENDING; the refusals of dfu_device_elapse */
static inline int32_t dfu_device_answered(struct dfu_device *d);

/** @brief Handles a bus reset as dfu_device_reset does, but without the work, which must be done before.
 * @return 0; the refusals of dfu_device_elapse */
static inline int32_t dfu_device_usb_reset(struct dfu_device *d);

/** @brief Finds the pending operation; a repeated call finds the same one. Even with a damaged record its range is in the slot that is
 *         spare now, as long as the flash has an active image. If the record is as the last call left it, the range is whole units, or a
 *         whole sector.
 * @return 0, and ask is set; DFU_NO_CONFIG, DFU_NO_BLOCK, DFU_NO_DEVICE (no operation is pending, or the flash is not as the last call left
 *         it) */
static inline int32_t dfu_device_next(const struct dfu_device *d, struct dfu_ask *ask);

/** @brief Reports that the pending operation was carried out, or that it failed if `failed` is not 0. The call reads its range back.
 *         In the block's memory only the bytes after config.transfer may change.
 * @param out    room for the answer of the call that returned DFU_WRITE_PENDING, at least 6 bytes
 * @return DFU_WRITE_PENDING if another operation is pending; else the answer of the call that needed the operations, with its bytes in
 *         out; DFU_NO_ROOM (out has less than 6 bytes), DFU_NO_CONFIG, DFU_NO_BLOCK, DFU_NO_DEVICE */
static inline int32_t dfu_device_took(struct dfu_device *d, uint32_t failed, uint8_t *out, size_t room);

/** @brief Carries out the pending operations through the driver, if n is DFU_WRITE_PENDING and there is a driver.
 * @return n, if no operation was pending or there is no driver; else the answer of the call that returned n, with its bytes in out; the
 *         refusals of dfu_device_next and dfu_device_took */
static inline int32_t dfu_device_settle(struct dfu_device *d, int32_t n, uint8_t *out, size_t room);

/** @brief Carries out one operation through the driver.
 * @return 0 if it succeeded, else 1 */
static inline uint32_t dfu_device_carry_out(const struct dfu_driver *driver, const struct dfu_ask *ask);

/* 6. The first image. */

/** @brief Returns 1 if the flash was never written: every byte of the gates and the headers of both slots is FFh. Each has DFU_GATE bytes,
 *         so these are the first 2 * DFU_GATE of each half of the flash; the data of the slots is not read.
 * @return 1, and then there is no active image; 0; DFU_NO_CONFIG, DFU_NO_MEDIUM (2^32 bytes or more), DFU_WRONG_SIZE */
static inline int32_t dfu_device_is_blank(const struct dfu_device *d);

/** @brief Writes an image of 0 bytes or more to the first slot through the driver, and destroys both images that the flash held before. A
 *         loss of power during the call may leave no image. Afterwards call dfu_device_power_on.
 * @return 0; DFU_WRITE_PENDING without a driver; the refusals of the next three calls */
static inline int32_t dfu_device_format(struct dfu_device *d, const uint8_t *image, size_t length);

/** @brief Begins a format without a driver. Until it ends, other calls return DFU_BUSY. Pass the same image to format_start, format_next
 *         and format_took, because the record keeps no pointer.
 * @return DFU_WRITE_PENDING; DFU_NO_CONFIG, DFU_NO_MEDIUM (2^32 bytes or more), DFU_WRONG_SIZE, DFU_TOO_LARGE */
static inline int32_t dfu_device_format_start(struct dfu_device *d, const uint8_t *image, size_t length);

/** @brief Finds the pending operation of the format. Its range is within the flash, whatever the record holds.
 * @return 0, and ask is set; DFU_NO_CONFIG, DFU_NO_DEVICE (no operation is pending) */
static inline int32_t dfu_device_format_next(const struct dfu_device *d, const uint8_t *image, size_t length, struct dfu_ask *ask);

/** @brief Reports that the pending operation was carried out, or that it failed if `failed` is not 0. The call reads its range back.
 * @return DFU_WRITE_PENDING if another operation is pending; 0 once the image is active; DFU_NOT_WRITTEN, which ends the format;
 *         DFU_NO_CONFIG, DFU_NO_DEVICE */
static inline int32_t dfu_device_format_took(struct dfu_device *d, const uint8_t *image, size_t length, uint32_t failed);

/* RULES, for a program that uses the calls above.
 *
 * The loop:
 * - THE WORK. Call dfu_device_work right after each answer was sent. It reads no clock; a host that polls meanwhile gets NAK.
 *   dfu_device_serve and dfu_device_reset do the work first too, since a host may be early, and a stack may not report that an answer was
 *   sent. If the work was left out, dfu_device_handle treats the next request as an error, and a reset ends the upgrade; both drop the
 *   received bytes.
 * - The program itself handles requests with a bmRequestType other than 21h and A1h.
 * - THE RESET THAT COUNTS is the first reset of the bus after a SET_CONFIGURATION with a value other than 0; all others are part of an
 *   enumeration. So the program keeps a flag: SET_CONFIGURATION sets it, or clears it with the value 0. At a bus reset, or if the device is
 *   unplugged, the program calls dfu_device_reset only if the flag is set, and clears the flag. If it called dfu_device_reset at each bus
 *   reset, the second reset of an enumeration would lead from dfuIDLE to appIDLE, and the old image would start.
 * - An application that stays on the bus uses dfu_runtime.h. A program that is both application and bootloader reports time in appDETACH
 *   (dfu_device_elapse). If that leads to dfuIDLE (bitWillDetach), it disconnects and reconnects, and reports no reset for this.
 * - The time that a block takes is sent as bwPollTimeout, after which the host polls again: busy_ms, plus erase_ms for each sector that
 *   this block erases, plus program_ms for each 256 bytes that it programs. manifest_ms with erase_ms and program_ms is the same for an
 *   image. So set erase_ms and program_ms to the times of the part, and busy_ms to 1. If busy_ms or manifest_ms is 0, everything is written
 *   before the GETSTATUS is answered, and bwPollTimeout is 0. For fwupd manifest_ms should be 0 if the device is tolerant. With erase_ms
 *   and program_ms of 0 the host waits busy_ms after every block, also after one that erases nothing (docs/PORTING.md, "How long a host
 *   waits").
 * - If the stack acknowledges a data stage while it receives it, as Linux's FunctionFS does, decide before the data stage: call
 *   dfu_device_work, then dfu_device_would_stall. If that returns 1, call dfu_device_handle with any body of that length, and stall the
 *   setup. If it returns 0, receive the data stage.
 *
 * A program must always follow these rules:
 * - Only driver and driver.own may be NULL; every other pointer points to as many bytes as its length or its type says, even if the length
 *   is 0. No memory may begin at address 0, and no two ranges may overlap, except that body and out may be the same memory: if the host
 *   sends, out isn't written, and else body isn't read.
 * - Make only one call at a time for a device, with DFU_STACK bytes of stack. Two devices share nothing, so a call for one may interrupt a
 *   call for the other. An interrupt handler that may run during a call must not make a call for the same device.
 * These rules let a device continue from its last state:
 * - The configuration stays the same, and record, block and flash are as the last call left them. After each loss of power, power_on or
 *   begin sets the record.
 * - An operation changes no byte outside its range, not even one that a loss of power breaks off; inside its range it may leave any bytes.
 * - Each byte of the flash reads the same until the next operation, even where an operation was broken off. Invalidate caches after each
 *   operation. docs/PORTING.md covers flash with ECC, whose torn words may not read like that.
 * - Nothing but the operations that the library requests changes the flash.
 * For flash that is not mapped, such as SPI flash:
 * - DFU_READ. Compile dfu_device.c, dfu_boot.c and each file that includes dfu_home.h with -DDFU_READ=name, the name of a function of the
 *   program that reads the part: void name(const unsigned char *from, unsigned char *to, size_t count) copies to `to` the `count` bytes of
 *   the part at offset `from - flash`. `flash` is then any address but 0 that begins `size` addresses, such as 0x90000000; they are never
 *   read directly.
 * - With a run area (dfu_install.h) that function reads the run area and the image in its slot. It tells them apart by `from`, because
 *   `run` and `flash` are different ranges of addresses. From memory that is mapped it copies the bytes directly.
 * - That function can't return an error. If the part does not answer, it must try again, and finally reset the processor, which counts as a
 *   loss of power. It may cache bytes until the next operation, because a read-back requests them one by one.
 * - The program itself reads an image at flash[place.at], for example before it starts it from RAM. The formats in memory
 *   (dfu_memory_format, dfu_trial_format_memory) are for a build without DFU_READ.
 *
 * On a refusal stall the request (after a refusal of dfu_device_work the next one), and:
 * - DFU_NO_CONFIG, DFU_NO_BLOCK, DFU_NO_ROOM, DFU_WRONG_SIZE, DFU_TOO_LARGE, DFU_NO_STATUS: correct the program.
 * - DFU_NO_MEDIUM of power_on, begin or image: there is no image, or a byte was misread, or the slots were written with another sector or
 *   size. Try again. A format destroys both slots, so make one only on a part that was never written (dfu_device_is_blank, twice), or if a
 *   person requests it, by a jumper or a command. dfu_device_power_on_or_format does so. New FRAM and similar memory may hold any bytes, so
 *   a program can't recognize it as new: the factory must write its first image.
 * - DFU_NO_MEDIUM or DFU_NO_DEVICE elsewhere: flash, block or record changed. Call dfu_device_power_on or dfu_device_begin again; the host
 *   must begin again.
 * - DFU_BUSY: operations are pending. Carry them out, then repeat the call: those of a block or an image by dfu_device_settle with
 *   DFU_WRITE_PENDING, those of a format by dfu_device_format_next and dfu_device_format_took.
 * - DFU_NOT_WRITTEN: format again; if it fails again, the part or its driver is broken.
 * - DFU_NOT_LONG, DFU_NO_CLOSE: call dfu_device_handle with this request. DFU_NO_CANDIDATE: there is nothing to check.
 *
 * To check images, call dfu_device_closes for each setup, after the work and before dfu_device_handle or serve. If it returns 1, check the
 * bytes that dfu_device_candidate names. If they fail, call dfu_device_refuse_close, else pass the setup to dfu_device_handle or serve. If
 * dfu_device_closes or dfu_device_candidate returns a refusal, stall the setup, so that no image is accepted unchecked. A program that
 * never calls dfu_device_closes accepts every image. Such a check is no secure boot, because anyone who can write the flash can write an
 * image: check the image again before it is started.
 *
 * Whole images are checked by power_on, begin, image and format_start, at the start and the end of the work that makes one active, and by
 * the first operation of a download. No other call checks a whole image; an UPLOAD reads the bytes that it sends, unchecked. So if an
 * image's bytes decay while the device runs, and its header doesn't, the next power-on detects it.
 *
 * The proofs show that each call dfu_core_* returns, and touches only its memory. If the program follows the rules above, each call answers
 * as Fustrelan's device table says, and an image stays active over any list of these calls, with losses of power and with writes that fail
 * or are torn. This is proved of the source in Rattle, from which dfu_device.c was translated; compiler and translator are not proved. The
 * inline calls dfu_device_* are only tested. The proofs do not cover your driver, nor the function that DFU_READ names.
 *
 * Memory: sizeof(struct dfu_device), 96 bytes with pointers of 32 bits, and the two buffers: in all, with a unit of 16, 240 bytes for
 * blocks of 64, 2,160 for 1,024, and 8,304 for 4,096. */

/* The bodies of the calls, which use those of dfu_core.h. */

static inline int32_t dfu_device_power_on(struct dfu_device *d) {
    return dfu_core_power_on(d->config, &d->record, d->flash, d->size);
}

static inline int32_t dfu_device_begin(struct dfu_device *d) {
    return dfu_core_begin(d->config, &d->record, d->flash, d->size);
}

static inline int32_t dfu_device_handle(struct dfu_device *d, const uint8_t setup[8], const uint8_t *body, uint8_t *out, size_t room) {
    const uint32_t length = setup[0] == 0x21 ? DFU_TO(uint32_t, setup[6]) | DFU_TO(uint32_t, setup[7]) << 8 : 0;
    if (length > d->config->transfer)
        return dfu_core_too_long(d->config, &d->record, setup);
    return dfu_core_handle(d->config, &d->record, d->block, d->most, d->flash, d->size, setup, body, length, out, room);
}

static inline int32_t dfu_device_elapse(struct dfu_device *d, uint32_t ms) {
    return dfu_core_elapse(d->config, &d->record, d->block, d->most, d->flash, d->size, ms);
}

static inline int32_t dfu_device_usb_reset(struct dfu_device *d) {
    return dfu_core_usb_reset(d->config, &d->record, d->block, d->most, d->flash, d->size);
}

static inline int32_t dfu_device_next(const struct dfu_device *d, struct dfu_ask *ask) {
    return dfu_core_next(d->config, &d->record, d->block, d->most, d->flash, d->size, ask);
}

static inline int32_t dfu_device_took(struct dfu_device *d, uint32_t failed, uint8_t *out, size_t room) {
    return dfu_core_took(d->config, &d->record, d->block, d->most, d->flash, d->size, failed, out, room);
}

static inline int32_t dfu_device_would_stall(const struct dfu_device *d, const uint8_t setup[8]) {
    return dfu_core_would_stall(d->config, &d->record, d->size, setup);
}

static inline int32_t dfu_device_closes(const struct dfu_device *d, const uint8_t setup[8]) {
    return dfu_core_closes(d->config, &d->record, setup);
}

static inline int32_t dfu_device_too_long(struct dfu_device *d, const uint8_t setup[8]) {
    return dfu_core_too_long(d->config, &d->record, setup);
}

static inline int32_t dfu_device_refuse_close(struct dfu_device *d, const uint8_t setup[8], uint32_t status) {
    return dfu_core_refuse_close(d->config, &d->record, setup, status);
}

static inline int32_t dfu_device_refuse(struct dfu_device *d, uint32_t status) {
    return dfu_core_refuse(d->config, &d->record, status);
}

static inline int32_t dfu_device_candidate(const struct dfu_device *d, struct dfu_place *place) {
    return dfu_core_candidate(d->config, &d->record, d->flash, d->size, place);
}

static inline int32_t dfu_device_due(const struct dfu_device *d) {
    return dfu_core_due(d->config, &d->record);
}

static inline int32_t dfu_device_state(const struct dfu_device *d) {
    return dfu_core_state(&d->record);
}

static inline int32_t dfu_device_code(const struct dfu_device *d) {
    return dfu_core_code(&d->record);
}

static inline int32_t dfu_device_image(const struct dfu_device *d, struct dfu_place *place) {
    return dfu_core_image(d->config, d->flash, d->size, place);
}

static inline int32_t dfu_device_is_blank(const struct dfu_device *d) {
    return dfu_core_is_blank(d->config, d->flash, d->size);
}

static inline int32_t dfu_device_functional(const struct dfu_config *config, uint8_t out[9]) {
    return dfu_core_functional(config, out);
}

static inline int32_t dfu_device_format_start(struct dfu_device *d, const uint8_t *image, size_t length) {
    return dfu_core_format_start(d->config, &d->record, d->flash, d->size, image, length);
}

static inline int32_t dfu_device_format_next(const struct dfu_device *d, const uint8_t *image, size_t length, struct dfu_ask *ask) {
    return dfu_core_format_next(d->config, &d->record, d->flash, d->size, image, length, ask);
}

static inline int32_t dfu_device_format_took(struct dfu_device *d, const uint8_t *image, size_t length, uint32_t failed) {
    return dfu_core_format_took(d->config, &d->record, d->flash, d->size, image, length, failed);
}

static inline uint32_t dfu_device_carry_out(const struct dfu_driver *driver, const struct dfu_ask *ask) {
    const int failed = ask->kind == DFU_ERASE ? driver->erase(driver->own, ask->at, ask->length)
                                              : driver->program(driver->own, ask->at, ask->bytes, ask->length);
    return failed != 0;
}

static inline int32_t dfu_device_answered(struct dfu_device *d) {
    const int32_t state = dfu_device_state(d), due = dfu_device_due(d);
    if (state != DFU_STATE_DNBUSY && state != DFU_STATE_MANIFEST)
        return state < 0 ? state : 0;
    return due < 0 ? due : dfu_device_elapse(d, DFU_TO(uint32_t, due));
}

static inline int32_t dfu_device_settle(struct dfu_device *d, int32_t n, uint8_t *out, size_t room) {
    while (n == DFU_WRITE_PENDING && d->driver) {
        struct dfu_ask ask;
        n = dfu_device_next(d, &ask);
        if (n == 0)
            n = dfu_device_took(d, dfu_device_carry_out(d->driver, &ask), out, room);
    }
    return n;
}

static inline int32_t dfu_device_work(struct dfu_device *d) {
    uint8_t none[6];
    return dfu_device_settle(d, dfu_device_answered(d), none, sizeof none);
}

static inline int32_t dfu_device_serve(struct dfu_device *d, const uint8_t setup[8], const uint8_t *body, uint8_t *out, size_t room) {
    const int32_t worked = dfu_device_work(d);
    return worked < 0 ? worked : dfu_device_settle(d, dfu_device_handle(d, setup, body, out, room), out, room);
}

static inline int32_t dfu_device_reset(struct dfu_device *d) {
    const int32_t worked = dfu_device_work(d);
    return worked < 0 ? worked : dfu_device_usb_reset(d);
}

static inline int32_t dfu_device_format(struct dfu_device *d, const uint8_t *image, size_t length) {
    int32_t n = dfu_device_format_start(d, image, length);
    while (n == DFU_WRITE_PENDING && d->driver) {
        struct dfu_ask ask;
        n = dfu_device_format_next(d, image, length, &ask);
        if (n == 0)
            n = dfu_device_format_took(d, image, length, dfu_device_carry_out(d->driver, &ask));
    }
    return n;
}

static inline int32_t dfu_device_power_on_or_format(struct dfu_device *d, const uint8_t *image, size_t length) {
    struct dfu_device *volatile again = d; /* volatile: else a compiler could merge the second check into the first */
    int32_t n = dfu_device_power_on(d);
    if (n == DFU_NO_MEDIUM)
        n = dfu_device_power_on(again);
    if (n != DFU_NO_MEDIUM || dfu_device_is_blank(d) != 1 || dfu_device_is_blank(again) != 1)
        return n;
    n = dfu_device_format(d, image, length);
    return n == 0 ? dfu_device_power_on(d) : n;
}

#ifdef __cplusplus
}
#endif

#if defined(__clang__) && defined(__has_warning)
#pragma clang diagnostic pop
#endif

#endif

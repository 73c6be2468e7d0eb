/* The settings of the stand-in are environment variables. Numbers are decimal, unless noted as hexadecimal. Defaults are in parentheses.
 *
 * USB_DEVICE      proved (the proved device of crates/dfu_device_c), uboot (the rules of U-Boot 2023.01), small (a small
 *                 bootloader, device_small.c) or dfuse (a DfuSe device, device_dfuse.c)
 * USB_ATTRIBUTES  bmAttributes, hexadecimal: 01 download, 02 upload, 04 tolerant, 08 will detach (07; for uboot 0f, small 09, dfuse 0b)
 * USB_TRANSFER    wTransferSize (8; for uboot 4096, for dfuse 2048)  USB_DETACH    wDetachTimeOut in ms (for proved 1000, else 0)
 * USB_SAID        wTransferSize in the functional descriptor, if it differs (USB_TRANSFER)
 * USB_BUSY        poll time of a block in ms (for proved 1, else 0)  USB_MANIFEST  poll time of the manifestation in ms (the same)
 * USB_LEAST       minimum bytes of an image (1)         USB_CAPACITY  maximum bytes of an image (100000)
 * USB_IMAGE       file with the old image (one byte, 00h)
 * USB_IDS         vendor:product:release in run-time mode, hexadecimal (1209:0001:0100); USB_DFU_IDS in DFU mode (the same)
 * USB_SERIAL      serial number, with \uXXXX for any UTF-16 code unit (F1)
 * USB_NAME        name of the first setting, like USB_SERIAL (stand-in); USB_NEXT_NAME  the same after a change of mode (USB_NAME)
 * USB_PATH        bus and ports, such as 1-2.3, or only a bus (1-1)
 * USB_SWAP_IDS    of the board that replaces the device after a swap: its ids in both modes, its
 * USB_SWAP_INTERFACE  interface, and the name of its first setting in DFU mode (those of the device)
 * USB_SWAP_NAME
 * USB_START       app or dfu: initial mode (dfu)
 * USB_APP         interfaces of the application: dfu (an interface of run-time mode), plain (no DFU interface) or none (no USB) (dfu)
 * USB_APP_STALLS  requests that the application's DFU interface stalls: nothing, status (GETSTATUS) or all (each request) (nothing)
 * USB_APP_DESCRIPTOR  bytes of the functional descriptor in run-time mode (USB_DESCRIPTOR)
 * USB_APP_TRANSFER  wTransferSize in run-time mode (USB_SAID)    USB_APP_PROTOCOL  bInterfaceProtocol in run-time mode (1)
 * USB_RESTARTS    small: program that it starts by itself after a download: app, or dfu (DFU mode again) (app)
 * USB_LEAVES      small: ms after which DETACH leads to DFU mode without a reset (0: a reset is needed, or bitWillDetach)
 * USB_RESETS      works, or nothing: libusb_reset_device returns 0 and resets nothing, as over WinUSB (works)
 * USB_LEFT        told, or untold: a transfer to a device that left first stalls, and then fails with LIBUSB_ERROR_IO (told)
 * USB_PULL        the device is unplugged and replugged after this many lists of devices without a transfer between them (0: never)
 * USB_DEVICES     1, or 2: another device, with the serial number OTHER, is on the bus (1)
 * USB_DENIED      number of the error by which opening a device fails, such as 3 for LIBUSB_ERROR_ACCESS (0: it succeeds)
 * USB_OTHER_DENIED  number of the error by which opening the other device fails (0: it succeeds)
 * USB_OPENS       number of opens that succeed before USB_DENIED applies (0)
 * USB_DENIALS     number of opens that fail then, after which all succeed (all fail)
 * USB_CLAIMED     number of the error by which claiming the interface fails, such as 6 for LIBUSB_ERROR_BUSY (0: it succeeds)
 * USB_ALTERNATES  alternate settings in DFU mode, up to 4, named boot, kernel, data and more (1; with USB_MAPS one for each name)
 * USB_SETTING     setting that each request of DFU mode must use; one in another setting ends the program (any)
 * USB_INTERFACE   number of the interface, which must be the wIndex of each request (0)
 * USB_CONFIGURATIONS  configurations; the last one is active, and the others have no interface (1)
 * USB_APP_ATTRIBUTES  bmAttributes of the descriptor in run-time mode, hexadecimal (USB_ATTRIBUTES)
 * USB_DESCRIPTOR  bytes of the functional descriptor, 7 as in DFU 1.0, or 0 for none (9)
 * USB_EXTRA       bytes that replace the functional descriptor, hexadecimal, valid or not (that descriptor)
 * USB_STRING      bytes that replace each string descriptor, hexadecimal, valid or not (the right ones)
 * USB_VERSION     bcdDFUVersion of the functional descriptor, hexadecimal (0110; for dfuse 011a)
 * USB_AWAY        number of lists without the device after a change of mode, or after the device left (0)
 * USB_ABSENT      number of lists without the device at the beginning (0)
 * USB_SLOW        time of a transfer on the program's clock in ms (0)
 * USB_FATE        fates of transfers, separated by commas: `lost-out N`, `lost-back N`, `twice N`, `short N BYTES`,
 *                 `leave N` (the device loses power and returns), `swap N` (the same, and another board, with the serial number
 *                 OTHER, replaces it), `kill N` (the program is killed before the transfer), `deaf N` (from N on
 *                 each transfer is lost before the device, and resets fail), `mute N` (from N on each answer is lost; resets work),
 *                 `stuck N` (the call never returns, whatever its timeout), `cut N` (the device handles it, and then loses
 *                 power and returns), `stall N` (it is stalled, and has no other effect)
 * USB_LOG         file for the log, with a line for each transfer
 * USB_SAVE        file for the active image at the end
 * USB_STATE       file that keeps the device between runs: read at the beginning if it exists, and written at the end
 * USB_BOARDS      file with a line for each of several boards: settings such as these, NAME=VALUE, separated by tabs. A board
 *                 is the device of the process that claims its interface; for others it has only descriptors (boards.c)
 * USB_PULLED      of a board: ms from the end of the process that used it until it is unplugged (0: it stays)
 * USB_PLUGGED     of a board: number of the board, from 1, that it replaces after that one was unplugged (0: none),
 * USB_PAUSE       this many ms later (0)
 * USB_BUFFER      uboot: bytes gathered before a write (8388608)
 * USB_STORE       uboot: file (replaced by a flush) or raw (overwritten in place) (file)
 * USB_FAILS       uboot: number of the write to its medium that fails, from 0 (none)
 * USB_FLUSH       uboot: result of each flush: works or fails (works)
 * USB_MAPS        dfuse: names of the settings, separated by | (16 pages of 1024 bytes at 08000000h)
 * USB_PAGES       dfuse: map of the actual memory (the first of USB_MAPS)
 * USB_BUSY, USB_ERASE  dfuse: times of a write and of an erase in ms (0)
 * USB_TOLD        dfuse: `nothing`: GETSTATUS returns no times (it returns them)
 * USB_EARLY       dfuse: `stall`: GETSTATUS stalls while the device is busy (it answers dfuDNBUSY)
 * USB_CELLS       dfuse: effect of a write on a cell that isn't erased: and, fail or any, which replaces it (and)
 * USB_FAILS, USB_CODE  dfuse: number of the command that fails, and its status code in dfuERROR (none; 3)
 * USB_POINTER     dfuse: `erase`: an erase sets the pointer too
 * USB_PROTECTED   dfuse: 1: the memory is protected
 * USB_PENDING     dfuse: address of a page whose erase an earlier run sent but did not start, hexadecimal (0: none)
 * USB_LIES        dfuse: address of a byte that is never written, hexadecimal (0: none)
 *
 * Transfers of the class are numbered from 0; others (descriptors) are not counted. A transfer that is lost, before the device or after
 * it, takes the program's whole timeout, and this time passes on the device too. After the program has ended, ten more seconds pass on
 * the device before it is checked. */
#ifndef USB_SETTINGS_H
#define USB_SETTINGS_H

#include <stdbool.h>
#include <stdint.h>

enum fate_kind {
    FATE_PASS,
    FATE_LOST_OUT,
    FATE_LOST_BACK,
    FATE_TWICE,
    FATE_SHORT,
    FATE_LEAVE,
    FATE_SWAP,
    FATE_KILL,
    FATE_DEAF,
    FATE_MUTE,
    FATE_STUCK,
    FATE_CUT,
    FATE_STALL
};

/* Fate of a transfer; FATE_DEAF and FATE_MUTE also apply to all later ones. `bytes` is for FATE_SHORT. */
struct fate {
    enum fate_kind kind;
    unsigned number, bytes;
};

struct ids {
    uint16_t vendor, product, release;
};

#define FATES 8
#define PORTS 7
#define MOST_ALTERNATES 4

struct settings {
    const char *device;                 /* "proved", "uboot", "small" or "dfuse" */
    uint8_t attributes, app_attributes; /* bmAttributes, in DFU mode and in run-time mode */
    uint16_t transfer, detach_ms;       /* wTransferSize, wDetachTimeOut */
    uint16_t said;                      /* wTransferSize in the functional descriptor */
    uint32_t busy_ms, manifest_ms, least, capacity;
    const char *image;            /* file with the old image, or NULL for one byte 00h */
    struct ids app, dfu, swapped; /* ids in run-time mode, in DFU mode, and of another board after a swap */
    const char *serial;
    uint8_t bus, ports[PORTS];
    unsigned port_count; /* 0 if the system reports no ports */
    bool starts_in_app;
    bool app_has_dfu, app_has_usb;          /* the application has a DFU interface; the application uses USB */
    bool app_stalls_status, app_stalls_all; /* the application's DFU interface stalls GETSTATUS; it stalls every request */
    uint8_t app_descriptor;                 /* length of the functional descriptor in run-time mode */
    uint16_t app_transfer;                  /* wTransferSize in run-time mode */
    uint8_t app_protocol;                   /* bInterfaceProtocol in run-time mode */
    bool restarts_in_app;                   /* small: it starts its application after a download; else it returns in DFU mode */
    uint32_t detaches_ms;                   /* small: time from DETACH to DFU mode */
    uint8_t interface;                      /* number of the interface */
    uint8_t swapped_interface;              /* number of the interface of another board after a swap */
    const char *name, *next_name;           /* name of the first setting, and after a change of mode; the second may be NULL */
    const char *swapped_name;               /* name of the other board's first setting, or NULL for the same */
    uint8_t configurations;                 /* number of configurations; the last one has the interface */
    unsigned alternates;                    /* number of alternate settings of the interface in DFU mode */
    uint8_t descriptor;                     /* length of the functional descriptor */
    const char *extra, *string;             /* bytes instead of that descriptor, and of each string, hexadecimal; or NULL */
    uint16_t version;                       /* bcdDFUVersion */
    int setting;                            /* setting that requests must use, or -1 for any */
    int denied, other_denied, claimed;      /* error of an open, of an open of the other device, and of a claim, or 0 */
    unsigned opens, denials;                /* number of opens that succeed first, and of those that fail after them */
    bool resets_nothing;                    /* libusb_reset_device returns 0 and does nothing, as over WinUSB */
    bool leaves_untold;                     /* after the device left: first a stall, then LIBUSB_ERROR_IO, as libusb returns over WinUSB */
    unsigned pull;                          /* number of lists in a row after which the device is unplugged and replugged; 0: never */
    unsigned devices, away, absent;
    unsigned pulled_ms, plugged, pause_ms; /* with several boards: USB_PULLED, USB_PLUGGED and USB_PAUSE */
    unsigned slow_ms;                      /* time of a transfer on the program's clock */
    struct fate fates[FATES];
    unsigned fate_count;
    const char *log, *save, *state; /* names of files, or NULL */
    uint32_t buffer;                /* U-Boot: bytes to gather before a write */
    bool is_raw, flush_fails;       /* U-Boot: USB_STORE is raw; USB_FLUSH is fails */
    int fails;                      /* U-Boot: number of the write that fails, or -1; DfuSe: number of the command that fails, or -1 */
    int fail_code;                  /* DfuSe: status code of the command that fails */
    const char *maps, *pages;       /* DfuSe: names of the settings, separated by |, and map of the actual memory */
    uint32_t erase_ms;              /* DfuSe: time of an erase */
    int cells;                      /* DfuSe: effect of a write on a cell that isn't erased: 0 ANDs, 1 fails, 2 replaces */
    bool stalls_early, tells_times; /* DfuSe: GETSTATUS stalls while the device is busy; GETSTATUS returns the times */
    bool erase_sets_pointer, is_protected;
    uint32_t pending, lies; /* DfuSe: page whose erase an earlier run sent, and a byte that is never written; or 0 */
};

extern struct settings settings;

/* Reads the environment once; an invalid value ends the program. */
void settings_read(void);

/* Returns true if an application does not support this request, whichever device it runs on. */
bool settings_leave_out(uint8_t request);

/* Ends the program with a message, because a setting is invalid or the tested program made a mistake. */
void fail_loudly(const char *format, ...) __attribute__((noreturn, format(printf, 1, 2)));

#endif

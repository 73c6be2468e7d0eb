/* The boards on the bus: their descriptors in each mode, and the model of each device. */
#ifndef FUZZ_BOARD_H
#define FUZZ_BOARD_H

#include "model.h"

#include <stdbool.h>
#include <stdint.h>

#define MOST_FUNCTIONS 3
#define MOST_EXTRA 48
#define MOST_TEXTS 6
#define MOST_UNITS 40
#define MOST_TEXT (3 * MOST_UNITS + 1)

enum mode { RUN_TIME, UPGRADE };

/* Extra descriptors that follow a descriptor. */
struct extra {
    uint8_t bytes[MOST_EXTRA];
    int length;
};

/* An alternate setting of an interface. */
struct setting {
    uint8_t alternate, class, subclass, protocol, name;
    struct extra extra;
};

struct function {
    uint8_t number, count;         /* count: number of settings in the descriptor; if it exceeds MOST_SETTINGS, settings repeat */
    struct setting settings[MOST_SETTINGS];
};

/* A string descriptor, in UTF-16 code units. */
struct text {
    uint16_t units[MOST_UNITS];
    unsigned count;
};

/* Descriptors of a device, which don't change until its next enumeration. */
struct face {
    uint16_t vendor, product, release;
    uint8_t serial;                /* index of the serial number's text; 0 is none */
    struct text texts[MOST_TEXTS]; /* the text with index i is texts[i]; index 0 is not used */
    uint8_t count;                 /* number of functions in the descriptor; if it exceeds MOST_FUNCTIONS, functions repeat */
    struct function functions[MOST_FUNCTIONS];
    struct extra extra, asked;     /* descriptors after the configuration; functional descriptor that GET_DESCRIPTOR returns */
};

/* Location of a device: a bus and the ports that lead to it. */
struct place {
    uint8_t bus, ports[7];
    int depth;
};

struct libusb_device;

struct board {
    struct place place;
    struct face faces[2];
    struct model model;
    bool is_dead;                  /* the device answers no transfer */
    bool has_no_usb_in_app;        /* the device is not on the bus in run-time mode */
    bool is_in_use, is_denied;     /* every claim fails; every open fails */
    enum mode mode;
    uint8_t address;
    struct libusb_device *device;  /* the enumerated device, or NULL if it is not on the bus */
    int64_t back_ms;               /* if device is NULL: time of its return, or -1 for never */
    bool was_stalled;              /* the last request of the class was stalled in run-time mode */
    unsigned stalled_resets;       /* number of resets in run-time mode after a request that the device stalled */
};

/* Makes a random board, with a path that its number makes unique. */
void board_make(struct board *board, unsigned number);

/* Returns the function with DFU in the mode of this face, as board_make made it. */
const struct function *board_function(const struct face *face);

/* Damages a face, so that it breaks the rules for descriptors. */
void face_spoil(struct face *face);

/* Returns the alternate setting of an interface if it is one of DFU, or NULL. */
const struct setting *face_setting(const struct face *face, int interface, int alternate);

/* Returns true if the text with index `number` equals `text`. */
bool face_says(const struct face *face, uint8_t number, const char *text);

/* Writes the text as UTF-8, up to the first character 0; an empty text if it is not valid UTF-16. */
void face_text(const struct face *face, uint8_t number, char text[MOST_TEXT]);

/* Writes the path of a place, such as 1-2.3. */
void place_path(const struct place *place, char path[64]);

#endif

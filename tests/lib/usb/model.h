/* Interface of a device on the stand-in's bus: the proved device, and the models of U-Boot, of a small bootloader and of a DfuSe device. */
#ifndef USB_MODEL_H
#define USB_MODEL_H

#include <stdbool.h>
#include <stddef.h>
#include <stdint.h>

#define STALLED (-1)

/* Bytes that are kept between runs: those of the record, or of the flash. */
struct part {
    void *at;
    size_t size;
};

struct model {
    void (*make)(void);  /* makes the device, with the old image and power on */
    void (*power)(void); /* loses power and restores it */
    /* handles a request; returns the bytes of the answer, or STALLED */
    int (*handle)(const uint8_t setup[8], const uint8_t *body, size_t length, uint8_t *out, size_t room);
    void (*elapse)(uint32_t ms);
    void (*usb_reset)(void);
    void (*set_interface)(void);
    bool (*is_there)(void);
    bool (*is_app)(void);                           /* returns true if the descriptors of the device are those of run-time mode */
    int (*state)(void);                             /* returns bState */
    int (*code)(void);                              /* returns bStatus */
    struct part (*image)(void);                     /* returns the active image */
    struct part (*keeps)(unsigned);                 /* returns the parts to keep, by number from 0; after the last the size is 0 */
    const uint8_t *(*string)(unsigned, unsigned *); /* returns a string descriptor that the model defines itself; may be NULL */
};

extern const struct model proved_model, uboot_model, small_model, dfuse_model;

/* A separate build may use another DfuSe device (tests/slow/mboot). */
#ifndef USB_DFUSE_MODEL
#define USB_DFUSE_MODEL dfuse_model
#else
extern const struct model USB_DFUSE_MODEL;
#endif

/* Returns the bytes of a whole file, in memory that is never freed; or one byte 00h if there is no name. */
struct part read_image(const char *name);

#endif

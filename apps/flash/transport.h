/* SPDX-License-Identifier: MIT OR Apache-2.0 */
/* The calls that access boards: those of libusb-1.0, or those of --demo, which simulates a board (demo_usb.h). Other files call libusb only
 * for the names of its errors. */
#ifndef DFU_FLASH_TRANSPORT_H
#define DFU_FLASH_TRANSPORT_H

#include <libusb.h>
#include <stdint.h>

/* Each function behaves like the libusb function named beside it. */
struct transport {
    int(LIBUSB_CALL *begin)(libusb_context **);                                    /* libusb_init */
    void(LIBUSB_CALL *end)(libusb_context *);                                      /* libusb_exit */
    ssize_t(LIBUSB_CALL *list)(libusb_context *, libusb_device ***);               /* libusb_get_device_list */
    void(LIBUSB_CALL *free_list)(libusb_device **, int);                           /* libusb_free_device_list */
    libusb_device *(LIBUSB_CALL *hold)(libusb_device *);                           /* libusb_ref_device */
    void(LIBUSB_CALL *drop)(libusb_device *);                                      /* libusb_unref_device */
    uint8_t(LIBUSB_CALL *bus)(libusb_device *);                                    /* libusb_get_bus_number */
    uint8_t(LIBUSB_CALL *address)(libusb_device *);                                /* libusb_get_device_address */
    int(LIBUSB_CALL *ports)(libusb_device *, uint8_t *, int);                      /* libusb_get_port_numbers */
    int(LIBUSB_CALL *fields)(libusb_device *, struct libusb_device_descriptor *);  /* libusb_get_device_descriptor */
    int(LIBUSB_CALL *active)(libusb_device *, struct libusb_config_descriptor **); /* libusb_get_active_config_descriptor */
    void(LIBUSB_CALL *free_active)(struct libusb_config_descriptor *);             /* libusb_free_config_descriptor */
    int(LIBUSB_CALL *open)(libusb_device *, libusb_device_handle **);              /* libusb_open */
    void(LIBUSB_CALL *close)(libusb_device_handle *);                              /* libusb_close */
    int(LIBUSB_CALL *claim)(libusb_device_handle *, int);                          /* libusb_claim_interface */
    int(LIBUSB_CALL *release)(libusb_device_handle *, int);                        /* libusb_release_interface */
    int(LIBUSB_CALL *set)(libusb_device_handle *, int, int);                       /* libusb_set_interface_alt_setting */
    int(LIBUSB_CALL *reset)(libusb_device_handle *);                               /* libusb_reset_device */
    int(LIBUSB_CALL *transfer)(libusb_device_handle *, uint8_t, uint8_t, uint16_t, uint16_t, unsigned char *, uint16_t,
                               unsigned int); /* libusb_control_transfer */
};

/* The calls in use: libusb's, unless transport_use selected others. */
extern const struct transport *transport;

void transport_use(const struct transport *other);

/* Reads a descriptor of a type and an index, in a language, by GET_DESCRIPTOR (USB 2.0, section 9.4.3). Returns the number of bytes, or a
 * libusb error. */
int transport_descriptor(libusb_device_handle *handle, uint8_t type, uint8_t index, uint16_t language, uint8_t *bytes, uint16_t length);

#endif

/* The types of libopencm3 that docs/PORTING.md's listing needs. They were written without the original headers. tests/c/porting compiles
 * the listing after them. */
#include <stdint.h>

typedef struct usbd usbd_device;
struct usb_setup_data {
    uint8_t bmRequestType, bRequest;
    uint16_t wValue, wIndex, wLength;
} __attribute__((packed));
enum usbd_request_return_codes { USBD_REQ_NOTSUPP, USBD_REQ_HANDLED, USBD_REQ_NEXT_CALLBACK };
typedef void (*usbd_control_complete_callback)(usbd_device *, struct usb_setup_data *);
typedef enum usbd_request_return_codes (*usbd_control_callback)(usbd_device *, struct usb_setup_data *, uint8_t **, uint16_t *,
                                                                usbd_control_complete_callback *);

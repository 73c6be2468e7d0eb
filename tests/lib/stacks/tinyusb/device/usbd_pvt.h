/* TinyUSB's type of a class driver, which the headers of examples/tinyusb use. */
typedef struct {
    char const *name;
} usbd_class_driver_t;

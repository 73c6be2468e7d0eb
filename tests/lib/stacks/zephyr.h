/* The types of Zephyr that docs/PORTING.md's listing needs. They were written without the original headers. tests/c/porting compiles the
 * listing after them. */
#include <errno.h>
#include <stddef.h>
#include <stdint.h>

#define MIN(a, b) ((a) < (b) ? (a) : (b))
typedef struct {
    int64_t ticks;
} k_timeout_t;
#define K_FOREVER ((k_timeout_t){-1})
struct k_mutex {
    int owner;
};
struct k_work {
    void (*handler)(struct k_work *);
};
#define K_MUTEX_DEFINE(name) struct k_mutex name
#define K_WORK_DEFINE(name, work_handler) struct k_work name = {work_handler}
int k_mutex_lock(struct k_mutex *, k_timeout_t);
int k_mutex_unlock(struct k_mutex *);
int k_work_submit(struct k_work *);

struct net_buf {
    uint8_t *data;
    uint16_t len, size;
};
void *net_buf_add_mem(struct net_buf *, const void *, size_t);

struct usb_setup_packet {
    uint8_t bmRequestType, bRequest;
    uint16_t wValue, wIndex, wLength;
} __attribute__((packed));
struct usbd_class_data;
struct usbd_class_api {
    int (*control_to_host)(struct usbd_class_data *const, const struct usb_setup_packet *const, struct net_buf *const);
    int (*control_to_dev)(struct usbd_class_data *const, const struct usb_setup_packet *const, const struct net_buf *const);
    void (*enable)(struct usbd_class_data *const);
    void (*disable)(struct usbd_class_data *const);
};

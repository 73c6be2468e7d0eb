/* A stand-in for the parts of Linux that dfu-gadget uses: FunctionFS, a controller, and the clock. It is linked with --wrap and runs in the
 * program's process, without a thread: when the program waits, the next line of a host's script is played. */
#ifndef TESTS_FUNCTIONFS_KERNEL_H
#define TESTS_FUNCTIONFS_KERNEL_H

#include <stdbool.h>
#include <stddef.h>
#include <stdint.h>

#define MOST_EVENTS 4

struct endpoint {
    const char *gadget;
    int file, signals; /* files of the program: endpoint 0, and the eventfd; -1 if not open */
    int written;       /* 0 at first, 1 after the descriptors, 2 after the strings */
    bool is_joined, is_enabled;
    uint8_t types[MOST_EVENTS];
    size_t count;
    uint8_t setup[8];
    bool is_pending, is_cancelled;
};

extern struct endpoint endpoints[2];
extern int64_t now_ms;
extern bool is_state_written;
extern int state_file; /* the program's open file of the controller's state, or -1 */

/* endpoint_of returns the endpoint of a file, or NULL; joined returns the endpoint that is on the bus, or NULL. */
struct endpoint *endpoint_of(int file);
struct endpoint *joined(void);

/* Adds an event, and drops those that FunctionFS drops for it (drivers/usb/gadget/function/f_fs.c, __ffs_event_add). */
void event_add(struct endpoint *endpoint, uint8_t type);

/* Copies the data stage of the current setup. Returns its length, or -1 if the host sends none. */
int host_data(uint8_t *bytes, size_t room);

/* host_said writes the result of a transfer to the host's log, and host_note writes a note. */
void host_said(const struct endpoint *endpoint, const char *what, const uint8_t *bytes, size_t length);
void host_note(const char *format, ...) __attribute__((format(printf, 1, 2)));

/* Plays a line of the script. Returns false if the host waits `*pause` ms. At the end of the script the program gets SIGTERM. */
bool host_play(int64_t *pause);

#endif

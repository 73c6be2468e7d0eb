/* SPDX-License-Identifier: MIT OR Apache-2.0 */
/* A FunctionFS function: one DFU interface in one of its two modes, and endpoint 0. */
#ifndef DFU_GADGET_FUNCTION_H
#define DFU_GADGET_FUNCTION_H

#include <stdbool.h>
#include <stddef.h>
#include <stdint.h>

#define FUNCTION_NAME 64 /* size of an interface name, with its NUL */

struct function {
    const char *gadget;       /* name of its gadget */
    char name[FUNCTION_NAME]; /* name of its interface */
    uint8_t protocol, functional[9];
    int ep0;         /* descriptor of endpoint 0, for its events and transfers */
    int signals;     /* an eventfd that counts the events */
    int64_t unread;  /* number of events that arrived and weren't read */
    int64_t dropped; /* number of unread events that were dropped, or all of them if none is pending */
    bool is_enabled; /* a configuration is set */
};

/* Events that were read together. If there is a reset, it was the first. is_gone: another program has removed the gadget from the bus. */
struct events {
    bool is_reset, has_setup, is_gone;
    uint8_t setup[8];
};

enum { PROTOCOL_RUN_TIME = 1, PROTOCOL_DFU = 2 };

/* Opens endpoint 0 and writes the descriptors. Returns false, after printing why, if FunctionFS refuses them. */
bool function_open(struct function *function, const char *gadget, uint8_t protocol, const uint8_t functional[9], const char *name);
void function_close(struct function *function);

/* Sets the name of the function's interface. For a new name the function is opened again, so its gadget must not be on the bus. Returns
 * false, after printing why, if FunctionFS failed. */
bool function_rename(struct function *function, const char *name);

/* Discards the events that weren't read. Must be called before the function's gadget is put on the bus. */
void function_begin(struct function *function);

/* Counts the unread events, and marks all of them as dropped if none is pending. Must be called before each wait for events. */
void function_rest(struct function *function);

/* Reads the pending events. `is_new_state`: the controller's state was written since the last call, as after each reset. Returns false if
 * FunctionFS failed. */
bool function_read(struct function *function, bool is_new_state, struct events *events);

/* Receives the data stage of a host's write request, and thereby acknowledges the request. Returns the number of bytes, or -1 if the host
 * gave up. */
int function_take(struct function *function, uint8_t *body, size_t length);

/* End a request that reads or has no data stage, with an answer, an acknowledgement or a stall. */
void function_answer(struct function *function, const uint8_t *bytes, size_t length);
void function_acknowledge(struct function *function);
void function_stall(struct function *function, const uint8_t setup[8]);

#endif

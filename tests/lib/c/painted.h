/* Measures the stack depth of a call: a thread runs it on a painted stack. */
#ifndef PAINTED_H
#define PAINTED_H
#define _GNU_SOURCE
#include <pthread.h>
#include <stddef.h>
#include <stdint.h>
#include <stdlib.h>
#include <string.h>

/* Returns the bytes of stack that this run touched, with those of the thread itself; or the whole size if no thread can be created. */
static inline size_t touched(void *(*run)(void *), int *call)
{
    static uint8_t painted[1 << 20] __attribute__((aligned(4096)));
    pthread_attr_t how;
    pthread_t thread;
    size_t untouched = 0;
    memset(painted, 0xaa, sizeof painted);
    pthread_attr_init(&how);
    pthread_attr_setstack(&how, painted, sizeof painted);
    if (pthread_create(&thread, &how, run, call) != 0)
        return sizeof painted;
    pthread_join(thread, NULL);
    while (painted[untouched] == 0xaa)
        untouched++;
    return sizeof painted - untouched;
}

#endif

/* A substitute for threads, for the tests that measure a stack: pthread_create makes a call on a separate stack, and returns when that call
 * is over. */
#ifndef BARE_PTHREAD_H
#define BARE_PTHREAD_H
#include <stddef.h>

typedef struct {
    unsigned char *stack;
    size_t size;
} pthread_attr_t;
typedef int pthread_t;

int pthread_attr_init(pthread_attr_t *how);
int pthread_attr_setstack(pthread_attr_t *how, void *stack, size_t size);
int pthread_create(pthread_t *thread, const pthread_attr_t *how, void *(*run)(void *), void *word);
int pthread_join(pthread_t thread, void **result);

#endif

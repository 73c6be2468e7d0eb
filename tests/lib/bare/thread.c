/* Implements pthread.h of this folder. */
#include <pthread.h>

#include "machine.h"

int pthread_attr_init(pthread_attr_t *how) {
    *how = (pthread_attr_t){NULL, 0};
    return 0;
}

int pthread_attr_setstack(pthread_attr_t *how, void *stack, size_t size) {
    *how = (pthread_attr_t){stack, size};
    return 0;
}

int pthread_create(pthread_t *thread, const pthread_attr_t *how, void *(*run)(void *), void *word) {
    *thread = 0;
    run_on(word, run, how->stack + how->size);
    return 0;
}

int pthread_join(pthread_t thread, void **result) {
    (void)thread, (void)result;
    return 0;
}

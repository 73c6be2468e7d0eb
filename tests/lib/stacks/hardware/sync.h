/* The two calls that disable and restore interrupts, as in flash.h; in the SDK they are inline. */
#ifndef HARDWARE_SYNC_H
#define HARDWARE_SYNC_H
#include <stdint.h>

static inline uint32_t save_and_disable_interrupts(void)
{
    uint32_t saved;
    __asm__ volatile("mrs %0, primask\n\tcpsid i" : "=r"(saved)::"memory");
    return saved;
}
static inline void restore_interrupts(uint32_t saved)
{
    __asm__ volatile("msr primask, %0" ::"r"(saved) : "memory");
}
#endif

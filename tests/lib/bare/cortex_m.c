/* Vectors of a Cortex-M without an OS. QEMU loads the data to its address, and all other memory is 0 at the start. */
#include "machine.h"

extern uint32_t __stack[];
__attribute__((weak)) void on_tick(void);
void on_tick(void) {
    on_fault();
}

#define CCR ((volatile uint32_t *)0xe000ed14)
#define CPACR ((volatile uint32_t *)0xe000ed88)

/* Code for ARMv6-M makes no unaligned access, so a later processor must trap each (UNALIGN_TRP). A program for the hard-float ABI needs the
 * floating point unit switched on. */
static void reset(void) {
#if __ARM_ARCH == 6
    *CCR |= 8;
#elif defined(__ARM_PCS_VFP)
    *CPACR |= 0xf << 20;
#endif
    begin();
}

__attribute__((section(".text.first"), used)) void (*const vectors[16])(void) = {
    (void (*)(void))__stack, reset, on_fault, on_fault, on_fault, on_fault, on_fault, 0, 0, 0, 0, on_fault, on_fault, 0, on_fault, on_tick,
};

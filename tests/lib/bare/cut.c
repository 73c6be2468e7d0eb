/* Implements cut.h by the SysTick of a Cortex-M, and by the timer of QEMU's RISC-V machines. */
#include "cut.h"

#include "machine.h"

void on_tick(void);
static void *before_the_call[5];

static void leave_the_call(void) {
    __builtin_longjmp(before_the_call, 1);
}

#if defined(__arm__)
#define SYSTICK ((volatile uint32_t *)0xe000e010)

static void stop(void) {
    SYSTICK[0] = 0;
}

static void start(uint32_t ticks) {
    SYSTICK[1] = ticks, SYSTICK[2] = 0, SYSTICK[0] = 7;
}

/* Changes the frame so that the interrupt returns to leave_the_call: words 6 and 7 are the return address and the status. */
__attribute__((used)) static void turn(uint32_t *frame) {
    stop();
    frame[6] = (uint32_t)(uintptr_t)leave_the_call & ~1u;
    frame[7] = 0x01000000;
}

__attribute__((naked)) void on_tick(void) {
    __asm__ volatile("mov r0, sp\npush {r4, lr}\nbl turn\npop {r4, pc}");
}
#else
#define NOW ((volatile uint32_t *)0x0200bff8)
#define THEN ((volatile uint32_t *)0x02004000)
#define TIMER 0x80u  /* bit of mie */
#define ENABLED 8u   /* bit of mstatus */

static void stop(void) {
    __asm__ volatile("csrc mie, %0" : : "r"(TIMER));
}

static void start(uint32_t ticks) {
    uint32_t now = NOW[0];
    THEN[1] = 0xffffffff, THEN[0] = now + ticks, THEN[1] = NOW[1] + (now + ticks < now);
    __asm__ volatile("csrs mie, %0\ncsrs mstatus, %1" : : "r"(TIMER), "r"(ENABLED));
}

void on_tick(void) {
    stop();
    __asm__ volatile("csrw mepc, %0\nmret" : : "r"(leave_the_call));
    __builtin_unreachable();
}
#endif

__attribute__((noinline)) int cut(void (*call)(void), uint32_t ticks) {
    if (__builtin_setjmp(before_the_call))
        return 1;
    start(ticks);
    call();
    stop();
    return 0;
}

/* SPDX-License-Identifier: MIT OR Apache-2.0 */
/* The vectors of the bootloader, and the switches between it and an image. The Cortex-M0 finds all handlers by the table at address 0, and
 * has no register that moves the table. Therefore exceptions of an image are forwarded to the table of the running image. */
#include "start.h"

#include "board.h"
#include "image.h"

#define REGISTER(at) (*(volatile uint32_t *)(at))
#define NVIC_ENABLE REGISTER(0xe000e100)
#define NVIC_PRIORITY(number) REGISTER(0xe000e400 + 4 * (number))
#define SHPR3 REGISTER(0xe000ed20)
#define AIRCR REGISTER(0xe000ed0c)
enum { UART0 = 2, TIMER0 = 8 };

extern uint32_t __stack[], __stack_begins[], __bss[], __bss_end[];

/* A note and its complement. This memory keeps its contents through a reset of the processor. */
static volatile uint32_t written[2] __attribute__((section(".noinit")));

/* The running image; NULL if none runs. */
__attribute__((used)) static const uint8_t *volatile image;

enum note note_taken(void) {
    uint32_t note = written[0] == ~written[1] && written[0] <= NOTE_FAULT ? written[0] : (uint32_t)NOTE_NONE;
    written[0] = written[1] = 0;
    return (enum note)note;
}

void restart(enum note note) {
    written[0] = note;
    written[1] = ~(uint32_t)note;
    __asm__ volatile("dsb" : : : "memory");
    AIRCR = 0x05fa0004;
    for (;;)
        ;
}

__attribute__((used)) static void fault(void) {
    restart(NOTE_FAULT);
}

/* Handles a fault of the image or of the bootloader: restarts the processor with NOTE_FAULT, after which at most an image on trial is
 * started. The handler resets the stack pointer first, because a wrong stack may be the cause. */
__attribute__((naked)) static void on_fault(void) {
    __asm__ volatile("ldr r0, =__stack\nmov sp, r0\nbl fault");
}

/* Handles the image's SVC: passes its r0 and r1, which the exception saved at the thread's stack pointer, to on_text. */
__attribute__((naked)) static void on_call(void) {
    __asm__ volatile("mrs r2, psp\nldr r0, [r2]\nldr r1, [r2, #4]\nldr r3, =on_text\nbx r3");
}

/* Forwards an exception to the image: IPSR holds its number, which is the index of its word in the image's table. */
__attribute__((naked)) static void forward(void) {
    __asm__ volatile(
        ".syntax unified\nldr r0, =image\nldr r0, [r0]\n"
        "mrs r1, ipsr\nlsls r1, r1, #2\nldr r0, [r0, r1]\nbx r0");
}

/* Sets memory to zeros, and the stack to a pattern, which shows later how much of the stack was used. */
void on_reset(void) {
    uint32_t *here = __builtin_frame_address(0);
    for (uint32_t *at = __stack_begins; at < here - 16; at++)
        *at = 0xa5a5a5a5;
    for (uint32_t *at = __bss; at < __bss_end; at++)
        *at = 0;
    /* The exceptions of the bootloader have the highest priority, so they never interrupt each other; all others have the lowest. */
    for (uint32_t word = 0; word < 8; word++)
        NVIC_PRIORITY(word) = 0xc0c0c0c0;
    NVIC_PRIORITY(UART0 / 4) &= ~(0xffu << UART0 % 4 * 8);
    NVIC_PRIORITY(TIMER0 / 4) &= ~(0xffu << TIMER0 % 4 * 8);
    SHPR3 = 0xc0c00000;
    main();
    NVIC_ENABLE = 1u << UART0 | 1u << TIMER0;
    for (;;)
        __asm__ volatile("wfi");
}

void image_start(const uint8_t *at, size_t length) {
    const uint32_t *table = (const uint32_t *)(const void *)at;
    const uint32_t start = (uint32_t)at;
    if (length < 4 * IMAGE_WORDS || table[0] % 8 != 0 || table[0] <= IMAGE_MEMORY || table[0] > IMAGE_MEMORY_END || table[1] % 2 != 1
        || table[1] < start || table[1] - start >= length)
        return;
    image = at;
    NVIC_ENABLE = 1u << UART0 | 1u << TIMER0;
    /* The image uses its own stack. The bootloader's stack starts again from its end, for exceptions. */
    __asm__ volatile("msr psp, %0\nmsr msp, %1\nmovs r0, #2\nmsr control, r0\nisb\nbx %2"
                     :
                     : "r"(table[0]), "r"(__stack), "r"(table[1])
                     : "r0", "memory");
    __builtin_unreachable();
}

typedef void (*handler)(void);
#define FOUR(it) it, it, it, it

__attribute__((section(".vectors"), used)) static const handler vectors[IMAGE_WORDS] = {
    (handler)__stack, (handler)on_reset, on_fault, on_fault, FOUR(on_fault), on_fault,      on_fault,      on_fault,      on_call,
    on_fault,         on_fault,          forward,  forward,  forward,        forward,       on_serial,     forward,       FOUR(forward),
    on_time,          forward,           forward,  forward,  FOUR(forward),  FOUR(forward), FOUR(forward), FOUR(forward), FOUR(forward),
};

/* SPDX-License-Identifier: MIT OR Apache-2.0 */
/* Interface between an image and the bootloader.
 *
 * An image begins with a vector table of 48 words, as usual on a Cortex-M0: word 0 is the initial stack pointer, in the image's RAM, and
 * each other word is the handler of an exception. Word 1 is the reset handler. The bootloader forwards PendSV, SysTick and all interrupts
 * except those of UART0 and TIMER0. It handles these two and the exception SVC itself. A handler of the image runs on the bootloader's
 * stack, at a lower priority than the bootloader's handlers, and may use IMAGE_HANDLER_STACK bytes of it.
 *
 * An image is linked for the run area, whichever slot it is stored in. It starts in the state after a reset of the processor. */
#ifndef IMAGE_H
#define IMAGE_H
#include <stdint.h>

enum { IMAGE_WORDS = 48, IMAGE_HANDLER_STACK = 256 };
#define IMAGE_CONFIRMS 0xffffffffu

/* Sends text over the serial port, at most its first 64 bytes. */
static inline void image_say(const char *text, uint32_t length) {
    register const char *first __asm__("r0") = text;
    register uint32_t second __asm__("r1") = length;
    __asm__ volatile("svc 0" : "+r"(first), "+r"(second) : : "r2", "r3", "r12", "memory");
}

/* Confirms this image: if it is on trial, the trial ends, and the image stays. */
static inline void image_confirm(void) {
    image_say((const char *)0, IMAGE_CONFIRMS);
}

#endif

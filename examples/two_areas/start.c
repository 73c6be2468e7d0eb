/* SPDX-License-Identifier: MIT OR Apache-2.0 */
/* The vectors of the bootloader and of an image, and the code that runs before main. */
#include "board.h"

extern uint32_t data_begin[], data_end[], bss[], bss_end[], stack_end[];
extern const uint32_t data_from[];
int main(void);

static void on_fault(void) {
    board_stop("a fault", 3);
}

static void on_reset(void) {
    for (uint32_t *to = data_begin, i = 0; to < data_end; to++, i++)
        *to = data_from[i];
    for (uint32_t *to = bss; to < bss_end; to++)
        *to = 0;
    (void)main();
    board_stop("main came back", 1);
}

__attribute__((section(".vectors"), used)) static const struct {
    const uint32_t *stack;
    void (*handlers[15])(void);
} vectors = {stack_end, {on_reset, on_fault, on_fault, on_fault, on_fault, on_fault}};

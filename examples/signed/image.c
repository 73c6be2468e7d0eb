/* SPDX-License-Identifier: MIT OR Apache-2.0 */
/* A program that prints its name, NAME, and confirms itself if CONFIRMS is set; else it stays on trial. */
#include "image.h"

void begin(void);
void on_timer1(void);

void on_timer1(void) {
}

void begin(void) {
    static const char name[] = "image " NAME;
    image_say(name, sizeof name - 1);
    if (CONFIRMS)
        image_say("confirm", 7);
    for (;;)
        __asm__ volatile("wfi");
}

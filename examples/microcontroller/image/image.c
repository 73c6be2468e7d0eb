/* SPDX-License-Identifier: MIT OR Apache-2.0 */
/* An image: it prints its address, and if it is whole, and later that its interrupts arrive. NUMBER is its name. LENGTH is the number of
 * its bytes, with those that the build appends to the program. The sum of all its words is 0. */
#include "image.h"

#ifndef CONFIRMS
#define CONFIRMS 0 /* 1 if it confirms itself once its interrupts arrived */
#endif
#ifndef FAULTS
#define FAULTS 0 /* 1 if it causes a fault after its start */
#endif

#define TIMER1(at) (*(volatile uint32_t *)(0x40009000 + (at)))
#define NVIC_ENABLE (*(volatile uint32_t *)0xe000e100)
enum { TICK_US = 10000, OF_COMPARE0 = 1 << 16 };

extern const uint32_t table[];
extern const uint32_t __data_in_flash[];
extern uint32_t __data[], __data_end[], __bss[], __bss_end[];

static volatile uint32_t ticks, wanted = 5;

void begin(void);
void on_timer1(void);

void on_timer1(void) {
    TIMER1(0x140) = 0;
    ticks++;
}

static void start_timer(void) {
    TIMER1(0x508) = 3; /* 32 bits */
    TIMER1(0x510) = 4; /* microseconds */
    TIMER1(0x540) = TICK_US;
    TIMER1(0x200) = 1; /* restart from 0 at each match */
    TIMER1(0x304) = OF_COMPARE0;
    TIMER1(0x000) = 1;
    NVIC_ENABLE = 1u << 9;
}

static char *put(char *to, const char *text) {
    while (*text)
        *to++ = *text++;
    return to;
}

static char *put_hex(char *to, uint32_t number, int digits) {
    for (int at = 4 * (digits - 1); at >= 0; at -= 4)
        *to++ = "0123456789abcdef"[number >> at & 15];
    return to;
}

static int is_whole(void) {
    uint32_t sum = 0;
    for (uint32_t i = 0; i < LENGTH / 4; i++)
        sum += table[i];
    return sum == 0;
}

static void introduce(void) {
    char text[64], *end = put(text, "image " NUMBER " at ");
    end = put_hex(end, (uint32_t)table, 5);
    end = put(end, "h, ");
    end = put_hex(end, LENGTH, 4);
    end = put(end, is_whole() ? "h bytes, whole" : "h bytes, DAMAGED");
    image_say(text, (uint32_t)(end - text));
}

void begin(void) {
    for (uint32_t i = 0; __data + i < __data_end; i++)
        __data[i] = __data_in_flash[i];
    for (uint32_t *at = __bss; at < __bss_end; at++)
        *at = 0;
    introduce();
    if (FAULTS)
        __asm__ volatile("udf #0");
    start_timer();
    while (ticks < wanted)
        __asm__ volatile("wfi");
    if (CONFIRMS)
        image_confirm();
    image_say("image " NUMBER " ticks", sizeof "image " NUMBER " ticks" - 1);
    for (;;)
        __asm__ volatile("wfi");
}

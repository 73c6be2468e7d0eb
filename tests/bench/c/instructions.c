/* SPDX-License-Identifier: MIT OR Apache-2.0 */
/* Counts the instructions of a run of counted.c, or of another program whose main is named `counted`, in QEMU. A Cortex-M of the mps2
 * boards runs with `-icount shift=6`, where an instruction takes 64 ns and the board's timer ticks every 40 ns. On RV32 the processor
 * counts instructions itself. Two loops with a known number of instructions check the result. */
#include <stdint.h>
#include <stdio.h>

#include "machine.h"

int counted(int count, char **words);

#ifdef __riscv
static uint32_t began;

static uint32_t now(void)
{
    uint32_t count;
    __asm__ volatile("csrr %0, minstret" : "=r"(count));
    return count;
}

static void start(void)
{
    began = now();
}

static uint64_t stop(void)
{
    return now() - began;
}

/* A loop of 2 * turns instructions. */
__attribute__((noinline)) static uint64_t loop(uint32_t turns)
{
    start();
    __asm__ volatile("1: addi %0, %0, -1\nbnez %0, 1b" : "+r"(turns));
    return stop();
}
#else
#define TIMER ((volatile uint32_t *)0x40000000) /* CMSDK timer: control, value, reload value, interrupt status */

static uint32_t began;

static void start(void)
{
    TIMER[0] = 0, TIMER[1] = TIMER[2] = 0xffffffff, TIMER[3] = 1;
    TIMER[0] = 9; /* enables the timer and its interrupt status */
    began = TIMER[1];
}

static uint64_t stop(void)
{
    uint32_t ended = TIMER[1];
    if (TIMER[3] != 0) {
        puts("the timer is over");
        leave(1);
    }
    return (uint64_t)(began - ended) * 40 / 64;
}

/* A loop of 2 * turns instructions. */
__attribute__((noinline)) static uint64_t loop(uint32_t turns)
{
    start();
    __asm__ volatile(".syntax unified\n1: subs %0, %0, #1\nbne 1b" : "+l"(turns) : : "cc");
    return stop();
}
#endif

int main(int count, char **words)
{
    uint64_t more = loop(200000) - loop(100000);
    if (more != 200000) {
        printf("200000 instructions are counted as %llu\n", (unsigned long long)more);
        return 1;
    }
    start();
    int status = counted(count, words);
    printf("%llu\n", (unsigned long long)stop());
    return status;
}

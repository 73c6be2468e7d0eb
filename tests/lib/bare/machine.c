/* Semihosting of QEMU by each processor's own instruction, a call on another stack, and the code from reset to `main`. */
#include "machine.h"

#include <stdio.h>
#include <stdlib.h>
#include <string.h>

/* QEMU requires the three instructions of RISC-V to be in one page. */
__attribute__((noinline, noclone, aligned(64))) uintptr_t semihost(uintptr_t call, const void *words) {
#if defined(__aarch64__)
    register uintptr_t result __asm__("x0") = call;
    register const void *given __asm__("x1") = words;
    __asm__ volatile("hlt #0xf000" : "+r"(result) : "r"(given) : "memory");
#elif defined(__arm__)
    register uintptr_t result __asm__("r0") = call;
    register const void *given __asm__("r1") = words;
    __asm__ volatile("bkpt 0xab" : "+r"(result) : "r"(given) : "memory");
#else
    register uintptr_t result __asm__("a0") = call;
    register const void *given __asm__("a1") = words;
    __asm__ volatile(".option push\n.option norvc\nslli x0, x0, 0x1f\nebreak\nsrai x0, x0, 7\n.option pop"
                     : "+r"(result)
                     : "r"(given)
                     : "memory");
#endif
    return result;
}

void leave(int status) {
    const uintptr_t words[2] = {0x20026, (uintptr_t)status};
    for (;;)
        semihost(0x20, words);
}

void on_fault(void) {
    semihost(4, "fault\n");
    leave(3);
}

void exit(int status) {
    leave(status);
}

/* A register that the call preserves holds the old stack pointer. */
__attribute__((noinline)) void run_on(void *word, void *(*run)(void *), uint8_t *top) {
#if defined(__aarch64__)
    register void *given __asm__("x0") = word;
    __asm__ volatile("mov x19, sp\nmov sp, %2\nblr %1\nmov sp, x19" : "+r"(given) : "r"(run), "r"(top)
                     : "x1", "x2", "x3", "x4", "x5", "x6", "x7", "x8", "x9", "x10", "x11", "x12", "x13", "x14", "x15", "x16", "x17",
                       "x18", "x19", "x30", "cc", "memory");
#elif defined(__arm__)
    register void *given __asm__("r0") = word;
    register void *(*called)(void *) __asm__("r5") = run;
    register uint8_t *stack __asm__("r6") = top;
    __asm__ volatile("mov r4, sp\nmov sp, %2\nblx %1\nmov sp, r4" : "+r"(given) : "r"(called), "r"(stack)
                     : "r1", "r2", "r3", "r4", "r12", "lr", "cc", "memory");
#else
    register void *given __asm__("a0") = word;
    __asm__ volatile("mv s1, sp\nmv sp, %2\njalr %1\nmv sp, s1" : "+r"(given) : "r"(run), "r"(top)
                     : "a1", "a2", "a3", "a4", "a5", "a6", "a7", "t0", "t1", "t2", "t3", "t4", "t5", "t6", "s1", "ra", "memory");
#endif
}

int main(int count, char **words);

/* Reads the command line of QEMU into arguments, and calls main. */
void begin(void) {
    static char line[256];
    static char *words[9];
    const uintptr_t room[2] = {(uintptr_t)line, sizeof line};
    int count = 0;
    semihost(0x15, room);
    for (char *at = line; *at && count < 8;) {
        while (*at == ' ')
            *at++ = 0;
        if (*at)
            words[count++] = at;
        while (*at && *at != ' ')
            at++;
    }
    leave(main(count, words));
}

/* QEMU's semihosting and start code for the programs of this folder, which run without an OS. */
#ifndef BARE_MACHINE_H
#define BARE_MACHINE_H
#include <stdint.h>

/* Makes a semihosting call with this number and these parameters. */
uintptr_t semihost(uintptr_t call, const void *words);

/* Ends the program. */
void leave(int status) __attribute__((noreturn));

/* Handles each unexpected exception: ends the program with status 3. */
void on_fault(void) __attribute__((noreturn));

/* Calls main with the arguments of QEMU's command line. The code after reset calls it once the stack is set up. */
void begin(void) __attribute__((noreturn));

/* Runs a function with its argument `word` on the stack that ends at `top`. */
void run_on(void *word, void *(*run)(void *), uint8_t *top);

#endif

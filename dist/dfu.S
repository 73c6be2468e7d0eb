/* SPDX-License-Identifier: MIT OR Apache-2.0 */
/* The program dfu, as generated assembly for the processor that the compiler builds for. os.c has main, which calls the program's own. */
#define main dfu_main
/* (glibc has this function under two names, of which other C libraries know one) */
#define __sysv_signal dfu_signal
/* (words that compilers define, and that are parts of names in the text) */
#undef linux
#undef unix
#if defined(__x86_64__) && defined(__linux__) && !defined(__ILP32__)
#include "x86_64-linux/dfu.s"
#elif defined(__aarch64__) && defined(__linux__) && !defined(__ILP32__) && !defined(__AARCH64EB__)
#include "aarch64-linux/dfu.s"
#else
#error "the program dfu is generated for Linux on x86-64 and AArch64 alone"
#endif

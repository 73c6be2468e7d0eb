#ifndef BARE_STDLIB_H
#define BARE_STDLIB_H
#include <stddef.h>

long atol(const char *text);
void exit(int status) __attribute__((noreturn));

#endif

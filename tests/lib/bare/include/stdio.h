#ifndef BARE_STDIO_H
#define BARE_STDIO_H
#include <stddef.h>

typedef struct bare_file FILE;

int printf(const char *form, ...) __attribute__((format(printf, 1, 2)));
int puts(const char *text);
int putchar(int letter);
FILE *fopen(const char *name, const char *mode);
size_t fread(void *to, size_t each, size_t count, FILE *file);
int fclose(FILE *file);

#endif

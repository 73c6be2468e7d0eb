/* The few functions of stdio.h, stdlib.h and string.h that the tests and examples use, over QEMU's semihosting. */
#include <stdarg.h>
#include <stdint.h>
#include <stdio.h>
#include <stdlib.h>
#include <string.h>

#include "machine.h"

struct bare_file {
    uintptr_t handle;
};

int putchar(int letter) {
    const char text[2] = {(char)letter, 0};
    semihost(4, text);
    return letter;
}

static void put(const char *text, size_t length) {
    static char line[128];
    while (length) {
        size_t some = length < sizeof line - 1 ? length : sizeof line - 1;
        memcpy(line, text, some);
        line[some] = 0;
        semihost(4, line);
        text += some, length -= some;
    }
}

size_t strlen(const char *text) {
    size_t length = 0;
    while (text[length])
        length++;
    return length;
}

int puts(const char *text) {
    put(text, strlen(text));
    return putchar('\n');
}

/* Parsed text between % and the letter of a conversion. */
struct form {
    int is_left, has_zeros, width, most, size; /* size: 0 int, 1 long or size_t, 2 long long */
};

static const char *read_form(const char *at, struct form *form, va_list *words) {
    *form = (struct form){0, 0, 0, -1, 0};
    for (; *at == '-' || *at == '0'; at++)
        *at == '-' ? (form->is_left = 1) : (form->has_zeros = 1);
    for (; *at >= '0' && *at <= '9'; at++)
        form->width = 10 * form->width + *at - '0';
    if (at[0] == '.' && at[1] == '*')
        form->most = va_arg(*words, int), at += 2;
    for (; *at == 'l' || *at == 'z'; at++)
        form->size++;
    return at;
}

/* Writes the digits of a number to the end of `room`. Returns their beginning. */
static const char *digits(uint64_t number, unsigned base, int is_minus, char room[24]) {
    char *at = room + 23;
    *at = 0;
    do
        *--at = "0123456789abcdef"[number % base];
    while (number /= base);
    if (is_minus)
        *--at = '-';
    return at;
}

static uint64_t natural(int size, va_list *words) {
    return size > 1 ? va_arg(*words, unsigned long long) : size ? va_arg(*words, unsigned long) : va_arg(*words, unsigned);
}

static int64_t integer(int size, va_list *words) {
    return size > 1 ? va_arg(*words, long long) : size ? va_arg(*words, long) : va_arg(*words, int);
}

static void convert(char letter, const struct form *form, va_list *words) {
    char room[24] = {0};
    const char *text = room;
    if (letter == 's')
        text = va_arg(*words, const char *);
    else if (letter == 'c')
        room[0] = (char)va_arg(*words, int);
    else if (letter == 'd') {
        int64_t number = integer(form->size, words);
        text = digits(number < 0 ? 0 - (uint64_t)number : (uint64_t)number, 10, number < 0, room);
    } else if (letter == 'u' || letter == 'x')
        text = digits(natural(form->size, words), letter == 'x' ? 16 : 10, 0, room);
    else
        text = letter == '%' ? "%" : "(no such conversion)";
    int length = 0;
    while ((form->most < 0 || length < form->most) && text[length])
        length++;
    for (int at = length; !form->is_left && at < form->width; at++)
        putchar(form->has_zeros ? '0' : ' ');
    put(text, (size_t)length);
    for (int at = length; form->is_left && at < form->width; at++)
        putchar(' ');
}

int printf(const char *form, ...) {
    va_list words;
    va_start(words, form);
    while (*form) {
        const char *end = form;
        while (*end && *end != '%')
            end++;
        put(form, (size_t)(end - form));
        if (!*end)
            break;
        struct form how;
        end = read_form(end + 1, &how, &words);
        convert(*end, &how, &words);
        form = end + 1;
    }
    va_end(words);
    return 0;
}

long atol(const char *text) {
    long number = 0;
    for (; *text >= '0' && *text <= '9'; text++)
        number = 10 * number + *text - '0';
    return number;
}

int strcmp(const char *one, const char *other) {
    for (; *one && *one == *other; one++)
        other++;
    return (unsigned char)*one - (unsigned char)*other;
}

FILE *fopen(const char *name, const char *mode) {
    static FILE file;
    const uintptr_t words[3] = {(uintptr_t)name, 1, strlen(name)};
    (void)mode;
    file.handle = semihost(1, words);
    return file.handle == UINTPTR_MAX ? NULL : &file;
}

/* Returns the number of elements read; semihosting returns the number of bytes that were not read. */
size_t fread(void *to, size_t each, size_t count, FILE *file) {
    const uintptr_t words[3] = {file->handle, (uintptr_t)to, each * count};
    return (each * count - semihost(6, words)) / each;
}

int fclose(FILE *file) {
    const uintptr_t words[1] = {file->handle};
    return (int)semihost(2, words);
}

#include "books.h"

#include <stdarg.h>
#include <stdio.h>
#include <stdlib.h>
#include <unistd.h>

#define MOST_BLOCKS 1

void *__real_calloc(size_t count, size_t length);
void __real_free(void *memory);

struct outcome *outcome;
struct books books;
bool is_traced;

void fault(const char *format, ...)
{
    va_list values;
    va_start(values, format);
    vsnprintf(outcome->fault, sizeof outcome->fault, format, values);
    va_end(values);
    trace("fault: %s", outcome->fault);
    _exit(98);
}

void trace(const char *format, ...)
{
    extern int trace_stream;
    va_list values;
    if (!is_traced)
        return;
    va_start(values, format);
    vdprintf(trace_stream, format, values);
    va_end(values);
    dprintf(trace_stream, "\n");
}

void *take(size_t length)
{
    void *memory = __real_calloc(1, length > 0 ? length : 1);
    if (memory == NULL)
        abort();
    return memory;
}

void give(void *memory)
{
    __real_free(memory);
}

void books_close(void)
{
    if (books.contexts != 0)
        fault("%d contexts of libusb are left", books.contexts);
    if (books.lists != 0)
        fault("%d lists of devices are left", books.lists);
    if (books.configurations != 0)
        fault("%d configuration descriptors are left", books.configurations);
    if (books.handles != 0)
        fault("%d handles are left", books.handles);
    if (books.claims != 0)
        fault("%d claims are left", books.claims);
    if (books.references != 0)
        fault("%d references of devices are left", books.references);
    if (books.blocks > MOST_BLOCKS)
        fault("%d blocks of memory are left", books.blocks);
}

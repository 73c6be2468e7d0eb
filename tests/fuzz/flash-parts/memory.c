/* Wrappers of the program's allocations: they count its blocks of memory, and fail at random. */
#include "books.h"
#include "random.h"
#include "temper.h"

#include <errno.h>
#include <stdlib.h>
#include <string.h>

void *__real_malloc(size_t length);
void *__real_calloc(size_t count, size_t length);
void *__real_realloc(void *memory, size_t length);
void __real_free(void *memory);
void *__wrap_malloc(size_t length);
void *__wrap_calloc(size_t count, size_t length);
void *__wrap_realloc(void *memory, size_t length);
char *__wrap_strdup(const char *text);
char *__wrap_strndup(const char *text, size_t most);
void __wrap_free(void *memory);

static void *counted(void *memory)
{
    books.blocks += memory != NULL;
    return memory;
}

static void *refused(void)
{
    errno = ENOMEM;
    return NULL;
}

void *__wrap_malloc(size_t length)
{
    return chance(temper.no_memory) ? refused() : counted(__real_malloc(length));
}

void *__wrap_calloc(size_t count, size_t length)
{
    return chance(temper.no_memory) ? refused() : counted(__real_calloc(count, length));
}

void *__wrap_realloc(void *memory, size_t length)
{
    if (chance(temper.no_memory))
        return refused();
    return memory == NULL ? counted(__real_malloc(length)) : __real_realloc(memory, length);
}

char *__wrap_strndup(const char *text, size_t most)
{
    size_t length = strnlen(text, most);
    char *copy = __wrap_malloc(length + 1);
    if (copy == NULL)
        return NULL;
    memcpy(copy, text, length);
    copy[length] = '\0';
    return copy;
}

char *__wrap_strdup(const char *text)
{
    return __wrap_strndup(text, strlen(text));
}

void __wrap_free(void *memory)
{
    books.blocks -= memory != NULL;
    __real_free(memory);
}

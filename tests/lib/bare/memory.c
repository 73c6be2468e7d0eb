/* Functions of a C library that the libraries need, byte by byte, so that they make no unaligned access. On ARM they have the names of its
 * EABI too. */
#include <stdint.h>
#include <string.h>

void *memcpy(void *restrict to, const void *restrict from, size_t count) {
    uint8_t *into = to;
    const uint8_t *out_of = from;
    while (count--)
        *into++ = *out_of++;
    return to;
}

void *memmove(void *to, const void *from, size_t count) {
    uint8_t *into = to;
    const uint8_t *out_of = from;
    if ((uintptr_t)into - (uintptr_t)out_of >= count)
        return memcpy(to, from, count);
    while (count--)
        into[count] = out_of[count];
    return to;
}

void *memset(void *to, int byte, size_t count) {
    uint8_t *into = to;
    while (count--)
        *into++ = (uint8_t)byte;
    return to;
}

int memcmp(const void *one, const void *other, size_t count) {
    const uint8_t *left = one, *right = other;
    for (; count--; left++, right++)
        if (*left != *right)
            return *left - *right;
    return 0;
}

#if defined(__arm__)
void __aeabi_memcpy(void *to, const void *from, size_t count) {
    memcpy(to, from, count);
}

void __aeabi_memmove(void *to, const void *from, size_t count) {
    memmove(to, from, count);
}

void __aeabi_memset(void *to, size_t count, int byte) {
    memset(to, byte, count);
}

void __aeabi_memclr(void *to, size_t count) {
    memset(to, 0, count);
}

#define SAME(name, as, ...) void name(__VA_ARGS__) __attribute__((alias(as)))
SAME(__aeabi_memcpy4, "__aeabi_memcpy", void *, const void *, size_t);
SAME(__aeabi_memcpy8, "__aeabi_memcpy", void *, const void *, size_t);
SAME(__aeabi_memmove4, "__aeabi_memmove", void *, const void *, size_t);
SAME(__aeabi_memmove8, "__aeabi_memmove", void *, const void *, size_t);
SAME(__aeabi_memset4, "__aeabi_memset", void *, size_t, int);
SAME(__aeabi_memset8, "__aeabi_memset", void *, size_t, int);
SAME(__aeabi_memclr4, "__aeabi_memclr", void *, size_t);
SAME(__aeabi_memclr8, "__aeabi_memclr", void *, size_t);
#endif

"""The head of a file: what it is, what C has to provide, and the functions for what LLVM has by itself."""
import re

from text import READER_IN_C

WHAT_IT_IS = """/* SPDX-License-Identifier: MIT OR Apache-2.0
 *
 * The body of {names}: {what}
 *
 * Made by dist/make/library of the proved crate. Nobody edits it: change the crate, and make it anew by dist/generate. Compile it as C11
 * beside its header. Memory is arrays of bytes here, laid out as on a 64-bit processor with the low byte first: a size takes
 * 8 bytes there, and so does a pointer. */
{includes}

#include <stddef.h>
#include <stdint.h>
"""
WHAT = {
    "dfu_core.h": "a device of USB DFU 1.1.",
    "dfu_host.h": "the host of USB DFU 1.1.",
    "dfuse_watch.h": "the hosts of USB DFU 1.1 (dfu_host.h) and of DfuSe (dfuse_host.h), DfuSe files (dfuse_file.h),\n * what a file is (dfu_image.h), and when a device is given up (dfu_watch.h and this one).",
    "dfu_image_take.h": "the image in a file of Intel HEX, S-records, UF2 or ELF.",
    "dfu_home_core.h and dfu_install_core.h and dfu_trial_core.h":
        "two areas, of which one is run; a run area, to which images are linked; and images on trial.",
}
OF_C = """
#if defined(__BYTE_ORDER__) && __BYTE_ORDER__ != __ORDER_LITTLE_ENDIAN__
#error "this file is for processors that store the low byte of a number first"
#endif

/* Of a C library these three. A compiler with builtins is asked for them: a copy of 4 bytes is then no call, also with -ffreestanding. */
#if defined(__GNUC__)
#define memcpy(to, from, count) __builtin_memcpy(to, from, count)
#define memmove(to, from, count) __builtin_memmove(to, from, count)
#define memset(to, byte, count) __builtin_memset(to, byte, count)
#define ALIGNED(p, n) __builtin_assume_aligned(p, n)
#else
void *memcpy(void *to, const void *from, size_t count);
void *memmove(void *to, const void *from, size_t count);
void *memset(void *to, int byte, size_t count);
#define ALIGNED(p, n) (p)
#endif
/* A table of constants as a place; nothing is written there. */
#define PLACE(table) ((unsigned char *)(uintptr_t)(table))

/* What no call comes to, as it is proved: `trap` where the program says so, `never` where its types do. */
#if defined(__GNUC__)
#define trap() __builtin_trap()
#define never() __builtin_unreachable()
#else
#define trap() for (;;) { }
#define never() for (;;) { }
#endif

_Static_assert((unsigned char)-1 == 255 && sizeof(int) == 4 && sizeof(void *) <= 8, "a processor that this file is not for");
_Static_assert(sizeof(size_t) >= 4 && sizeof(size_t) <= 8 && sizeof(size_t) == sizeof(void *), "a processor that this file is not for");
"""
# Of flash that is not mapped.
OF_THE_PROGRAM = f"""/* The program's, which puts so many bytes of flash from there on into memory. Nothing else here looks at flash. */
void {READER_IN_C}(const unsigned char *from, unsigned char *to, size_t count);
"""
# By the beginning of their names: NAME is the whole one, T the type of C for its bits, SIZE their bytes, and AT where they are.
HELPERS = {
    "load": "T NAME(const unsigned char *p) { T x = 0; memcpy(&x, AT, SIZE); return x; }",
    "store": "void NAME(unsigned char *p, T x) { memcpy(AT, &x, SIZE); }",
    "umin": "T NAME(T x, T y) { return x < y ? x : y; }",
    "umax": "T NAME(T x, T y) { return x < y ? y : x; }",
    "usub_sat": "T NAME(T x, T y) { return x < y ? 0 : (T)(x - y); }",
    "uadd_sat": "T NAME(T x, T y) { return (T)(x + y) < x ? (T)-1 : (T)(x + y); }",
    "product": "struct PAIR NAME(T x, T y) { return (struct PAIR){ x * y, x != 0 && x * y / x != y }; }",
    "wide": "uint64_t NAME(size_t x) { return x; }",
    "capped": "T NAME(uint64_t x) { return (T)(x < (T)-1 ? x : (T)-1); }",
    "signed": "intT NAME(T x) { intT y; memcpy(&y, &x, SIZE); return y; }",
}


def helper(name):
    """One of them, for the bits that its name says, and for places that are multiples of so many bytes: 64 of 8, 64a4 of 4, and 64u
    of 1; _size are those of a size_t. Of 24, 40, 48 or 56 bits the first bytes are kept, as the low byte comes first."""
    kind, _, align = name.partition("_size")
    if align or name.endswith("_size") or name == "wide":
        words = {"NAME": name, "T": "size_t", "SIZE": "sizeof x", "AT": "p" if align == "u" else f"ALIGNED(p, {align[1:] or 8})"}
        return "static inline " + re.sub(rf"\b(?:{'|'.join(words)})\b", lambda it: words[it[0]], HELPERS[kind])
    kind, bits, align = re.fullmatch(r"([a-z_]+)([0-9]+)(u|a[0-9]+|)", name).groups()
    size, wide = int(bits) // 8, min(it for it in (8, 16, 32, 64) if it >= int(bits))
    words = {"NAME": name, "T": f"uint{wide}_t", "intT": f"int{wide}_t", "SIZE": str(size), "PAIR": f"i{bits}_i1",
             "AT": "p" if align == "u" else f"ALIGNED(p, {align[1:] or size})"}
    return "static inline " + re.sub(rf"\b(?:{'|'.join(words)})\b", lambda it: words[it[0]], HELPERS[kind])


def of_c(bodies):
    """The words for what no call comes to, and the rest that C has to provide; a word that no function uses is left out."""
    unused = [f"#define {it}() " for it in ("trap", "never") if f"{it}()" not in bodies]
    return "".join(it for it in OF_C.splitlines(True) if not it.startswith(tuple(unused)))


def head(header, bodies):
    """All that comes before the functions, for what their text uses."""
    names = " and ".join(header.names)
    includes = "\n".join(f'#include "{it}"' for it in header.names)
    pairs = sorted(set(re.findall(r"struct ((?:i[0-9]+|ptr)_(?:i[0-9]+|ptr))\b", bodies)))
    used = sorted(set(re.findall(rf"\b((?:{'|'.join(HELPERS)})(?:(?:[0-9]+|_size)(?:u|a[0-9]+|)|(?<=\bwide)))\(", bodies)))
    return "\n".join([
        WHAT_IT_IS.format(names=names, what=WHAT.get(names, ""), includes=includes) + of_c(bodies),
        *(f'_Static_assert({it}, "another layout");' for it in header.layouts), "",
        *(f"struct {it} {{ {' '.join(of_struct(it))} }};" for it in pairs), "",
        *(helper(it) for it in used), *[OF_THE_PROGRAM] * (f"{READER_IN_C}(" in bodies), ""])


def of_struct(pair):
    """The members of a pair."""
    for name, type in zip("ab", pair.split("_")):
        yield f"unsigned char *{name};" if type == "ptr" else f"uint{min(it for it in (8, 16, 32, 64) if it >= int(type[1:]))}_t {name};"

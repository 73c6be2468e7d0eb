/* SPDX-License-Identifier: MIT OR Apache-2.0
 *
 * The body of dfu_home_core.h and dfu_install_core.h and dfu_trial_core.h: two areas, of which one is run; a run area, to which images are linked; and images on trial.
 *
 * Made by dist/make/library of the proved crate. Nobody edits it: change the crate, and make it anew by dist/generate. Compile it as C11
 * beside its header. Memory is arrays of bytes here, laid out as on a 64-bit processor with the low byte first: a size takes
 * 8 bytes there, and so does a pointer. */
#include "dfu_home_core.h"
#include "dfu_install_core.h"
#include "dfu_trial_core.h"

#include <stddef.h>
#include <stdint.h>

#if defined(__BYTE_ORDER__) && __BYTE_ORDER__ != __ORDER_LITTLE_ENDIAN__
#error "this file is for processors that store the low byte of a number first"
#endif

/* Of a C library these three. A compiler with builtins is asked for them: a copy of 4 bytes is then no call, also with -ffreestanding. */
#if defined(__GNUC__)
#define memcpy(to, from, count) __builtin_memcpy(to, from, count)
#define memmove(to, from, count) __builtin_memmove(to, from, count)
#define memset(to, byte, count) __builtin_memset(to, byte, count)
#define ALIGNED(p, n) __builtin_assume_aligned(p, n)
#else
void *memcpy(void *to, const void *from, size_t count);
void *memmove(void *to, const void *from, size_t count);
void *memset(void *to, int byte, size_t count);
#define ALIGNED(p, n) (p)
#endif
/* A table of constants as a place; nothing is written there. */
#define PLACE(table) ((unsigned char *)(uintptr_t)(table))

/* What no call comes to, as it is proved: `trap` where the program says so, `never` where its types do. */
#if defined(__GNUC__)
#define trap() __builtin_trap()
#define never() __builtin_unreachable()
#else
#define trap() for (;;) { }
#define never() for (;;) { }
#endif

_Static_assert((unsigned char)-1 == 255 && sizeof(int) == 4 && sizeof(void *) <= 8, "a processor that this file is not for");
_Static_assert(sizeof(size_t) >= 4 && sizeof(size_t) <= 8 && sizeof(size_t) == sizeof(void *), "a processor that this file is not for");

_Static_assert(offsetof(struct dfu_config, version) == 0, "another layout");
_Static_assert(offsetof(struct dfu_config, device) == 4, "another layout");
_Static_assert(offsetof(struct dfu_config, product) == 6, "another layout");
_Static_assert(offsetof(struct dfu_config, vendor) == 8, "another layout");
_Static_assert(offsetof(struct dfu_config, detach_ms) == 10, "another layout");
_Static_assert(offsetof(struct dfu_config, transfer) == 12, "another layout");
_Static_assert(offsetof(struct dfu_config, attributes) == 14, "another layout");
_Static_assert(offsetof(struct dfu_config, interface_number) == 15, "another layout");
_Static_assert(offsetof(struct dfu_config, busy_ms) == 16, "another layout");
_Static_assert(offsetof(struct dfu_config, manifest_ms) == 20, "another layout");
_Static_assert(offsetof(struct dfu_config, least) == 24, "another layout");
_Static_assert(offsetof(struct dfu_config, unit) == 28, "another layout");
_Static_assert(offsetof(struct dfu_config, sector) == 32, "another layout");
_Static_assert(offsetof(struct dfu_config, erase_ms) == 36, "another layout");
_Static_assert(offsetof(struct dfu_config, program_ms) == 38, "another layout");
_Static_assert(sizeof(struct dfu_config) == 40, "another layout");
_Static_assert(_Alignof(struct dfu_config) == 4, "another layout");
_Static_assert(offsetof(struct dfu_record, version) == 0, "another layout");
_Static_assert(offsetof(struct dfu_record, mode) == 4, "another layout");
_Static_assert(offsetof(struct dfu_record, first) == 8, "another layout");
_Static_assert(offsetof(struct dfu_record, second) == 12, "another layout");
_Static_assert(offsetof(struct dfu_record, put_end) == 16, "another layout");
_Static_assert(offsetof(struct dfu_record, slot) == 20, "another layout");
_Static_assert(offsetof(struct dfu_record, number) == 24, "another layout");
_Static_assert(offsetof(struct dfu_record, length) == 26, "another layout");
_Static_assert(offsetof(struct dfu_record, header) == 28, "another layout");
_Static_assert(offsetof(struct dfu_record, work) == 44, "another layout");
_Static_assert(offsetof(struct dfu_record, spare) == 48, "another layout");
_Static_assert(offsetof(struct dfu_record, sum) == 52, "another layout");
_Static_assert(offsetof(struct dfu_record, done) == 56, "another layout");
_Static_assert(offsetof(struct dfu_record, asked) == 60, "another layout");
_Static_assert(offsetof(struct dfu_record, generation) == 64, "another layout");
_Static_assert(offsetof(struct dfu_record, close) == 65, "another layout");
_Static_assert(offsetof(struct dfu_record, held_length) == 66, "another layout");
_Static_assert(sizeof(struct dfu_record) == 68, "another layout");
_Static_assert(_Alignof(struct dfu_record) == 4, "another layout");
_Static_assert(offsetof(struct dfu_ask, kind) == 0, "another layout");
_Static_assert(offsetof(struct dfu_ask, at) == 4, "another layout");
_Static_assert(offsetof(struct dfu_ask, length) == 8, "another layout");
_Static_assert(offsetof(struct dfu_ask, bytes) == 12, "another layout");
_Static_assert(sizeof(struct dfu_ask) == 268, "another layout");
_Static_assert(_Alignof(struct dfu_ask) == 4, "another layout");
_Static_assert(offsetof(struct dfu_place, at) == 0, "another layout");
_Static_assert(offsetof(struct dfu_place, length) == 4, "another layout");
_Static_assert(sizeof(struct dfu_place) == 8, "another layout");
_Static_assert(_Alignof(struct dfu_place) == 4, "another layout");
_Static_assert(offsetof(struct dfu_run_area, sector) == 0, "another layout");
_Static_assert(offsetof(struct dfu_run_area, last) == 4, "another layout");
_Static_assert(sizeof(struct dfu_run_area) == 8, "another layout");
_Static_assert(_Alignof(struct dfu_run_area) == 4, "another layout");
_Static_assert(offsetof(struct dfu_tries, unit) == 0, "another layout");
_Static_assert(offsetof(struct dfu_tries, sector) == 4, "another layout");
_Static_assert(offsetof(struct dfu_tries, tries) == 8, "another layout");
_Static_assert(sizeof(struct dfu_tries) == 12, "another layout");
_Static_assert(_Alignof(struct dfu_tries) == 4, "another layout");
_Static_assert(offsetof(struct dfu_standing, active) == 0, "another layout");
_Static_assert(offsetof(struct dfu_standing, base) == 8, "another layout");
_Static_assert(offsetof(struct dfu_standing, on_trial) == 16, "another layout");
_Static_assert(offsetof(struct dfu_standing, left) == 20, "another layout");
_Static_assert(offsetof(struct dfu_standing, is_confirmed) == 24, "another layout");
_Static_assert(sizeof(struct dfu_standing) == 28, "another layout");
_Static_assert(_Alignof(struct dfu_standing) == 4, "another layout");
_Static_assert(offsetof(struct dfu_starting, run) == 0, "another layout");
_Static_assert(offsetof(struct dfu_starting, otherwise) == 8, "another layout");
_Static_assert(sizeof(struct dfu_starting) == 16, "another layout");
_Static_assert(_Alignof(struct dfu_starting) == 4, "another layout");
_Static_assert(offsetof(struct dfu_home_record, last) == 0, "another layout");
_Static_assert(offsetof(struct dfu_home_record, count) == 4, "another layout");
_Static_assert(sizeof(struct dfu_home_record) == 8, "another layout");
_Static_assert(_Alignof(struct dfu_home_record) == 4, "another layout");

struct i32_i32 { uint32_t a; uint32_t b; };
struct i8_i32 { uint8_t a; uint32_t b; };
struct i8_i8 { uint8_t a; uint8_t b; };

static inline uint32_t load32(const unsigned char *p) { uint32_t x = 0; memcpy(&x, ALIGNED(p, 4), 4); return x; }
static inline uint32_t load32u(const unsigned char *p) { uint32_t x = 0; memcpy(&x, p, 4); return x; }
static inline uint64_t load64a4(const unsigned char *p) { uint64_t x = 0; memcpy(&x, ALIGNED(p, 4), 8); return x; }
static inline size_t load_size(const unsigned char *p) { size_t x = 0; memcpy(&x, ALIGNED(p, 8), sizeof x); return x; }
static inline int32_t signed32(uint32_t x) { int32_t y; memcpy(&y, &x, 4); return y; }
static inline void store32(unsigned char *p, uint32_t x) { memcpy(ALIGNED(p, 4), &x, 4); }
static inline void store64(unsigned char *p, uint64_t x) { memcpy(ALIGNED(p, 8), &x, 8); }
static inline void store64a4(unsigned char *p, uint64_t x) { memcpy(ALIGNED(p, 4), &x, 8); }
static inline void store_size(unsigned char *p, size_t x) { memcpy(ALIGNED(p, 8), &x, sizeof x); }
static inline uint32_t uadd_sat32(uint32_t x, uint32_t y) { return (uint32_t)(x + y) < x ? (uint32_t)-1 : (uint32_t)(x + y); }
static inline uint32_t umax32(uint32_t x, uint32_t y) { return x < y ? y : x; }
static inline uint32_t umin32(uint32_t x, uint32_t y) { return x < y ? x : y; }
static inline uint64_t umin64(uint64_t x, uint64_t y) { return x < y ? x : y; }
static inline size_t umin_size(size_t x, size_t y) { return x < y ? x : y; }
static inline uint32_t usub_sat32(uint32_t x, uint32_t y) { return x < y ? 0 : (uint32_t)(x - y); }
static inline uint64_t wide(size_t x) { return x; }
#ifdef DFU_READ
/* The program's, which puts so many bytes of flash from there on into memory. Nothing else here looks at flash. */
void DFU_READ(const unsigned char *from, unsigned char *to, size_t count);

#endif

static _Alignas(1) const uint8_t static_0[1] = {
    0
};
static _Alignas(4) const uint8_t static_1[64] = {
    0, 0, 0, 0, 0x64, 0x10, 0xb7, 0x1d, 0xc8, 0x20, 0x6e, 0x3b, 0xac, 0x30, 0xd9, 0x26, 0x90, 0x41, 0xdc, 0x76,
    0xf4, 0x51, 0x6b, 0x6b, 0x58, 0x61, 0xb2, 0x4d, 0x3c, 0x71, 5, 0x50, 0x20, 0x83, 0xb8, 0xed, 0x44, 0x93, 0xf, 0xf0,
    0xe8, 0xa3, 0xd6, 0xd6, 0x8c, 0xb3, 0x61, 0xcb, 0xb0, 0xc2, 0x64, 0x9b, 0xd4, 0xd2, 0xd3, 0x86, 0x78, 0xe2, 0xa, 0xa0,
    0x1c, 0xf2, 0xbd, 0xbd
};
static _Alignas(1) const uint8_t static_3[1] = {
    0xa5
};
static const uint16_t switch_table_dfu_boot_c_trial_flash_medium_of[4] = {
    1, 0x10, 0x40, 0x100
};
static const uint8_t switch_table_dfu_slots_layout_is_sized[4] = {
    0, 0xf, 0x3f, 0xff
};
static const uint16_t switch_table_dfu_boot_c_trial_flash_prepared[4] = {
    0x10, 0x10, 0x40, 0x100
};
static const uint32_t switch_table_dfu_core_home_next[3] = {
    0xfffffff0, 0xfffffffd, 0xfffffff8
};
static const uint32_t switch_table_dfu_core_install_next[3] = {
    0xfffffffa, 0xfffffff1, 0xfffffff9
};

#ifdef DFU_READ
static uint8_t dfu_slots_read_flash_byte_at(unsigned char *a0, size_t a2);
static uint8_t dfu_boot_install_area_are_blank(unsigned char *a0, uint32_t a2, uint32_t a3);
#endif
static struct i8_i32 dfu_boot_install_compare_first_difference(unsigned char *a0, unsigned char *a2, uint32_t a4, uint32_t a5);
#ifdef DFU_READ
static uint8_t dfu_boot_install_compare_is_same(unsigned char *a0, unsigned char *a2, size_t a4);
#endif
static uint8_t dfu_home_bytes_are_same(unsigned char *a0, size_t a1, unsigned char *a2);
static void dfu_boot_c_home_flash_medium(unsigned char *a0, unsigned char *a1, unsigned char *a2, size_t a3);
static void dfu_boot_c_trial_flash_medium_of(unsigned char *a0, unsigned char *a1, unsigned char *a2, size_t a3);
static struct i8_i8 dfu_home_asking_is_home(unsigned char *a0);
static uint8_t dfu_slots_layout_is_sized(unsigned char *a0);
static struct i8_i8 dfu_slots_places_count_slots(unsigned char *a0);
static uint8_t dfu_slots_read_counts(unsigned char *a0, uint32_t a1);
#ifdef DFU_READ
static uint8_t dfu_slots_read_byte_at(unsigned char *a0, uint32_t a1);
static void dfu_slots_read_header_of(unsigned char *a0, unsigned char *a1, uint32_t a2);
#endif
static void dfu_suffix_crc_Crc_update_small(unsigned char *a0, unsigned char *a1, size_t a2);
static struct i32_i32 dfu_slots_places_find_places(unsigned char *a0, uint8_t a1, uint8_t a2);
#ifdef DFU_READ
static uint8_t dfu_slots_places_is_newest(unsigned char *a0, uint32_t a1, uint32_t a2, uint8_t a3, uint8_t a4);
static uint8_t dfu_slots_read_generation(unsigned char *a0, uint32_t a1);
#endif
static uint8_t dfu_slots_places_has_newest(unsigned char *a0, uint32_t a1, uint32_t a2, uint8_t a3, uint8_t a4);
static uint8_t dfu_slots_read_header_len(unsigned char *a0, uint32_t a1);
static void dfu_boot_install_deciding_next(unsigned char *a0, unsigned char *a1, size_t a2, unsigned char *a3, uint64_t a4, uint32_t a5, uint8_t a6, uint32_t a7);
#ifdef DFU_READ
static void dfu_boot_install_pieces_piece(unsigned char *a0, size_t a1, uint32_t a2, unsigned char *a3);
#endif
static void dfu_home_copying_head(unsigned char *a0, unsigned char *a1, unsigned char *a2, unsigned char *a4, size_t a5, uint8_t a6, uint32_t a7, unsigned char *a8);
static void dfu_home_copying_unit_due(unsigned char *a0, unsigned char *a1, unsigned char *a2, uint32_t a4, uint8_t a5, uint32_t a6, unsigned char *a7, size_t a8, unsigned char *a9);
static void dfu_boot_c_trial_flash_looked(unsigned char *a0, unsigned char *a1, unsigned char *a2, size_t a3);
static void dfu_boot_c_trial_flash_prepared(unsigned char *a0, unsigned char *a1, unsigned char *a2, size_t a3);
static uint8_t dfu_boot_trial_marks_is_set(unsigned char *a0, uint32_t a1, uint32_t a2);
static uint32_t dfu_boot_trial_marks_starts(unsigned char *a0, uint32_t a1, uint32_t a2);
#ifdef DFU_READ
static struct i32_i32 dfu_boot_c_trial_told_image_in(unsigned char *a0, uint32_t a1);
#endif
static uint32_t dfu_boot_c_trial_again_start_from(unsigned char *a0, unsigned char *a1, size_t a2, unsigned char *a3, unsigned char *a4, unsigned char *a5);

#ifndef DFU_READ
/* dfu_boot::install::compare::first_difference: crates/dfu_boot/src/install/compare.rt */
static struct i8_i32 dfu_boot_install_compare_first_difference(unsigned char *a0, unsigned char *a2, uint32_t a4, uint32_t a5) {
    uint32_t r5_0, r0_4_0;
    size_t r12, v0, indvars_iv;
    uint8_t r0_0_0_0;
    r5_0 = a4;
    for (;;) {
        r12 = (size_t)r5_0;
        if (!((r5_0 < a5) ? ((a5 - r5_0) > 3) : 0)) break;
        uint8_t r3_0_0_copyload = a2[r12];
        uint8_t r3_0_0_copyload_2 = a0[r12];
        if (r3_0_0_copyload != r3_0_0_copyload_2) break;
        size_t r25 = r12 + 1;
        uint8_t r3_0_0_copyload_3 = a2[r25];
        uint8_t r3_0_0_copyload_4 = a0[r25];
        if (r3_0_0_copyload_3 != r3_0_0_copyload_4) break;
        size_t r41 = r12 + 2;
        uint8_t r3_0_0_copyload_5 = a2[r41];
        uint8_t r3_0_0_copyload_6 = a0[r41];
        if (r3_0_0_copyload_5 != r3_0_0_copyload_6) break;
        size_t r57 = r12 + 3;
        uint8_t r3_0_0_copyload_7 = a2[r57];
        uint8_t r3_0_0_copyload_8 = a0[r57];
        if (r3_0_0_copyload_7 != r3_0_0_copyload_8) break;
        r5_0 = r5_0 + 4;
    }
    v0 = (size_t)a5;
    indvars_iv = r12;
    for (;;) {
        if (indvars_iv >= v0) {
            r0_4_0 = 0;
            r0_0_0_0 = 0;
            goto return_20;
        }
        uint8_t r3_0_0_copyload_9 = a2[indvars_iv];
        uint8_t r3_0_0_copyload_10 = a0[indvars_iv];
        if (r3_0_0_copyload_9 != r3_0_0_copyload_10) break;
        indvars_iv = indvars_iv + 1;
    }
    r0_4_0 = (uint32_t)indvars_iv;
    r0_0_0_0 = 1;
return_20:;
    struct i8_i32 r70_half = (struct i8_i32){ 0, 0 };
    r70_half.a = r0_0_0_0;
    struct i8_i32 r70 = r70_half;
    r70.b = r0_4_0;
    return r70;
}
#else
/* dfu_slots::read::flash_byte_at: crates/dfu_slots/src/read.rt */
static uint8_t dfu_slots_read_flash_byte_at(unsigned char *a0, size_t a2) {
    _Alignas(4) unsigned char r3[1];
    *r3 = 0;
    DFU_READ(a0 + a2, r3, 1);
    uint8_t r34 = *r3;
    return r34;
}
#endif

#ifndef DFU_READ
/* dfu_home::bytes::are_same: crates/dfu_home/src/bytes.rt */
static uint8_t dfu_home_bytes_are_same(unsigned char *a0, size_t a1, unsigned char *a2) {
    size_t r5_0, r5_0_lcssa;
    r5_0 = 0;
    for (;;) {
        if (r5_0 == a1) {
            r5_0_lcssa = a1;
            break;
        }
        uint8_t r3_0_0_copyload = a0[r5_0];
        uint8_t r28 = a2[r5_0];
        if (r3_0_0_copyload != r28) {
            r5_0_lcssa = r5_0;
            break;
        }
        r5_0 = r5_0 + 1;
    }
    return r5_0_lcssa >= a1;
}
#else
/* dfu_boot::install::area::are_blank: crates/dfu_boot/src/install/area.rt */
static uint8_t dfu_boot_install_area_are_blank(unsigned char *a0, uint32_t a2, uint32_t a3) {
    size_t v1, indvars_iv;
    uint8_t r8_not_not_not_not_not_not_not_not_not_not;
    v1 = (size_t)a3;
    indvars_iv = (size_t)a2;
    for (;;) {
        r8_not_not_not_not_not_not_not_not_not_not = indvars_iv >= v1;
        if (r8_not_not_not_not_not_not_not_not_not_not) break;
        uint8_t r18 = dfu_slots_read_flash_byte_at(a0, indvars_iv);
        if (r18 != 255) break;
        indvars_iv = indvars_iv + 1;
    }
    return r8_not_not_not_not_not_not_not_not_not_not;
}

/* dfu_boot::install::compare::first_difference: crates/dfu_boot/src/install/compare.rt */
static struct i8_i32 dfu_boot_install_compare_first_difference(unsigned char *a0, unsigned char *a2, uint32_t a4, uint32_t a5) {
    uint32_t r5_0, r0_4_0;
    size_t r12, v0, indvars_iv;
    uint8_t r0_0_0_0;
    r5_0 = a4;
    for (;;) {
        r12 = (size_t)r5_0;
        if (!((r5_0 < a5) ? ((a5 - r5_0) > 3) : 0)) break;
        uint8_t r20 = dfu_boot_install_compare_is_same(a0, a2, r12);
        if (!r20) break;
        uint8_t r33 = dfu_boot_install_compare_is_same(a0, a2, r12 + 1);
        if (!r33) break;
        uint8_t r49 = dfu_boot_install_compare_is_same(a0, a2, r12 + 2);
        if (!r49) break;
        uint8_t r65 = dfu_boot_install_compare_is_same(a0, a2, r12 + 3);
        if (!r65) break;
        r5_0 = r5_0 + 4;
    }
    v0 = (size_t)a5;
    indvars_iv = r12;
    for (;;) {
        if (indvars_iv >= v0) {
            r0_4_0 = 0;
            r0_0_0_0 = 0;
            goto return_20;
        }
        uint8_t r58 = dfu_boot_install_compare_is_same(a0, a2, indvars_iv);
        if (!r58) break;
        indvars_iv = indvars_iv + 1;
    }
    r0_4_0 = (uint32_t)indvars_iv;
    r0_0_0_0 = 1;
return_20:;
    struct i8_i32 r70_half = (struct i8_i32){ 0, 0 };
    r70_half.a = r0_0_0_0;
    struct i8_i32 r70 = r70_half;
    r70.b = r0_4_0;
    return r70;
}

/* dfu_boot::install::compare::is_same: crates/dfu_boot/src/install/compare.rt */
static uint8_t dfu_boot_install_compare_is_same(unsigned char *a0, unsigned char *a2, size_t a4) {
    uint8_t r10 = dfu_slots_read_flash_byte_at(a2, a4);
    uint8_t r14 = dfu_slots_read_flash_byte_at(a0, a4);
    return r10 == r14;
}

/* dfu_home::bytes::are_same: crates/dfu_home/src/bytes.rt */
static uint8_t dfu_home_bytes_are_same(unsigned char *a0, size_t a1, unsigned char *a2) {
    size_t r5_0, r5_0_lcssa;
    r5_0 = 0;
    for (;;) {
        if (r5_0 == a1) {
            r5_0_lcssa = a1;
            break;
        }
        uint8_t r23 = dfu_slots_read_flash_byte_at(a0, r5_0);
        uint8_t r28 = a2[r5_0];
        if (r23 != r28) {
            r5_0_lcssa = r5_0;
            break;
        }
        r5_0 = r5_0 + 1;
    }
    return r5_0_lcssa >= a1;
}
#endif

/* dfu_boot_c::home::flash::medium: crates/dfu_boot_c/src/home/flash.rt */
static void dfu_boot_c_home_flash_medium(unsigned char *a0, unsigned char *a1, unsigned char *a2, size_t a3) {
    _Alignas(8) unsigned char r7[32];
    unsigned char *const r15 = r7;
    _Alignas(4) unsigned char r17_8[29];
    _Alignas(4) unsigned char r3[12];
    uint8_t r17_0_0, r17_4_0;
    memset(r17_8, 0, 29);
    uint32_t r4 = load32(a1 + 28);
    uint32_t r6 = load32(a1 + 32);
    store32(r3, r4);
    store32(r3 + 4, r6);
    dfu_boot_c_trial_flash_medium_of(r7, r3, PLACE(static_0), 0);
    uint8_t r27 = *r7;
    if (r27 != 1) {
        *a0 = 1;
        a0[1] = 0;
        a0[2] = 0;
        return;
    }
    dfu_boot_c_trial_flash_medium_of(r15, r3, a2, a3);
    uint8_t r49 = *r15;
    if (r49 != 1) {
        r17_0_0 = 1;
        r17_4_0 = 2;
    }
    else {
        memcpy(r17_8 + 5, r15 + 8, 24);
        r17_0_0 = 0;
        r17_4_0 = 0;
    }
    *a0 = r17_0_0;
    a0[1] = r17_4_0;
    a0[2] = 0;
    memcpy(a0 + 8, r17_8 + 5, 24);
    return;
}

/* dfu_boot_c::trial::flash::medium_of: crates/dfu_boot_c/src/trial/flash.rt */
static void dfu_boot_c_trial_flash_medium_of(unsigned char *a0, unsigned char *a1, unsigned char *a2, size_t a3) {
    uint8_t r2_0_0, r0_9_0;
    uint32_t r24, r0_11_0;
    size_t r0_0_0_0, r0_5_0, r0_8_0;
    uint32_t r7 = load32(a1);
    r2_0_0 = (uint8_t)((r7 < 16) ? 0 : (uint8_t)((r7 < 64) ? 1 : (uint8_t)((r7 < 256) ? 2 : 3)));
    uint32_t switch_load = (uint32_t)switch_table_dfu_boot_c_trial_flash_medium_of[(size_t)r2_0_0];
    if (switch_load != r7) {
        memset(a0, 0, 32);
        return;
    }
    r24 = load32(a1 + 4);
    if ((wide(a3) > 0xffffffffU) | ((r24 > 0x40000U) | ((r24 & 255) != 0))) {
        r0_0_0_0 = 0;
        r0_5_0 = 0;
        r0_8_0 = 0;
        r0_9_0 = 0;
        r0_11_0 = 0;
    }
    else {
        r0_0_0_0 = 1;
        r0_5_0 = (size_t)(uintptr_t)a2;
        r0_8_0 = a3;
        r0_9_0 = r2_0_0;
        r0_11_0 = r24;
    }
    store_size(a0, r0_0_0_0);
    store_size(a0 + 8, r0_5_0);
    store_size(a0 + 16, r0_8_0);
    a0[24] = r0_9_0;
    store32(a0 + 28, r0_11_0);
    return;
}

/* dfu_home::asking::is_home::<#f31be65e8793cebb>: crates/dfu_home/src/asking.rt */
static struct i8_i8 dfu_home_asking_is_home(unsigned char *a0) {
    uint8_t r26, r27, r3_0_07, v2;
    uint32_t r45;
    uint8_t r12 = dfu_slots_layout_is_sized(a0);
    if (!r12) {
        r3_0_07 = 0;
        v2 = 0;
    }
    else {
        struct i8_i8 r25 = dfu_slots_places_count_slots(a0);
        r26 = r25.a;
        r27 = r25.b;
        if ((r27 | r26) == 0) {
            r3_0_07 = 0;
            v2 = 0;
        }
        else {
            struct i32_i32 r44 = dfu_slots_places_find_places(a0, r26, r27);
            r45 = r44.a;
            uint8_t r54 = dfu_slots_places_has_newest(a0, r45, r44.b, r26, r27);
            if (!r54) {
                r3_0_07 = 0;
                v2 = 0;
            }
            else {
                uint8_t r68 = dfu_slots_read_header_len(a0, r45);
                if (r68 == 0) {
                    r3_0_07 = 0;
                    v2 = 0;
                }
                else {
                    r3_0_07 = 1;
                    v2 = r45 == 0;
                }
            }
        }
    }
    struct i8_i8 r21_half = (struct i8_i8){ 0, 0 };
    r21_half.a = r3_0_07;
    struct i8_i8 r21 = r21_half;
    r21.b = v2;
    return r21;
}

/* dfu_slots::layout::is_sized::<#f31be65e8793cebb>: crates/dfu_slots/src/layout.rt */
static uint8_t dfu_slots_layout_is_sized(unsigned char *a0) {
    uint32_t r1_0_0_copyload, a0_a1, r5, r69;
    size_t v0;
    uint8_t common_ret_op;
    r1_0_0_copyload = load32(a0 + 20);
    if (!((r1_0_0_copyload < 0x40001U) & ((r1_0_0_copyload & 255) == 0))) common_ret_op = 0;
    else {
        uint8_t r0_0_0_copyload = a0[16];
        v0 = (size_t)r0_0_0_copyload;
        uint32_t switch_load = (uint32_t)switch_table_dfu_boot_c_trial_flash_prepared[v0];
        a0_a1 = umax32(r1_0_0_copyload, switch_load);
        size_t r3 = load_size(a0 + 8);
        r5 = (uint32_t)r3;
        uint32_t pre = a0_a1 << 2;
        if (!(((pre + 0x2000000U) >= r5) & (((r5 & 1) == 0) ? (pre < r5) : !(r3 & 1)))) common_ret_op = 0;
        else {
            r69 = (r5 >> 1) - (a0_a1 << 1);
            uint32_t switch_load_2 = (uint32_t)switch_table_dfu_slots_layout_is_sized[v0];
            if ((switch_load_2 & r69) != 0) common_ret_op = 0;
            else {
                if (r1_0_0_copyload == 0) common_ret_op = 1;
                else {
                    common_ret_op = (r69 % r1_0_0_copyload) == 0;
                }
            }
        }
    }
    return common_ret_op;
}

/* dfu_slots::places::count_slots::<#f31be65e8793cebb>: crates/dfu_slots/src/places.rt */
static struct i8_i8 dfu_slots_places_count_slots(unsigned char *a0) {
    uint8_t r5 = dfu_slots_read_counts(a0, 0);
    size_t r3 = load_size(a0 + 8);
    uint8_t r11 = dfu_slots_read_counts(a0, (uint32_t)r3 >> 1);
    struct i8_i8 r20_half = (struct i8_i8){ 0, 0 };
    r20_half.a = r5;
    struct i8_i8 r20 = r20_half;
    r20.b = r11;
    return r20;
}

#ifndef DFU_READ
/* dfu_slots::read::counts::<#f31be65e8793cebb>: crates/dfu_slots/src/read.rt */
static uint8_t dfu_slots_read_counts(unsigned char *a0, uint32_t a1) {
    _Alignas(4) unsigned char r1[4];
    unsigned char *r18, *r20;
    uint32_t a0_a1, r3_6_0_copyload, r3_7_0_copyload, r3_8_0_copyload, r10, r7, r3_0;
    uint8_t r3_4_0_copyload, r3_5_0_copyload;
    uint8_t r1_0_in;
    size_t r3_0_0_copyload = load_size(a0);
    r18 = (unsigned char *)(uintptr_t)r3_0_0_copyload;
    uint8_t r1_0_0_copyload = r18[(size_t)a1];
    if (r1_0_0_copyload != 165) r1_0_in = 0;
    else {
        uint8_t r0_0_0_copyload = a0[16];
        uint32_t r1_0_0_copyload_2 = load32(a0 + 20);
        uint32_t switch_load = (uint32_t)switch_table_dfu_boot_c_trial_flash_prepared[(size_t)r0_0_0_copyload];
        a0_a1 = umax32(r1_0_0_copyload_2, switch_load);
        r20 = r18 + (size_t)(a0_a1 + a1);
        uint8_t r3_1_0_copyload = r20[1];
        if (r3_1_0_copyload != 2) r1_0_in = 1;
        else {
            r3_4_0_copyload = r20[2];
            r3_5_0_copyload = r20[3];
            r3_6_0_copyload = load32u(r20 + 4);
            r3_7_0_copyload = load32u(r20 + 8);
            r3_8_0_copyload = load32u(r20 + 12);
            size_t r3 = load_size(a0 + 8);
            r10 = a0_a1 << 1;
            if ((((uint32_t)r3 >> 1) - r10) < r3_6_0_copyload) r1_0_in = 0;
            else {
                store32(r1, 0xffffffffU);
                r7 = r10 + a1;
                r3_0 = 0;
                while (r3_0 < r3_6_0_copyload) {
                    uint32_t a1_a0 = umin32(r3_6_0_copyload - r3_0, 64);
                    dfu_suffix_crc_Crc_update_small(r1, r18 + (size_t)(r7 + r3_0), (size_t)a1_a0);
                    r3_0 = a1_a0 + r3_0;
                }
                uint32_t r0_0_0_copyload_2 = load32(r1);
                r1_0_in = (((r3_4_0_copyload == 0) ? (r3_5_0_copyload == 0) : 0) ? (r3_7_0_copyload == r0_0_0_copyload_2) : 0) ? (r3_8_0_copyload == 0) : 0;
            }
        }
    }
    return r1_0_in;
}
#else
/* dfu_slots::read::counts::<#f31be65e8793cebb>: crates/dfu_slots/src/read.rt */
static uint8_t dfu_slots_read_counts(unsigned char *a0, uint32_t a1) {
    _Alignas(1) unsigned char r2_3[64];
    _Alignas(4) unsigned char r3_2[16];
    unsigned char *const r3 = r3_2;
    unsigned char *const r1_2 = r3_2;
    uint8_t r1_2_0_copyload, r1_3_0_copyload, r1_4_0_copyload;
    uint32_t r1_5_0_copyload, r1_6_0_copyload, r1_7_0_copyload, r3_0;
    unsigned char *r1, *r2_2;
    uint8_t common_ret_op, r1_0_in;
    uint8_t r2 = dfu_slots_read_byte_at(a0, a1);
    if (r2 != 165) r1_0_in = 0;
    else {
        dfu_slots_read_header_of(r3, a0, a1);
        uint8_t r4_2_0_copyload = r3[1];
        if (r4_2_0_copyload != 2) r1_0_in = 1;
        else {
            dfu_slots_read_header_of(r3_2, a0, a1);
            r1_2_0_copyload = r3_2[1];
            r1_3_0_copyload = r3_2[2];
            r1_4_0_copyload = r3_2[3];
            r1_5_0_copyload = load32u(r3_2 + 4);
            r1_6_0_copyload = load32u(r3_2 + 8);
            r1_7_0_copyload = load32u(r3_2 + 12);
            size_t r3_3 = load_size(a0 + 8);
            r1 = a0 + 16;
            uint8_t r0_0_0_copyload = *r1;
            r2_2 = a0 + 20;
            uint32_t r1_0_0_copyload = load32(r2_2);
            uint32_t switch_load = (uint32_t)switch_table_dfu_boot_c_trial_flash_prepared[(size_t)r0_0_0_copyload];
            if ((((uint32_t)r3_3 >> 1) - (umax32(r1_0_0_copyload, switch_load) << 1)) < r1_5_0_copyload) common_ret_op = 0;
            else {
                store32(r1_2, 0xffffffffU);
                memset(r2_3, 0, 64);
                r3_0 = 0;
                while (r3_0 < r1_5_0_copyload) {
                    uint32_t a1_a0 = umin32(r1_5_0_copyload - r3_0, 64);
                    size_t r28 = (size_t)a1_a0;
                    uint8_t r0_0_0_copyload_2 = *r1;
                    uint32_t r1_0_0_copyload_2 = load32(r2_2);
                    uint32_t switch_load_2 = (uint32_t)switch_table_dfu_boot_c_trial_flash_prepared[(size_t)r0_0_0_copyload_2];
                    size_t r3_0_0_copyload = load_size(a0);
                    DFU_READ((unsigned char *)(uintptr_t)r3_0_0_copyload + (size_t)((r3_0 + a1) + (umax32(r1_0_0_copyload_2, switch_load_2) << 1)), r2_3, r28);
                    dfu_suffix_crc_Crc_update_small(r1_2, r2_3, r28);
                    r3_0 = a1_a0 + r3_0;
                }
                uint32_t r0_0_0_copyload_3 = load32(r1_2);
                common_ret_op = ((((r1_2_0_copyload == 2) ? (r1_3_0_copyload == 0) : 0) ? (r1_4_0_copyload == 0) : 0) ? (r1_6_0_copyload == r0_0_0_copyload_3) : 0) ? (r1_7_0_copyload == 0) : 0;
            }
            r1_0_in = common_ret_op;
        }
    }
    return r1_0_in;
}

/* dfu_slots::read::byte_at::<#f31be65e8793cebb>: crates/dfu_slots/src/read.rt */
static uint8_t dfu_slots_read_byte_at(unsigned char *a0, uint32_t a1) {
    _Alignas(4) unsigned char r1[1];
    *r1 = 0;
    size_t r3_0_0_copyload = load_size(a0);
    DFU_READ((unsigned char *)(uintptr_t)r3_0_0_copyload + (size_t)a1, r1, 1);
    uint8_t r15 = *r1;
    return r15;
}

/* dfu_slots::read::header_of::<#f31be65e8793cebb>: crates/dfu_slots/src/read.rt */
static void dfu_slots_read_header_of(unsigned char *a0, unsigned char *a1, uint32_t a2) {
    _Alignas(1) unsigned char r1[16];
    memset(r1, 0, 16);
    uint8_t r0_0_0_copyload = a1[16];
    uint32_t r1_0_0_copyload = load32(a1 + 20);
    uint32_t switch_load = (uint32_t)switch_table_dfu_boot_c_trial_flash_prepared[(size_t)r0_0_0_copyload];
    size_t r3_0_0_copyload = load_size(a1);
    DFU_READ((unsigned char *)(uintptr_t)r3_0_0_copyload + (size_t)(umax32(r1_0_0_copyload, switch_load) + a2), r1, 16);
    memcpy(a0, r1, 16);
    return;
}
#endif

/* dfu_suffix::crc::Crc::update_small: crates/dfu_suffix/src/crc.rt */
static void dfu_suffix_crc_Crc_update_small(unsigned char *a0, unsigned char *a1, size_t a2) {
    size_t r4_0;
    uint32_t r3_0;
    uint32_t r5 = load32(a0);
    r4_0 = 0;
    r3_0 = r5;
    if (r4_0 != a2) {
        do {
            uint8_t r23 = a1[r4_0];
            uint32_t r6 = r3_0 ^ (uint32_t)r23;
            uint32_t r20 = load32(PLACE(static_1) + (size_t)((r6 << 2) & 60));
            uint32_t r23_2 = (r6 >> 4) ^ r20;
            uint32_t r20_2 = load32(PLACE(static_1) + (size_t)((r23_2 << 2) & 60));
            r4_0 = r4_0 + 1;
            r3_0 = (r23_2 >> 4) ^ r20_2;
        } while (r4_0 != a2);
    }
    store32(a0, r3_0);
    return;
}

#ifndef DFU_READ
/* dfu_slots::places::find_places::<#f31be65e8793cebb>: crates/dfu_slots/src/places.rt */
static struct i32_i32 dfu_slots_places_find_places(unsigned char *a0, uint8_t a1, uint8_t a2) {
    uint32_t r81;
    uint8_t r1_0_in;
    size_t r3 = load_size(a0 + 8);
    r81 = (uint32_t)r3 >> 1;
    if ((a2 & a1) == 0) r1_0_in = a1 & 1;
    else {
        uint8_t r0_0_0_copyload = a0[16];
        uint32_t r1_0_0_copyload = load32(a0 + 20);
        uint32_t switch_load = (uint32_t)switch_table_dfu_boot_c_trial_flash_prepared[(size_t)r0_0_0_copyload];
        uint32_t a0_a1 = umax32(r1_0_0_copyload, switch_load);
        size_t r3_0_0_copyload = load_size(a0);
        unsigned char *r18 = (unsigned char *)(uintptr_t)r3_0_0_copyload;
        uint8_t r1_0_0_copyload_2 = r18[(size_t)a0_a1];
        uint8_t r1_0_0_copyload_3 = r18[(size_t)(a0_a1 + r81)];
        r1_0_in = r1_0_0_copyload_2 == (uint8_t)(r1_0_0_copyload_3 + 1);
    }
    struct i32_i32 r15_half = (struct i32_i32){ 0, 0 };
    r15_half.a = (uint32_t)(r1_0_in ? 0 : r81);
    struct i32_i32 r15 = r15_half;
    r15.b = (uint32_t)(r1_0_in ? r81 : 0);
    return r15;
}
#else
/* dfu_slots::places::find_places::<#f31be65e8793cebb>: crates/dfu_slots/src/places.rt */
static struct i32_i32 dfu_slots_places_find_places(unsigned char *a0, uint8_t a1, uint8_t a2) {
    unsigned char *r2 = a0 + 8;
    size_t r3 = load_size(r2);
    uint8_t r15 = dfu_slots_places_is_newest(a0, 0, (uint32_t)r3 >> 1, a1 & 1, a2 & 1);
    size_t r3_2 = load_size(r2);
    uint32_t r72 = (uint32_t)r3_2 >> 1;
    struct i32_i32 r15_half = (struct i32_i32){ 0, 0 };
    r15_half.a = (uint32_t)(r15 ? 0 : r72);
    struct i32_i32 r15_2 = r15_half;
    r15_2.b = (uint32_t)(r15 ? r72 : 0);
    return r15_2;
}
#endif

#ifndef DFU_READ
/* dfu_slots::places::has_newest::<#f31be65e8793cebb>: crates/dfu_slots/src/places.rt */
static uint8_t dfu_slots_places_has_newest(unsigned char *a0, uint32_t a1, uint32_t a2, uint8_t a3, uint8_t a4) {
    uint8_t brmerge_not_not, r8_0_in;
    brmerge_not_not = (a4 & a3) == 0;
    if (a1 == 0) {
        if (brmerge_not_not) r8_0_in = a3 & 1;
        else {
            uint8_t r0_0_0_copyload = a0[16];
            uint32_t r1_0_0_copyload = load32(a0 + 20);
            uint32_t switch_load = (uint32_t)switch_table_dfu_boot_c_trial_flash_prepared[(size_t)r0_0_0_copyload];
            uint32_t a0_a1 = umax32(r1_0_0_copyload, switch_load);
            size_t r3_0_0_copyload = load_size(a0);
            unsigned char *r18 = (unsigned char *)(uintptr_t)r3_0_0_copyload;
            uint8_t r1_0_0_copyload_2 = r18[(size_t)a0_a1];
            uint8_t r1_0_0_copyload_3 = r18[(size_t)(a0_a1 + a2)];
            r8_0_in = r1_0_0_copyload_2 == (uint8_t)(r1_0_0_copyload_3 + 1);
        }
    }
    else {
        if (brmerge_not_not) r8_0_in = a4 & 1;
        else {
            uint8_t r0_0_0_copyload_2 = a0[16];
            uint32_t r1_0_0_copyload_4 = load32(a0 + 20);
            uint32_t switch_load_2 = (uint32_t)switch_table_dfu_boot_c_trial_flash_prepared[(size_t)r0_0_0_copyload_2];
            uint32_t a0_a1_2 = umax32(r1_0_0_copyload_4, switch_load_2);
            size_t r3_0_0_copyload_2 = load_size(a0);
            unsigned char *r18_2 = (unsigned char *)(uintptr_t)r3_0_0_copyload_2;
            uint8_t r1_0_0_copyload_5 = r18_2[(size_t)(a0_a1_2 + a1)];
            uint8_t r1_0_0_copyload_6 = r18_2[(size_t)(a0_a1_2 + a2)];
            r8_0_in = r1_0_0_copyload_5 == (uint8_t)(r1_0_0_copyload_6 + 1);
        }
    }
    return r8_0_in;
}
#else
/* dfu_slots::places::is_newest::<#f31be65e8793cebb>: crates/dfu_slots/src/places.rt */
static uint8_t dfu_slots_places_is_newest(unsigned char *a0, uint32_t a1, uint32_t a2, uint8_t a3, uint8_t a4) {
    uint8_t r1_0_in;
    if (!(a3 & a4)) r1_0_in = a3;
    else {
        uint8_t r13 = dfu_slots_read_generation(a0, a1);
        uint8_t r14 = dfu_slots_read_generation(a0, a2);
        r1_0_in = r13 == (uint8_t)(r14 + 1);
    }
    return r1_0_in;
}
#endif

#ifndef DFU_READ
/* dfu_slots::read::header_len::<#f31be65e8793cebb>: crates/dfu_slots/src/read.rt */
static uint8_t dfu_slots_read_header_len(unsigned char *a0, uint32_t a1) {
    uint32_t a0_a1, r3_6_0_copyload;
    unsigned char *r20;
    uint8_t r3_1_0_copyload, r0_0_0_0;
    uint8_t r0_0_0_copyload = a0[16];
    uint32_t r1_0_0_copyload = load32(a0 + 20);
    uint32_t switch_load = (uint32_t)switch_table_dfu_boot_c_trial_flash_prepared[(size_t)r0_0_0_copyload];
    a0_a1 = umax32(r1_0_0_copyload, switch_load);
    size_t r3_0_0_copyload = load_size(a0);
    r20 = (unsigned char *)(uintptr_t)r3_0_0_copyload + (size_t)(a0_a1 + a1);
    r3_1_0_copyload = r20[1];
    r3_6_0_copyload = load32u(r20 + 12);
    if (r3_1_0_copyload == 2) r0_0_0_0 = 1;
    else {
        uint32_t r3_5_0_copyload = load32u(r20 + 8);
        uint32_t r3_4_0_copyload = load32u(r20 + 4);
        uint8_t r3_3_0_copyload = r20[3];
        uint8_t r3_2_0_copyload = r20[2];
        size_t r3 = load_size(a0 + 8);
        if (((((r3_1_0_copyload == 1) & (r3_4_0_copyload <= (((uint32_t)r3 >> 1) - (a0_a1 << 1)))) ? (r3_2_0_copyload == 0) : 0) ? (r3_3_0_copyload == 0) : 0) ? (r3_5_0_copyload == 0) : 0) r0_0_0_0 = r3_6_0_copyload == 0;
        else {
            r0_0_0_0 = 0;
        }
    }
    return r0_0_0_0;
}
#else
/* dfu_slots::read::generation::<#f31be65e8793cebb>: crates/dfu_slots/src/read.rt */
static uint8_t dfu_slots_read_generation(unsigned char *a0, uint32_t a1) {
    uint8_t r0_0_0_copyload = a0[16];
    uint32_t r1_0_0_copyload = load32(a0 + 20);
    uint32_t switch_load = (uint32_t)switch_table_dfu_boot_c_trial_flash_prepared[(size_t)r0_0_0_copyload];
    uint8_t r7 = dfu_slots_read_byte_at(a0, umax32(r1_0_0_copyload, switch_load) + a1);
    return r7;
}
#endif

#ifndef DFU_READ
/* dfu_boot::install::deciding::next: crates/dfu_boot/src/install/deciding.rt */
static void dfu_boot_install_deciding_next(unsigned char *a0, unsigned char *a1, size_t a2, unsigned char *a3, uint64_t a4, uint32_t a5, uint8_t a6, uint32_t a7) {
    uint8_t trunc;
    uint32_t r7_0, r9_4_0, r16_2, r19_631_0;
    struct i8_i32 r21_pn;
    size_t v5, indvars_iv;
    uint8_t r19_0_0;
    if ((a4 < 0x100000000ULL) & (((a5 - 1) < 0x40000U) & ((a5 & 255) == 0))) {
        if (((uint32_t)a4 % a5) == 0) {
            if (a2 == 0) {
                *a0 = 0;
                a0[1] = 1;
                return;
            }
            if (a4 < (uint64_t)a2) {
                *a0 = 0;
                a0[1] = 2;
                return;
            }
            trunc = a6 & 1;
            uint32_t r16 = (uint32_t)a2;
            r7_0 = (uint32_t)(trunc ? umin32(r16, a7) : 0);
            struct i8_i32 r21 = dfu_boot_install_compare_first_difference(a1, a3, r7_0, r16);
            if (r21.a == 1) r21_pn = r21;
            else {
                struct i8_i32 r37 = dfu_boot_install_compare_first_difference(a1, a3, 0, r7_0);
                if (r37.a != 1) {
                    r19_631_0 = 0;
                    r19_0_0 = 3;
                    goto join_13;
                }
                r21_pn = r37;
            }
            r9_4_0 = r21_pn.b;
            r16_2 = r9_4_0 & 0xffffff00U;
            if (trunc ? (a7 <= r16_2) : 0) {
                if ((a7 - (a7 % a5)) == (r16_2 - (r16_2 % a5))) {
                    v5 = (size_t)(r16_2 + 256);
                    indvars_iv = (size_t)r16_2;
                    for (;;) {
                        if (indvars_iv >= v5) {
                            r19_631_0 = r16_2;
                            r19_0_0 = 2;
                            goto join_13;
                        }
                        uint8_t r3_0_0_copyload = a3[indvars_iv];
                        if (r3_0_0_copyload != 255) break;
                        indvars_iv = indvars_iv + 1;
                    }
                }
            }
            r19_631_0 = r9_4_0 - (r9_4_0 % a5);
            r19_0_0 = 1;
join_13:
            *a0 = r19_0_0;
            a0[1] = 0;
            store32(a0 + 4, r19_631_0);
            return;
        }
    }
    *a0 = 0;
    a0[1] = 0;
    return;
}
#else
/* dfu_slots::places::has_newest::<#f31be65e8793cebb>: crates/dfu_slots/src/places.rt */
static uint8_t dfu_slots_places_has_newest(unsigned char *a0, uint32_t a1, uint32_t a2, uint8_t a3, uint8_t a4) {
    uint8_t r8_0_in;
    if (a1 == 0) {
        uint8_t r24 = dfu_slots_places_is_newest(a0, 0, a2, a3 & 1, a4 & 1);
        r8_0_in = r24;
    }
    else {
        uint8_t r33 = dfu_slots_places_is_newest(a0, a1, a2, a4 & 1, a3 & 1);
        r8_0_in = r33;
    }
    return r8_0_in;
}
#endif

#ifndef DFU_READ
/* dfu_home::copying::head::<#f31be65e8793cebb>: crates/dfu_home/src/copying.rt */
static void dfu_home_copying_head(unsigned char *a0, unsigned char *a1, unsigned char *a2, unsigned char *a4, size_t a5, uint8_t a6, uint32_t a7, unsigned char *a8) {
    _Alignas(4) unsigned char r8[16];
    unsigned char *const r3_2 = r8;
    _Alignas(4) unsigned char r0[12];
    size_t r3 = load_size(a1 + 8);
    uint8_t r0_0_0_copyload = a1[16];
    uint32_t r1_0_0_copyload = load32(a1 + 20);
    uint32_t switch_load = (uint32_t)switch_table_dfu_boot_c_trial_flash_prepared[(size_t)r0_0_0_copyload];
    uint32_t a0_a1 = umax32(r1_0_0_copyload, switch_load);
    size_t r3_0_0_copyload = load_size(a1);
    unsigned char *r20 = (unsigned char *)(uintptr_t)r3_0_0_copyload + (size_t)(a0_a1 + ((uint32_t)r3 >> 1));
    uint8_t r10_0_0_copyload = *r20;
    uint32_t r10_22_0_copyload = load32u(r20 + 4);
    store32(r3_2, 0xffffffffU);
    dfu_suffix_crc_Crc_update_small(r3_2, a4, a5);
    uint32_t r0_0_0_copyload_2 = load32(r3_2);
    *r8 = (uint8_t)(r10_0_0_copyload + 1);
    r8[1] = 2;
    r8[2] = 0;
    r8[3] = 0;
    store32(r8 + 4, r10_22_0_copyload);
    store32(r8 + 8, r0_0_0_copyload_2);
    store32(r8 + 12, 0);
    uint8_t r35 = dfu_home_bytes_are_same(a2 + (size_t)a0_a1, 16, r8);
    dfu_home_copying_unit_due(r0, a1, a2, (uint32_t)(r35 ? 0 : a0_a1), a6, a7, r35 ? PLACE(static_3) : r8, (size_t)(r35 ? 1 : 16), a8);
    uint8_t v1 = r0[1];
    uint32_t v2 = load32(r0 + 4);
    uint32_t v3 = load32(r0 + 8);
    uint8_t sink12 = *r0;
    *a0 = sink12;
    a0[1] = v1;
    store32(a0 + 4, v2);
    store32(a0 + 8, v3);
    return;
}
#else
/* dfu_slots::read::header_len::<#f31be65e8793cebb>: crates/dfu_slots/src/read.rt */
static uint8_t dfu_slots_read_header_len(unsigned char *a0, uint32_t a1) {
    _Alignas(1) unsigned char r3[16];
    uint8_t r1_2_0_copyload, r0_0_0_0;
    uint32_t r1_9_0_copyload;
    dfu_slots_read_header_of(r3, a0, a1);
    r1_2_0_copyload = r3[1];
    r1_9_0_copyload = load32u(r3 + 12);
    if (r1_2_0_copyload == 2) r0_0_0_0 = 1;
    else {
        uint32_t r1_6_0_copyload = load32u(r3 + 4);
        uint32_t r1_8_0_copyload = load32u(r3 + 8);
        uint8_t r1_5_0_copyload = r3[3];
        uint8_t r1_4_0_copyload = r3[2];
        size_t r3_2 = load_size(a0 + 8);
        uint8_t r0_0_0_copyload = a0[16];
        uint32_t r1_0_0_copyload = load32(a0 + 20);
        uint32_t switch_load = (uint32_t)switch_table_dfu_boot_c_trial_flash_prepared[(size_t)r0_0_0_copyload];
        if (((((r1_2_0_copyload == 1) & (r1_6_0_copyload <= (((uint32_t)r3_2 >> 1) - (umax32(r1_0_0_copyload, switch_load) << 1)))) ? (r1_4_0_copyload == 0) : 0) ? (r1_5_0_copyload == 0) : 0) ? (r1_8_0_copyload == 0) : 0) r0_0_0_0 = r1_9_0_copyload == 0;
        else {
            r0_0_0_0 = 0;
        }
    }
    return r0_0_0_0;
}
#endif

#ifndef DFU_READ
/* dfu_home::copying::unit_due::<#f31be65e8793cebb>: crates/dfu_home/src/copying.rt */
static void dfu_home_copying_unit_due(unsigned char *a0, unsigned char *a1, unsigned char *a2, uint32_t a4, uint8_t a5, uint32_t a6, unsigned char *a7, size_t a8, unsigned char *a9) {
    uint32_t switch_load, a6_sink, sink;
    size_t v3, indvars_iv;
    uint8_t r0_0_0_copyload = a1[16];
    switch_load = (uint32_t)switch_table_dfu_boot_c_trial_flash_prepared[(size_t)r0_0_0_copyload];
    if ((a5 == 0) ? 1 : (a6 != a4)) {
        *a0 = 2;
        a6_sink = a4;
        sink = 0;
    }
    else {
        v3 = (size_t)(switch_load + a6);
        indvars_iv = (size_t)a6;
        for (;;) {
            if (indvars_iv >= v3) goto join_6;
            uint8_t r3_0_0_copyload = a2[indvars_iv];
            if (r3_0_0_copyload != 255) break;
            indvars_iv = indvars_iv + 1;
        }
        *a0 = 2;
        a6_sink = a6;
        sink = 0;
        goto common_ret;
join_6:
        memset(a9, 0, 256);
        memmove(a9, a7, a8);
        *a0 = 3;
        a6_sink = a6;
        sink = switch_load;
    }
common_ret:
    a0[1] = 0;
    store32(a0 + 4, a6_sink);
    store32(a0 + 8, sink);
    return;
}
#else
/* dfu_boot::install::deciding::next: crates/dfu_boot/src/install/deciding.rt */
static void dfu_boot_install_deciding_next(unsigned char *a0, unsigned char *a1, size_t a2, unsigned char *a3, uint64_t a4, uint32_t a5, uint8_t a6, uint32_t a7) {
    uint8_t trunc;
    uint32_t r7_0, r9_4_0, r16_2, r19_631_0;
    struct i8_i32 r21_pn;
    uint8_t r19_0_0;
    if ((a4 < 0x100000000ULL) & (((a5 - 1) < 0x40000U) & ((a5 & 255) == 0))) {
        if (((uint32_t)a4 % a5) == 0) {
            if (a2 == 0) {
                *a0 = 0;
                a0[1] = 1;
                return;
            }
            if (a4 < (uint64_t)a2) {
                *a0 = 0;
                a0[1] = 2;
                return;
            }
            trunc = a6 & 1;
            uint32_t r16 = (uint32_t)a2;
            r7_0 = (uint32_t)(trunc ? umin32(r16, a7) : 0);
            struct i8_i32 r21 = dfu_boot_install_compare_first_difference(a1, a3, r7_0, r16);
            if (r21.a == 1) r21_pn = r21;
            else {
                struct i8_i32 r37 = dfu_boot_install_compare_first_difference(a1, a3, 0, r7_0);
                if (r37.a != 1) {
                    r19_631_0 = 0;
                    r19_0_0 = 3;
                    goto join_13;
                }
                r21_pn = r37;
            }
            r9_4_0 = r21_pn.b;
            r16_2 = r9_4_0 & 0xffffff00U;
            if (trunc ? (a7 <= r16_2) : 0) {
                if ((a7 - (a7 % a5)) == (r16_2 - (r16_2 % a5))) {
                    uint8_t r47 = dfu_boot_install_area_are_blank(a3, r16_2, r16_2 + 256);
                    if (r47) {
                        r19_631_0 = r16_2;
                        r19_0_0 = 2;
                        goto join_13;
                    }
                }
            }
            r19_631_0 = r9_4_0 - (r9_4_0 % a5);
            r19_0_0 = 1;
join_13:
            *a0 = r19_0_0;
            a0[1] = 0;
            store32(a0 + 4, r19_631_0);
            return;
        }
    }
    *a0 = 0;
    a0[1] = 0;
    return;
}
#endif

#ifndef DFU_READ
/* dfu_boot_c::trial::flash::looked: crates/dfu_boot_c/src/trial/flash.rt */
static void dfu_boot_c_trial_flash_looked(unsigned char *a0, unsigned char *a1, unsigned char *a2, size_t a3) {
    _Alignas(8) unsigned char r8[32];
    _Alignas(4) unsigned char r13_8[29];
    _Alignas(8) unsigned char r3[24];
    unsigned char *r7;
    uint32_t r41, r59, r60, r10_84_0_0, r10_15_0, r10_17_0, r13_12_0_0, r13_12_3_0, r13_12_4_0, r13_10_0_0;
    uint8_t r34, r35, r10_0_036, r13_4_0;
    uint8_t r0_0_0_0, r51;
    memset(r13_8, 0, 29);
    dfu_boot_c_trial_flash_prepared(r8, a1, a2, a3);
    uint8_t r1_0_0_copyload = *r8;
    if (r1_0_0_copyload != 0) {
        uint8_t r1_5_2_copyload = r8[2];
        uint8_t r1_3_1_copyload = r8[1];
        *a0 = 1;
        a0[1] = r1_3_1_copyload;
        a0[2] = r1_5_2_copyload;
        memset(a0 + 8, 0, 40);
        return;
    }
    r7 = r8 + 8;
    memcpy(r3, r7, 24);
    r41 = load32(a1 + 8);
    uint8_t r14 = dfu_slots_layout_is_sized(r7);
    if (!r14) {
        r10_0_036 = 1;
        r13_12_0_0 = 0;
        r13_12_3_0 = 0;
        r13_12_4_0 = 0;
        r13_4_0 = 2;
        r13_10_0_0 = 0;
    }
    else {
        struct i8_i8 r33 = dfu_slots_places_count_slots(r7);
        r34 = r33.a;
        r35 = r33.b;
        if ((r35 | r34) == 0) {
            r10_0_036 = 1;
            r13_12_0_0 = 0;
            r13_12_3_0 = 0;
            r13_12_4_0 = 0;
            r13_4_0 = 2;
            r13_10_0_0 = 0;
        }
        else {
            struct i32_i32 r58 = dfu_slots_places_find_places(r3, r34, r35);
            r59 = r58.a;
            r60 = r58.b;
            uint8_t r68 = dfu_slots_places_has_newest(r3, r59, r60, r34, r35);
            if (!r68) {
                r10_0_036 = 1;
                r13_12_0_0 = 0;
                r13_12_3_0 = 0;
                r13_12_4_0 = 0;
                r13_4_0 = 2;
                r13_10_0_0 = 0;
            }
            else {
                uint8_t r88 = dfu_slots_read_header_len(r7, r59);
                if (r88 == 0) {
                    r10_0_036 = 1;
                    r13_12_0_0 = 0;
                    r13_12_3_0 = 0;
                    r13_12_4_0 = 0;
                    r13_4_0 = 2;
                    r13_10_0_0 = 0;
                }
                else {
                    if (!((uint8_t)((r60 == 0) ? r34 : r35) & 1)) r0_0_0_0 = 0;
                    else {
                        uint8_t r26 = dfu_slots_read_header_len(r7, r60);
                        r0_0_0_0 = r26 != 0;
                    }
                    r51 = dfu_boot_trial_marks_is_set(r7, r59, 0);
                    if (!r51) {
                        uint8_t r60_2 = dfu_boot_trial_marks_is_set(r7, r60, 0);
                        if (r60_2 ? r0_0_0_0 : 0) {
                            uint32_t r70 = dfu_boot_trial_marks_starts(r7, r41, r59);
                            r10_84_0_0 = 1;
                            r10_15_0 = r60;
                            r10_17_0 = r70;
                            goto arm_5;
                        }
                    }
                    r10_84_0_0 = 0;
                    r10_15_0 = (uint32_t)r51;
                    r10_17_0 = 0;
arm_5:
                    memcpy(r13_8 + 5, r7, 24);
                    r10_0_036 = 0;
                    r13_12_0_0 = r59;
                    r13_12_3_0 = r10_15_0;
                    r13_12_4_0 = r10_17_0;
                    r13_4_0 = 0;
                    r13_10_0_0 = r10_84_0_0;
                }
            }
        }
    }
    *a0 = r10_0_036;
    a0[1] = r13_4_0;
    a0[2] = 0;
    memcpy(a0 + 8, r13_8 + 5, 24);
    store32(a0 + 32, r13_10_0_0);
    store32(a0 + 36, r13_12_0_0);
    store32(a0 + 40, r13_12_3_0);
    store32(a0 + 44, r13_12_4_0);
    return;
}
#else
/* dfu_boot::install::pieces::piece: crates/dfu_boot/src/install/pieces.rt */
static void dfu_boot_install_pieces_piece(unsigned char *a0, size_t a1, uint32_t a2, unsigned char *a3) {
    size_t a1_a0 = umin_size(a1, (size_t)a2);
    memset(a3, 255, 256);
    DFU_READ(a0 + a1_a0, a3, umin_size(a1 - a1_a0, 256));
    return;
}

/* dfu_home::copying::head::<#f31be65e8793cebb>: crates/dfu_home/src/copying.rt */
static void dfu_home_copying_head(unsigned char *a0, unsigned char *a1, unsigned char *a2, unsigned char *a4, size_t a5, uint8_t a6, uint32_t a7, unsigned char *a8) {
    _Alignas(1) unsigned char r4[64];
    _Alignas(4) unsigned char r8[16];
    unsigned char *const r10 = r8;
    unsigned char *const r3_2 = r8;
    _Alignas(4) unsigned char r0[12];
    uint8_t r13_0_0_copyload;
    uint32_t r13_39_0_copyload, a0_a1_sink;
    size_t r5_0, sink;
    unsigned char *r1, *r2, *r8_sink;
    size_t r3 = load_size(a1 + 8);
    dfu_slots_read_header_of(r10, a1, (uint32_t)r3 >> 1);
    r13_0_0_copyload = *r10;
    r13_39_0_copyload = load32(r10 + 4);
    store32(r3_2, 0xffffffffU);
    memset(r4, 0, 64);
    r5_0 = 0;
    while (r5_0 < a5) {
        size_t a1_a0 = umin_size(a5 - r5_0, 64);
        DFU_READ(a4 + r5_0, r4, a1_a0);
        dfu_suffix_crc_Crc_update_small(r3_2, r4, a1_a0);
        r5_0 = a1_a0 + r5_0;
    }
    uint32_t r0_0_0_copyload = load32(r3_2);
    *r8 = (uint8_t)(r13_0_0_copyload + 1);
    r8[1] = 2;
    r8[2] = 0;
    r8[3] = 0;
    store32(r8 + 4, r13_39_0_copyload);
    store32(r8 + 8, r0_0_0_copyload);
    store32(r8 + 12, 0);
    r1 = a1 + 16;
    uint8_t r0_0_0_copyload_2 = *r1;
    r2 = a1 + 20;
    uint32_t r1_0_0_copyload = load32(r2);
    uint32_t switch_load = (uint32_t)switch_table_dfu_boot_c_trial_flash_prepared[(size_t)r0_0_0_copyload_2];
    uint8_t r35 = dfu_home_bytes_are_same(a2 + (size_t)umax32(r1_0_0_copyload, switch_load), 16, r8);
    if (r35) {
        sink = 1;
        r8_sink = PLACE(static_3);
        a0_a1_sink = 0;
    }
    else {
        uint8_t r0_0_0_copyload_3 = *r1;
        uint32_t r1_0_0_copyload_2 = load32(r2);
        uint32_t switch_load_2 = (uint32_t)switch_table_dfu_boot_c_trial_flash_prepared[(size_t)r0_0_0_copyload_3];
        sink = 16;
        r8_sink = r8;
        a0_a1_sink = umax32(r1_0_0_copyload_2, switch_load_2);
    }
    dfu_home_copying_unit_due(r0, a1, a2, a0_a1_sink, a6, a7, r8_sink, sink, a8);
    uint8_t v1 = r0[1];
    uint32_t v2 = load32(r0 + 4);
    uint32_t v3 = load32(r0 + 8);
    uint8_t sink12 = *r0;
    *a0 = sink12;
    a0[1] = v1;
    store32(a0 + 4, v2);
    store32(a0 + 8, v3);
    return;
}

/* dfu_home::copying::unit_due::<#f31be65e8793cebb>: crates/dfu_home/src/copying.rt */
static void dfu_home_copying_unit_due(unsigned char *a0, unsigned char *a1, unsigned char *a2, uint32_t a4, uint8_t a5, uint32_t a6, unsigned char *a7, size_t a8, unsigned char *a9) {
    uint32_t switch_load, a6_sink, sink;
    uint8_t r0_0_0_copyload = a1[16];
    switch_load = (uint32_t)switch_table_dfu_boot_c_trial_flash_prepared[(size_t)r0_0_0_copyload];
    if ((a5 == 0) ? 1 : (a6 != a4)) {
        *a0 = 2;
        a6_sink = a4;
        sink = 0;
    }
    else {
        uint8_t r48 = dfu_boot_install_area_are_blank(a2, a6, switch_load + a6);
        if (!r48) {
            *a0 = 2;
            a6_sink = a6;
            sink = 0;
        }
        else {
            memset(a9, 0, 256);
            memmove(a9, a7, a8);
            *a0 = 3;
            a6_sink = a6;
            sink = switch_load;
        }
    }
    a0[1] = 0;
    store32(a0 + 4, a6_sink);
    store32(a0 + 8, sink);
    return;
}

/* dfu_boot_c::trial::flash::looked: crates/dfu_boot_c/src/trial/flash.rt */
static void dfu_boot_c_trial_flash_looked(unsigned char *a0, unsigned char *a1, unsigned char *a2, size_t a3) {
    _Alignas(8) unsigned char r8[32];
    _Alignas(4) unsigned char r13_8[29];
    unsigned char *r7;
    uint32_t r41, r59, r60, r10_84_0_0, r10_15_0, r10_17_0, r13_12_0_0, r13_12_3_0, r13_12_4_0, r13_10_0_0;
    uint8_t r34, r35, r10_0_036, r13_4_0;
    uint8_t r0_0_0_0, r51;
    memset(r13_8, 0, 29);
    dfu_boot_c_trial_flash_prepared(r8, a1, a2, a3);
    uint8_t r1_0_0_copyload = *r8;
    if (r1_0_0_copyload != 0) {
        uint8_t r1_5_2_copyload = r8[2];
        uint8_t r1_3_1_copyload = r8[1];
        *a0 = 1;
        a0[1] = r1_3_1_copyload;
        a0[2] = r1_5_2_copyload;
        memset(a0 + 8, 0, 40);
        return;
    }
    r7 = r8 + 8;
    r41 = load32(a1 + 8);
    uint8_t r14 = dfu_slots_layout_is_sized(r7);
    if (!r14) {
        r10_0_036 = 1;
        r13_12_0_0 = 0;
        r13_12_3_0 = 0;
        r13_12_4_0 = 0;
        r13_4_0 = 2;
        r13_10_0_0 = 0;
    }
    else {
        struct i8_i8 r33 = dfu_slots_places_count_slots(r7);
        r34 = r33.a;
        r35 = r33.b;
        if ((r35 | r34) == 0) {
            r10_0_036 = 1;
            r13_12_0_0 = 0;
            r13_12_3_0 = 0;
            r13_12_4_0 = 0;
            r13_4_0 = 2;
            r13_10_0_0 = 0;
        }
        else {
            struct i32_i32 r58 = dfu_slots_places_find_places(r7, r34, r35);
            r59 = r58.a;
            r60 = r58.b;
            uint8_t r68 = dfu_slots_places_has_newest(r7, r59, r60, r34, r35);
            if (!r68) {
                r10_0_036 = 1;
                r13_12_0_0 = 0;
                r13_12_3_0 = 0;
                r13_12_4_0 = 0;
                r13_4_0 = 2;
                r13_10_0_0 = 0;
            }
            else {
                uint8_t r88 = dfu_slots_read_header_len(r7, r59);
                if (r88 == 0) {
                    r10_0_036 = 1;
                    r13_12_0_0 = 0;
                    r13_12_3_0 = 0;
                    r13_12_4_0 = 0;
                    r13_4_0 = 2;
                    r13_10_0_0 = 0;
                }
                else {
                    if (!((uint8_t)((r60 == 0) ? r34 : r35) & 1)) r0_0_0_0 = 0;
                    else {
                        uint8_t r26 = dfu_slots_read_header_len(r7, r60);
                        r0_0_0_0 = r26 != 0;
                    }
                    r51 = dfu_boot_trial_marks_is_set(r7, r59, 0);
                    if (!r51) {
                        uint8_t r60_2 = dfu_boot_trial_marks_is_set(r7, r60, 0);
                        if (r60_2 ? r0_0_0_0 : 0) {
                            uint32_t r70 = dfu_boot_trial_marks_starts(r7, r41, r59);
                            r10_84_0_0 = 1;
                            r10_15_0 = r60;
                            r10_17_0 = r70;
                            goto arm_5;
                        }
                    }
                    r10_84_0_0 = 0;
                    r10_15_0 = (uint32_t)r51;
                    r10_17_0 = 0;
arm_5:
                    memcpy(r13_8 + 5, r7, 24);
                    r10_0_036 = 0;
                    r13_12_0_0 = r59;
                    r13_12_3_0 = r10_15_0;
                    r13_12_4_0 = r10_17_0;
                    r13_4_0 = 0;
                    r13_10_0_0 = r10_84_0_0;
                }
            }
        }
    }
    *a0 = r10_0_036;
    a0[1] = r13_4_0;
    a0[2] = 0;
    memcpy(a0 + 8, r13_8 + 5, 24);
    store32(a0 + 32, r13_10_0_0);
    store32(a0 + 36, r13_12_0_0);
    store32(a0 + 40, r13_12_3_0);
    store32(a0 + 44, r13_12_4_0);
    return;
}
#endif

/* dfu_boot_c::trial::flash::prepared: crates/dfu_boot_c/src/trial/flash.rt */
static void dfu_boot_c_trial_flash_prepared(unsigned char *a0, unsigned char *a1, unsigned char *a2, size_t a3) {
    _Alignas(8) unsigned char r3[32];
    unsigned char *const r6 = r3;
    _Alignas(4) unsigned char r7_8[29];
    uint8_t r1_2_0_copyload, r7_0_0, r7_4_0, r5_4_0, r5_7_0, r5_7_013, r5_4_012;
    uint32_t r1_38_0_copyload, r29;
    memset(r7_8, 0, 29);
    dfu_boot_c_trial_flash_medium_of(r3, a1, PLACE(static_0), 0);
    uint8_t r19 = *r3;
    if (r19 != 1) {
        r5_4_0 = 0;
        r5_7_0 = 0;
    }
    else {
        r1_2_0_copyload = r3[24];
        r1_38_0_copyload = load32(r3 + 28);
        r29 = load32(a1 + 8);
        if (r1_38_0_copyload == 0) {
            r5_4_0 = 1;
            r5_7_0 = 0;
        }
        else {
            if (r29 >= 2) {
                size_t switch_load = (size_t)switch_table_dfu_boot_c_trial_flash_prepared[(size_t)r1_2_0_copyload];
                if (((uint64_t)switch_load * ((uint64_t)(size_t)r29 + 2)) > (uint64_t)(size_t)r1_38_0_copyload) {
                    r5_7_013 = 2;
                    r5_4_012 = 1;
                    goto arm_1;
                }
                dfu_boot_c_trial_flash_medium_of(r6, a1, a2, a3);
                uint8_t r26 = *r6;
                if (r26 != 1) {
                    r7_0_0 = 1;
                    r7_4_0 = 2;
                }
                else {
                    memcpy(r7_8 + 5, r6 + 8, 24);
                    r7_0_0 = 0;
                    r7_4_0 = 0;
                }
                *a0 = r7_0_0;
                a0[1] = r7_4_0;
                a0[2] = 0;
                memcpy(a0 + 8, r7_8 + 5, 24);
                return;
            }
            r5_4_0 = 1;
            r5_7_0 = 1;
        }
    }
    r5_7_013 = r5_7_0;
    r5_4_012 = r5_4_0;
arm_1:
    *a0 = 1;
    a0[1] = r5_4_012;
    a0[2] = r5_7_013;
    return;
}

#ifndef DFU_READ
/* dfu_boot::trial::marks::is_set::<#f31be65e8793cebb>: crates/dfu_boot/src/trial/marks.rt */
static uint8_t dfu_boot_trial_marks_is_set(unsigned char *a0, uint32_t a1, uint32_t a2) {
    _Alignas(1) unsigned char r1[256];
    unsigned char *r4_0_0_in;
    size_t r23;
    uint8_t r7_not_not_not_not_not_not_not_not_not_not_not_not_not;
    uint8_t r0_0_0_copyload = a0[16];
    uint32_t switch_load = (uint32_t)switch_table_dfu_boot_c_trial_flash_prepared[(size_t)r0_0_0_copyload];
    uint32_t r1_0_0_copyload = load32(a0 + 20);
    size_t r11 = (size_t)switch_load;
    size_t r3_0_0_copyload = load_size(a0);
    memset(r1 + r11, 0, (size_t)((r0_0_0_copyload == 3) ? 0 : ((size_t)256 - r11)));
    memcpy(r1, (unsigned char *)(uintptr_t)r3_0_0_copyload + (size_t)(((switch_load + a1) + (switch_load * a2)) + umax32(r1_0_0_copyload, switch_load)), r11);
    r4_0_0_in = r1;
    r23 = r11;
    for (;;) {
        r7_not_not_not_not_not_not_not_not_not_not_not_not_not = r23 != 0;
        if (!r7_not_not_not_not_not_not_not_not_not_not_not_not_not) break;
        uint8_t r2 = *r4_0_0_in;
        if (r2 != 255) break;
        r4_0_0_in = r4_0_0_in + 1;
        r23 = r23 - 1;
    }
    return r7_not_not_not_not_not_not_not_not_not_not_not_not_not;
}
#else
/* dfu_boot::trial::marks::is_set::<#f31be65e8793cebb>: crates/dfu_boot/src/trial/marks.rt */
static uint8_t dfu_boot_trial_marks_is_set(unsigned char *a0, uint32_t a1, uint32_t a2) {
    _Alignas(1) unsigned char r1[256];
    unsigned char *r4_0_0_in;
    size_t r23;
    uint8_t r7_not_not_not_not_not_not_not_not_not_not_not_not_not;
    uint8_t r0_0_0_copyload = a0[16];
    uint32_t switch_load = (uint32_t)switch_table_dfu_boot_c_trial_flash_prepared[(size_t)r0_0_0_copyload];
    uint32_t r1_0_0_copyload = load32(a0 + 20);
    size_t r11 = (size_t)switch_load;
    memset(r1, 0, 256);
    size_t r3_0_0_copyload = load_size(a0);
    DFU_READ((unsigned char *)(uintptr_t)r3_0_0_copyload + (size_t)(((switch_load + a1) + (switch_load * a2)) + umax32(r1_0_0_copyload, switch_load)), r1, r11);
    r4_0_0_in = r1;
    r23 = r11;
    for (;;) {
        r7_not_not_not_not_not_not_not_not_not_not_not_not_not = r23 != 0;
        if (!r7_not_not_not_not_not_not_not_not_not_not_not_not_not) break;
        uint8_t r2 = *r4_0_0_in;
        if (r2 != 255) break;
        r4_0_0_in = r4_0_0_in + 1;
        r23 = r23 - 1;
    }
    return r7_not_not_not_not_not_not_not_not_not_not_not_not_not;
}
#endif

/* dfu_boot::trial::marks::starts::<#f31be65e8793cebb>: crates/dfu_boot/src/trial/marks.rt */
static uint32_t dfu_boot_trial_marks_starts(unsigned char *a0, uint32_t a1, uint32_t a2) {
    uint32_t r1_0, r1_0_lcssa;
    r1_0 = 0;
    for (;;) {
        if (r1_0 == a1) {
            r1_0_lcssa = a1;
            break;
        }
        uint32_t r11 = r1_0 + 1;
        uint8_t r13 = dfu_boot_trial_marks_is_set(a0, a2, r11);
        if (!r13) {
            r1_0_lcssa = r1_0;
            break;
        }
        r1_0 = r11;
    }
    return r1_0_lcssa;
}

#ifndef DFU_READ
/* dfu_boot_c::trial::again::start_from: crates/dfu_boot_c/src/trial/again.rt */
static uint32_t dfu_boot_c_trial_again_start_from(unsigned char *a0, unsigned char *a1, size_t a2, unsigned char *a3, unsigned char *a4, unsigned char *a5) {
    _Alignas(8) unsigned char r15[48];
    unsigned char *const r3 = r15;
    _Alignas(8) unsigned char r9[32];
    unsigned char *r7, *r46, *r18, *r20, *r17_3_0_a2_sroa_idx, *r17_4_0_a2_sroa_idx;
    uint8_t r8_not, r12, r27, r112, v3, v5;
    uint32_t r3_4_0, r47, r48, r914, a0_a1, r4_0_0_extract_trunc, r4_4_0_extract_trunc, r11_15_0, r11_17_0, r6_10_0_5_0_copyload84, r6_15_0_0_copyload80, r6_15_2_0_copyload79;
    uint32_t r6_15_3_0_copyload78, r19, r9_6_0, r9_8_0, r9_10_0, r9_12_0, r47_2, r7_0;
    size_t r4_4_0_extract_shift, r6_10_0_0_0_copyload82;
    uint8_t r11_9_0_0, r6_10_0_3_0_copyload83, r84, r6_7_016, r6_4_015;
    dfu_boot_c_trial_flash_prepared(r9, a0, a1, a2);
    uint8_t r1_0_0_copyload = *r9;
    if (r1_0_0_copyload == 0) {
        r7 = r9 + 8;
        memcpy(r3, r7, 24);
        uint32_t r6 = load32(a3 + 16);
        r8_not = r6 == 0;
        if (r8_not) r3_4_0 = 0;
        else {
            uint32_t r13 = load32(a3 + 8);
            r3_4_0 = r13;
        }
        r46 = a0 + 8;
        r47 = load32(r46);
        r48 = load32(a3);
        uint8_t r59 = dfu_slots_layout_is_sized(r3);
        if (r59) {
            size_t r3_2 = load_size(r3 + 8);
            r914 = (uint32_t)r3_2 >> 1;
            uint8_t r0_0_0_copyload = r3[16];
            uint32_t r1_0_0_copyload_2 = load32(r3 + 20);
            uint32_t switch_load = (uint32_t)switch_table_dfu_boot_c_trial_flash_prepared[(size_t)r0_0_0_copyload];
            a0_a1 = umax32(r1_0_0_copyload_2, switch_load);
            uint32_t r5 = a0_a1 << 1;
            r12 = r48 != r5;
            r27 = r48 != (r5 + r914);
            if (!(r12 & r27)) {
                uint64_t r15_5_0 = (uint64_t)(r12 ? (size_t)(uint32_t)(r27 ? 0 : r914) : ((uint64_t)(size_t)r914 << 32));
                r4_0_0_extract_trunc = (uint32_t)r15_5_0;
                r4_4_0_extract_shift = (size_t)(r15_5_0 >> 32);
                r4_4_0_extract_trunc = (uint32_t)r4_4_0_extract_shift;
                size_t r3_0_0_copyload = load_size(r3);
                r18 = (unsigned char *)(uintptr_t)r3_0_0_copyload;
                uint8_t r1_0_0_copyload_3 = r18[((size_t)r15_5_0 & 0x7fffffffU)];
                if (r1_0_0_copyload_3 == 165) {
                    r20 = r18 + r4_4_0_extract_shift;
                    uint8_t r1_0_0_copyload_4 = *r20;
                    if (r1_0_0_copyload_4 == 165) {
                        uint8_t r1_0_0_copyload_5 = r18[(size_t)(a0_a1 + r4_0_0_extract_trunc)];
                        uint8_t r1_0_0_copyload_6 = r18[(size_t)(a0_a1 + r4_4_0_extract_trunc)];
                        if (r1_0_0_copyload_5 != (uint8_t)(r1_0_0_copyload_6 + 1)) goto dfu_boot_c_trial_again_standing_from_earlier_look_exit;
                    }
                    r112 = dfu_boot_trial_marks_is_set(r7, r4_0_0_extract_trunc, 0);
                    if (!r112) {
                        uint8_t r1_0_0_copyload_7 = *r20;
                        if (r1_0_0_copyload_7 == 165) {
                            uint8_t r138 = dfu_boot_trial_marks_is_set(r7, r4_4_0_extract_trunc, 0);
                            if (r138) {
                                if (r8_not) goto dfu_boot_c_trial_again_standing_from_earlier_look_exit;
                                if (r3_4_0 != ((r48 - r4_0_0_extract_trunc) + r4_4_0_extract_trunc)) goto dfu_boot_c_trial_again_standing_from_earlier_look_exit;
                                uint32_t r227 = dfu_boot_trial_marks_starts(r7, r47, r4_0_0_extract_trunc);
                                r11_9_0_0 = 1;
                                r11_15_0 = r4_4_0_extract_trunc;
                                r11_17_0 = r227;
                                goto dfu_boot_c_trial_again_standing_from_earlier_look_exit_thread67;
                            }
                        }
                    }
                    r11_9_0_0 = 0;
                    r11_15_0 = (uint32_t)r112;
                    r11_17_0 = 0;
dfu_boot_c_trial_again_standing_from_earlier_look_exit_thread67:
                    memcpy(r15 + 8, r7, 24);
                    size_t r6_10_0_0_0_copyload73 = load_size(r15 + 8);
                    uint8_t r6_10_0_3_0_copyload75 = r15[24];
                    uint32_t r6_10_0_5_0_copyload77 = load32(r15 + 28);
                    r6_10_0_5_0_copyload84 = r6_10_0_5_0_copyload77;
                    r6_10_0_3_0_copyload83 = r6_10_0_3_0_copyload75;
                    r6_10_0_0_0_copyload82 = r6_10_0_0_0_copyload73;
                    r84 = r11_9_0_0;
                    r6_15_0_0_copyload80 = r4_0_0_extract_trunc;
                    r6_15_2_0_copyload79 = r11_15_0;
                    r6_15_3_0_copyload78 = r11_17_0;
                    goto arm_1;
                }
            }
        }
dfu_boot_c_trial_again_standing_from_earlier_look_exit:
        dfu_boot_c_trial_flash_looked(r15, a0, a1, a2);
        uint8_t pre = *r15;
        uint8_t pre60 = r15[1];
        uint8_t pre61 = r15[2];
        uint8_t r84_pre = r15[32];
        uint32_t r6_15_0_0_copyload_pre = load32(r15 + 36);
        uint32_t r6_15_2_0_copyload_pre = load32(r15 + 40);
        uint32_t r6_15_3_0_copyload_pre = load32(r15 + 44);
        size_t r6_10_0_0_0_copyload = load_size(r15 + 8);
        uint8_t r6_10_0_3_0_copyload = r15[24];
        uint32_t r6_10_0_5_0_copyload = load32(r15 + 28);
        if (pre != 0) {
            r6_7_016 = pre61;
            r6_4_015 = pre60;
            goto arm_2;
        }
        r6_10_0_5_0_copyload84 = r6_10_0_5_0_copyload;
        r6_10_0_3_0_copyload83 = r6_10_0_3_0_copyload;
        r6_10_0_0_0_copyload82 = r6_10_0_0_0_copyload;
        r84 = r84_pre;
        r6_15_0_0_copyload80 = r6_15_0_0_copyload_pre;
        r6_15_2_0_copyload79 = r6_15_2_0_copyload_pre;
        r6_15_3_0_copyload78 = r6_15_3_0_copyload_pre;
arm_1:
        v3 = r84 == 0;
        if (v3) {
            v5 = 1;
            r9_6_0 = 0;
            r9_8_0 = 0;
            r9_10_0 = r6_15_0_0_copyload80;
            r9_12_0 = r6_15_0_0_copyload80;
        }
        else {
            uint32_t r32 = load32(r46);
            if (r6_15_3_0_copyload78 >= r32) {
                v5 = 0;
                r9_6_0 = r6_15_0_0_copyload80;
                r9_8_0 = 0;
                r9_10_0 = r6_15_2_0_copyload79;
                r9_12_0 = r6_15_2_0_copyload79;
            }
            else {
                uint32_t switch_load_2 = (uint32_t)switch_table_dfu_boot_c_trial_flash_prepared[(size_t)r6_10_0_3_0_copyload83];
                r19 = ((switch_load_2 + r6_15_0_0_copyload80) + (switch_load_2 * (r6_15_3_0_copyload78 + 1))) + umax32(r6_10_0_5_0_copyload84, switch_load_2);
                switch (r6_10_0_3_0_copyload83) {
                case 0:
                case 1:
                    v5 = 1;
                    r9_6_0 = r19;
                    r9_8_0 = 16;
                    r9_10_0 = r6_15_0_0_copyload80;
                    r9_12_0 = r6_15_2_0_copyload79;
                    break;
                case 2:
                    v5 = 1;
                    r9_6_0 = r19;
                    r9_8_0 = 64;
                    r9_10_0 = r6_15_0_0_copyload80;
                    r9_12_0 = r6_15_2_0_copyload79;
                    break;
                case 3:
                    v5 = 1;
                    r9_6_0 = r19;
                    r9_8_0 = 256;
                    r9_10_0 = r6_15_0_0_copyload80;
                    r9_12_0 = r6_15_2_0_copyload79;
                    break;
                default: never();
                }
            }
        }
        uint32_t switch_load_3 = (uint32_t)switch_table_dfu_boot_c_trial_flash_prepared[(size_t)r6_10_0_3_0_copyload83];
        uint32_t a0_a1_2 = umax32(r6_10_0_5_0_copyload84, switch_load_3);
        uint32_t r5_2 = a0_a1_2 << 1;
        unsigned char *r18_2 = (unsigned char *)(uintptr_t)r6_10_0_0_0_copyload82;
        uint32_t r3_1_0_copyload = load32u((r18_2 + (size_t)(a0_a1_2 + r9_10_0)) + 4);
        uint32_t r3_1_0_copyload_2 = load32u((r18_2 + (size_t)(a0_a1_2 + r9_12_0)) + 4);
        store32(a5, r5_2 + r9_10_0);
        store32(a5 + 4, r3_1_0_copyload);
        store32(a5 + 8, r5_2 + r9_12_0);
        store32(a5 + 12, r3_1_0_copyload_2);
        r47_2 = load32(a0 + 4);
        if (v3) {
            r7_0 = 0;
            goto join_4;
        }
        r17_3_0_a2_sroa_idx = a4 + 4;
        r17_4_0_a2_sroa_idx = a4 + 8;
        if (!v5) {
            store32(a4, 1);
            store32(r17_3_0_a2_sroa_idx, r9_6_0);
            store32(r17_4_0_a2_sroa_idx, r47_2);
            r7_0 = 0xfffffff5U;
            goto join_4;
        }
        store32(a4, 2);
        store32(r17_3_0_a2_sroa_idx, r9_6_0);
        store32(r17_4_0_a2_sroa_idx, r9_8_0);
        memset(a4 + 12, 0, 256);
        r7_0 = 0xfffffff5U;
        goto join_4;
    }
    uint8_t r1_5_2_copyload = r9[2];
    uint8_t r1_3_1_copyload = r9[1];
    r6_7_016 = r1_5_2_copyload;
    r6_4_015 = r1_3_1_copyload;
arm_2:
    switch (r6_4_015) {
    case 0:
        r7_0 = 0xfffffffeU;
        break;
    case 1:
        r7_0 = (uint32_t)0xfffffff0U - (uint32_t)r6_7_016;
        break;
    case 2:
        r7_0 = 0xfffffffdU;
        break;
    default: never();
    }
join_4:
    return r7_0;
}
#else
/* dfu_boot_c::trial::told::image_in::<#f31be65e8793cebb>: crates/dfu_boot_c/src/trial/told.rt */
static struct i32_i32 dfu_boot_c_trial_told_image_in(unsigned char *a0, uint32_t a1) {
    _Alignas(1) unsigned char r3[16];
    uint8_t r0_0_0_copyload = a0[16];
    uint32_t r1_0_0_copyload = load32(a0 + 20);
    uint32_t switch_load = (uint32_t)switch_table_dfu_boot_c_trial_flash_prepared[(size_t)r0_0_0_copyload];
    dfu_slots_read_header_of(r3, a0, a1);
    uint32_t r4_2_0_copyload = load32u(r3 + 4);
    struct i32_i32 r12_half = (struct i32_i32){ 0, 0 };
    r12_half.a = (umax32(r1_0_0_copyload, switch_load) << 1) + a1;
    struct i32_i32 r12 = r12_half;
    r12.b = r4_2_0_copyload;
    return r12;
}
#endif

#ifndef DFU_READ
/* dfu_core_trial_runs: crates/dfu_boot_c/src/trial/calls.rt */
int32_t dfu_core_trial_runs(const uint8_t *flash, size_t size, const struct dfu_ask *ask, const struct dfu_starting *starting, struct dfu_place *place) {
    unsigned char *a0 = (unsigned char *)(uintptr_t)flash;
    size_t a1 = (size_t)size;
    unsigned char *a2 = (unsigned char *)(uintptr_t)ask;
    unsigned char *a3 = (unsigned char *)(uintptr_t)starting;
    unsigned char *a4 = (unsigned char *)(uintptr_t)place;
    unsigned char *r4, *r3_0_0_in, *r3_0_0_in_2;
    size_t r18, r22, r3_6_0;
    r4 = (unsigned char *)((uintptr_t)a0 + (uintptr_t)(size_t)((a0 == NULL) ? 4096 : 0));
    uint32_t r8 = load32(a2);
    if (r8 != 2) r3_0_0_in_2 = a3;
    else {
        uint32_t r16 = load32(a2 + 4);
        r18 = (size_t)r16;
        uint32_t r20 = load32(a2 + 8);
        r22 = (size_t)r20;
        if (((uint64_t)r22 + (uint64_t)r18) <= (uint64_t)a1) {
            r3_6_0 = r22;
            r3_0_0_in = r4 + r18;
            while (r3_6_0 != 0) {
                uint8_t r3_0_0_copyload = *r3_0_0_in;
                if (r3_0_0_copyload != 255) {
                    r3_0_0_in_2 = a3;
                    goto dfu_boot_c_trial_calls_dfu_core_trial_runs_exit;
                }
                r3_6_0 = r3_6_0 - 1;
                r3_0_0_in = r3_0_0_in + 1;
            }
        }
        r3_0_0_in_2 = a3 + 8;
    }
dfu_boot_c_trial_calls_dfu_core_trial_runs_exit:;
    uint64_t r3_0_0 = load64a4(r3_0_0_in_2);
    store64a4(a4, r3_0_0);
    return signed32(0);
}
#else
/* dfu_boot_c::trial::again::start_from: crates/dfu_boot_c/src/trial/again.rt */
static uint32_t dfu_boot_c_trial_again_start_from(unsigned char *a0, unsigned char *a1, size_t a2, unsigned char *a3, unsigned char *a4, unsigned char *a5) {
    _Alignas(8) unsigned char r15[48];
    unsigned char *const r3_3 = r15;
    unsigned char *const r3 = r15;
    _Alignas(8) unsigned char r9[32];
    unsigned char *const r6_10_0 = r9;
    _Alignas(4) unsigned char r6_15[12];
    unsigned char *r7, *r46, *r17_3_0_a2_sroa_idx, *r17_4_0_a2_sroa_idx;
    uint8_t r8_not, r12, r27, r112, v5, v6, v8;
    uint32_t r3_4_0, r47, r48, r914, r4_0_0_extract_trunc, r4_4_0_extract_trunc, r11_15_0, r11_17_0, r8_3_4_copyload, r8_5_4_copyload, r8_6_4_copyload, r19;
    uint32_t r9_6_0, r9_8_0, r9_10_0, r9_12_0, r47_2, r7_0;
    uint8_t r11_9_0_0, r84, v3, v4, r6_7_016, r6_4_015;
    dfu_boot_c_trial_flash_prepared(r9, a0, a1, a2);
    uint8_t r1_0_0_copyload = *r9;
    if (r1_0_0_copyload != 0) {
        uint8_t r1_5_2_copyload = r9[2];
        uint8_t r1_3_1_copyload = r9[1];
        r6_7_016 = r1_5_2_copyload;
        r6_4_015 = r1_3_1_copyload;
    }
    else {
        r7 = r9 + 8;
        memcpy(r3, r7, 24);
        uint32_t r6 = load32(a3 + 16);
        r8_not = r6 == 0;
        if (r8_not) r3_4_0 = 0;
        else {
            uint32_t r13 = load32(a3 + 8);
            r3_4_0 = r13;
        }
        r46 = a0 + 8;
        r47 = load32(r46);
        r48 = load32(a3);
        uint8_t r59 = dfu_slots_layout_is_sized(r3);
        if (r59) {
            size_t r3_2 = load_size(r3 + 8);
            r914 = (uint32_t)r3_2 >> 1;
            uint8_t r0_0_0_copyload = r3[16];
            uint32_t r1_0_0_copyload_2 = load32(r3 + 20);
            uint32_t switch_load = (uint32_t)switch_table_dfu_boot_c_trial_flash_prepared[(size_t)r0_0_0_copyload];
            uint32_t r5 = umax32(r1_0_0_copyload_2, switch_load) << 1;
            r12 = r48 != r5;
            r27 = r48 != (r5 + r914);
            if (!(r12 & r27)) {
                uint64_t r15_5_0 = (uint64_t)(r12 ? (size_t)(uint32_t)(r27 ? 0 : r914) : ((uint64_t)(size_t)r914 << 32));
                r4_0_0_extract_trunc = (uint32_t)r15_5_0;
                r4_4_0_extract_trunc = (uint32_t)(size_t)(r15_5_0 >> 32);
                uint8_t r2 = dfu_slots_read_byte_at(r7, r4_0_0_extract_trunc);
                if (r2 == 165) {
                    uint8_t r2_2 = dfu_slots_read_byte_at(r7, r4_4_0_extract_trunc);
                    if (r2_2 == 165) {
                        uint8_t r32 = dfu_slots_read_generation(r7, r4_0_0_extract_trunc);
                        uint8_t r35 = dfu_slots_read_generation(r7, r4_4_0_extract_trunc);
                        if (r32 != (uint8_t)(r35 + 1)) goto arm_6;
                    }
                    r112 = dfu_boot_trial_marks_is_set(r7, r4_0_0_extract_trunc, 0);
                    if (!r112) {
                        uint8_t r2_3 = dfu_slots_read_byte_at(r7, r4_4_0_extract_trunc);
                        if (r2_3 == 165) {
                            uint8_t r138 = dfu_boot_trial_marks_is_set(r7, r4_4_0_extract_trunc, 0);
                            if (r138) {
                                if (r8_not) goto arm_6;
                                if (r3_4_0 != ((r48 - r4_0_0_extract_trunc) + r4_4_0_extract_trunc)) goto arm_6;
                                uint32_t r227 = dfu_boot_trial_marks_starts(r7, r47, r4_0_0_extract_trunc);
                                r11_9_0_0 = 1;
                                r11_15_0 = r4_4_0_extract_trunc;
                                r11_17_0 = r227;
                                goto arm_5;
                            }
                        }
                    }
                    r11_9_0_0 = 0;
                    r11_15_0 = (uint32_t)r112;
                    r11_17_0 = 0;
arm_5:
                    memcpy(r15 + 8, r7, 24);
                    store32(r15 + 36, r4_0_0_extract_trunc);
                    store32(r15 + 40, r11_15_0);
                    store32(r15 + 44, r11_17_0);
                    r84 = r11_9_0_0;
                    v3 = 0;
                    v4 = 0;
                    v5 = 1;
                    goto dfu_boot_c_trial_again_standing_from_earlier_look_exit;
                }
            }
        }
arm_6:
        dfu_boot_c_trial_flash_looked(r15, a0, a1, a2);
        uint8_t pre = *r15;
        uint8_t pre60 = r15[1];
        uint8_t pre61 = r15[2];
        uint8_t r84_pre = r15[32];
        r84 = r84_pre;
        v3 = pre61;
        v4 = pre60;
        v5 = pre == 0;
dfu_boot_c_trial_again_standing_from_earlier_look_exit:
        memcpy(r6_10_0, r15 + 8, 24);
        memcpy(r6_15, r15 + 36, 12);
        if (v5) {
            memcpy(r3_3, r6_10_0, 24);
            unsigned char *r24 = r3_3 + 28;
            memcpy(r24, r6_15, 12);
            r8_3_4_copyload = load32(r24);
            r8_5_4_copyload = load32(r3_3 + 32);
            r8_6_4_copyload = load32(r3_3 + 36);
            v6 = r84 == 0;
            if (v6) {
                v8 = 1;
                r9_6_0 = 0;
                r9_8_0 = 0;
                r9_10_0 = r8_3_4_copyload;
                r9_12_0 = r8_3_4_copyload;
            }
            else {
                uint32_t r32_2 = load32(r46);
                if (r8_6_4_copyload >= r32_2) {
                    v8 = 0;
                    r9_6_0 = r8_3_4_copyload;
                    r9_8_0 = 0;
                    r9_10_0 = r8_5_4_copyload;
                    r9_12_0 = r8_5_4_copyload;
                }
                else {
                    uint8_t r0_0_0_copyload_2 = r3_3[16];
                    uint32_t switch_load_2 = (uint32_t)switch_table_dfu_boot_c_trial_flash_prepared[(size_t)r0_0_0_copyload_2];
                    uint32_t r1_0_0_copyload_3 = load32(r3_3 + 20);
                    r19 = ((switch_load_2 + r8_3_4_copyload) + (switch_load_2 * (r8_6_4_copyload + 1))) + umax32(r1_0_0_copyload_3, switch_load_2);
                    switch (r0_0_0_copyload_2) {
                    case 0:
                    case 1:
                        v8 = 1;
                        r9_6_0 = r19;
                        r9_8_0 = 16;
                        r9_10_0 = r8_3_4_copyload;
                        r9_12_0 = r8_5_4_copyload;
                        break;
                    case 2:
                        v8 = 1;
                        r9_6_0 = r19;
                        r9_8_0 = 64;
                        r9_10_0 = r8_3_4_copyload;
                        r9_12_0 = r8_5_4_copyload;
                        break;
                    case 3:
                        v8 = 1;
                        r9_6_0 = r19;
                        r9_8_0 = 256;
                        r9_10_0 = r8_3_4_copyload;
                        r9_12_0 = r8_5_4_copyload;
                        break;
                    default: never();
                    }
                }
            }
            struct i32_i32 r6_2 = dfu_boot_c_trial_told_image_in(r3_3, r9_10_0);
            struct i32_i32 r12_2 = dfu_boot_c_trial_told_image_in(r3_3, r9_12_0);
            store32(a5, r6_2.a);
            store32(a5 + 4, r6_2.b);
            store32(a5 + 8, r12_2.a);
            store32(a5 + 12, r12_2.b);
            r47_2 = load32(a0 + 4);
            if (v6) {
                r7_0 = 0;
                goto join_4;
            }
            r17_3_0_a2_sroa_idx = a4 + 4;
            r17_4_0_a2_sroa_idx = a4 + 8;
            if (!v8) {
                store32(a4, 1);
                store32(r17_3_0_a2_sroa_idx, r9_6_0);
                store32(r17_4_0_a2_sroa_idx, r47_2);
                r7_0 = 0xfffffff5U;
                goto join_4;
            }
            store32(a4, 2);
            store32(r17_3_0_a2_sroa_idx, r9_6_0);
            store32(r17_4_0_a2_sroa_idx, r9_8_0);
            memset(a4 + 12, 0, 256);
            r7_0 = 0xfffffff5U;
            goto join_4;
        }
        r6_7_016 = v3;
        r6_4_015 = v4;
    }
    switch (r6_4_015) {
    case 0:
        r7_0 = 0xfffffffeU;
        break;
    case 1:
        r7_0 = (uint32_t)0xfffffff0U - (uint32_t)r6_7_016;
        break;
    case 2:
        r7_0 = 0xfffffffdU;
        break;
    default: never();
    }
join_4:
    return r7_0;
}
#endif

#ifndef DFU_READ
/* dfu_core_install_took: crates/dfu_boot_c/src/install/calls.rt */
int32_t dfu_core_install_took(struct dfu_run_area *area, const uint8_t *image, size_t length, const uint8_t *run, size_t size, const struct dfu_ask *ask, uint32_t failed) {
    unsigned char *a0 = (unsigned char *)(uintptr_t)area;
    unsigned char *a1 = (unsigned char *)(uintptr_t)image;
    size_t a2 = (size_t)length;
    unsigned char *a3 = (unsigned char *)(uintptr_t)run;
    size_t a4 = (size_t)size;
    unsigned char *a5 = (unsigned char *)(uintptr_t)ask;
    uint32_t a6 = failed;
    unsigned char *r4, *r13;
    uint32_t r10, r1_61_0, v3;
    uint8_t r1_0_0;
    size_t r10_3, v2, indvars_iv;
    uint64_t r18;
    r4 = (unsigned char *)((uintptr_t)a1 + (uintptr_t)(size_t)((a1 == NULL) ? 4096 : 0));
    r13 = (unsigned char *)((uintptr_t)a3 + (uintptr_t)(size_t)((a3 == NULL) ? 4096 : 0));
    r10 = load32(a0);
    uint32_t r4_2 = load32(a5);
    switch (r4_2) {
    case 1: {
        uint32_t r6 = load32(a5 + 4);
        r1_0_0 = 1;
        r1_61_0 = r6;
        break;
    }
    case 2: {
        uint32_t r10_2 = load32(a5 + 4);
        r1_0_0 = 2;
        r1_61_0 = r10_2;
        break;
    }
    default:
        r1_0_0 = 3;
        r1_61_0 = 0;
        break;
    }
    if (a6 != 0) v3 = 0xffffffffU;
    else {
        if (!((wide(a4) < 0x100000000ULL) & (((r10 - 1) < 0x40000U) & ((r10 & 255) == 0)))) v3 = 0xffffffffU;
        else {
            if (((uint32_t)a4 % r10) != 0) v3 = 0xffffffffU;
            else {
                switch (r1_0_0) {
                case 1:
                    r10_3 = (size_t)r1_61_0;
                    if (((uint64_t)r10_3 + (uint64_t)(size_t)r10) > (uint64_t)a4) {
                        v3 = 0xffffffffU;
                        goto dfu_boot_c_install_calls_dfu_core_install_took_exit;
                    }
                    v2 = (size_t)(r1_61_0 + r10);
                    indvars_iv = r10_3;
                    while (indvars_iv < v2) {
                        uint8_t r3_0_0_copyload = r13[indvars_iv];
                        if (r3_0_0_copyload != 255) {
                            v3 = 0xffffffffU;
                            goto dfu_boot_c_install_calls_dfu_core_install_took_exit;
                        }
                        indvars_iv = indvars_iv + 1;
                    }
                    break;
                case 2: {
                    r18 = (uint64_t)(size_t)r1_61_0 + 256;
                    if ((uint64_t)a4 < r18) {
                        v3 = 0xffffffffU;
                        goto dfu_boot_c_install_calls_dfu_core_install_took_exit;
                    }
                    struct i8_i32 r46 = dfu_boot_install_compare_first_difference(r4, r13, r1_61_0, (uint32_t)(size_t)umin64(a2, r18));
                    if (r46.a == 1) {
                        v3 = 0xffffffffU;
                        goto dfu_boot_c_install_calls_dfu_core_install_took_exit;
                    }
                    break;
                }
                case 3:
                    v3 = 0xffffffffU;
                    goto dfu_boot_c_install_calls_dfu_core_install_took_exit;
                default: never();
                }
                v3 = r1_61_0;
            }
        }
    }
dfu_boot_c_install_calls_dfu_core_install_took_exit:
    store32(a0 + 4, v3);
    return signed32(0);
}
#else
/* dfu_core_trial_runs: crates/dfu_boot_c/src/trial/calls.rt */
int32_t dfu_core_trial_runs(const uint8_t *flash, size_t size, const struct dfu_ask *ask, const struct dfu_starting *starting, struct dfu_place *place) {
    unsigned char *a0 = (unsigned char *)(uintptr_t)flash;
    size_t a1 = (size_t)size;
    unsigned char *a2 = (unsigned char *)(uintptr_t)ask;
    unsigned char *a3 = (unsigned char *)(uintptr_t)starting;
    unsigned char *a4 = (unsigned char *)(uintptr_t)place;
    unsigned char *r4, *r3_0_0_in, *r3_0_0_in_2;
    size_t r18, r22, r3_6_0;
    r4 = (unsigned char *)((uintptr_t)a0 + (uintptr_t)(size_t)((a0 == NULL) ? 4096 : 0));
    uint32_t r8 = load32(a2);
    if (r8 != 2) r3_0_0_in_2 = a3;
    else {
        uint32_t r16 = load32(a2 + 4);
        r18 = (size_t)r16;
        uint32_t r20 = load32(a2 + 8);
        r22 = (size_t)r20;
        if (((uint64_t)r22 + (uint64_t)r18) <= (uint64_t)a1) {
            r3_6_0 = r22;
            r3_0_0_in = r4 + r18;
            while (r3_6_0 != 0) {
                uint8_t r24 = dfu_slots_read_flash_byte_at(r3_0_0_in, 0);
                if (r24 != 255) {
                    r3_0_0_in_2 = a3;
                    goto dfu_boot_c_trial_calls_dfu_core_trial_runs_exit;
                }
                r3_6_0 = r3_6_0 - 1;
                r3_0_0_in = r3_0_0_in + 1;
            }
        }
        r3_0_0_in_2 = a3 + 8;
    }
dfu_boot_c_trial_calls_dfu_core_trial_runs_exit:;
    uint64_t r3_0_0 = load64a4(r3_0_0_in_2);
    store64a4(a4, r3_0_0);
    return signed32(0);
}
#endif

#ifndef DFU_READ
/* dfu_core_home_took: crates/dfu_boot_c/src/home/calls.rt */
int32_t dfu_core_home_took(struct dfu_home_record *record, const uint8_t *flash, size_t size, const struct dfu_ask *ask, uint32_t failed) {
    unsigned char *a0 = (unsigned char *)(uintptr_t)record;
    unsigned char *a1 = (unsigned char *)(uintptr_t)flash;
    size_t a2 = (size_t)size;
    unsigned char *a3 = (unsigned char *)(uintptr_t)ask;
    uint32_t a4 = failed;
    unsigned char *r4, *r14, *r11_2;
    uint32_t r13, r1_61_0, r1_9_0, r12, a1_2;
    uint8_t r1_0_0;
    size_t r49, v1, indvars_iv, r96, r98;
    r4 = (unsigned char *)((uintptr_t)a1 + (uintptr_t)(size_t)((a1 == NULL) ? 4096 : 0));
    r13 = load32(a3 + 8);
    uint32_t r5 = load32(a3);
    switch (r5) {
    case 1: {
        uint32_t r7 = load32(a3 + 4);
        r1_0_0 = 2;
        r1_61_0 = r7;
        r1_9_0 = 0;
        break;
    }
    case 2: {
        uint32_t r11 = load32(a3 + 4);
        r1_0_0 = 3;
        r1_61_0 = r11;
        r1_9_0 = r13;
        break;
    }
    default:
        r1_0_0 = 1;
        r1_61_0 = 0;
        r1_9_0 = 0;
        break;
    }
    r14 = a3 + 12;
    r11_2 = a0 + 4;
    r12 = load32(r11_2);
    if (!((wide(a2) > 0xffffffffU) | (a4 != 0))) {
        switch (r1_0_0) {
        case 2:
            r49 = (size_t)r1_61_0;
            if ((r13 != 0) ? (((uint64_t)r49 + (uint64_t)(size_t)r13) <= (uint64_t)a2) : 0) {
                v1 = (size_t)(r1_61_0 + r13);
                indvars_iv = r49;
                for (;;) {
                    if (indvars_iv >= v1) {
                        a1_2 = r1_61_0;
                        goto dfu_boot_c_home_calls_dfu_core_home_took_exit;
                    }
                    uint8_t r3_0_0_copyload = r4[indvars_iv];
                    if (r3_0_0_copyload != 255) break;
                    indvars_iv = indvars_iv + 1;
                }
            }
            break;
        case 3:
            if ((r1_9_0 - 257) >= 0xffffff00U) {
                r96 = (size_t)r1_61_0;
                r98 = (size_t)r1_9_0;
                if ((uint64_t)a2 >= ((uint64_t)r98 + (uint64_t)r96)) {
                    uint8_t r145 = dfu_home_bytes_are_same(r4 + r96, r98, r14);
                    if (r145) {
                        a1_2 = r1_61_0;
                        goto dfu_boot_c_home_calls_dfu_core_home_took_exit;
                    }
                }
            }
            break;
        case 1: break;
        default: never();
        }
    }
    a1_2 = 0xffffffffU;
dfu_boot_c_home_calls_dfu_core_home_took_exit:
    store32(a0, a1_2);
    store32(r11_2, uadd_sat32(r12, 1));
    return signed32(0);
}
#else
/* dfu_core_install_took: crates/dfu_boot_c/src/install/calls.rt */
int32_t dfu_core_install_took(struct dfu_run_area *area, const uint8_t *image, size_t length, const uint8_t *run, size_t size, const struct dfu_ask *ask, uint32_t failed) {
    unsigned char *a0 = (unsigned char *)(uintptr_t)area;
    unsigned char *a1 = (unsigned char *)(uintptr_t)image;
    size_t a2 = (size_t)length;
    unsigned char *a3 = (unsigned char *)(uintptr_t)run;
    size_t a4 = (size_t)size;
    unsigned char *a5 = (unsigned char *)(uintptr_t)ask;
    uint32_t a6 = failed;
    unsigned char *r4, *r13;
    uint32_t r10, r1_61_0, v3;
    uint8_t r1_0_0;
    uint64_t r18;
    r4 = (unsigned char *)((uintptr_t)a1 + (uintptr_t)(size_t)((a1 == NULL) ? 4096 : 0));
    r13 = (unsigned char *)((uintptr_t)a3 + (uintptr_t)(size_t)((a3 == NULL) ? 4096 : 0));
    r10 = load32(a0);
    uint32_t r4_2 = load32(a5);
    switch (r4_2) {
    case 1: {
        uint32_t r6 = load32(a5 + 4);
        r1_0_0 = 1;
        r1_61_0 = r6;
        break;
    }
    case 2: {
        uint32_t r10_2 = load32(a5 + 4);
        r1_0_0 = 2;
        r1_61_0 = r10_2;
        break;
    }
    default:
        r1_0_0 = 3;
        r1_61_0 = 0;
        break;
    }
    if (a6 != 0) v3 = 0xffffffffU;
    else {
        if (!((wide(a4) < 0x100000000ULL) & (((r10 - 1) < 0x40000U) & ((r10 & 255) == 0)))) v3 = 0xffffffffU;
        else {
            if (((uint32_t)a4 % r10) != 0) v3 = 0xffffffffU;
            else {
                switch (r1_0_0) {
                case 1: {
                    if (((uint64_t)(size_t)r1_61_0 + (uint64_t)(size_t)r10) > (uint64_t)a4) {
                        v3 = 0xffffffffU;
                        goto dfu_boot_c_install_calls_dfu_core_install_took_exit;
                    }
                    uint8_t r29 = dfu_boot_install_area_are_blank(r13, r1_61_0, r1_61_0 + r10);
                    if (!r29) {
                        v3 = 0xffffffffU;
                        goto dfu_boot_c_install_calls_dfu_core_install_took_exit;
                    }
                    break;
                }
                case 2: {
                    r18 = (uint64_t)(size_t)r1_61_0 + 256;
                    if ((uint64_t)a4 < r18) {
                        v3 = 0xffffffffU;
                        goto dfu_boot_c_install_calls_dfu_core_install_took_exit;
                    }
                    struct i8_i32 r46 = dfu_boot_install_compare_first_difference(r4, r13, r1_61_0, (uint32_t)(size_t)umin64(a2, r18));
                    if (r46.a == 1) {
                        v3 = 0xffffffffU;
                        goto dfu_boot_c_install_calls_dfu_core_install_took_exit;
                    }
                    break;
                }
                case 3:
                    v3 = 0xffffffffU;
                    goto dfu_boot_c_install_calls_dfu_core_install_took_exit;
                default: never();
                }
                v3 = r1_61_0;
            }
        }
    }
dfu_boot_c_install_calls_dfu_core_install_took_exit:
    store32(a0 + 4, v3);
    return signed32(0);
}

/* dfu_core_home_took: crates/dfu_boot_c/src/home/calls.rt */
int32_t dfu_core_home_took(struct dfu_home_record *record, const uint8_t *flash, size_t size, const struct dfu_ask *ask, uint32_t failed) {
    unsigned char *a0 = (unsigned char *)(uintptr_t)record;
    unsigned char *a1 = (unsigned char *)(uintptr_t)flash;
    size_t a2 = (size_t)size;
    unsigned char *a3 = (unsigned char *)(uintptr_t)ask;
    uint32_t a4 = failed;
    unsigned char *r4, *r14, *r11_2;
    uint32_t r13, r1_61_0, r1_9_0, r12, a1_2;
    uint8_t r1_0_0;
    size_t r96, r98;
    r4 = (unsigned char *)((uintptr_t)a1 + (uintptr_t)(size_t)((a1 == NULL) ? 4096 : 0));
    r13 = load32(a3 + 8);
    uint32_t r5 = load32(a3);
    switch (r5) {
    case 1: {
        uint32_t r7 = load32(a3 + 4);
        r1_0_0 = 2;
        r1_61_0 = r7;
        r1_9_0 = 0;
        break;
    }
    case 2: {
        uint32_t r11 = load32(a3 + 4);
        r1_0_0 = 3;
        r1_61_0 = r11;
        r1_9_0 = r13;
        break;
    }
    default:
        r1_0_0 = 1;
        r1_61_0 = 0;
        r1_9_0 = 0;
        break;
    }
    r14 = a3 + 12;
    r11_2 = a0 + 4;
    r12 = load32(r11_2);
    if (!((wide(a2) > 0xffffffffU) | (a4 != 0))) {
        switch (r1_0_0) {
        case 2:
            if ((r13 != 0) ? (((uint64_t)(size_t)r1_61_0 + (uint64_t)(size_t)r13) <= (uint64_t)a2) : 0) {
                uint8_t r73 = dfu_boot_install_area_are_blank(r4, r1_61_0, r1_61_0 + r13);
                if (r73) {
                    a1_2 = r1_61_0;
                    goto dfu_boot_c_home_calls_dfu_core_home_took_exit;
                }
            }
            break;
        case 3:
            if ((r1_9_0 - 257) >= 0xffffff00U) {
                r96 = (size_t)r1_61_0;
                r98 = (size_t)r1_9_0;
                if ((uint64_t)a2 >= ((uint64_t)r98 + (uint64_t)r96)) {
                    uint8_t r145 = dfu_home_bytes_are_same(r4 + r96, r98, r14);
                    if (r145) {
                        a1_2 = r1_61_0;
                        goto dfu_boot_c_home_calls_dfu_core_home_took_exit;
                    }
                }
            }
            break;
        case 1: break;
        default: never();
        }
    }
    a1_2 = 0xffffffffU;
dfu_boot_c_home_calls_dfu_core_home_took_exit:
    store32(a0, a1_2);
    store32(r11_2, uadd_sat32(r12, 1));
    return signed32(0);
}
#endif

/* dfu_core_home_may_download: crates/dfu_boot_c/src/home/calls.rt */
int32_t dfu_core_home_may_download(const struct dfu_config *config, const uint8_t *flash, size_t size) {
    unsigned char *a0 = (unsigned char *)(uintptr_t)config;
    unsigned char *a1 = (unsigned char *)(uintptr_t)flash;
    size_t a2 = (size_t)size;
    _Alignas(8) unsigned char r5[32];
    uint32_t r6_0;
    dfu_boot_c_home_flash_medium(r5, a0, (unsigned char *)((uintptr_t)a1 + (uintptr_t)(size_t)((a1 == NULL) ? 4096 : 0)), a2);
    uint8_t r14 = *r5;
    if (r14 == 0) {
        struct i8_i8 r17 = dfu_home_asking_is_home(r5 + 8);
        r6_0 = (uint32_t)((r17.a == 1) ? (uint32_t)r17.b : 0xfffffffdU);
    }
    else {
        uint8_t r4_0_0_copyload = r5[1];
        switch (r4_0_0_copyload) {
        case 0:
            r6_0 = 0xfffffffeU;
            break;
        case 1: {
            uint8_t r4_3_1_copyload = r5[2];
            r6_0 = (uint32_t)0xfffffff0U - (uint32_t)r4_3_1_copyload;
            break;
        }
        case 2:
            r6_0 = 0xfffffffdU;
            break;
        default: never();
        }
    }
    return signed32(r6_0);
}

#ifndef DFU_READ
/* dfu_core_home_next: crates/dfu_boot_c/src/home/calls.rt */
int32_t dfu_core_home_next(const struct dfu_config *config, const struct dfu_home_record *record, const uint8_t *flash, size_t size, struct dfu_ask *ask) {
    unsigned char *a0 = (unsigned char *)(uintptr_t)config;
    unsigned char *a1 = (unsigned char *)(uintptr_t)record;
    unsigned char *a2 = (unsigned char *)(uintptr_t)flash;
    size_t a3 = (size_t)size;
    unsigned char *a4 = (unsigned char *)(uintptr_t)ask;
    _Alignas(8) unsigned char r10[32];
    _Alignas(8) unsigned char r3[24];
    unsigned char *const r14 = r3;
    unsigned char *const r12_3 = r3;
    unsigned char *r4, *r22, *r31, *r18, *r35;
    uint8_t r3_2;
    uint32_t a0_2, r12, r1_0_0_copyload, r5, r116, r5_4_0_copyload, r10_2, v10, v11, r12_118_025, common_ret_op;
    uint8_t r14_0_0_0_extract_trunc, v7;
    struct i8_i8 r15;
    size_t r3_4, r47;
    r4 = (unsigned char *)((uintptr_t)a2 + (uintptr_t)(size_t)((a2 == NULL) ? 4096 : 0));
    dfu_boot_c_home_flash_medium(r10, a0, r4, a3);
    uint8_t r21 = *r10;
    if (r21 != 0) {
        uint8_t r5_0_0_copyload = r10[1];
        switch (r5_0_0_copyload) {
        case 0:
            common_ret_op = 0xfffffffeU;
            break;
        case 1: {
            uint8_t r5_3_1_copyload = r10[2];
            common_ret_op = (uint32_t)0xfffffff0U - (uint32_t)r5_3_1_copyload;
            break;
        }
        case 2:
            common_ret_op = 0xfffffffdU;
            break;
        default: never();
        }
    }
    else {
        r22 = r10 + 8;
        memcpy(r3, r22, 24);
        uint32_t r4_2 = load32(a1);
        r3_2 = r4_2 != 0xffffffffU;
        a0_2 = (uint32_t)(r3_2 ? r4_2 : 0);
        r12 = load32(a1 + 4);
        r14_0_0_0_extract_trunc = r3_2;
        r31 = a4 + 12;
        r1_0_0_copyload = load32(r3 + 20);
        if (r1_0_0_copyload == 0) common_ret_op = 0xfffffff0U;
        else {
            uint8_t r30 = dfu_slots_layout_is_sized(r3);
            if (!r30) common_ret_op = 0xfffffffdU;
            else {
                size_t r3_0_0_copyload = load_size(r3);
                r18 = (unsigned char *)(uintptr_t)r3_0_0_copyload;
                uint8_t r1_0_0_copyload_2 = *r18;
                if (r1_0_0_copyload_2 != 165) {
                    if (r12 == 0) {
                        struct i8_i8 r12_2 = dfu_home_asking_is_home(r22);
                        if (r12_2.a != 1) {
                            common_ret_op = 0xfffffffdU;
                            goto dfu_boot_c_home_calls_dfu_core_home_next_exit;
                        }
                    }
                    r3_4 = load_size(r3 + 8);
                    r5 = (uint32_t)r3_4;
                    r116 = r5 >> 1;
                    uint8_t r1_0_0_copyload_3 = r18[(size_t)r116];
                    if (r1_0_0_copyload_3 != 165) {
                        common_ret_op = 0xfffffffdU;
                        goto dfu_boot_c_home_calls_dfu_core_home_next_exit;
                    }
                    uint8_t r0_0_0_copyload = r10[24];
                    uint32_t r1_0_0_copyload_4 = load32(r10 + 28);
                    uint32_t switch_load = (uint32_t)switch_table_dfu_boot_c_trial_flash_prepared[(size_t)r0_0_0_copyload];
                    size_t r3_0_0_copyload_2 = load_size(r22);
                    r5_4_0_copyload = load32u(((unsigned char *)(uintptr_t)r3_0_0_copyload_2 + (size_t)(umax32(r1_0_0_copyload_4, switch_load) + r116)) + 4);
                    uint8_t r0_0_0_copyload_2 = r3[16];
                    uint32_t switch_load_2 = (uint32_t)switch_table_dfu_boot_c_trial_flash_prepared[(size_t)r0_0_0_copyload_2];
                    r10_2 = umax32(r1_0_0_copyload, switch_load_2) << 1;
                    if ((r116 - r10_2) < r5_4_0_copyload) {
                        common_ret_op = 0xfffffffdU;
                        goto dfu_boot_c_home_calls_dfu_core_home_next_exit;
                    }
                    if ((r5 >> 7) <= r12) {
                        common_ret_op = 0xfffffff8U;
                        goto dfu_boot_c_home_calls_dfu_core_home_next_exit;
                    }
                    store64(r12_3, 0);
                    size_t r18_2 = (size_t)r10_2;
                    r35 = r4 + (size_t)(r10_2 + r116);
                    r47 = (size_t)r5_4_0_copyload;
                    dfu_boot_install_deciding_next(r12_3, r35, r47, r4 + r18_2, (uint64_t)((r3_4 >> 1) & 0x7fffffffU) - (uint64_t)r18_2, r1_0_0_copyload, r3_2 & (a0_2 >= r10_2), (uint32_t)(r3_2 ? usub_sat32(a0_2, r10_2) : 0));
                    uint8_t r57 = *r12_3;
                    switch (r57) {
                    case 1: {
                        uint32_t r59 = load32(r12_3 + 4);
                        r12_118_025 = r59 + r10_2;
                        goto arm_7;
                    }
                    case 2: {
                        uint32_t r66 = load32(r12_3 + 4);
                        size_t a1_a0 = (size_t)umin32(r5_4_0_copyload, r66);
                        memset(r31, 255, 256);
                        memmove(r31, r35 + a1_a0, (size_t)umin64((uint64_t)r47 - (uint64_t)a1_a0, 256));
                        v10 = 256;
                        v11 = r66 + r10_2;
                        goto arm_8;
                    }
                    case 3: break;
                    case 0: {
                        uint8_t r89 = r12_3[1];
                        if (r89 != 1) trap();
                        break;
                    }
                    default: never();
                    }
                    dfu_home_copying_head(r14, r22, r4, r35, r47, r14_0_0_0_extract_trunc, a0_2, r31);
                    uint8_t pr = *r14;
                    v7 = r14[1];
                    uint32_t v8 = load32(r14 + 4);
                    uint32_t v9 = load32(r14 + 8);
                    switch (pr) {
                    case 0: {
                        uint32_t switch_load_3 = (uint32_t)switch_table_dfu_core_home_next[(size_t)v7];
                        common_ret_op = switch_load_3;
                        goto dfu_boot_c_home_calls_dfu_core_home_next_exit;
                    }
                    case 1:
                        common_ret_op = 0;
                        goto dfu_boot_c_home_calls_dfu_core_home_next_exit;
                    case 2:
                        r12_118_025 = v8;
                        goto arm_7;
                    case 3:
                        v10 = v9;
                        v11 = v8;
                        break;
                    default: never();
                    }
arm_8:
                    store32(a4, 2);
                    store32(a4 + 4, v11);
                    store32(a4 + 8, v10);
                    common_ret_op = 0xfffffff5U;
                    goto dfu_boot_c_home_calls_dfu_core_home_next_exit;
                }
                r15 = dfu_home_asking_is_home(r22);
                if (r15.a == 0) {
                    common_ret_op = 0xfffffffdU;
                    goto dfu_boot_c_home_calls_dfu_core_home_next_exit;
                }
                if (r15.b & 1) {
                    common_ret_op = 0;
                    goto dfu_boot_c_home_calls_dfu_core_home_next_exit;
                }
                size_t r3_3 = load_size(r3 + 8);
                if (((uint32_t)r3_3 >> 7) <= r12) {
                    common_ret_op = 0xfffffff8U;
                    goto dfu_boot_c_home_calls_dfu_core_home_next_exit;
                }
                r12_118_025 = 0;
arm_7:
                store32(a4, 1);
                store32(a4 + 4, r12_118_025);
                uint32_t r46 = load32(a0 + 32);
                store32(a4 + 8, r46);
                common_ret_op = 0xfffffff5U;
            }
        }
    }
dfu_boot_c_home_calls_dfu_core_home_next_exit:
    return signed32(common_ret_op);
}
#else
/* dfu_core_home_next: crates/dfu_boot_c/src/home/calls.rt */
int32_t dfu_core_home_next(const struct dfu_config *config, const struct dfu_home_record *record, const uint8_t *flash, size_t size, struct dfu_ask *ask) {
    unsigned char *a0 = (unsigned char *)(uintptr_t)config;
    unsigned char *a1 = (unsigned char *)(uintptr_t)record;
    unsigned char *a2 = (unsigned char *)(uintptr_t)flash;
    size_t a3 = (size_t)size;
    unsigned char *a4 = (unsigned char *)(uintptr_t)ask;
    _Alignas(8) unsigned char r10[32];
    _Alignas(8) unsigned char r3[24];
    unsigned char *const r13 = r3;
    unsigned char *const r14 = r3;
    _Alignas(8) unsigned char r5_2[16];
    unsigned char *const r12_3 = r5_2;
    unsigned char *r4, *r22, *r31, *r35;
    uint8_t r3_2;
    uint32_t a0_2, r12, r1_0_0_copyload, r5, r116, r10_2, v8, v9, r12_118_025, common_ret_op;
    uint8_t r14_0_0_0_extract_trunc, v5;
    struct i8_i8 r15;
    size_t r3_4, r47;
    r4 = (unsigned char *)((uintptr_t)a2 + (uintptr_t)(size_t)((a2 == NULL) ? 4096 : 0));
    dfu_boot_c_home_flash_medium(r10, a0, r4, a3);
    uint8_t r21 = *r10;
    if (r21 != 0) {
        uint8_t r5_0_0_copyload = r10[1];
        switch (r5_0_0_copyload) {
        case 0:
            common_ret_op = 0xfffffffeU;
            break;
        case 1: {
            uint8_t r5_3_1_copyload = r10[2];
            common_ret_op = (uint32_t)0xfffffff0U - (uint32_t)r5_3_1_copyload;
            break;
        }
        case 2:
            common_ret_op = 0xfffffffdU;
            break;
        default: never();
        }
    }
    else {
        r22 = r10 + 8;
        memcpy(r3, r22, 24);
        uint32_t r4_2 = load32(a1);
        r3_2 = r4_2 != 0xffffffffU;
        a0_2 = (uint32_t)(r3_2 ? r4_2 : 0);
        r12 = load32(a1 + 4);
        r14_0_0_0_extract_trunc = r3_2;
        r31 = a4 + 12;
        r1_0_0_copyload = load32(r3 + 20);
        if (r1_0_0_copyload == 0) common_ret_op = 0xfffffff0U;
        else {
            uint8_t r30 = dfu_slots_layout_is_sized(r3);
            if (!r30) common_ret_op = 0xfffffffdU;
            else {
                uint8_t r2 = dfu_slots_read_byte_at(r22, 0);
                if (r2 != 165) {
                    if (r12 == 0) {
                        struct i8_i8 r12_2 = dfu_home_asking_is_home(r22);
                        if (r12_2.a != 1) {
                            common_ret_op = 0xfffffffdU;
                            goto dfu_boot_c_home_calls_dfu_core_home_next_exit;
                        }
                    }
                    r3_4 = load_size(r3 + 8);
                    r5 = (uint32_t)r3_4;
                    r116 = r5 >> 1;
                    uint8_t r2_2 = dfu_slots_read_byte_at(r22, r116);
                    if (r2_2 != 165) {
                        common_ret_op = 0xfffffffdU;
                        goto dfu_boot_c_home_calls_dfu_core_home_next_exit;
                    }
                    dfu_slots_read_header_of(r5_2, r22, r116);
                    uint32_t r6_2_0_copyload = load32u(r5_2 + 4);
                    uint8_t r0_0_0_copyload = r3[16];
                    uint32_t switch_load = (uint32_t)switch_table_dfu_boot_c_trial_flash_prepared[(size_t)r0_0_0_copyload];
                    r10_2 = umax32(r1_0_0_copyload, switch_load) << 1;
                    if ((r116 - r10_2) < r6_2_0_copyload) {
                        common_ret_op = 0xfffffffdU;
                        goto dfu_boot_c_home_calls_dfu_core_home_next_exit;
                    }
                    if ((r5 >> 7) <= r12) {
                        common_ret_op = 0xfffffff8U;
                        goto dfu_boot_c_home_calls_dfu_core_home_next_exit;
                    }
                    store64(r12_3, 0);
                    size_t r18 = (size_t)r10_2;
                    r35 = r4 + (size_t)(r10_2 + r116);
                    dfu_slots_read_header_of(r13, r22, r116);
                    uint32_t r14_2_0_copyload = load32u(r13 + 4);
                    r47 = (size_t)r14_2_0_copyload;
                    dfu_boot_install_deciding_next(r12_3, r35, r47, r4 + r18, (uint64_t)((r3_4 >> 1) & 0x7fffffffU) - (uint64_t)r18, r1_0_0_copyload, r3_2 & (a0_2 >= r10_2), (uint32_t)(r3_2 ? usub_sat32(a0_2, r10_2) : 0));
                    uint8_t r57 = *r12_3;
                    switch (r57) {
                    case 1: {
                        uint32_t r59 = load32(r12_3 + 4);
                        r12_118_025 = r59 + r10_2;
                        goto arm_7;
                    }
                    case 2: {
                        uint32_t r66 = load32(r12_3 + 4);
                        dfu_boot_install_pieces_piece(r35, r47, r66, r31);
                        v8 = 256;
                        v9 = r66 + r10_2;
                        goto arm_8;
                    }
                    case 3: break;
                    case 0: {
                        uint8_t r89 = r12_3[1];
                        if (r89 != 1) trap();
                        break;
                    }
                    default: never();
                    }
                    dfu_home_copying_head(r14, r22, r4, r35, r47, r14_0_0_0_extract_trunc, a0_2, r31);
                    uint8_t pr = *r14;
                    v5 = r14[1];
                    uint32_t v6 = load32(r14 + 4);
                    uint32_t v7 = load32(r14 + 8);
                    switch (pr) {
                    case 0: {
                        uint32_t switch_load_2 = (uint32_t)switch_table_dfu_core_home_next[(size_t)v5];
                        common_ret_op = switch_load_2;
                        goto dfu_boot_c_home_calls_dfu_core_home_next_exit;
                    }
                    case 1:
                        common_ret_op = 0;
                        goto dfu_boot_c_home_calls_dfu_core_home_next_exit;
                    case 2:
                        r12_118_025 = v6;
                        goto arm_7;
                    case 3:
                        v8 = v7;
                        v9 = v6;
                        break;
                    default: never();
                    }
arm_8:
                    store32(a4, 2);
                    store32(a4 + 4, v9);
                    store32(a4 + 8, v8);
                    common_ret_op = 0xfffffff5U;
                    goto dfu_boot_c_home_calls_dfu_core_home_next_exit;
                }
                r15 = dfu_home_asking_is_home(r22);
                if (r15.a == 0) {
                    common_ret_op = 0xfffffffdU;
                    goto dfu_boot_c_home_calls_dfu_core_home_next_exit;
                }
                if (r15.b & 1) {
                    common_ret_op = 0;
                    goto dfu_boot_c_home_calls_dfu_core_home_next_exit;
                }
                size_t r3_3 = load_size(r3 + 8);
                if (((uint32_t)r3_3 >> 7) <= r12) {
                    common_ret_op = 0xfffffff8U;
                    goto dfu_boot_c_home_calls_dfu_core_home_next_exit;
                }
                r12_118_025 = 0;
arm_7:
                store32(a4, 1);
                store32(a4 + 4, r12_118_025);
                uint32_t r46 = load32(a0 + 32);
                store32(a4 + 8, r46);
                common_ret_op = 0xfffffff5U;
            }
        }
    }
dfu_boot_c_home_calls_dfu_core_home_next_exit:
    return signed32(common_ret_op);
}
#endif

#ifndef DFU_READ
/* dfu_core_trial_look: crates/dfu_boot_c/src/trial/calls.rt */
int32_t dfu_core_trial_look(const struct dfu_tries *tries, const uint8_t *flash, size_t size, struct dfu_standing *standing) {
    unsigned char *a0 = (unsigned char *)(uintptr_t)tries;
    unsigned char *a1 = (unsigned char *)(uintptr_t)flash;
    size_t a2 = (size_t)size;
    unsigned char *a3 = (unsigned char *)(uintptr_t)standing;
    _Alignas(8) unsigned char r5[48];
    size_t r3_0_0_copyload;
    uint8_t r3_637_0_copyload;
    uint32_t r3_938_0_copyload, r3_1241_28_copyload, r3_14_28_copyload, r9_0_0_0, r9_0_4_0, r9_5_0_0, r9_5_4_0, r9_8_0, r9_10_0, r9_12_0, r6_0;
    dfu_boot_c_trial_flash_looked(r5, a0, (unsigned char *)((uintptr_t)a1 + (uintptr_t)(size_t)((a1 == NULL) ? 4096 : 0)), a2);
    uint8_t r14 = *r5;
    if (r14 != 0) {
        uint8_t r4_0_0_copyload = r5[1];
        switch (r4_0_0_copyload) {
        case 0:
            r6_0 = 0xfffffffeU;
            break;
        case 1: {
            uint8_t r4_3_1_copyload = r5[2];
            r6_0 = (uint32_t)0xfffffff0U - (uint32_t)r4_3_1_copyload;
            break;
        }
        case 2:
            r6_0 = 0xfffffffdU;
            break;
        default: never();
        }
    }
    else {
        r3_0_0_copyload = load_size(r5 + 8);
        r3_637_0_copyload = r5[24];
        r3_938_0_copyload = load32(r5 + 28);
        uint8_t r18 = r5[32];
        r3_1241_28_copyload = load32(r5 + 36);
        r3_14_28_copyload = load32(r5 + 40);
        if (r18 == 0) {
            uint32_t switch_load = (uint32_t)switch_table_dfu_boot_c_trial_flash_prepared[(size_t)r3_637_0_copyload];
            uint32_t a0_a1 = umax32(r3_938_0_copyload, switch_load);
            uint32_t r7 = (a0_a1 << 1) + r3_1241_28_copyload;
            uint32_t r3_1_0_copyload = load32u(((unsigned char *)(uintptr_t)r3_0_0_copyload + (size_t)(a0_a1 + r3_1241_28_copyload)) + 4);
            r9_0_0_0 = r7;
            r9_0_4_0 = r3_1_0_copyload;
            r9_5_0_0 = r7;
            r9_5_4_0 = r3_1_0_copyload;
            r9_8_0 = 0;
            r9_10_0 = 0;
            r9_12_0 = r3_14_28_copyload & 1;
        }
        else {
            uint32_t r3_15_28_copyload = load32(r5 + 44);
            uint32_t r23 = load32(a0 + 8);
            uint32_t switch_load_2 = (uint32_t)switch_table_dfu_boot_c_trial_flash_prepared[(size_t)r3_637_0_copyload];
            uint32_t a0_a1_2 = umax32(r3_938_0_copyload, switch_load_2);
            uint32_t r5_2 = a0_a1_2 << 1;
            unsigned char *r18_2 = (unsigned char *)(uintptr_t)r3_0_0_copyload;
            uint32_t r3_1_0_copyload_2 = load32u((r18_2 + (size_t)(a0_a1_2 + r3_1241_28_copyload)) + 4);
            uint32_t r3_1_0_copyload_3 = load32u((r18_2 + (size_t)(a0_a1_2 + r3_14_28_copyload)) + 4);
            r9_0_0_0 = r5_2 + r3_1241_28_copyload;
            r9_0_4_0 = r3_1_0_copyload_2;
            r9_5_0_0 = r5_2 + r3_14_28_copyload;
            r9_5_4_0 = r3_1_0_copyload_3;
            r9_8_0 = 1;
            r9_10_0 = r23 - r3_15_28_copyload;
            r9_12_0 = 0;
        }
        store64a4(a3, ((uint64_t)(size_t)r9_0_4_0 << 32) | (uint64_t)(size_t)r9_0_0_0);
        store64a4(a3 + 8, ((uint64_t)(size_t)r9_5_4_0 << 32) | (uint64_t)(size_t)r9_5_0_0);
        store32(a3 + 16, r9_8_0);
        store32(a3 + 20, r9_10_0);
        store32(a3 + 24, r9_12_0);
        r6_0 = 0;
    }
    return signed32(r6_0);
}
#else
/* dfu_core_trial_look: crates/dfu_boot_c/src/trial/calls.rt */
int32_t dfu_core_trial_look(const struct dfu_tries *tries, const uint8_t *flash, size_t size, struct dfu_standing *standing) {
    unsigned char *a0 = (unsigned char *)(uintptr_t)tries;
    unsigned char *a1 = (unsigned char *)(uintptr_t)flash;
    size_t a2 = (size_t)size;
    unsigned char *a3 = (unsigned char *)(uintptr_t)standing;
    _Alignas(8) unsigned char r5[48];
    _Alignas(8) unsigned char r3[40];
    uint32_t r10_3_4_copyload, r10_5_4_copyload, r9_0_0_0, r9_0_4_0, r9_5_0_0, r9_5_4_0, r9_8_0, r9_10_0, r9_12_0, r6_0;
    dfu_boot_c_trial_flash_looked(r5, a0, (unsigned char *)((uintptr_t)a1 + (uintptr_t)(size_t)((a1 == NULL) ? 4096 : 0)), a2);
    uint8_t r14 = *r5;
    if (r14 != 0) {
        uint8_t r4_0_0_copyload = r5[1];
        switch (r4_0_0_copyload) {
        case 0:
            r6_0 = 0xfffffffeU;
            break;
        case 1: {
            uint8_t r4_3_1_copyload = r5[2];
            r6_0 = (uint32_t)0xfffffff0U - (uint32_t)r4_3_1_copyload;
            break;
        }
        case 2:
            r6_0 = 0xfffffffdU;
            break;
        default: never();
        }
    }
    else {
        memcpy(r3, r5 + 8, 24);
        uint8_t r18 = r5[32];
        unsigned char *r20 = r3 + 28;
        memcpy(r20, r5 + 36, 12);
        r10_3_4_copyload = load32(r20);
        r10_5_4_copyload = load32(r3 + 32);
        if (r18 == 0) {
            struct i32_i32 r31 = dfu_boot_c_trial_told_image_in(r3, r10_3_4_copyload);
            uint32_t r32 = r31.a;
            uint32_t r33 = r31.b;
            r9_0_0_0 = r32;
            r9_0_4_0 = r33;
            r9_5_0_0 = r32;
            r9_5_4_0 = r33;
            r9_8_0 = 0;
            r9_10_0 = 0;
            r9_12_0 = r10_5_4_copyload & 1;
        }
        else {
            uint32_t r10_6_4_copyload = load32(r3 + 36);
            uint32_t r23 = load32(a0 + 8);
            struct i32_i32 r51 = dfu_boot_c_trial_told_image_in(r3, r10_3_4_copyload);
            struct i32_i32 r59 = dfu_boot_c_trial_told_image_in(r3, r10_5_4_copyload);
            r9_0_0_0 = r51.a;
            r9_0_4_0 = r51.b;
            r9_5_0_0 = r59.a;
            r9_5_4_0 = r59.b;
            r9_8_0 = 1;
            r9_10_0 = r23 - r10_6_4_copyload;
            r9_12_0 = 0;
        }
        store64a4(a3, (size_t)((uint64_t)(size_t)r9_0_4_0 << 32) | (size_t)r9_0_0_0);
        store64a4(a3 + 8, (size_t)((uint64_t)(size_t)r9_5_4_0 << 32) | (size_t)r9_5_0_0);
        store32(a3 + 16, r9_8_0);
        store32(a3 + 20, r9_10_0);
        store32(a3 + 24, r9_12_0);
        r6_0 = 0;
    }
    return signed32(r6_0);
}
#endif

#ifndef DFU_READ
/* dfu_core_install_next: crates/dfu_boot_c/src/install/calls.rt */
int32_t dfu_core_install_next(const struct dfu_run_area *area, const uint8_t *image, size_t length, const uint8_t *run, size_t size, struct dfu_ask *ask) {
    unsigned char *a0 = (unsigned char *)(uintptr_t)area;
    unsigned char *a1 = (unsigned char *)(uintptr_t)image;
    size_t a2 = (size_t)length;
    unsigned char *a3 = (unsigned char *)(uintptr_t)run;
    size_t a4 = (size_t)size;
    unsigned char *a5 = (unsigned char *)(uintptr_t)ask;
    _Alignas(8) unsigned char r5[8];
    unsigned char *r4;
    uint32_t r10, r1_52_4_copyload, r11_0;
    r4 = (unsigned char *)((uintptr_t)a1 + (uintptr_t)(size_t)((a1 == NULL) ? 4096 : 0));
    store64(r5, 0);
    r10 = load32(a0);
    uint32_t r12 = load32(a0 + 4);
    uint8_t r3 = r12 != 0xffffffffU;
    dfu_boot_install_deciding_next(r5, r4, a2, (unsigned char *)((uintptr_t)a3 + (uintptr_t)(size_t)((a3 == NULL) ? 4096 : 0)), a4, r10, r3, (uint32_t)(r3 ? r12 : 0));
    uint8_t r1_0_0_copyload = *r5;
    r1_52_4_copyload = load32(r5 + 4);
    switch (r1_0_0_copyload) {
    case 0: {
        uint8_t r1_3_1_copyload = r5[1];
        uint32_t switch_load = (uint32_t)switch_table_dfu_core_install_next[(size_t)r1_3_1_copyload];
        r11_0 = switch_load;
        break;
    }
    case 3:
        r11_0 = 0;
        break;
    case 1:
        store32(a5, 1);
        store32(a5 + 4, r1_52_4_copyload);
        store32(a5 + 8, r10);
        r11_0 = 0xfffffff5U;
        break;
    case 2: {
        store32(a5, 2);
        store32(a5 + 4, r1_52_4_copyload);
        store32(a5 + 8, 256);
        unsigned char *r27 = a5 + 12;
        size_t a1_a0 = umin_size(a2, (size_t)r1_52_4_copyload);
        memset(r27, 255, 256);
        memmove(r27, r4 + a1_a0, umin_size(a2 - a1_a0, 256));
        r11_0 = 0xfffffff5U;
        break;
    }
    default: never();
    }
    return signed32(r11_0);
}
#else
/* dfu_core_install_next: crates/dfu_boot_c/src/install/calls.rt */
int32_t dfu_core_install_next(const struct dfu_run_area *area, const uint8_t *image, size_t length, const uint8_t *run, size_t size, struct dfu_ask *ask) {
    unsigned char *a0 = (unsigned char *)(uintptr_t)area;
    unsigned char *a1 = (unsigned char *)(uintptr_t)image;
    size_t a2 = (size_t)length;
    unsigned char *a3 = (unsigned char *)(uintptr_t)run;
    size_t a4 = (size_t)size;
    unsigned char *a5 = (unsigned char *)(uintptr_t)ask;
    _Alignas(8) unsigned char r5[8];
    unsigned char *r4;
    uint32_t r1_52_4_copyload, r11_0;
    r4 = (unsigned char *)((uintptr_t)a1 + (uintptr_t)(size_t)((a1 == NULL) ? 4096 : 0));
    store64(r5, 0);
    uint32_t r10 = load32(a0);
    uint32_t r12 = load32(a0 + 4);
    uint8_t r3 = r12 != 0xffffffffU;
    dfu_boot_install_deciding_next(r5, r4, a2, (unsigned char *)((uintptr_t)a3 + (uintptr_t)(size_t)((a3 == NULL) ? 4096 : 0)), a4, r10, r3, (uint32_t)(r3 ? r12 : 0));
    uint8_t r1_0_0_copyload = *r5;
    r1_52_4_copyload = load32(r5 + 4);
    switch (r1_0_0_copyload) {
    case 0: {
        uint8_t r1_3_1_copyload = r5[1];
        uint32_t switch_load = (uint32_t)switch_table_dfu_core_install_next[(size_t)r1_3_1_copyload];
        r11_0 = switch_load;
        break;
    }
    case 3:
        r11_0 = 0;
        break;
    case 1: {
        uint32_t r29 = load32(a0);
        store32(a5, 1);
        store32(a5 + 4, r1_52_4_copyload);
        store32(a5 + 8, r29);
        r11_0 = 0xfffffff5U;
        break;
    }
    case 2:
        store32(a5, 2);
        store32(a5 + 4, r1_52_4_copyload);
        store32(a5 + 8, 256);
        dfu_boot_install_pieces_piece(r4, a2, r1_52_4_copyload, a5 + 12);
        r11_0 = 0xfffffff5U;
        break;
    default: never();
    }
    return signed32(r11_0);
}
#endif

/* dfu_core_trial_confirm: crates/dfu_boot_c/src/trial/calls.rt */
int32_t dfu_core_trial_confirm(const struct dfu_tries *tries, const uint8_t *flash, size_t size, uint32_t at, struct dfu_ask *ask) {
    unsigned char *a0 = (unsigned char *)(uintptr_t)tries;
    unsigned char *a1 = (unsigned char *)(uintptr_t)flash;
    size_t a2 = (size_t)size;
    uint32_t a3 = at;
    unsigned char *a4 = (unsigned char *)(uintptr_t)ask;
    _Alignas(8) unsigned char r6[48];
    uint32_t r3_1133_28_copyload, r3_13_28_copyload, switch_load, a0_a1, r5, r7_0;
    uint8_t r18_not;
    dfu_boot_c_trial_flash_looked(r6, a0, (unsigned char *)((uintptr_t)a1 + (uintptr_t)(size_t)((a1 == NULL) ? 4096 : 0)), a2);
    uint8_t r19 = *r6;
    if (r19 != 0) {
        uint8_t r5_0_0_copyload = r6[1];
        switch (r5_0_0_copyload) {
        case 0:
            r7_0 = 0xfffffffeU;
            break;
        case 1: {
            uint8_t r5_3_1_copyload = r6[2];
            r7_0 = (uint32_t)0xfffffff0U - (uint32_t)r5_3_1_copyload;
            break;
        }
        case 2:
            r7_0 = 0xfffffffdU;
            break;
        default: never();
        }
    }
    else {
        uint8_t r3_3_0_copyload = r6[24];
        uint32_t r3_729_0_copyload = load32(r6 + 28);
        uint8_t r23 = r6[32];
        r3_1133_28_copyload = load32(r6 + 36);
        r3_13_28_copyload = load32(r6 + 40);
        switch_load = (uint32_t)switch_table_dfu_boot_c_trial_flash_prepared[(size_t)r3_3_0_copyload];
        a0_a1 = umax32(r3_729_0_copyload, switch_load);
        r5 = a0_a1 << 1;
        r18_not = a3 == (r5 + r3_1133_28_copyload);
        if (r23 == 0) {
            if (!r18_not) goto arm_7;
            if (r3_13_28_copyload & 1) {
                r7_0 = 0;
                goto dfu_boot_c_trial_calls_dfu_core_trial_confirm_exit;
            }
        }
        else {
            if (!r18_not) {
                if (a3 != (r5 + r3_13_28_copyload)) goto arm_7;
                r7_0 = 0;
                goto dfu_boot_c_trial_calls_dfu_core_trial_confirm_exit;
            }
        }
        store32(a4, 2);
        store32(a4 + 4, (switch_load + r3_1133_28_copyload) + a0_a1);
        store32(a4 + 8, switch_load);
        memset(a4 + 12, 0, 256);
        r7_0 = 0xfffffff5U;
        goto dfu_boot_c_trial_calls_dfu_core_trial_confirm_exit;
arm_7:
        r7_0 = 0xffffffedU;
    }
dfu_boot_c_trial_calls_dfu_core_trial_confirm_exit:
    return signed32(r7_0);
}

/* dfu_core_trial_end: crates/dfu_boot_c/src/trial/calls.rt */
int32_t dfu_core_trial_end(const struct dfu_tries *tries, const uint8_t *flash, size_t size, struct dfu_ask *ask) {
    unsigned char *a0 = (unsigned char *)(uintptr_t)tries;
    unsigned char *a1 = (unsigned char *)(uintptr_t)flash;
    size_t a2 = (size_t)size;
    unsigned char *a3 = (unsigned char *)(uintptr_t)ask;
    _Alignas(8) unsigned char r5[48];
    uint32_t r6_0;
    dfu_boot_c_trial_flash_looked(r5, a0, (unsigned char *)((uintptr_t)a1 + (uintptr_t)(size_t)((a1 == NULL) ? 4096 : 0)), a2);
    uint8_t r16 = *r5;
    if (r16 == 0) {
        uint8_t r20 = r5[32];
        if (r20 == 0) r6_0 = 0;
        else {
            uint32_t r34 = load32(a0 + 4);
            uint32_t r3_4_28_copyload = load32(r5 + 36);
            store32(a3, 1);
            store32(a3 + 4, r3_4_28_copyload);
            store32(a3 + 8, r34);
            r6_0 = 0xfffffff5U;
        }
    }
    else {
        uint8_t r4_0_0_copyload = r5[1];
        switch (r4_0_0_copyload) {
        case 0:
            r6_0 = 0xfffffffeU;
            break;
        case 1: {
            uint8_t r4_3_1_copyload = r5[2];
            r6_0 = (uint32_t)0xfffffff0U - (uint32_t)r4_3_1_copyload;
            break;
        }
        case 2:
            r6_0 = 0xfffffffdU;
            break;
        default: never();
        }
    }
    return signed32(r6_0);
}

/* dfu_core_trial_upload: crates/dfu_boot_c/src/trial/calls.rt */
int32_t dfu_core_trial_upload(const struct dfu_tries *tries, const uint8_t *flash, size_t size, struct dfu_ask *ask) {
    unsigned char *a0 = (unsigned char *)(uintptr_t)tries;
    unsigned char *a1 = (unsigned char *)(uintptr_t)flash;
    size_t a2 = (size_t)size;
    unsigned char *a3 = (unsigned char *)(uintptr_t)ask;
    _Alignas(8) unsigned char r5[48];
    uint32_t r6_0;
    dfu_boot_c_trial_flash_looked(r5, a0, (unsigned char *)((uintptr_t)a1 + (uintptr_t)(size_t)((a1 == NULL) ? 4096 : 0)), a2);
    uint8_t r16 = *r5;
    if (r16 == 0) {
        uint8_t r20 = r5[32];
        uint32_t r3_7_28_copyload = load32(r5 + 44);
        uint32_t r30 = load32(a0 + 8);
        if ((r20 == 0) ? 1 : (r3_7_28_copyload < r30)) r6_0 = 0;
        else {
            uint32_t r34 = load32(a0 + 4);
            uint32_t r3_4_28_copyload = load32(r5 + 36);
            store32(a3, 1);
            store32(a3 + 4, r3_4_28_copyload);
            store32(a3 + 8, r34);
            r6_0 = 0xfffffff5U;
        }
    }
    else {
        uint8_t r4_0_0_copyload = r5[1];
        switch (r4_0_0_copyload) {
        case 0:
            r6_0 = 0xfffffffeU;
            break;
        case 1: {
            uint8_t r4_3_1_copyload = r5[2];
            r6_0 = (uint32_t)0xfffffff0U - (uint32_t)r4_3_1_copyload;
            break;
        }
        case 2:
            r6_0 = 0xfffffffdU;
            break;
        default: never();
        }
    }
    return signed32(r6_0);
}

/* dfu_core_trial_start: crates/dfu_boot_c/src/trial/calls.rt */
int32_t dfu_core_trial_start(const struct dfu_tries *tries, const uint8_t *flash, size_t size, struct dfu_ask *ask, struct dfu_starting *starting) {
    unsigned char *a0 = (unsigned char *)(uintptr_t)tries;
    unsigned char *a1 = (unsigned char *)(uintptr_t)flash;
    size_t a2 = (size_t)size;
    unsigned char *a3 = (unsigned char *)(uintptr_t)ask;
    unsigned char *a4 = (unsigned char *)(uintptr_t)starting;
    _Alignas(4) unsigned char r4[28];
    memset(r4, 0, 28);
    uint32_t r19 = dfu_boot_c_trial_again_start_from(a0, (unsigned char *)((uintptr_t)a1 + (uintptr_t)(size_t)((a1 == NULL) ? 4096 : 0)), a2, r4, a3, a4);
    return signed32(r19);
}

/* dfu_core_trial_start_from: crates/dfu_boot_c/src/trial/again.rt */
int32_t dfu_core_trial_start_from(const struct dfu_tries *tries, const uint8_t *flash, size_t size, const struct dfu_standing *standing, struct dfu_ask *ask, struct dfu_starting *starting) {
    unsigned char *a0 = (unsigned char *)(uintptr_t)tries;
    unsigned char *a1 = (unsigned char *)(uintptr_t)flash;
    size_t a2 = (size_t)size;
    unsigned char *a3 = (unsigned char *)(uintptr_t)standing;
    unsigned char *a4 = (unsigned char *)(uintptr_t)ask;
    unsigned char *a5 = (unsigned char *)(uintptr_t)starting;
    uint32_t r10 = dfu_boot_c_trial_again_start_from(a0, (unsigned char *)((uintptr_t)a1 + (uintptr_t)(size_t)((a1 == NULL) ? 4096 : 0)), a2, a3, a4, a5);
    return signed32(r10);
}

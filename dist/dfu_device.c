/* SPDX-License-Identifier: MIT OR Apache-2.0
 *
 * The body of dfu_core.h: a device of USB DFU 1.1.
 *
 * Made by dist/make/library of the proved crate. Nobody edits it: change the crate, and make it anew by dist/generate. Compile it as C11
 * beside its header. Memory is arrays of bytes here, laid out as on a 64-bit processor with the low byte first: a size takes
 * 8 bytes there, and so does a pointer. */
#include "dfu_core.h"

#include <stddef.h>
#include <stdint.h>

#if defined(__BYTE_ORDER__) && __BYTE_ORDER__ != __ORDER_LITTLE_ENDIAN__
#error "this file is for processors that store the low byte of a number first"
#endif

/* Of a C library these three. A compiler with builtins is asked for them: a copy of 4 bytes is then no call, also with -ffreestanding. */
#if defined(__GNUC__)
#define memcpy(to, from, count) __builtin_memcpy(to, from, count)
#define memmove(to, from, count) __builtin_memmove(to, from, count)
#define memset(to, byte, count) __builtin_memset(to, byte, count)
#define ALIGNED(p, n) __builtin_assume_aligned(p, n)
#else
void *memcpy(void *to, const void *from, size_t count);
void *memmove(void *to, const void *from, size_t count);
void *memset(void *to, int byte, size_t count);
#define ALIGNED(p, n) (p)
#endif
/* A table of constants as a place; nothing is written there. */
#define PLACE(table) ((unsigned char *)(uintptr_t)(table))

/* What no call comes to, as it is proved: `trap` where the program says so, `never` where its types do. */
#if defined(__GNUC__)
#define never() __builtin_unreachable()
#else
#define never() for (;;) { }
#endif

_Static_assert((unsigned char)-1 == 255 && sizeof(int) == 4 && sizeof(void *) <= 8, "a processor that this file is not for");
_Static_assert(sizeof(size_t) >= 4 && sizeof(size_t) <= 8 && sizeof(size_t) == sizeof(void *), "a processor that this file is not for");

_Static_assert(offsetof(struct dfu_config, version) == 0, "another layout");
_Static_assert(offsetof(struct dfu_config, device) == 4, "another layout");
_Static_assert(offsetof(struct dfu_config, product) == 6, "another layout");
_Static_assert(offsetof(struct dfu_config, vendor) == 8, "another layout");
_Static_assert(offsetof(struct dfu_config, detach_ms) == 10, "another layout");
_Static_assert(offsetof(struct dfu_config, transfer) == 12, "another layout");
_Static_assert(offsetof(struct dfu_config, attributes) == 14, "another layout");
_Static_assert(offsetof(struct dfu_config, interface_number) == 15, "another layout");
_Static_assert(offsetof(struct dfu_config, busy_ms) == 16, "another layout");
_Static_assert(offsetof(struct dfu_config, manifest_ms) == 20, "another layout");
_Static_assert(offsetof(struct dfu_config, least) == 24, "another layout");
_Static_assert(offsetof(struct dfu_config, unit) == 28, "another layout");
_Static_assert(offsetof(struct dfu_config, sector) == 32, "another layout");
_Static_assert(offsetof(struct dfu_config, erase_ms) == 36, "another layout");
_Static_assert(offsetof(struct dfu_config, program_ms) == 38, "another layout");
_Static_assert(sizeof(struct dfu_config) == 40, "another layout");
_Static_assert(_Alignof(struct dfu_config) == 4, "another layout");
_Static_assert(offsetof(struct dfu_record, version) == 0, "another layout");
_Static_assert(offsetof(struct dfu_record, mode) == 4, "another layout");
_Static_assert(offsetof(struct dfu_record, first) == 8, "another layout");
_Static_assert(offsetof(struct dfu_record, second) == 12, "another layout");
_Static_assert(offsetof(struct dfu_record, put_end) == 16, "another layout");
_Static_assert(offsetof(struct dfu_record, slot) == 20, "another layout");
_Static_assert(offsetof(struct dfu_record, number) == 24, "another layout");
_Static_assert(offsetof(struct dfu_record, length) == 26, "another layout");
_Static_assert(offsetof(struct dfu_record, header) == 28, "another layout");
_Static_assert(offsetof(struct dfu_record, work) == 44, "another layout");
_Static_assert(offsetof(struct dfu_record, spare) == 48, "another layout");
_Static_assert(offsetof(struct dfu_record, sum) == 52, "another layout");
_Static_assert(offsetof(struct dfu_record, done) == 56, "another layout");
_Static_assert(offsetof(struct dfu_record, asked) == 60, "another layout");
_Static_assert(offsetof(struct dfu_record, generation) == 64, "another layout");
_Static_assert(offsetof(struct dfu_record, close) == 65, "another layout");
_Static_assert(offsetof(struct dfu_record, held_length) == 66, "another layout");
_Static_assert(sizeof(struct dfu_record) == 68, "another layout");
_Static_assert(_Alignof(struct dfu_record) == 4, "another layout");
_Static_assert(offsetof(struct dfu_ask, kind) == 0, "another layout");
_Static_assert(offsetof(struct dfu_ask, at) == 4, "another layout");
_Static_assert(offsetof(struct dfu_ask, length) == 8, "another layout");
_Static_assert(offsetof(struct dfu_ask, bytes) == 12, "another layout");
_Static_assert(sizeof(struct dfu_ask) == 268, "another layout");
_Static_assert(_Alignof(struct dfu_ask) == 4, "another layout");
_Static_assert(offsetof(struct dfu_place, at) == 0, "another layout");
_Static_assert(offsetof(struct dfu_place, length) == 4, "another layout");
_Static_assert(sizeof(struct dfu_place) == 8, "another layout");
_Static_assert(_Alignof(struct dfu_place) == 4, "another layout");

struct i64_i8 { uint64_t a; uint8_t b; };
struct i8_i64 { uint8_t a; uint64_t b; };

static inline size_t capped_size(uint64_t x) { return (size_t)(x < (size_t)-1 ? x : (size_t)-1); }
static inline uint16_t load16(const unsigned char *p) { uint16_t x = 0; memcpy(&x, ALIGNED(p, 2), 2); return x; }
static inline uint32_t load32(const unsigned char *p) { uint32_t x = 0; memcpy(&x, ALIGNED(p, 4), 4); return x; }
static inline uint32_t load32a2(const unsigned char *p) { uint32_t x = 0; memcpy(&x, ALIGNED(p, 2), 4); return x; }
static inline uint32_t load32u(const unsigned char *p) { uint32_t x = 0; memcpy(&x, p, 4); return x; }
static inline uint64_t load64(const unsigned char *p) { uint64_t x = 0; memcpy(&x, ALIGNED(p, 8), 8); return x; }
static inline uint64_t load64u(const unsigned char *p) { uint64_t x = 0; memcpy(&x, p, 8); return x; }
static inline size_t load_size(const unsigned char *p) { size_t x = 0; memcpy(&x, ALIGNED(p, 8), sizeof x); return x; }
static inline int32_t signed32(uint32_t x) { int32_t y; memcpy(&y, &x, 4); return y; }
static inline void store16(unsigned char *p, uint16_t x) { memcpy(ALIGNED(p, 2), &x, 2); }
static inline void store24u(unsigned char *p, uint32_t x) { memcpy(p, &x, 3); }
static inline void store32(unsigned char *p, uint32_t x) { memcpy(ALIGNED(p, 4), &x, 4); }
static inline void store48a4(unsigned char *p, uint64_t x) { memcpy(ALIGNED(p, 4), &x, 6); }
static inline void store64(unsigned char *p, uint64_t x) { memcpy(ALIGNED(p, 8), &x, 8); }
static inline void store64a4(unsigned char *p, uint64_t x) { memcpy(ALIGNED(p, 4), &x, 8); }
static inline void store_size(unsigned char *p, size_t x) { memcpy(ALIGNED(p, 8), &x, sizeof x); }
static inline uint32_t uadd_sat32(uint32_t x, uint32_t y) { return (uint32_t)(x + y) < x ? (uint32_t)-1 : (uint32_t)(x + y); }
static inline uint16_t umax16(uint16_t x, uint16_t y) { return x < y ? y : x; }
static inline uint32_t umax32(uint32_t x, uint32_t y) { return x < y ? y : x; }
static inline uint16_t umin16(uint16_t x, uint16_t y) { return x < y ? x : y; }
static inline uint32_t umin32(uint32_t x, uint32_t y) { return x < y ? x : y; }
static inline uint64_t umin64(uint64_t x, uint64_t y) { return x < y ? x : y; }
static inline size_t umin_size(size_t x, size_t y) { return x < y ? x : y; }
static inline uint32_t usub_sat32(uint32_t x, uint32_t y) { return x < y ? 0 : (uint32_t)(x - y); }
static inline uint64_t usub_sat64(uint64_t x, uint64_t y) { return x < y ? 0 : (uint64_t)(x - y); }
static inline uint64_t wide(size_t x) { return x; }
#ifdef DFU_READ
/* The program's, which puts so many bytes of flash from there on into memory. Nothing else here looks at flash. */
void DFU_READ(const unsigned char *from, unsigned char *to, size_t count);

#endif

static _Alignas(4) const uint8_t static_0[64] = {
    0, 0, 0, 0, 0x64, 0x10, 0xb7, 0x1d, 0xc8, 0x20, 0x6e, 0x3b, 0xac, 0x30, 0xd9, 0x26, 0x90, 0x41, 0xdc, 0x76,
    0xf4, 0x51, 0x6b, 0x6b, 0x58, 0x61, 0xb2, 0x4d, 0x3c, 0x71, 5, 0x50, 0x20, 0x83, 0xb8, 0xed, 0x44, 0x93, 0xf, 0xf0,
    0xe8, 0xa3, 0xd6, 0xd6, 0x8c, 0xb3, 0x61, 0xcb, 0xb0, 0xc2, 0x64, 0x9b, 0xd4, 0xd2, 0xd3, 0x86, 0x78, 0xe2, 0xa, 0xa0,
    0x1c, 0xf2, 0xbd, 0xbd
};
static _Alignas(1) const uint8_t static_2[1] = {
    0
};
static _Alignas(1) const uint8_t static_3[1] = {
    0xa5
};
static const uint32_t switch_table_dfu_core_numbers_CoreRefusal_number[5] = {
    0xfffffffe, 0xfffffff6, 0xfffffff4, 0xfffffffd, 0xfffffffc
};
static const uint16_t switch_table_dfu_asks_next_piece_numbered_piece[4] = {
    0x10, 0x10, 0x40, 0x100
};
static const uint16_t switch_table_dfu_slots_layout_fill_size[4] = {
    1, 0x10, 0x40, 0x100
};
static _Alignas(4) const uint8_t switch_table_dfu_asks_asking_Asking_fail[13] = {
    6, 6, 6, 3, 6, 3, 6, 6, 6, 6, 6, 6, 6
};
static _Alignas(4) const uint8_t switch_table_dfu_device_device_state_DeviceState_state[13] = {
    0, 1, 2, 3, 3, 4, 5, 6, 6, 7, 8, 9, 0xa
};
static const uint8_t switch_table_dfu_asks_asking_Asking_advance[4] = {
    0, 0xf, 0x3f, 0xff
};
static _Alignas(4) const uint8_t switch_table_dfu_device_table_decide[9] = {
    3, 3, 3, 1, 3, 2, 3, 3, 3
};
static const uint16_t switch_table_dfu_device_table_decide_3[9] = {
    0xf0c, 0xf0c, 0xf0c, 2, 0xf0c, 8, 0xf0c, 0xf0c, 0xf0c
};
static const uint8_t switch_table_dfu_core_state[12] = {
    0, 1, 2, 3, 3, 4, 5, 6, 6, 7, 8, 9
};
static const uint32_t switch_table_dfu_core_candidate[4] = {
    0xffffffff, 0xfffffff0, 0xffffffc0, 0xffffff00
};

static uint8_t dfu_core_mode_has_mode(unsigned char *a0);
static void dfu_core_mode_mode_of(unsigned char *a0, unsigned char *a1);
static void dfu_core_config_settings_of(unsigned char *a0, unsigned char *a1);
static void dfu_asks_noted_Noted_find(unsigned char *a0, unsigned char *a1, size_t a2, uint8_t a3, uint32_t a4);
static void dfu_slots_places_check(unsigned char *a0, unsigned char *a1);
static uint8_t dfu_slots_layout_is_sized(unsigned char *a0);
static uint8_t dfu_slots_read_counts(unsigned char *a0, uint32_t a1);
#ifdef DFU_READ
static uint8_t dfu_slots_read_byte_at(unsigned char *a0, uint32_t a1);
static void dfu_slots_read_read_data(unsigned char *a0, uint32_t a1, uint32_t a2, unsigned char *a3, size_t a4);
#endif
static void dfu_suffix_crc_Crc_update_small(unsigned char *a0, unsigned char *a1, size_t a2);
#ifdef DFU_READ
static uint8_t dfu_slots_places_is_newest(unsigned char *a0, uint32_t a1, uint32_t a2, uint8_t a3, uint8_t a4);
static uint8_t dfu_slots_read_generation(unsigned char *a0, uint32_t a1);
static void dfu_slots_read_header_of(unsigned char *a0, unsigned char *a1, uint32_t a2);
#endif
static void dfu_core_mode_idle_mode(unsigned char *a0, unsigned char *a1, unsigned char *a2);
static void dfu_core_mode_mode_in(unsigned char *a0, unsigned char *a1, unsigned char *a2);
static void dfu_core_mode_set_mode(unsigned char *a0, unsigned char *a1);
static uint32_t dfu_device_time_table_poll_ms(unsigned char *a0, unsigned char *a1, size_t a2);
static uint32_t dfu_device_time_table_block_ms(unsigned char *a0, uint32_t a1, uint32_t a2, size_t a3);
static uint32_t dfu_device_time_table_writes_ms(unsigned char *a0, uint32_t a1, uint32_t a2, uint32_t a3, uint32_t a4);
static uint32_t dfu_device_time_table_image_ms(unsigned char *a0, uint32_t a1, uint32_t a2);
static void dfu_core_format_formatting_of(unsigned char *a0, unsigned char *a1, unsigned char *a2);
static uint8_t dfu_asks_formatting_Formatting_due(unsigned char *a0, size_t a2, unsigned char *a3);
static uint8_t dfu_asks_format_piece_part_piece(unsigned char *a0, size_t a1, unsigned char *a2);
static uint8_t dfu_asks_next_piece_sequence_piece(unsigned char *a0, unsigned char *a1);
static uint8_t dfu_asks_next_piece_numbered_piece(unsigned char *a0, size_t a1, unsigned char *a2);
static uint8_t dfu_asks_format_piece_open_piece(size_t a0, uint32_t a1, unsigned char *a2);
static uint8_t dfu_asks_cut_stands(unsigned char *a0, size_t a1, unsigned char *a2);
static void dfu_asks_cut_runs_of(unsigned char *a0, unsigned char *a1);
static uint8_t dfu_asks_cut_are_same(unsigned char *a0, size_t a1, unsigned char *a2);
#ifdef DFU_READ
static uint8_t dfu_slots_read_flash_byte_at(unsigned char *a0, size_t a2);
#endif
static uint8_t dfu_asks_next_and_took_is_sound(uint32_t a0, unsigned char *a1);
static void dfu_asks_cut_fill(unsigned char *a0, unsigned char *a1);
static void dfu_core_keeping_found(unsigned char *a0, unsigned char *a1, size_t a2, unsigned char *a3);
static uint8_t dfu_asks_next_piece_next_piece(unsigned char *a0, unsigned char *a1);
static struct i64_i8 dfu_asks_asking_Asking_look_at(unsigned char *a0, unsigned char *a1, unsigned char *a2, size_t a3, unsigned char *a4, size_t a5, unsigned char *a6, size_t a7);
static struct i8_i64 dfu_asks_asking_Asking_fail(unsigned char *a0, uint8_t a1, uint8_t a2, uint16_t a3, unsigned char *a4, size_t a5, unsigned char *a6);
static void dfu_asks_finish_note(unsigned char *a0, unsigned char *a1, unsigned char *a2, size_t a3, uint8_t a4, uint32_t a5);
static struct i8_i64 dfu_asks_asking_Asking_give(unsigned char *a0, uint8_t a1, uint16_t a2, unsigned char *a3);
static void dfu_asks_asking_Asking_advance(unsigned char *a0, unsigned char *a1, unsigned char *a2, size_t a3, unsigned char *a4, size_t a5, unsigned char *a6, size_t a7, unsigned char *a8);
static void dfu_core_keeping_keep(unsigned char *a0, unsigned char *a1);
static uint8_t dfu_asks_closes_mode_closes(unsigned char *a0, unsigned char *a1, unsigned char *a2);
static void dfu_wire_setups_Setup_request(unsigned char *a0, unsigned char *a1);
static void dfu_asks_noted_look(unsigned char *a0, unsigned char *a1, unsigned char *a2);
static void dfu_asks_asking_Asking_see(unsigned char *a0, unsigned char *a1, size_t a2, unsigned char *a3, size_t a4);
static void dfu_asks_asking_Asking_carry_out(unsigned char *a0, unsigned char *a1, unsigned char *a2, uint8_t a3, uint16_t a4, unsigned char *a5, size_t a6, unsigned char *a7, size_t a8, unsigned char *a9, size_t a10, unsigned char *a11, unsigned char *a12, unsigned char *a13, size_t a14);
#ifdef DFU_READ
static void dfu_asks_asking_Asking_block_job(unsigned char *a0, unsigned char *a1, uint32_t a2, unsigned char *a3, unsigned char *a4);
#endif
static void dfu_device_table_decide(unsigned char *a0, unsigned char *a1, unsigned char *a2, unsigned char *a3);
static uint32_t dfu_device_c_power_start(unsigned char *a0, unsigned char *a1, unsigned char *a2, size_t a3, uint32_t a4);
#ifdef DFU_READ
static uint8_t dfu_asks_blank_is_erased(unsigned char *a0, size_t a2, uint64_t a3);
#endif

/* dfu_core::mode::has_mode: crates/dfu_core/src/mode.rt */
static uint8_t dfu_core_mode_has_mode(unsigned char *a0) {
    _Alignas(4) unsigned char r1[20];
    dfu_core_mode_mode_of(r1, a0);
    uint8_t r3 = *r1;
    return r3 == 1;
}

/* dfu_core::mode::mode_of: crates/dfu_core/src/mode.rt */
static void dfu_core_mode_mode_of(unsigned char *a0, unsigned char *a1) {
    uint32_t r35, r37, r44, r11_172_0, r11_27_10_0_0, r11_36_0;
    uint16_t r39, r11_27_0_0;
    uint8_t r11_15_0;
    uint32_t r16 = load32(a1);
    if (r16 != 300) {
        store32(a0, 0);
        return;
    }
    r35 = load32(a1 + 8);
    r37 = load32(a1 + 12);
    r39 = load16(a1 + 24);
    r44 = load32(a1 + 4);
    switch (r44) {
    case 0:
    case 2:
    case 8:
    case 10:
        r11_15_0 = 0;
        r11_172_0 = 0;
        r11_27_0_0 = 0;
        r11_27_10_0_0 = 0;
        r11_36_0 = 0;
        break;
    case 1:
        r11_15_0 = 0;
        r11_172_0 = r35;
        r11_27_0_0 = (uint16_t)r37;
        r11_27_10_0_0 = r37 & 0xffff0000U;
        r11_36_0 = 0;
        break;
    case 3:
    case 4:
    case 6:
    case 11:
        r11_15_0 = 0;
        r11_172_0 = r35;
        r11_27_0_0 = r39;
        r11_27_10_0_0 = 0;
        r11_36_0 = 0;
        break;
    case 5:
        r11_15_0 = 0;
        r11_172_0 = r35;
        r11_27_0_0 = r39;
        r11_27_10_0_0 = 0;
        r11_36_0 = r37;
        break;
    case 7:
        r11_15_0 = 0;
        r11_172_0 = r35;
        r11_27_0_0 = 0;
        r11_27_10_0_0 = 0;
        r11_36_0 = 0;
        break;
    case 9:
        r11_15_0 = 0;
        r11_172_0 = r35;
        r11_27_0_0 = (uint16_t)r37;
        r11_27_10_0_0 = r37 & 0xffff0000U;
        r11_36_0 = 0;
        break;
    case 12:
        if (r39 >= 16) {
            store32(a0, 0);
            return;
        }
        r11_15_0 = (uint8_t)r39;
        r11_172_0 = 0;
        r11_27_0_0 = 0;
        r11_27_10_0_0 = 0;
        r11_36_0 = 0;
        break;
    default:
        store32(a0, 0);
        return;
    }
    store32(a0, 1);
    a0[4] = (uint8_t)r44;
    a0[5] = r11_15_0;
    store32(a0 + 8, r11_172_0);
    store32(a0 + 12, r11_27_10_0_0 | (uint32_t)r11_27_0_0);
    store32(a0 + 16, r11_36_0);
    return;
}

/* dfu_core::config::settings_of: crates/dfu_core/src/config.rt */
static void dfu_core_config_settings_of(unsigned char *a0, unsigned char *a1) {
    _Alignas(4) unsigned char r22_4_6_5[3];
    uint32_t r11, r54, r87, r89, r91, r22_4_6_6_0, r22_4_3_0, r22_4_4_0, r22_4_5_0, r22_0_0_0;
    uint8_t r3_0_0, r5_2, r5_lobit, r5_3, r5_lobit_2, r5_lobit_3, r22_4_0_6_0, r22_4_0_5_0, r22_4_0_4_0, r22_4_0_3_0, r22_4_6_4_0;
    uint16_t r7, r9, r22_4_0_7_0, r22_4_0_8_0, r22_4_0_9_0, r22_4_6_0_0, r22_4_6_3_0;
    uint64_t r5_0_0, r22_4_0_0_0;
    memset(r22_4_6_5, 0, 3);
    r11 = load32(a1 + 28);
    switch (r11) {
    case 16:
        r3_0_0 = 1;
        break;
    case 64:
        r3_0_0 = 2;
        break;
    case 256:
        r3_0_0 = 3;
        break;
    default:
        r3_0_0 = 0;
        break;
    }
    uint32_t r30 = load32(a1);
    if (r30 == 300) {
        uint32_t switch_load = (uint32_t)switch_table_dfu_slots_layout_fill_size[(size_t)r3_0_0];
        if (switch_load == r11) {
            r54 = load32(a1 + 32);
            if (!((r54 < 0x40001U) & ((r54 & 255) == 0))) {
                memset(a0, 0, 52);
                return;
            }
            uint16_t r76 = load16(a1 + 4);
            uint32_t r78 = load32a2(a1 + 6);
            uint8_t r5 = a1[14];
            r7 = load16(a1 + 10);
            r9 = load16(a1 + 12);
            r5_2 = r5 & 1;
            r5_lobit = (uint8_t)(r5 >> 1) & 1;
            r5_3 = (uint8_t)(r5 >> 2);
            r5_lobit_2 = r5_3 & 1;
            r5_lobit_3 = (uint8_t)(r5 >> 3) & 1;
            r87 = load32(a1 + 24);
            r89 = load32(a1 + 16);
            r91 = load32(a1 + 20);
            r5_0_0 = (((uint64_t)r78 << 16) & 0xffffffffffffULL) | (uint64_t)r76;
            if ((uint16_t)(r9 + 0xefffU) < 0xf000U) {
                r22_4_0_6_0 = 0;
                r22_4_0_7_0 = 0;
                r22_4_0_8_0 = 0;
                r22_4_0_9_0 = 0;
                r22_4_0_5_0 = 0;
                r22_4_0_4_0 = 0;
                r22_4_0_3_0 = 0;
                r22_4_0_0_0 = 0;
                r22_4_6_0_0 = 0;
                r22_4_6_3_0 = 0;
                r22_4_6_4_0 = 0;
                r22_4_6_6_0 = 0;
                r22_4_3_0 = 0;
                r22_4_4_0 = 0;
                r22_4_5_0 = 0;
                r22_0_0_0 = 0;
            }
            else {
                if (!((((r89 | (r87 - 1)) | r91) < 0x1000000U) & ((r91 != 0) | (r5_3 & 1)))) {
                    r22_4_0_6_0 = 0;
                    r22_4_0_7_0 = 0;
                    r22_4_0_8_0 = 0;
                    r22_4_0_9_0 = 0;
                    r22_4_0_5_0 = 0;
                    r22_4_0_4_0 = 0;
                    r22_4_0_3_0 = 0;
                    r22_4_0_0_0 = 0;
                    r22_4_6_0_0 = 0;
                    r22_4_6_3_0 = 0;
                    r22_4_6_4_0 = 0;
                    r22_4_6_6_0 = 0;
                    r22_4_3_0 = 0;
                    r22_4_4_0 = 0;
                    r22_4_5_0 = 0;
                    r22_0_0_0 = 0;
                }
                else {
                    uint16_t r98 = load16(a1 + 36);
                    uint16_t r100 = load16(a1 + 38);
                    r22_4_0_6_0 = r5_lobit_3;
                    r22_4_0_7_0 = r7;
                    r22_4_0_8_0 = r9;
                    r22_4_0_9_0 = 272;
                    r22_4_0_5_0 = r5_lobit_2;
                    r22_4_0_4_0 = r5_lobit;
                    r22_4_0_3_0 = r5_2;
                    r22_4_0_0_0 = r5_0_0;
                    r22_4_6_0_0 = r98;
                    r22_4_6_3_0 = r100;
                    r22_4_6_4_0 = r3_0_0;
                    r22_4_6_6_0 = r54;
                    r22_4_3_0 = r87;
                    r22_4_4_0 = r89;
                    r22_4_5_0 = r91;
                    r22_0_0_0 = 1;
                }
            }
            store32(a0, r22_0_0_0);
            store48a4(a0 + 4, r22_4_0_0_0);
            a0[10] = r22_4_0_3_0;
            a0[11] = r22_4_0_4_0;
            a0[12] = r22_4_0_5_0;
            a0[13] = r22_4_0_6_0;
            store16(a0 + 14, r22_4_0_7_0);
            store16(a0 + 16, r22_4_0_8_0);
            store16(a0 + 18, r22_4_0_9_0);
            store32(a0 + 20, r22_4_3_0);
            store32(a0 + 24, r22_4_4_0);
            store32(a0 + 28, r22_4_5_0);
            store16(a0 + 32, r22_4_6_0_0);
            store16(a0 + 34, r22_4_6_3_0);
            a0[36] = r22_4_6_4_0;
            memcpy(a0 + 37, r22_4_6_5, 3);
            store32(a0 + 40, r22_4_6_6_0);
            a0[44] = r22_4_6_4_0;
            store32(a0 + 48, r22_4_6_6_0);
            return;
        }
    }
    memset(a0, 0, 52);
    return;
}

#ifndef DFU_READ
/* dfu_asks::noted::Noted::find */
static void dfu_asks_noted_Noted_find(unsigned char *a0, unsigned char *a1, size_t a2, uint8_t a3, uint32_t a4) {
    _Alignas(8) unsigned char r5[24];
    _Alignas(4) unsigned char r14_6[16];
    _Alignas(4) unsigned char r12[12];
    uint8_t r14_0_0, r14_4_0;
    memset(r14_6, 0, 16);
    if (wide(a2) >= 0x100000000ULL) {
        memset(a0, 0, 18);
        return;
    }
    store_size(r5, (size_t)(uintptr_t)a1);
    store_size(r5 + 8, a2);
    r5[16] = a3;
    store32(r5 + 20, a4);
    dfu_slots_places_check(r12, r5);
    uint8_t r30 = *r12;
    if (r30 != 0) {
        r14_0_0 = 0;
        r14_4_0 = 0;
    }
    else {
        uint32_t r8_0_0_copyload = load32(r12 + 4);
        uint32_t switch_load = (uint32_t)switch_table_dfu_asks_next_piece_numbered_piece[(size_t)a3];
        memcpy(r14_6, a1 + (size_t)(umax32(a4, switch_load) + r8_0_0_copyload), 16);
        r14_0_0 = 1;
        r14_4_0 = r8_0_0_copyload != 0;
    }
    *a0 = r14_0_0;
    a0[1] = r14_4_0;
    memcpy(a0 + 2, r14_6, 16);
    return;
}
#else
/* dfu_asks::noted::Noted::find */
static void dfu_asks_noted_Noted_find(unsigned char *a0, unsigned char *a1, size_t a2, uint8_t a3, uint32_t a4) {
    _Alignas(8) unsigned char r5[24];
    _Alignas(4) unsigned char r14_6[16];
    _Alignas(4) unsigned char r12[12];
    uint8_t r14_0_0, r14_4_0;
    memset(r14_6, 0, 16);
    if (wide(a2) >= 0x100000000ULL) {
        memset(a0, 0, 18);
        return;
    }
    store_size(r5, (size_t)(uintptr_t)a1);
    store_size(r5 + 8, a2);
    r5[16] = a3;
    store32(r5 + 20, a4);
    dfu_slots_places_check(r12, r5);
    uint8_t r30 = *r12;
    if (r30 != 0) {
        r14_0_0 = 0;
        r14_4_0 = 0;
    }
    else {
        uint32_t r8_0_0_copyload = load32(r12 + 4);
        dfu_slots_read_header_of(r14_6, r5, r8_0_0_copyload);
        r14_0_0 = 1;
        r14_4_0 = r8_0_0_copyload != 0;
    }
    *a0 = r14_0_0;
    a0[1] = r14_4_0;
    memcpy(a0 + 2, r14_6, 16);
    return;
}
#endif

#ifndef DFU_READ
/* dfu_slots::places::check::<#ab3713f43cb9a70d>: crates/dfu_slots/src/places.rt */
static void dfu_slots_places_check(unsigned char *a0, unsigned char *a1) {
    uint8_t r5, r11;
    unsigned char *r2, *r20;
    uint32_t r81, r72, r72_2, r72_3, a0_a1_2, v5, v6;
    uint8_t r1_0_0_copyload_2, r1_0_0_copyload_3, r16, r3_5_0_copyload, v50;
    uint8_t r12 = dfu_slots_layout_is_sized(a1);
    if (!r12) {
        *a0 = 1;
        return;
    }
    r5 = dfu_slots_read_counts(a1, 0);
    r2 = a1 + 8;
    size_t r3 = load_size(r2);
    r11 = dfu_slots_read_counts(a1, (uint32_t)r3 >> 1);
    if (!(r5 | r11)) {
        *a0 = 1;
        return;
    }
    size_t r3_2 = load_size(r2);
    r81 = (uint32_t)r3_2 >> 1;
    if (!(r5 & r11)) {
        if (r5 | (r81 == 0)) {
            if (!r5) goto then_7;
            r72_2 = r81;
            r72_3 = 0;
        }
        else {
            if (!r11) goto then_7;
            r72_2 = 0;
            r72_3 = r81;
        }
    }
    else {
        uint8_t r0_0_0_copyload = a1[16];
        uint32_t r1_0_0_copyload = load32(a1 + 20);
        uint32_t switch_load = (uint32_t)switch_table_dfu_asks_next_piece_numbered_piece[(size_t)r0_0_0_copyload];
        uint32_t a0_a1 = umax32(r1_0_0_copyload, switch_load);
        size_t r3_0_0_copyload = load_size(a1);
        unsigned char *r18 = (unsigned char *)(uintptr_t)r3_0_0_copyload;
        r1_0_0_copyload_2 = r18[(size_t)a0_a1];
        r1_0_0_copyload_3 = r18[(size_t)(a0_a1 + r81)];
        uint8_t r19 = r1_0_0_copyload_2 == (uint8_t)(r1_0_0_copyload_3 + 1);
        r72 = (uint32_t)(r19 ? r81 : 0);
        uint8_t r1_0_0_copyload_4 = r18[(size_t)(a0_a1 + r72)];
        r16 = (uint8_t)(r1_0_0_copyload_4 + 1);
        if ((r81 == 0) | r19) {
            if (r1_0_0_copyload_2 != r16) goto then_7;
            r72_2 = r72;
            r72_3 = 0;
        }
        else {
            if (r1_0_0_copyload_3 != r16) goto then_7;
            r72_2 = r72;
            r72_3 = r81;
        }
    }
    uint8_t r0_0_0_copyload_2 = a1[16];
    uint32_t r1_0_0_copyload_5 = load32(a1 + 20);
    uint32_t switch_load_2 = (uint32_t)switch_table_dfu_asks_next_piece_numbered_piece[(size_t)r0_0_0_copyload_2];
    a0_a1_2 = umax32(r1_0_0_copyload_5, switch_load_2);
    size_t r3_0_0_copyload_2 = load_size(a1);
    r20 = (unsigned char *)(uintptr_t)r3_0_0_copyload_2 + (size_t)(a0_a1_2 + r72_3);
    r3_5_0_copyload = r20[1];
    if (r3_5_0_copyload == 2) {
        v50 = 0;
        v5 = r72_2;
        v6 = r72_3;
    }
    else {
        uint32_t r3_10_0_copyload = load32u(r20 + 12);
        uint32_t r3_9_0_copyload = load32u(r20 + 8);
        uint32_t r3_8_0_copyload = load32u(r20 + 4);
        uint8_t r3_7_0_copyload = r20[3];
        uint8_t r3_6_0_copyload = r20[2];
        if (((((r3_5_0_copyload == 1) & (r3_8_0_copyload <= (r81 - (a0_a1_2 << 1)))) ? (r3_6_0_copyload == 0) : 0) ? (r3_7_0_copyload == 0) : 0) ? ((r3_10_0_copyload | r3_9_0_copyload) == 0) : 0) {
            v50 = 0;
            v5 = r72_2;
            v6 = r72_3;
        }
        else {
            v50 = 1;
            v5 = 0;
            v6 = 0;
        }
    }
    *a0 = v50;
    store32(a0 + 4, v6);
    store32(a0 + 8, v5);
    return;
then_7:
    *a0 = 1;
    return;
}
#else
/* dfu_slots::places::check::<#ab3713f43cb9a70d>: crates/dfu_slots/src/places.rt */
static void dfu_slots_places_check(unsigned char *a0, unsigned char *a1) {
    _Alignas(1) unsigned char r3_4[16];
    uint8_t r5, r11;
    unsigned char *r2;
    uint32_t r72_2, r72_3, r1_9_0_copyload, v4, v5;
    uint8_t r1_2_0_copyload, v50;
    uint8_t r12 = dfu_slots_layout_is_sized(a1);
    if (!r12) {
        *a0 = 1;
        return;
    }
    r5 = dfu_slots_read_counts(a1, 0);
    r2 = a1 + 8;
    size_t r3 = load_size(r2);
    r11 = dfu_slots_read_counts(a1, (uint32_t)r3 >> 1);
    if (!(r5 | r11)) {
        *a0 = 1;
        return;
    }
    size_t r3_2 = load_size(r2);
    uint8_t r15 = dfu_slots_places_is_newest(a1, 0, (uint32_t)r3_2 >> 1, r5, r11);
    size_t r3_3 = load_size(r2);
    uint32_t r72 = (uint32_t)r3_3 >> 1;
    r72_2 = (uint32_t)(r15 ? 0 : r72);
    r72_3 = (uint32_t)(r15 ? r72 : 0);
    if (r72_2 == 0) {
        uint8_t r24 = dfu_slots_places_is_newest(a1, 0, r72_3, r5, r11);
        if (!r24) goto then_7;
    }
    else {
        uint8_t r33 = dfu_slots_places_is_newest(a1, r72_2, r72_3, r11, r5);
        if (!r33) goto then_7;
    }
    dfu_slots_read_header_of(r3_4, a1, r72_2);
    r1_2_0_copyload = r3_4[1];
    r1_9_0_copyload = load32u(r3_4 + 12);
    if (r1_2_0_copyload == 2) {
        v50 = 0;
        v4 = r72_3;
        v5 = r72_2;
    }
    else {
        uint32_t r1_6_0_copyload = load32u(r3_4 + 4);
        uint32_t r1_8_0_copyload = load32u(r3_4 + 8);
        uint8_t r1_5_0_copyload = r3_4[3];
        uint8_t r1_4_0_copyload = r3_4[2];
        size_t r3_5 = load_size(r2);
        uint8_t r0_0_0_copyload = a1[16];
        uint32_t r1_0_0_copyload = load32(a1 + 20);
        uint32_t switch_load = (uint32_t)switch_table_dfu_asks_next_piece_numbered_piece[(size_t)r0_0_0_copyload];
        if (((((r1_2_0_copyload == 1) & (r1_6_0_copyload <= (((uint32_t)r3_5 >> 1) - (umax32(r1_0_0_copyload, switch_load) << 1)))) ? (r1_4_0_copyload == 0) : 0) ? (r1_5_0_copyload == 0) : 0) ? (r1_8_0_copyload == 0) : 0) {
            if (r1_9_0_copyload == 0) {
                v50 = 0;
                v4 = r72_3;
                v5 = r72_2;
                goto v3;
            }
        }
        v50 = 1;
        v4 = 0;
        v5 = 0;
    }
v3:
    *a0 = v50;
    store32(a0 + 4, v5);
    store32(a0 + 8, v4);
    return;
then_7:
    *a0 = 1;
    return;
}
#endif

/* dfu_slots::layout::is_sized::<#ab3713f43cb9a70d>: crates/dfu_slots/src/layout.rt */
static uint8_t dfu_slots_layout_is_sized(unsigned char *a0) {
    uint32_t r1_0_0_copyload, a0_a1, r5, r69;
    size_t v0;
    uint8_t common_ret_op;
    r1_0_0_copyload = load32(a0 + 20);
    if (!((r1_0_0_copyload < 0x40001U) & ((r1_0_0_copyload & 255) == 0))) common_ret_op = 0;
    else {
        uint8_t r0_0_0_copyload = a0[16];
        v0 = (size_t)r0_0_0_copyload;
        uint32_t switch_load = (uint32_t)switch_table_dfu_asks_next_piece_numbered_piece[v0];
        a0_a1 = umax32(r1_0_0_copyload, switch_load);
        size_t r3 = load_size(a0 + 8);
        r5 = (uint32_t)r3;
        uint32_t pre = a0_a1 << 2;
        if (!(((pre + 0x2000000U) >= r5) & (((r5 & 1) == 0) ? (pre < r5) : !(r3 & 1)))) common_ret_op = 0;
        else {
            r69 = (r5 >> 1) - (a0_a1 << 1);
            uint32_t switch_load_2 = (uint32_t)switch_table_dfu_asks_asking_Asking_advance[v0];
            if ((switch_load_2 & r69) != 0) common_ret_op = 0;
            else {
                if (r1_0_0_copyload == 0) common_ret_op = 1;
                else {
                    common_ret_op = (r69 % r1_0_0_copyload) == 0;
                }
            }
        }
    }
    return common_ret_op;
}

#ifndef DFU_READ
/* dfu_slots::read::counts::<#ab3713f43cb9a70d>: crates/dfu_slots/src/read.rt */
static uint8_t dfu_slots_read_counts(unsigned char *a0, uint32_t a1) {
    _Alignas(4) unsigned char r1[4];
    unsigned char *r18, *r20;
    uint32_t a0_a1, r3_6_0_copyload, r3_7_0_copyload, r3_8_0_copyload, r10, r7, r3_0;
    uint8_t r3_4_0_copyload, r3_5_0_copyload;
    uint8_t r1_0_in;
    size_t r3_0_0_copyload = load_size(a0);
    r18 = (unsigned char *)(uintptr_t)r3_0_0_copyload;
    uint8_t r1_0_0_copyload = r18[(size_t)a1];
    if (r1_0_0_copyload != 165) r1_0_in = 0;
    else {
        uint8_t r0_0_0_copyload = a0[16];
        uint32_t r1_0_0_copyload_2 = load32(a0 + 20);
        uint32_t switch_load = (uint32_t)switch_table_dfu_asks_next_piece_numbered_piece[(size_t)r0_0_0_copyload];
        a0_a1 = umax32(r1_0_0_copyload_2, switch_load);
        r20 = r18 + (size_t)(a0_a1 + a1);
        uint8_t r3_1_0_copyload = r20[1];
        if (r3_1_0_copyload != 2) r1_0_in = 1;
        else {
            r3_4_0_copyload = r20[2];
            r3_5_0_copyload = r20[3];
            r3_6_0_copyload = load32u(r20 + 4);
            r3_7_0_copyload = load32u(r20 + 8);
            r3_8_0_copyload = load32u(r20 + 12);
            size_t r3 = load_size(a0 + 8);
            r10 = a0_a1 << 1;
            if ((((uint32_t)r3 >> 1) - r10) < r3_6_0_copyload) r1_0_in = 0;
            else {
                store32(r1, 0xffffffffU);
                r7 = r10 + a1;
                r3_0 = 0;
                while (r3_0 < r3_6_0_copyload) {
                    uint32_t a1_a0 = umin32(r3_6_0_copyload - r3_0, 64);
                    dfu_suffix_crc_Crc_update_small(r1, r18 + (size_t)(r7 + r3_0), (size_t)a1_a0);
                    r3_0 = a1_a0 + r3_0;
                }
                uint32_t r0_0_0_copyload_2 = load32(r1);
                r1_0_in = (((r3_4_0_copyload == 0) ? (r3_5_0_copyload == 0) : 0) ? (r3_7_0_copyload == r0_0_0_copyload_2) : 0) ? (r3_8_0_copyload == 0) : 0;
            }
        }
    }
    return r1_0_in;
}
#else
/* dfu_slots::read::counts::<#ab3713f43cb9a70d>: crates/dfu_slots/src/read.rt */
static uint8_t dfu_slots_read_counts(unsigned char *a0, uint32_t a1) {
    _Alignas(1) unsigned char r2_2[64];
    _Alignas(4) unsigned char r3_2[16];
    unsigned char *const r3 = r3_2;
    unsigned char *const r1 = r3_2;
    uint8_t r1_2_0_copyload, r1_3_0_copyload, r1_4_0_copyload;
    uint32_t r1_5_0_copyload, r1_6_0_copyload, r1_7_0_copyload, r3_0;
    uint8_t common_ret_op, r1_0_in;
    uint8_t r2 = dfu_slots_read_byte_at(a0, a1);
    if (r2 != 165) r1_0_in = 0;
    else {
        dfu_slots_read_header_of(r3, a0, a1);
        uint8_t r4_2_0_copyload = r3[1];
        if (r4_2_0_copyload != 2) r1_0_in = 1;
        else {
            dfu_slots_read_header_of(r3_2, a0, a1);
            r1_2_0_copyload = r3_2[1];
            r1_3_0_copyload = r3_2[2];
            r1_4_0_copyload = r3_2[3];
            r1_5_0_copyload = load32u(r3_2 + 4);
            r1_6_0_copyload = load32u(r3_2 + 8);
            r1_7_0_copyload = load32u(r3_2 + 12);
            size_t r3_3 = load_size(a0 + 8);
            uint8_t r0_0_0_copyload = a0[16];
            uint32_t r1_0_0_copyload = load32(a0 + 20);
            uint32_t switch_load = (uint32_t)switch_table_dfu_asks_next_piece_numbered_piece[(size_t)r0_0_0_copyload];
            if ((((uint32_t)r3_3 >> 1) - (umax32(r1_0_0_copyload, switch_load) << 1)) < r1_5_0_copyload) common_ret_op = 0;
            else {
                store32(r1, 0xffffffffU);
                memset(r2_2, 0, 64);
                r3_0 = 0;
                while (r3_0 < r1_5_0_copyload) {
                    uint32_t a1_a0 = umin32(r1_5_0_copyload - r3_0, 64);
                    size_t r28 = (size_t)a1_a0;
                    dfu_slots_read_read_data(a0, a1, r3_0, r2_2, r28);
                    dfu_suffix_crc_Crc_update_small(r1, r2_2, r28);
                    r3_0 = a1_a0 + r3_0;
                }
                uint32_t r0_0_0_copyload_2 = load32(r1);
                common_ret_op = ((((r1_2_0_copyload == 2) ? (r1_3_0_copyload == 0) : 0) ? (r1_4_0_copyload == 0) : 0) ? (r1_6_0_copyload == r0_0_0_copyload_2) : 0) ? (r1_7_0_copyload == 0) : 0;
            }
            r1_0_in = common_ret_op;
        }
    }
    return r1_0_in;
}

/* dfu_slots::read::byte_at::<#ab3713f43cb9a70d>: crates/dfu_slots/src/read.rt */
static uint8_t dfu_slots_read_byte_at(unsigned char *a0, uint32_t a1) {
    _Alignas(4) unsigned char r1[1];
    *r1 = 0;
    size_t r3_0_0_copyload = load_size(a0);
    DFU_READ((unsigned char *)(uintptr_t)r3_0_0_copyload + (size_t)a1, r1, 1);
    uint8_t r15 = *r1;
    return r15;
}

/* dfu_slots::read::read_data::<#ab3713f43cb9a70d>: crates/dfu_slots/src/read.rt */
static void dfu_slots_read_read_data(unsigned char *a0, uint32_t a1, uint32_t a2, unsigned char *a3, size_t a4) {
    uint8_t r0_0_0_copyload = a0[16];
    uint32_t r1_0_0_copyload = load32(a0 + 20);
    uint32_t switch_load = (uint32_t)switch_table_dfu_asks_next_piece_numbered_piece[(size_t)r0_0_0_copyload];
    size_t r3_0_0_copyload = load_size(a0);
    DFU_READ((unsigned char *)(uintptr_t)r3_0_0_copyload + (size_t)((a2 + a1) + (umax32(r1_0_0_copyload, switch_load) << 1)), a3, a4);
    return;
}
#endif

/* dfu_suffix::crc::Crc::update_small: crates/dfu_suffix/src/crc.rt */
static void dfu_suffix_crc_Crc_update_small(unsigned char *a0, unsigned char *a1, size_t a2) {
    size_t r4_0;
    uint32_t r3_0;
    uint32_t r5 = load32(a0);
    r4_0 = 0;
    r3_0 = r5;
    if (r4_0 != a2) {
        do {
            uint8_t r23 = a1[r4_0];
            uint32_t r6 = r3_0 ^ (uint32_t)r23;
            uint32_t r20 = load32(PLACE(static_0) + (size_t)((r6 << 2) & 60));
            uint32_t r23_2 = (r6 >> 4) ^ r20;
            uint32_t r20_2 = load32(PLACE(static_0) + (size_t)((r23_2 << 2) & 60));
            r4_0 = r4_0 + 1;
            r3_0 = (r23_2 >> 4) ^ r20_2;
        } while (r4_0 != a2);
    }
    store32(a0, r3_0);
    return;
}
#ifdef DFU_READ

/* dfu_slots::places::is_newest::<#ab3713f43cb9a70d>: crates/dfu_slots/src/places.rt */
static uint8_t dfu_slots_places_is_newest(unsigned char *a0, uint32_t a1, uint32_t a2, uint8_t a3, uint8_t a4) {
    uint8_t r1_0_in;
    if (!(a3 & a4)) r1_0_in = a3;
    else {
        uint8_t r13 = dfu_slots_read_generation(a0, a1);
        uint8_t r14 = dfu_slots_read_generation(a0, a2);
        r1_0_in = r13 == (uint8_t)(r14 + 1);
    }
    return r1_0_in;
}

/* dfu_slots::read::generation::<#ab3713f43cb9a70d>: crates/dfu_slots/src/read.rt */
static uint8_t dfu_slots_read_generation(unsigned char *a0, uint32_t a1) {
    uint8_t r0_0_0_copyload = a0[16];
    uint32_t r1_0_0_copyload = load32(a0 + 20);
    uint32_t switch_load = (uint32_t)switch_table_dfu_asks_next_piece_numbered_piece[(size_t)r0_0_0_copyload];
    uint8_t r7 = dfu_slots_read_byte_at(a0, umax32(r1_0_0_copyload, switch_load) + a1);
    return r7;
}

/* dfu_slots::read::header_of::<#ab3713f43cb9a70d>: crates/dfu_slots/src/read.rt */
static void dfu_slots_read_header_of(unsigned char *a0, unsigned char *a1, uint32_t a2) {
    _Alignas(1) unsigned char r1[16];
    memset(r1, 0, 16);
    uint8_t r0_0_0_copyload = a1[16];
    uint32_t r1_0_0_copyload = load32(a1 + 20);
    uint32_t switch_load = (uint32_t)switch_table_dfu_asks_next_piece_numbered_piece[(size_t)r0_0_0_copyload];
    size_t r3_0_0_copyload = load_size(a1);
    DFU_READ((unsigned char *)(uintptr_t)r3_0_0_copyload + (size_t)(umax32(r1_0_0_copyload, switch_load) + a2), r1, 16);
    memcpy(a0, r1, 16);
    return;
}
#endif

/* dfu_core::mode::idle_mode: crates/dfu_core/src/mode.rt */
static void dfu_core_mode_idle_mode(unsigned char *a0, unsigned char *a1, unsigned char *a2) {
    _Alignas(4) unsigned char r7[68];
    unsigned char *r52;
    dfu_core_mode_mode_in(r7, a1, a2);
    uint8_t r1_0_0_copyload = *r7;
    r52 = a0 + 1;
    if (r1_0_0_copyload != 0) {
        uint8_t r1_3_1_copyload = r7[1];
        *a0 = 1;
        *r52 = r1_3_1_copyload;
        return;
    }
    uint32_t r31 = load32(a2 + 44);
    if (r31 != 0) {
        *a0 = 1;
        *r52 = 2;
        return;
    }
    uint32_t r8_6_10_2_copyload = load32(r7 + 64);
    uint32_t r8_6_9_2_copyload = load32(r7 + 60);
    uint32_t r8_6_8_2_copyload = load32(r7 + 56);
    uint8_t r8_6_6_2_copyload = r7[53];
    uint8_t r8_6_5_2_copyload = r7[52];
    *a0 = 0;
    memcpy(a0 + 4, r7 + 4, 48);
    a0[52] = r8_6_5_2_copyload;
    a0[53] = r8_6_6_2_copyload;
    store32(a0 + 56, r8_6_8_2_copyload);
    store32(a0 + 60, r8_6_9_2_copyload);
    store32(a0 + 64, r8_6_10_2_copyload);
    return;
}

/* dfu_core::mode::mode_in: crates/dfu_core/src/mode.rt */
static void dfu_core_mode_mode_in(unsigned char *a0, unsigned char *a1, unsigned char *a2) {
    _Alignas(4) unsigned char r3[52];
    _Alignas(2) unsigned char r6_6_0[50];
    _Alignas(4) unsigned char r5[20];
    uint8_t r6_6_3_0, r6_6_4_0, r6_0_0, r6_4_0;
    uint32_t r6_6_6_0, r6_6_7_0, r6_6_8_0;
    memset(r6_6_0, 0, 50);
    dfu_core_config_settings_of(r3, a1);
    uint8_t r9 = *r3;
    if (r9 != 1) {
        *a0 = 1;
        a0[1] = 0;
        return;
    }
    dfu_core_mode_mode_of(r5, a2);
    uint8_t r16 = *r5;
    if (r16 != 1) {
        r6_6_3_0 = 0;
        r6_6_4_0 = 0;
        r6_6_6_0 = 0;
        r6_6_7_0 = 0;
        r6_6_8_0 = 0;
        r6_0_0 = 1;
        r6_4_0 = 4;
    }
    else {
        uint8_t v2 = r5[4];
        uint8_t v3 = r5[5];
        uint32_t v4 = load32(r5 + 8);
        uint32_t v5 = load32(r5 + 12);
        uint32_t v6 = load32(r5 + 16);
        memcpy(r6_6_0 + 2, r3 + 4, 48);
        r6_6_3_0 = v2;
        r6_6_4_0 = v3;
        r6_6_6_0 = v4;
        r6_6_7_0 = v5;
        r6_6_8_0 = v6;
        r6_0_0 = 0;
        r6_4_0 = 0;
    }
    *a0 = r6_0_0;
    a0[1] = r6_4_0;
    memcpy(a0 + 4, r6_6_0 + 2, 48);
    a0[52] = r6_6_3_0;
    a0[53] = r6_6_4_0;
    store32(a0 + 56, r6_6_6_0);
    store32(a0 + 60, r6_6_7_0);
    store32(a0 + 64, r6_6_8_0);
    return;
}

/* dfu_core::mode::set_mode: crates/dfu_core/src/mode.rt */
static void dfu_core_mode_set_mode(unsigned char *a0, unsigned char *a1) {
    uint8_t v0;
    uint32_t v1, v2, r27_15_0, r27_28_0;
    uint16_t r1_14_0_0_extract_trunc, r27_41_0;
    v0 = *a1;
    v1 = load32(a1 + 4);
    v2 = load32(a1 + 8);
    r1_14_0_0_extract_trunc = (uint16_t)v2;
    switch (v0) {
    case 0:
    case 2:
    case 8:
    case 10:
        r27_15_0 = 0;
        r27_28_0 = 0;
        r27_41_0 = 0;
        break;
    case 1:
    case 9:
        r27_15_0 = v1;
        r27_28_0 = v2;
        r27_41_0 = 0;
        break;
    case 3:
    case 4:
    case 6:
    case 11:
        r27_15_0 = v1;
        r27_28_0 = 0;
        r27_41_0 = r1_14_0_0_extract_trunc;
        break;
    case 5: {
        uint32_t v3 = load32(a1 + 12);
        r27_15_0 = v1;
        r27_28_0 = v3;
        r27_41_0 = r1_14_0_0_extract_trunc;
        break;
    }
    case 7:
        r27_15_0 = v1;
        r27_28_0 = 0;
        r27_41_0 = 0;
        break;
    case 12: {
        uint8_t v4 = a1[1];
        r27_15_0 = 0;
        r27_28_0 = 0;
        r27_41_0 = v4;
        break;
    }
    default: never();
    }
    store32(a0, 300);
    store32(a0 + 4, (uint32_t)v0);
    store32(a0 + 8, r27_15_0);
    store32(a0 + 12, r27_28_0);
    store16(a0 + 24, r27_41_0);
    return;
}

/* dfu_device::time_table::poll_ms: crates/dfu_device/src/time_table.rt */
static uint32_t dfu_device_time_table_poll_ms(unsigned char *a0, unsigned char *a1, size_t a2) {
    _Alignas(4) unsigned char r13[12];
    unsigned char *const r15 = r13;
    uint32_t r1_41_4_copyload, r12_0;
    uint8_t r1_0_0_copyload = *a1;
    r1_41_4_copyload = load32(a1 + 4);
    switch (r1_0_0_copyload) {
    case 5: {
        memcpy(r13, a0 + 28, 12);
        uint32_t r2 = load32(a0 + 20);
        uint32_t r23 = dfu_device_time_table_block_ms(r13, r2, r1_41_4_copyload, a2);
        r12_0 = r23;
        break;
    }
    case 9: {
        memcpy(r15, a0 + 28, 12);
        uint32_t r2_2 = load32(a0 + 24);
        uint32_t r29 = dfu_device_time_table_image_ms(r15, r2_2, r1_41_4_copyload);
        r12_0 = r29;
        break;
    }
    case 0:
    case 1:
    case 2:
    case 3:
    case 4:
    case 6:
    case 7:
    case 8:
    case 10:
    case 11:
    case 12:
        r12_0 = 0;
        break;
    default: never();
    }
    return r12_0;
}

/* dfu_device::time_table::block_ms: crates/dfu_device/src/time_table.rt */
static uint32_t dfu_device_time_table_block_ms(unsigned char *a0, uint32_t a1, uint32_t a2, size_t a3) {
    _Alignas(4) unsigned char r1[12];
    memcpy(r1, a0, 12);
    uint8_t r6_0_0_copyload = r1[4];
    uint32_t switch_load = (uint32_t)switch_table_dfu_slots_layout_fill_size[(size_t)r6_0_0_copyload];
    uint32_t r18 = (switch_load - 1) & a2;
    uint32_t r42 = dfu_device_time_table_writes_ms(r1, a1, a2 - r18, (r18 + (uint32_t)umin_size(a3, 4096)) & (((uint32_t)0 - switch_load) | 0xffff0000U), (uint32_t)(a2 == 0));
    return r42;
}

/* dfu_device::time_table::writes_ms: crates/dfu_device/src/time_table.rt */
static uint32_t dfu_device_time_table_writes_ms(unsigned char *a0, uint32_t a1, uint32_t a2, uint32_t a3, uint32_t a4) {
    uint16_t r1_0_0_copyload, r1_3_0_copyload;
    uint32_t r1_44_0_copyload, r4_0, common_ret_op_2, common_ret_op;
    r1_0_0_copyload = load16(a0);
    r1_3_0_copyload = load16(a0 + 2);
    r1_44_0_copyload = load32(a0 + 8);
    if (r1_44_0_copyload == 0) common_ret_op = 0;
    else {
        uint32_t r9 = a2 % r1_44_0_copyload;
        r4_0 = (uint32_t)((r9 == 0) ? 0 : (r1_44_0_copyload - r9));
        if (a3 > r4_0) common_ret_op_2 = ((a3 + (r4_0 ^ 0xffffffffU)) / r1_44_0_copyload) + 1;
        else {
            common_ret_op_2 = 0;
        }
        common_ret_op = (common_ret_op_2 + a4) * (uint32_t)r1_0_0_copyload;
    }
    return umin32(uadd_sat32(common_ret_op + (((((a4 << 8) + a3) * (uint32_t)r1_3_0_copyload) + 255) >> 8), a1), 0xffffffU);
}

/* dfu_device::time_table::image_ms: crates/dfu_device/src/time_table.rt */
static uint32_t dfu_device_time_table_image_ms(unsigned char *a0, uint32_t a1, uint32_t a2) {
    _Alignas(4) unsigned char r1[12];
    memcpy(r1, a0, 12);
    uint8_t r5_0_0_copyload = r1[4];
    uint32_t switch_load = (uint32_t)switch_table_dfu_slots_layout_fill_size[(size_t)r5_0_0_copyload];
    uint32_t r14 = (switch_load - 1) & a2;
    uint32_t r26 = dfu_device_time_table_writes_ms(r1, a1, a2 - r14, (uint32_t)((r14 == 0) ? 0 : switch_load), 2);
    return r26;
}

/* dfu_core::format::formatting_of: crates/dfu_core/src/format.rt */
static void dfu_core_format_formatting_of(unsigned char *a0, unsigned char *a1, unsigned char *a2) {
    uint8_t r26;
    uint32_t r1_16_0;
    uint32_t r15 = load32(a2 + 44);
    if (r15 != 3) {
        memset(a0, 0, 28);
        return;
    }
    r26 = a2[64];
    switch (r26) {
    case 0:
    case 1:
    case 3:
    case 4:
    case 5:
        r1_16_0 = 0;
        break;
    case 2: {
        uint32_t r28 = load32(a2 + 48);
        r1_16_0 = r28;
        break;
    }
    default:
        memset(a0, 0, 28);
        return;
    }
    uint8_t r10_0_0_copyload = a1[40];
    uint32_t r11_0_0_copyload = load32(a1 + 44);
    uint32_t r53 = load32(a2 + 52);
    uint32_t r55 = load32(a2 + 56);
    store32(a0, 1);
    store64a4(a0 + 4, ((uint64_t)(size_t)r11_0_0_copyload << 32) | (uint64_t)(size_t)r10_0_0_copyload);
    store32(a0 + 12, r53);
    store32(a0 + 16, (uint32_t)r26);
    store32(a0 + 20, r1_16_0);
    store32(a0 + 24, r55);
    return;
}

/* dfu_asks::formatting::Formatting::due */
static uint8_t dfu_asks_formatting_Formatting_due(unsigned char *a0, size_t a2, unsigned char *a3) {
    uint8_t common_ret_op;
    if (wide(a2) > 0xffffffffU) common_ret_op = 0;
    else {
        size_t r17 = load_size(a3 + 40);
        if (r17 > 0x1000000U) common_ret_op = 0;
        else {
            uint8_t r33 = dfu_asks_format_piece_part_piece(a0, a2, a3);
            common_ret_op = r33;
        }
    }
    return common_ret_op;
}

/* dfu_asks::format_piece::part_piece: crates/dfu_asks/src/format_piece.rt */
static uint8_t dfu_asks_format_piece_part_piece(unsigned char *a0, size_t a1, unsigned char *a2) {
    _Alignas(4) unsigned char r6[16];
    _Alignas(4) unsigned char r8[16];
    _Alignas(4) unsigned char r11[16];
    uint8_t r3_0_shrunk;
    store64a4(r6 + 8, 0);
    store64a4(r8 + 8, 0);
    store32(r11 + 12, 0);
    uint8_t r18 = a0[12];
    switch (r18) {
    case 0: {
        store32(r6, 0);
        store32(r6 + 4, (uint32_t)(a1 >> 1));
        uint8_t r25 = dfu_asks_next_piece_sequence_piece(r6, a2);
        r3_0_shrunk = r25;
        break;
    }
    case 1: {
        store32(r8, 0);
        store32(r8 + 4, 0);
        uint8_t r29 = dfu_asks_next_piece_sequence_piece(r8, a2);
        r3_0_shrunk = r29;
        break;
    }
    case 2: {
        uint32_t r33 = load32(a0 + 16);
        size_t r36 = load_size(a2 + 40);
        store32(r11, 3);
        store32(r11 + 4, r33);
        store32(r11 + 8, (uint32_t)r36);
        uint8_t r44 = dfu_asks_next_piece_sequence_piece(r11, a2);
        r3_0_shrunk = r44;
        break;
    }
    case 3: {
        uint32_t r47 = load32(a0 + 8);
        uint8_t r50 = dfu_asks_format_piece_open_piece(1, r47, a2);
        r3_0_shrunk = r50;
        break;
    }
    case 4: {
        uint32_t r53 = load32(a0 + 8);
        uint8_t r56 = dfu_asks_format_piece_open_piece(2, r53, a2);
        r3_0_shrunk = r56;
        break;
    }
    case 5:
        r3_0_shrunk = 0;
        break;
    default: never();
    }
    return r3_0_shrunk;
}

/* dfu_asks::next_piece::sequence_piece: crates/dfu_asks/src/next_piece.rt */
static uint8_t dfu_asks_next_piece_sequence_piece(unsigned char *a0, unsigned char *a1) {
    size_t r12_0;
    r12_0 = 0;
    while (r12_0 != 3) {
        uint8_t r23 = dfu_asks_next_piece_numbered_piece(a0, r12_0, a1);
        if (r23) break;
        r12_0 = r12_0 + 1;
    }
    return r12_0 < 3;
}

/* dfu_asks::next_piece::numbered_piece: crates/dfu_asks/src/next_piece.rt */
static uint8_t dfu_asks_next_piece_numbered_piece(unsigned char *a0, size_t a1, unsigned char *a2) {
    uint32_t v0, v1, r20_0_0_copyload, r31, spec_select, r25_2737_0, r25_35_0;
    uint16_t v2;
    uint8_t r18_0_0_copyload, r25_21_0, r25_21_0_ph48, r25_21_0_ph47;
    size_t r1, r17_3, r19, r1_4, r54, r56, r18_4, r1_6, r5_0, r18_2, r5652, r5450;
    size_t r5651, r5449, r6_4_0, r6_4_0_ph20;
    unsigned char *r18_3, *r17_4, *r17_2, *r17_5;
    uint64_t r26, r25_15_0, r18_5, r4_0, r25_15_0_ph46, r25_15_0_ph45;
    uint8_t r21_0_shrunk;
    uint8_t r2 = *a0;
    v0 = load32(a0 + 4);
    v1 = load32(a0 + 8);
    v2 = load16(a0 + 12);
    r18_0_0_copyload = *a2;
    r20_0_0_copyload = load32(a2 + 4);
    switch (r2) {
    case 0:
        if (a1 != 0) {
            r21_0_shrunk = 0;
            goto join_4;
        }
        r1 = (size_t)v0;
        if (r20_0_0_copyload == 0) {
            size_t switch_load = (size_t)switch_table_dfu_asks_next_piece_numbered_piece[(size_t)r18_0_0_copyload];
            unsigned char *r17 = a2 + 48;
            size_t r18 = load_size(r17);
            r18_2 = r18;
            r17_2 = r17;
            r5652 = switch_load;
            r5450 = 0;
            r25_21_0_ph48 = 4;
            r25_15_0_ph46 = r1;
            goto then_1;
        }
        r17_3 = (size_t)r20_0_0_copyload;
        r18_3 = a2 + 48;
        r19 = load_size(r18_3);
        if (r19 >= r17_3) {
            store64(r18_3, r19 - r17_3);
            r21_0_shrunk = 0;
            goto join_4;
        }
        a2[72] = 1;
        memset(a2 + 73, 0, 7);
        store64(a2 + 80, (uint64_t)r19 + (uint64_t)r1);
        store64(a2 + 88, r17_3 - r19);
        r21_0_shrunk = 1;
        goto join_4;
    case 1: {
        uint16_t v3 = load16(a0 + 14);
        size_t v4 = (size_t)r18_0_0_copyload;
        uint32_t switch_load_2 = (uint32_t)switch_table_dfu_asks_next_piece_numbered_piece[v4];
        uint32_t r1_2 = (uint32_t)v2;
        r26 = ((uint64_t)(size_t)usub_sat32(v1, r1_2) + (uint64_t)(size_t)v0) + ((uint64_t)(size_t)umax32(r20_0_0_copyload, switch_load_2) << 1);
        uint32_t switch_load66 = (uint32_t)switch_table_dfu_slots_layout_fill_size[v4];
        r31 = ((uint32_t)v3 + r1_2) & ((uint32_t)0 - switch_load66);
        spec_select = (uint32_t)((v2 == 0) ? 0 : umin32(r31, switch_load66));
        switch (a1) {
        case 0:
            r25_15_0 = r26;
            r25_21_0 = 0;
            r25_2737_0 = 0;
            r25_35_0 = spec_select;
            break;
        case 1:
            r25_15_0 = r26 + (uint64_t)(size_t)spec_select;
            r25_21_0 = 0;
            r25_2737_0 = spec_select;
            r25_35_0 = r31 - spec_select;
            break;
        default:
            r21_0_shrunk = 0;
            goto join_4;
        }
        break;
    }
    case 2:
        switch (a1) {
        case 0: {
            size_t v5 = (size_t)r18_0_0_copyload;
            uint32_t switch_load_3 = (uint32_t)switch_table_dfu_asks_next_piece_numbered_piece[v5];
            uint32_t r1_3 = (uint32_t)v2;
            uint32_t switch_load_4 = (uint32_t)switch_table_dfu_slots_layout_fill_size[v5];
            uint32_t v6 = switch_load_4 - 1;
            r25_15_0 = ((uint64_t)(size_t)usub_sat32(v1, r1_3) + (uint64_t)(size_t)v0) + ((uint64_t)(size_t)umax32(r20_0_0_copyload, switch_load_3) << 1);
            r25_21_0 = 1;
            r25_2737_0 = 0;
            r25_35_0 = ((switch_load_4 - (v6 & r1_3)) & v6) + r1_3;
            break;
        }
        case 1: {
            uint32_t switch_load35 = (uint32_t)switch_table_dfu_asks_next_piece_numbered_piece[(size_t)r18_0_0_copyload];
            r25_15_0 = (uint64_t)(size_t)umax32(r20_0_0_copyload, switch_load35) + (uint64_t)(size_t)v0;
            r25_21_0 = 2;
            r25_2737_0 = 0;
            r25_35_0 = switch_load35;
            break;
        }
        case 2:
            r1_4 = (size_t)v0;
            switch (r18_0_0_copyload) {
            case 0:
            case 1:
                r25_15_0 = r1_4;
                r25_21_0 = 3;
                r25_2737_0 = 0;
                r25_35_0 = 16;
                break;
            case 2:
                r25_15_0 = r1_4;
                r25_21_0 = 3;
                r25_2737_0 = 0;
                r25_35_0 = 64;
                break;
            case 3:
                r25_15_0 = r1_4;
                r25_21_0 = 3;
                r25_2737_0 = 0;
                r25_35_0 = 256;
                break;
            default: never();
            }
            break;
        default: never();
        }
        break;
    case 3: {
        if (a1 != 0) {
            r21_0_shrunk = 0;
            goto join_4;
        }
        size_t v8 = (size_t)r18_0_0_copyload;
        uint32_t switch_load_5 = (uint32_t)switch_table_dfu_slots_layout_fill_size[v8];
        uint32_t v9 = switch_load_5 - 1;
        uint64_t r42 = (uint64_t)(size_t)((switch_load_5 - (v9 & v1)) & v9) + (uint64_t)(size_t)v1;
        size_t r1_5 = (size_t)v0;
        size_t a1_a0 = (size_t)umin64(r42, r1_5);
        uint32_t switch_load69 = (uint32_t)switch_table_dfu_asks_next_piece_numbered_piece[v8];
        r25_15_0 = ((uint64_t)(size_t)umax32(r20_0_0_copyload, switch_load69) << 1) + (uint64_t)r1_5;
        r25_21_0 = 0;
        r25_2737_0 = (uint32_t)a1_a0;
        r25_35_0 = (uint32_t)(size_t)umin64(r42 - (uint64_t)a1_a0, 4096);
        break;
    }
    default: never();
    }
    r54 = (size_t)r25_2737_0;
    r56 = (size_t)r25_35_0;
    r17_4 = a2 + 48;
    r18_4 = load_size(r17_4);
    if (r20_0_0_copyload != 0) {
        r1_6 = (size_t)r20_0_0_copyload;
        r18_5 = r25_15_0 + (uint64_t)r56;
        uint32_t r22 = ((((uint32_t)(size_t)(r25_15_0 >> 14) % r20_0_0_copyload) << 14) | ((uint32_t)r25_15_0 & 16383)) % r20_0_0_copyload;
        r5_0 = r18_4;
        r4_0 = (uint64_t)((r22 == 0) ? 0 : ((uint64_t)r1_6 - (uint64_t)(size_t)r22)) + r25_15_0;
        for (;;) {
            if (r4_0 >= r18_5) goto arm_4;
            if (r5_0 < r1_6) break;
            r5_0 = r5_0 - r1_6;
            r4_0 = r4_0 + (uint64_t)r1_6;
        }
        a2[72] = 1;
        memset(a2 + 73, 0, 7);
        store64(a2 + 80, r4_0 + (uint64_t)r5_0);
        store64(a2 + 88, r1_6 - r5_0);
        r21_0_shrunk = 1;
        goto join_4;
arm_4:;
        uint8_t r4 = r5_0 < r56;
        size_t r2_4_0 = r5_0 - (size_t)(r4 ? 0 : r56);
        if (!r4) {
            r17_5 = r17_4;
            r6_4_0_ph20 = r2_4_0;
            goto arm_3;
        }
        r5651 = r56;
        r5449 = r54;
        r25_21_0_ph47 = r25_21_0;
        r25_15_0_ph45 = r25_15_0;
        r6_4_0 = r2_4_0;
        goto arm_2;
    }
    r18_2 = r18_4;
    r17_2 = r17_4;
    r5652 = r56;
    r5450 = r54;
    r25_21_0_ph48 = r25_21_0;
    r25_15_0_ph46 = r25_15_0;
then_1:;
    uint8_t r4_2 = r18_2 < r5652;
    size_t r2_4_0_2 = r18_2 - (size_t)(r4_2 ? 0 : r5652);
    if (!r4_2) {
        r17_5 = r17_2;
        r6_4_0_ph20 = r2_4_0_2;
        goto arm_3;
    }
    r5651 = r5652;
    r5449 = r5450;
    r25_21_0_ph47 = r25_21_0_ph48;
    r25_15_0_ph45 = r25_15_0_ph46;
    r6_4_0 = r2_4_0_2;
arm_2:
    store64(a2 + 72, 0);
    store64(a2 + 80, (uint64_t)r6_4_0 + r25_15_0_ph45);
    store64(a2 + 88, (size_t)umin64((uint64_t)r5651 - (uint64_t)r6_4_0, 256));
    a2[96] = r25_21_0_ph47;
    store64(a2 + 104, (uint64_t)r6_4_0 + (uint64_t)r5449);
    r21_0_shrunk = 1;
    goto join_4;
arm_3:
    store64(r17_5, r6_4_0_ph20);
    r21_0_shrunk = 0;
join_4:
    return r21_0_shrunk;
}

/* dfu_asks::format_piece::open_piece: crates/dfu_asks/src/format_piece.rt */
static uint8_t dfu_asks_format_piece_open_piece(size_t a0, uint32_t a1, unsigned char *a2) {
    _Alignas(4) unsigned char r1[16];
    store32(r1 + 12, 0);
    size_t r8 = load_size(a2 + 40);
    a2[56] = 0;
    a2[57] = 2;
    a2[58] = 0;
    a2[59] = 0;
    store32(a2 + 60, (uint32_t)r8);
    store32(a2 + 64, a1);
    store32(a2 + 68, 0);
    store32(r1, 2);
    store32(r1 + 4, 0);
    store32(r1 + 8, 0);
    uint8_t r17 = dfu_asks_next_piece_numbered_piece(r1, a0, a2);
    return r17;
}

#ifndef DFU_READ
/* dfu_asks::cut::stands: crates/dfu_asks/src/cut.rt */
static uint8_t dfu_asks_cut_stands(unsigned char *a0, size_t a1, unsigned char *a2) {
    _Alignas(8) unsigned char r10[48];
    uint64_t r3_2_0_copyload;
    unsigned char *r44, *r53, *r86;
    size_t r1_3_0_copyload, r1_6_0_copyload, r1_8_0_copyload, r3_0, r3_0_lcssa;
    uint8_t r1_9_0_copyload;
    uint8_t common_ret_op;
    r3_2_0_copyload = load64(a2 + 80);
    size_t r3_4_0_copyload = load_size(a2 + 88);
    if ((uint64_t)a1 < ((uint64_t)r3_4_0_copyload + r3_2_0_copyload)) common_ret_op = 0;
    else {
        dfu_asks_cut_runs_of(r10, a2);
        r44 = a0 + (size_t)r3_2_0_copyload;
        size_t r1_0_0_copyload = load_size(r10);
        r1_3_0_copyload = load_size(r10 + 8);
        r1_6_0_copyload = load_size(r10 + 24);
        r1_8_0_copyload = load_size(r10 + 32);
        r1_9_0_copyload = r10[40];
        uint8_t r40 = dfu_asks_cut_are_same(r44, r1_3_0_copyload, (unsigned char *)(uintptr_t)r1_0_0_copyload);
        if (!r40) common_ret_op = 0;
        else {
            size_t r1_5_0_copyload = load_size(r10 + 16);
            r53 = r44 + r1_3_0_copyload;
            uint8_t r68 = dfu_asks_cut_are_same(r53, r1_6_0_copyload, (unsigned char *)(uintptr_t)r1_5_0_copyload);
            if (!r68) common_ret_op = 0;
            else {
                r86 = r53 + r1_6_0_copyload;
                r3_0 = 0;
                for (;;) {
                    if (r3_0 == r1_8_0_copyload) {
                        r3_0_lcssa = r1_8_0_copyload;
                        break;
                    }
                    uint8_t r3_0_0_copyload = r86[r3_0];
                    if (r3_0_0_copyload != r1_9_0_copyload) {
                        r3_0_lcssa = r3_0;
                        break;
                    }
                    r3_0 = r3_0 + 1;
                }
                common_ret_op = r3_0_lcssa >= r1_8_0_copyload;
            }
        }
    }
    return common_ret_op;
}
#else
/* dfu_asks::cut::stands: crates/dfu_asks/src/cut.rt */
static uint8_t dfu_asks_cut_stands(unsigned char *a0, size_t a1, unsigned char *a2) {
    _Alignas(8) unsigned char r10[48];
    uint64_t r3_2_0_copyload;
    unsigned char *r44, *r53, *r86;
    size_t r1_3_0_copyload, r1_5_0_copyload, r1_6_0_copyload, r1_8_0_copyload, r3_0, r3_0_lcssa;
    uint8_t r1_9_0_copyload;
    uint8_t common_ret_op;
    r3_2_0_copyload = load64(a2 + 80);
    size_t r3_4_0_copyload = load_size(a2 + 88);
    if ((uint64_t)a1 < ((uint64_t)r3_4_0_copyload + r3_2_0_copyload)) common_ret_op = 0;
    else {
        dfu_asks_cut_runs_of(r10, a2);
        r44 = a0 + (size_t)r3_2_0_copyload;
        size_t r1_0_0_copyload = load_size(r10);
        r1_3_0_copyload = load_size(r10 + 8);
        r1_5_0_copyload = load_size(r10 + 16);
        r1_6_0_copyload = load_size(r10 + 24);
        r1_8_0_copyload = load_size(r10 + 32);
        r1_9_0_copyload = r10[40];
        uint8_t r40 = dfu_asks_cut_are_same(r44, r1_3_0_copyload, (unsigned char *)(uintptr_t)r1_0_0_copyload);
        if (!r40) common_ret_op = 0;
        else {
            r53 = r44 + r1_3_0_copyload;
            uint8_t r68 = dfu_asks_cut_are_same(r53, r1_6_0_copyload, (unsigned char *)(uintptr_t)r1_5_0_copyload);
            if (!r68) common_ret_op = 0;
            else {
                r86 = r53 + r1_6_0_copyload;
                r3_0 = 0;
                for (;;) {
                    if (r3_0 == r1_8_0_copyload) {
                        r3_0_lcssa = r1_8_0_copyload;
                        break;
                    }
                    uint8_t r19 = dfu_slots_read_flash_byte_at(r86, r3_0);
                    if (r19 != r1_9_0_copyload) {
                        r3_0_lcssa = r3_0;
                        break;
                    }
                    r3_0 = r3_0 + 1;
                }
                common_ret_op = r3_0_lcssa >= r1_8_0_copyload;
            }
        }
    }
    return common_ret_op;
}
#endif

/* dfu_asks::cut::runs_of: crates/dfu_asks/src/cut.rt */
static void dfu_asks_cut_runs_of(unsigned char *a0, unsigned char *a1) {
    size_t r15, r1_15_0, r1_7_0, r1_0_0, sink;
    unsigned char *r1_10_0;
    r15 = load_size(a1 + 88);
    uint8_t r17 = a1[72];
    if (r17 & 1) {
        store_size(a0, (size_t)(uintptr_t)static_2);
        store_size(a0 + 8, 0);
        store_size(a0 + 16, (size_t)(uintptr_t)static_2);
        store_size(a0 + 24, 0);
        store_size(a0 + 32, r15);
        sink = 255;
    }
    else {
        uint8_t r25 = a1[96];
        switch (r25) {
        case 0: {
            size_t r2_0_0_copyload = load_size(a1 + 16);
            size_t r2_3_0_copyload = load_size(a1 + 24);
            size_t r3_0_0_copyload = load_size(a1 + 32);
            size_t r3_3_0_copyload = load_size(a1 + 40);
            r1_10_0 = (unsigned char *)(uintptr_t)r3_0_0_copyload;
            r1_15_0 = r3_3_0_copyload;
            r1_7_0 = r2_3_0_copyload;
            r1_0_0 = r2_0_0_copyload;
            break;
        }
        case 1: {
            size_t r4_0_0_copyload = load_size(a1 + 16);
            size_t r4_3_0_copyload = load_size(a1 + 24);
            r1_10_0 = PLACE(static_2);
            r1_15_0 = 0;
            r1_7_0 = r4_3_0_copyload;
            r1_0_0 = r4_0_0_copyload;
            break;
        }
        case 2:
            r1_10_0 = PLACE(static_2);
            r1_15_0 = 0;
            r1_7_0 = 16;
            r1_0_0 = (size_t)(uintptr_t)(a1 + 56);
            break;
        case 3:
            r1_10_0 = PLACE(static_2);
            r1_15_0 = 0;
            r1_7_0 = 1;
            r1_0_0 = (size_t)(uintptr_t)static_3;
            break;
        case 4:
            r1_10_0 = PLACE(static_2);
            r1_15_0 = 0;
            r1_7_0 = 0;
            r1_0_0 = (size_t)(uintptr_t)static_2;
            break;
        default: never();
        }
        uint64_t r34 = load64(a1 + 104);
        size_t a1_a0 = (size_t)umin64(r1_7_0, r34);
        size_t a1_a0_2 = umin_size(r1_7_0 - a1_a0, r15);
        size_t r20 = r15 - a1_a0_2;
        size_t a1_a0_3 = (size_t)umin64(r1_15_0, usub_sat64(r34, r1_7_0));
        size_t a1_a0_4 = umin_size(r1_15_0 - a1_a0_3, r20);
        store_size(a0, a1_a0 + r1_0_0);
        store_size(a0 + 8, a1_a0_2);
        store_size(a0 + 16, (size_t)(uintptr_t)(r1_10_0 + a1_a0_3));
        store_size(a0 + 24, a1_a0_4);
        store_size(a0 + 32, r20 - a1_a0_4);
        sink = 0;
    }
    store_size(a0 + 40, sink);
    return;
}

#ifndef DFU_READ
/* dfu_asks::cut::are_same: crates/dfu_asks/src/cut.rt */
static uint8_t dfu_asks_cut_are_same(unsigned char *a0, size_t a1, unsigned char *a2) {
    size_t r5_0, r5_0_lcssa;
    r5_0 = 0;
    for (;;) {
        if (r5_0 == a1) {
            r5_0_lcssa = a1;
            break;
        }
        uint8_t r3_0_0_copyload = a0[r5_0];
        uint8_t r28 = a2[r5_0];
        if (r3_0_0_copyload != r28) {
            r5_0_lcssa = r5_0;
            break;
        }
        r5_0 = r5_0 + 1;
    }
    return r5_0_lcssa >= a1;
}
#else
/* dfu_asks::cut::are_same: crates/dfu_asks/src/cut.rt */
static uint8_t dfu_asks_cut_are_same(unsigned char *a0, size_t a1, unsigned char *a2) {
    size_t r5_0, r5_0_lcssa;
    r5_0 = 0;
    for (;;) {
        if (r5_0 == a1) {
            r5_0_lcssa = a1;
            break;
        }
        uint8_t r23 = dfu_slots_read_flash_byte_at(a0, r5_0);
        uint8_t r28 = a2[r5_0];
        if (r23 != r28) {
            r5_0_lcssa = r5_0;
            break;
        }
        r5_0 = r5_0 + 1;
    }
    return r5_0_lcssa >= a1;
}

/* dfu_slots::read::flash_byte_at: crates/dfu_slots/src/read.rt */
static uint8_t dfu_slots_read_flash_byte_at(unsigned char *a0, size_t a2) {
    _Alignas(4) unsigned char r3[1];
    *r3 = 0;
    DFU_READ(a0 + a2, r3, 1);
    uint8_t r34 = *r3;
    return r34;
}
#endif

/* dfu_asks::next_and_took::is_sound: crates/dfu_asks/src/next_and_took.rt */
static uint8_t dfu_asks_next_and_took_is_sound(uint32_t a0, unsigned char *a1) {
    uint64_t r2_35_0_copyload;
    uint8_t common_ret_op;
    uint8_t r2_0_0_copyload = *a1;
    r2_35_0_copyload = load64(a1 + 8);
    if (!(r2_0_0_copyload & 1)) common_ret_op = 1;
    else {
        size_t r2_4_0_copyload = load_size(a1 + 16);
        if ((a0 != 0) ? (r2_4_0_copyload == (size_t)a0) : 0) common_ret_op = (((((uint32_t)(size_t)(r2_35_0_copyload >> 14) % a0) << 14) | ((uint32_t)r2_35_0_copyload & 16383)) % a0) == 0;
        else {
            common_ret_op = 0;
        }
    }
    return common_ret_op;
}

/* dfu_asks::cut::fill: crates/dfu_asks/src/cut.rt */
static void dfu_asks_cut_fill(unsigned char *a0, unsigned char *a1) {
    _Alignas(8) unsigned char r0[48];
    uint64_t r27;
    size_t a1_a0, r28, r4_0;
    unsigned char *r61;
    uint8_t r70;
    dfu_asks_cut_runs_of(r0, a0);
    size_t r21 = load_size(r0 + 8);
    size_t r24 = load_size(r0 + 24);
    r27 = (uint64_t)r24 + (uint64_t)r21;
    size_t r30 = load_size(a0 + 88);
    a1_a0 = umin_size(r30, 256);
    size_t r8_0_0_copyload = load_size(r0);
    memmove(a1, (unsigned char *)(uintptr_t)r8_0_0_copyload, r21);
    size_t r13_0_0_copyload = load_size(r0 + 16);
    memmove(a1 + r21, (unsigned char *)(uintptr_t)r13_0_0_copyload, r24);
    r61 = a1 + (size_t)r27;
    r70 = r0[40];
    if ((uint64_t)a1_a0 == r27) return;
    r28 = a1_a0 + ((size_t)r27 ^ (size_t)0xffffffffffffffffULL);
    r4_0 = 0;
    if (r4_0 != r28) {
        do {
            r61[r4_0] = r70;
            r4_0 = r4_0 + 1;
        } while (r4_0 != r28);
    }
    r61[r28] = r70;
    return;
}

/* dfu_core::keeping::found: crates/dfu_core/src/keeping.rt */
static void dfu_core_keeping_found(unsigned char *a0, unsigned char *a1, size_t a2, unsigned char *a3) {
    _Alignas(4) unsigned char r6[52];
    _Alignas(4) unsigned char r15[20];
    unsigned char *const r22_4_16 = r15;
    uint32_t r24, r0_5104_0_copyload, v3, r1_9_12_copyload, r1_11_16_copyload, r6_2, r15_2, r8_5_0_0, r8_142_0, r74, r21_6_0_0, r21_9_0;
    uint32_t r21_11_0, r21_14_0, r21_17_0;
    unsigned char *r36, *r19;
    uint8_t r0_3_0_copyload, r1_3_4_copyload, r1_5_5_copyload, r18, r8_11_0, r1_5_0_0, r21_12_0;
    uint16_t r43, r65, r31, r1_8_0, r21_15_0, r21_16_0;
    r24 = load32(a1 + 44);
    if (r24 == 3) {
        *a3 = 1;
        a3[1] = 2;
        return;
    }
    dfu_core_config_settings_of(r6, a0);
    uint8_t r35 = *r6;
    if (r35 != 1) {
        *a3 = 1;
        a3[1] = 0;
        return;
    }
    r36 = r6 + 4;
    r0_3_0_copyload = r6[44];
    r0_5104_0_copyload = load32(r6 + 48);
    r43 = load16(a0 + 12);
    size_t switch_load = (size_t)switch_table_dfu_slots_layout_fill_size[(size_t)r0_3_0_copyload];
    if (a2 < (switch_load + (size_t)r43)) {
        *a3 = 1;
        a3[1] = 1;
        return;
    }
    r65 = load16(a1 + 26);
    if (r43 < r65) {
        *a3 = 1;
        a3[1] = 4;
        return;
    }
    r31 = load16(a1 + 66);
    if (r31 <= 256) {
        dfu_core_mode_mode_of(r15, a1);
        uint8_t r2 = *r15;
        r1_3_4_copyload = r15[4];
        r1_5_5_copyload = r15[5];
        v3 = load32(r15 + 8);
        r1_9_12_copyload = load32(r15 + 12);
        r1_11_16_copyload = load32(r15 + 16);
        if (r2 == 1) {
            r6_2 = load32(a1 + 20);
            if (r6_2 <= 1) {
                r18 = r6_2 == 1;
                r19 = a1 + 28;
                if (r24 == 0) {
                    r21_6_0_0 = 0;
                    r21_9_0 = 0;
                    r21_11_0 = 0;
                    r21_12_0 = 0;
                    r21_14_0 = 0;
                    r21_15_0 = 0;
                    r21_16_0 = 0;
                    r21_17_0 = 0;
                }
                else {
                    r15_2 = load32(a1 + 48);
                    switch (r24) {
                    case 1: {
                        uint8_t r26 = a1[65];
                        if (r26 >= 2) goto arm_15;
                        r8_5_0_0 = 0;
                        r8_11_0 = r26;
                        r8_142_0 = 0;
                        break;
                    }
                    case 2: {
                        uint32_t r19_2 = load32(a1 + 52);
                        uint8_t r17 = a1[64];
                        r8_5_0_0 = 1;
                        r8_11_0 = r17;
                        r8_142_0 = r19_2;
                        break;
                    }
                    default: goto arm_15;
                    }
                    r74 = load32(a1 + 60);
                    if (r74 == 0) {
                        r1_5_0_0 = 0;
                        r1_8_0 = 0;
                    }
                    else {
                        if (r74 >= 0x10001U) goto arm_15;
                        r1_5_0_0 = 1;
                        r1_8_0 = (uint16_t)((uint16_t)r74 + 0xffffU);
                    }
                    uint32_t r100 = load32(a1 + 56);
                    r21_6_0_0 = 1;
                    r21_9_0 = r8_5_0_0;
                    r21_11_0 = r15_2;
                    r21_12_0 = r8_11_0;
                    r21_14_0 = r8_142_0;
                    r21_15_0 = r1_5_0_0;
                    r21_16_0 = r1_8_0;
                    r21_17_0 = r100;
                }
                uint32_t r111 = load32(a1 + 16);
                memcpy(r22_4_16, r19, 16);
                *a3 = 0;
                memcpy(a3 + 8, r36, 40);
                a3[48] = r0_3_0_copyload;
                memset(a3 + 49, 0, 3);
                store32(a3 + 52, r0_5104_0_copyload);
                a3[56] = r1_3_4_copyload;
                a3[57] = r1_5_5_copyload;
                store16(a3 + 58, 0);
                store32(a3 + 60, v3);
                store32(a3 + 64, r1_9_12_copyload);
                store32(a3 + 68, r1_11_16_copyload);
                store64(a3 + 72, (size_t)r65);
                store64(a3 + 80, (size_t)r31);
                store32(a3 + 88, r111);
                a3[92] = r18;
                memcpy(a3 + 93, r22_4_16, 16);
                memset(a3 + 109, 0, 3);
                store32(a3 + 112, r21_6_0_0);
                store32(a3 + 116, r21_9_0);
                store32(a3 + 120, r21_11_0);
                a3[124] = r21_12_0;
                memset(a3 + 125, 0, 3);
                store32(a3 + 128, r21_14_0);
                store16(a3 + 132, r21_15_0);
                store16(a3 + 134, r21_16_0);
                store32(a3 + 136, r21_17_0);
                store32(a3 + 140, 0);
                return;
            }
        }
    }
arm_15:
    *a3 = 1;
    a3[1] = 4;
    return;
}

/* dfu_asks::next_piece::next_piece: crates/dfu_asks/src/next_piece.rt */
static uint8_t dfu_asks_next_piece_next_piece(unsigned char *a0, unsigned char *a1) {
    _Alignas(4) unsigned char r2_3[16];
    unsigned char *const r2_2 = r2_3;
    unsigned char *const r1 = r2_3;
    uint32_t r1_3_4_copyload;
    uint8_t r1_6_8_copyload;
    uint8_t common_ret_op, r15_0_in;
    uint8_t r2 = *a0;
    r1_3_4_copyload = load32(a0 + 4);
    r1_6_8_copyload = a0[8];
    if (r2 != 0) {
        uint32_t r1_91_12_copyload = load32(a0 + 12);
        unsigned char *v2 = r2_3 + 12;
        store32(v2, 0);
        uint32_t r8 = load32(a1 + 8);
        a1[56] = r1_6_8_copyload;
        a1[57] = 2;
        a1[58] = 0;
        a1[59] = 0;
        store32(a1 + 60, r8);
        store32(a1 + 64, r1_91_12_copyload);
        store32(a1 + 68, 0);
        size_t r13 = load_size(a1 + 24);
        store32(r2_3, 2);
        store32(r2_3 + 4, r1_3_4_copyload);
        store32(r2_3 + 8, r8);
        store16(v2, (uint16_t)r13);
        uint8_t r22_2 = dfu_asks_next_piece_sequence_piece(r2_3, a1);
        r15_0_in = r22_2;
    }
    else {
        store64a4(r2_2 + 8, 0);
        if (r1_6_8_copyload & 1) {
            store32(r2_2, 0);
            store32(r2_2 + 4, r1_3_4_copyload);
            uint8_t r9 = dfu_asks_next_piece_sequence_piece(r2_2, a1);
            if (r9) {
                common_ret_op = 1;
                goto dfu_asks_next_piece_block_piece_exit;
            }
        }
        uint32_t r19 = load32(a1 + 8);
        size_t r22 = load_size(a1 + 24);
        size_t r27 = load_size(a1 + 40);
        store32(r1, 1);
        store32(r1 + 4, r1_3_4_copyload);
        store32(r1 + 8, r19);
        store16(r1 + 12, (uint16_t)r22);
        store16(r1 + 14, (uint16_t)r27);
        uint8_t r38 = dfu_asks_next_piece_sequence_piece(r1, a1);
        common_ret_op = r38;
dfu_asks_next_piece_block_piece_exit:
        r15_0_in = common_ret_op;
    }
    return r15_0_in;
}

/* dfu_asks::asking::Asking::look_at: crates/dfu_asks/src/cut.rt */
static struct i64_i8 dfu_asks_asking_Asking_look_at(unsigned char *a0, unsigned char *a1, unsigned char *a2, size_t a3, unsigned char *a4, size_t a5, unsigned char *a6, size_t a7) {
    _Alignas(8) unsigned char r7[112];
    uint8_t r0_4_0;
    size_t r0_0_0;
    uint8_t r5_0_0_copyload = a0[40];
    uint32_t r6_0_0_copyload = load32(a0 + 44);
    uint32_t r17 = load32(a0 + 80);
    size_t r8 = load_size(a0 + 72);
    size_t r26 = load_size(a0 + 64);
    uint32_t r24 = load32(a1 + 20);
    *r7 = r5_0_0_copyload;
    memset(r7 + 1, 0, 3);
    store32(r7 + 4, r6_0_0_copyload);
    store32(r7 + 8, r17);
    store32(r7 + 12, 0);
    store64(r7 + 16, (size_t)(uintptr_t)a4);
    store64(r7 + 24, umin_size(a5, r8));
    store64(r7 + 32, (size_t)(uintptr_t)a2);
    store64(r7 + 40, umin_size(a3, r26));
    store64(r7 + 48, (size_t)r24);
    memset(r7 + 56, 0, 40);
    r7[96] = 4;
    memset(r7 + 97, 0, 15);
    uint8_t r35 = dfu_asks_next_piece_next_piece(a1, r7);
    if (!r35) {
        r0_4_0 = 0;
        r0_0_0 = 0;
    }
    else {
        size_t r47 = load_size(r7 + 88);
        uint8_t r52 = dfu_asks_cut_stands(a6, a7, r7);
        r0_4_0 = r52;
        r0_0_0 = r47;
    }
    struct i64_i8 r59_half = (struct i64_i8){ 0, 0 };
    r59_half.a = r0_0_0;
    struct i64_i8 r59 = r59_half;
    r59.b = r0_4_0;
    return r59;
}

/* dfu_asks::asking::Asking::fail: crates/dfu_asks/src/finish.rt */
static struct i8_i64 dfu_asks_asking_Asking_fail(unsigned char *a0, uint8_t a1, uint8_t a2, uint16_t a3, unsigned char *a4, size_t a5, unsigned char *a6) {
    _Alignas(4) unsigned char r4[16];
    struct i8_i64 r24_pn;
    store32(r4, 0);
    unsigned char *r10 = a0 + 48;
    uint8_t v0 = *r10;
    *r4 = v0;
    uint8_t r5_0_0_copyload = a0[40];
    uint32_t r6_0_0_copyload = load32(a0 + 44);
    dfu_asks_finish_note(a0 + 84, r4, a4, a5, r5_0_0_copyload, r6_0_0_copyload);
    store64(a0 + 72, 0);
    store32(a0 + 80, 0);
    uint8_t v1 = *r10;
    uint8_t switch_load = *(PLACE(switch_table_dfu_asks_asking_Asking_fail) + (size_t)v1);
    *r10 = 12;
    a0[49] = (uint8_t)((a1 & 1) ? 7 : switch_load);
    store32(a0 + 52, 0);
    store32(a0 + 56, 0);
    store32(a0 + 60, 0);
    memset(a0 + 104, 0, 28);
    if (a2 == 0) r24_pn = (struct i8_i64){ 0, 0 };
    else {
        struct i8_i64 r40 = dfu_asks_asking_Asking_give(a0, 1, a3, a6);
        r24_pn = r40;
    }
    return r24_pn;
}

/* dfu_asks::finish::note: crates/dfu_asks/src/finish.rt */
static void dfu_asks_finish_note(unsigned char *a0, unsigned char *a1, unsigned char *a2, size_t a3, uint8_t a4, uint32_t a5) {
    _Alignas(4) unsigned char r15[18];
    uint8_t v0 = *a1;
    switch (v0) {
    case 3:
    case 5: return;
    case 0:
    case 1:
    case 2:
    case 4:
    case 6:
    case 7:
    case 8:
    case 9:
    case 10:
    case 11:
    case 12: {
        dfu_asks_noted_Noted_find(r15, a2, a3, a4, a5);
        uint8_t r25 = *r15;
        if (r25 != 1) return;
        memcpy(a0, r15 + 1, 17);
        return;
    }
    default: never();
    }
}

/* dfu_asks::asking::Asking::give: crates/dfu_asks/src/carry.rt */
static struct i8_i64 dfu_asks_asking_Asking_give(unsigned char *a0, uint8_t a1, uint16_t a2, unsigned char *a3) {
    _Alignas(4) unsigned char r1[16];
    unsigned char *const r4 = r1;
    unsigned char *const r5_0 = r1;
    size_t r6_62_0;
    uint8_t r6_0_0;
    switch (a1) {
    case 0:
        r6_62_0 = 0;
        r6_0_0 = a1;
        break;
    case 3:
        r6_62_0 = 0;
        r6_0_0 = 2;
        break;
    case 1: {
        uint8_t v0 = a0[48];
        uint8_t v1 = a0[49];
        uint32_t v2 = load32(a0 + 52);
        size_t r40 = load_size(a0 + 64);
        store32(r1, 0);
        *r1 = v0;
        store32(r1 + 4, v2);
        uint32_t r17 = dfu_device_time_table_poll_ms(a0, r1, r40);
        uint8_t switch_load = *(PLACE(switch_table_dfu_device_device_state_DeviceState_state) + (size_t)v0);
        *r4 = (uint8_t)((v0 == 12) ? v1 : 0);
        store24u(r4 + 1, (uint32_t)(r17 & 0xffffffU));
        r4[4] = switch_load;
        r4[5] = 0;
        size_t a1_a0 = (size_t)umin16(a2, 6);
        memcpy(a3, r4, a1_a0);
        r6_62_0 = a1_a0;
        r6_0_0 = 1;
        break;
    }
    case 2: {
        uint8_t v6 = a0[48];
        uint8_t switch_load_2 = *(PLACE(switch_table_dfu_device_device_state_DeviceState_state) + (size_t)v6);
        *r5_0 = switch_load_2;
        size_t a1_a0_2 = (size_t)(a2 != 0);
        memcpy(a3, r5_0, a1_a0_2);
        r6_62_0 = a1_a0_2;
        r6_0_0 = 1;
        break;
    }
    default: never();
    }
    struct i8_i64 r88_half = (struct i8_i64){ 0, 0 };
    r88_half.a = r6_0_0;
    struct i8_i64 r88 = r88_half;
    r88.b = r6_62_0;
    return r88;
}

/* dfu_asks::asking::Asking::advance */
static void dfu_asks_asking_Asking_advance(unsigned char *a0, unsigned char *a1, unsigned char *a2, size_t a3, unsigned char *a4, size_t a5, unsigned char *a6, size_t a7, unsigned char *a8) {
    _Alignas(4) unsigned char r9[24];
    _Alignas(4) unsigned char r10[16];
    unsigned char *r32, *r24, *r26, *r28, *r30, *r32_2, *r33_2;
    size_t a1_a0, a1_a0_2, r52, r57, r10_0, r0_0_0, sink;
    uint8_t v4, r17_0_0, r17_7_0, sink1;
    uint32_t r0_4_0, v5, v6, r81, r17_103_0, r17_15_0_0, r17_15_6_0_0, r17_20_0;
    struct i8_i64 r24_pn;
    r32 = a1 + 104;
    uint8_t r33 = *r32;
    if (r33 != 1) {
        *a0 = 1;
        sink1 = 0;
        sink = 0;
    }
    else {
        memcpy(r9, a1 + 108, 24);
        struct i64_i8 r61 = dfu_asks_asking_Asking_look_at(a1, r9, a2, a3, a4, a5, PLACE(static_2), 0);
        if ((size_t)r61.a != 0) {
            *a0 = 0;
            sink1 = 0;
            sink = 0;
        }
        else {
            store32(r10, 0);
            r24 = a1 + 48;
            uint8_t v1 = *r24;
            *r10 = v1;
            r26 = a1 + 49;
            r28 = a1 + 52;
            r30 = a1 + 56;
            r32_2 = a1 + 60;
            r33_2 = a1 + 40;
            uint8_t r11_0_0_copyload = *r33_2;
            uint32_t r12_0_0_copyload = load32(a1 + 44);
            dfu_asks_finish_note(a1 + 84, r10, a6, a7, r11_0_0_copyload, r12_0_0_copyload);
            uint8_t v2 = *r24;
            switch (v2) {
            case 3:
            case 5: {
                size_t r40 = load_size(a1 + 64);
                a1_a0 = umin_size(a3, r40);
                size_t r47 = load_size(a1 + 72);
                a1_a0_2 = umin_size(a5, r47);
                uint8_t r13_0_0_copyload = *r33_2;
                size_t switch_load = (size_t)switch_table_dfu_asks_asking_Asking_advance[(size_t)r13_0_0_copyload];
                size_t r46 = a1_a0_2 + a1_a0;
                r52 = switch_load & r46;
                r57 = r46 - r52;
                r10_0 = 0;
                if (r10_0 != r52) {
                    do {
                        size_t r68 = r10_0 + r57;
                        uint8_t r27_0 = *((r68 < a1_a0_2) ? (a4 + r68) : (a2 + (r68 - a1_a0_2)));
                        a4[r10_0] = r27_0;
                        r10_0 = r10_0 + 1;
                    } while (r10_0 != r52);
                }
                uint32_t r73 = load32(a1 + 80);
                uint8_t pre = *r24;
                v4 = pre;
                r0_4_0 = uadd_sat32((uint32_t)a1_a0, r73);
                r0_0_0 = r52;
                break;
            }
            case 0:
            case 1:
            case 2:
            case 4:
            case 6:
            case 7:
            case 8:
            case 9:
            case 10:
            case 11:
            case 12:
                v4 = v2;
                r0_4_0 = 0;
                r0_0_0 = 0;
                break;
            default: never();
            }
            store64(a1 + 72, r0_0_0);
            store32(a1 + 80, r0_4_0);
            size_t r65 = load_size(a1 + 64);
            v5 = load32(r28);
            v6 = load32(r30);
            r81 = (uint32_t)umin_size(a3, r65);
            switch (v4) {
            case 3:
                r17_0_0 = 6;
                r17_7_0 = 0;
                r17_103_0 = uadd_sat32(r81, v5);
                r17_15_0_0 = v6;
                r17_15_6_0_0 = 0;
                r17_20_0 = 0;
                break;
            case 5:
                r17_0_0 = 4;
                r17_7_0 = 0;
                r17_103_0 = uadd_sat32(r81, v5);
                r17_15_0_0 = v6;
                r17_15_6_0_0 = 0;
                r17_20_0 = 0;
                break;
            case 7:
                r17_0_0 = 2;
                r17_7_0 = 0;
                r17_103_0 = 0;
                r17_15_0_0 = 0;
                r17_15_6_0_0 = 0;
                r17_20_0 = 0;
                break;
            case 9: {
                uint8_t r19_2_0_copyload = a1[8];
                r17_0_0 = (uint8_t)((r19_2_0_copyload & 1) ? 8 : 10);
                r17_7_0 = 0;
                r17_103_0 = 0;
                r17_15_0_0 = 0;
                r17_15_6_0_0 = 0;
                r17_20_0 = 0;
                break;
            }
            case 0:
            case 1:
            case 2:
            case 4:
            case 6:
            case 8:
            case 10:
            case 11:
            case 12: {
                uint32_t v7 = load32(r32_2);
                uint8_t v8 = *r26;
                r17_0_0 = v4;
                r17_7_0 = v8;
                r17_103_0 = v5;
                r17_15_0_0 = v6;
                r17_15_6_0_0 = v6 & 0xffff0000U;
                r17_20_0 = v7;
                break;
            }
            default: never();
            }
            *r24 = r17_0_0;
            *r26 = r17_7_0;
            store32(r28, r17_103_0);
            store32(r30, r17_15_6_0_0 | (r17_15_0_0 & 0xffffU));
            store32(r32_2, r17_20_0);
            memset(r32, 0, 28);
            uint8_t r91 = r9[16];
            if (r91 == 0) r24_pn = (struct i8_i64){ 0, 0 };
            else {
                uint16_t r29_3_2_copyload = load16(r9 + 18);
                struct i8_i64 r40_2 = dfu_asks_asking_Asking_give(a1, 1, r29_3_2_copyload, a8);
                r24_pn = r40_2;
            }
            *a0 = 1;
            sink1 = r24_pn.a;
            sink = (size_t)r24_pn.b;
        }
    }
    a0[1] = sink1;
    store_size(a0 + 8, sink);
    return;
}

/* dfu_core::keeping::keep: crates/dfu_core/src/keeping.rt */
static void dfu_core_keeping_keep(unsigned char *a0, unsigned char *a1) {
    _Alignas(4) unsigned char r1[16];
    uint32_t r3_54_4_copyload, r3_75_4_copyload, r3_10_4_copyload;
    uint8_t r3_6_4_copyload, r3_8_4_copyload;
    uint16_t r3_96_4_copyload;
    unsigned char *r27;
    store32(r1, 0);
    uint8_t v0 = a0[48];
    *r1 = v0;
    uint8_t v1 = a0[49];
    r1[1] = v1;
    uint32_t v2 = load32(a0 + 52);
    store32(r1 + 4, v2);
    uint32_t v3 = load32(a0 + 56);
    store32(r1 + 8, v3);
    uint32_t v4 = load32(a0 + 60);
    store32(r1 + 12, v4);
    dfu_core_mode_set_mode(a1, r1);
    uint8_t r20 = a0[104];
    r3_54_4_copyload = load32(a0 + 112);
    r3_6_4_copyload = a0[116];
    r3_75_4_copyload = load32(a0 + 120);
    r3_8_4_copyload = a0[124];
    r3_96_4_copyload = load16(a0 + 126);
    r3_10_4_copyload = load32(a0 + 128);
    if (r20 == 0) store32(a1 + 44, 0);
    else {
        uint8_t r3_3_4_copyload = a0[108];
        if (r3_3_4_copyload != 0) {
            store32(a1 + 44, 2);
            store32(a1 + 48, r3_54_4_copyload);
            a1[64] = r3_6_4_copyload;
            store32(a1 + 52, r3_75_4_copyload);
        }
        else {
            store32(a1 + 44, 1);
            store32(a1 + 48, r3_54_4_copyload);
            r27 = a1 + 65;
            if (r3_6_4_copyload & 1) *r27 = 1;
            else {
                *r27 = 0;
            }
        }
        store32(a1 + 56, r3_10_4_copyload);
        store32(a1 + 60, (uint32_t)((r3_8_4_copyload == 0) ? 0 : ((uint32_t)r3_96_4_copyload + 1)));
    }
    size_t r26 = load_size(a0 + 64);
    store16(a1 + 26, (uint16_t)r26);
    size_t r32 = load_size(a0 + 72);
    store16(a1 + 66, (uint16_t)r32);
    uint32_t r38 = load32(a0 + 80);
    store32(a1 + 16, r38);
    uint8_t r42 = a0[84];
    store32(a1 + 20, (uint32_t)r42);
    memmove(a1 + 28, a0 + 85, 16);
    return;
}

/* dfu_asks::closes::mode_closes: crates/dfu_asks/src/closes.rt */
static uint8_t dfu_asks_closes_mode_closes(unsigned char *a0, unsigned char *a1, unsigned char *a2) {
    _Alignas(4) unsigned char r3[8];
    _Alignas(4) unsigned char r1[6];
    uint8_t common_ret_op;
    uint8_t v0 = *a1;
    uint32_t v1 = load32(a1 + 4);
    uint32_t r2 = load32(a0 + 16);
    if (!((v0 == 6) ? (r2 <= v1) : 0)) common_ret_op = 0;
    else {
        uint8_t r28 = *a2;
        uint8_t r32 = a2[1];
        uint8_t r11 = a2[2];
        uint8_t r15 = a2[3];
        uint8_t r11_2 = a2[4];
        uint8_t r15_2 = a2[5];
        uint8_t r11_3 = a2[6];
        uint8_t r15_3 = a2[7];
        *r3 = r28;
        r3[1] = r32;
        store16(r3 + 2, (uint16_t)((uint32_t)r15 << 8) | r11);
        store16(r3 + 4, (uint16_t)((uint32_t)r15_2 << 8) | r11_2);
        store16(r3 + 6, (uint16_t)((uint32_t)r15_3 << 8) | r11_3);
        dfu_wire_setups_Setup_request(r1, r3);
        uint8_t r2_2 = *r1;
        uint16_t r1_4_4_copyload = load16(r1 + 4);
        common_ret_op = (r2_2 == 1) ? (r1_4_4_copyload == 0) : 0;
    }
    return common_ret_op;
}

/* dfu_wire::setups::Setup::request: crates/dfu_wire/src/setups.rt */
static void dfu_wire_setups_Setup_request(unsigned char *a0, unsigned char *a1) {
    uint8_t r15, r52, r11_0_0_0;
    uint16_t r47, r49, r11_10_0, r11_16_0, sink;
    r15 = *a1;
    if ((r15 & 127) == 33) {
        uint16_t r31 = load16(a1 + 4);
        if (r31 == 0) {
            r47 = load16(a1 + 2);
            r49 = load16(a1 + 6);
            r52 = a1[1];
            switch (r15) {
            case 33:
                switch (r52) {
                case 0:
                    if (r49 == 0) {
                        r11_0_0_0 = 0;
                        r11_10_0 = r47;
                        r11_16_0 = 0;
                        goto after_14;
                    }
                    break;
                case 1:
                    r11_0_0_0 = r52;
                    r11_10_0 = r47;
                    r11_16_0 = r49;
                    goto after_14;
                case 4:
                    if (r49 == 0) {
                        r11_0_0_0 = 4;
                        r11_10_0 = 0;
                        r11_16_0 = 0;
                        goto after_14;
                    }
                    break;
                case 6:
                    if (r49 == 0) {
                        r11_0_0_0 = 6;
                        r11_10_0 = 0;
                        r11_16_0 = 0;
                        goto after_14;
                    }
                    break;
                default: break;
                }
                break;
            case 161:
                switch (r52) {
                case 2:
                    r11_0_0_0 = r52;
                    r11_10_0 = r47;
                    r11_16_0 = r49;
                    goto after_14;
                case 3:
                case 5:
                    r11_0_0_0 = r52;
                    r11_10_0 = r49;
                    r11_16_0 = 0;
                    goto after_14;
                default: break;
                }
                break;
            default: break;
            }
            r11_0_0_0 = 7;
            r11_10_0 = 0;
            r11_16_0 = 0;
after_14:
            store16(a0, r11_0_0_0);
            store16(a0 + 2, r11_10_0);
            sink = r11_16_0;
            goto common_ret;
        }
    }
    store16(a0, 8);
    store16(a0 + 2, 0);
    sink = 0;
common_ret:
    store16(a0 + 4, sink);
    return;
}

#ifndef DFU_READ
/* dfu_asks::noted::look: crates/dfu_asks/src/noted.rt */
static void dfu_asks_noted_look(unsigned char *a0, unsigned char *a1, unsigned char *a2) {
    uint32_t r3847, r3847_2, r3847_3, a0_a1, r13, r17;
    unsigned char *r18, *r74, *r82;
    size_t r3_0;
    uint8_t r24 = dfu_slots_layout_is_sized(a1);
    if (r24) {
        size_t r3 = load_size(a1 + 8);
        r3847 = (uint32_t)r3 >> 1;
        uint8_t r39 = *a2;
        uint8_t r40 = r39 & 1;
        r3847_2 = (uint32_t)(r40 ? r3847 : 0);
        r3847_3 = (uint32_t)(r40 ? 0 : r3847);
        size_t r3_0_0_copyload = load_size(a1);
        r18 = (unsigned char *)(uintptr_t)r3_0_0_copyload;
        uint8_t r1_0_0_copyload = r18[(size_t)r3847_2];
        if (r1_0_0_copyload == 165) {
            uint8_t r0_0_0_copyload = a1[16];
            uint32_t r1_0_0_copyload_2 = load32(a1 + 20);
            uint32_t switch_load = (uint32_t)switch_table_dfu_asks_next_piece_numbered_piece[(size_t)r0_0_0_copyload];
            a0_a1 = umax32(r1_0_0_copyload_2, switch_load);
            r74 = r18 + (size_t)(a0_a1 + r3847_2);
            r82 = a2 + 1;
            r3_0 = 0;
            while (r3_0 != 16) {
                uint8_t r3_0_0_copyload_2 = r74[r3_0];
                uint8_t r23 = r82[r3_0];
                if (r3_0_0_copyload_2 != r23) goto common_ret_gvnsink_split;
                r3_0 = r3_0 + 1;
            }
            r13 = r3847 - (a0_a1 << 1);
            r17 = load32u(a2 + 5);
            if (r13 >= r17) {
                store32(a0, 1);
                store32(a0 + 4, r3847_2);
                store32(a0 + 8, r3847_3);
                store32(a0 + 12, r13);
                store32(a0 + 16, r17);
                return;
            }
        }
    }
common_ret_gvnsink_split:
    memset(a0, 0, 20);
    return;
}
#else
/* dfu_asks::noted::look: crates/dfu_asks/src/noted.rt */
static void dfu_asks_noted_look(unsigned char *a0, unsigned char *a1, unsigned char *a2) {
    unsigned char *r2, *r1, *r2_3, *r74, *r82;
    uint32_t r3847_2, r3847_3, r13, r17;
    size_t r3_0;
    uint8_t r24 = dfu_slots_layout_is_sized(a1);
    if (r24) {
        r2 = a1 + 8;
        size_t r3 = load_size(r2);
        uint32_t r3847 = (uint32_t)r3 >> 1;
        uint8_t r39 = *a2;
        uint8_t r40 = r39 & 1;
        r3847_2 = (uint32_t)(r40 ? r3847 : 0);
        r3847_3 = (uint32_t)(r40 ? 0 : r3847);
        uint8_t r2_2 = dfu_slots_read_byte_at(a1, r3847_2);
        if (r2_2 == 165) {
            r1 = a1 + 16;
            uint8_t r0_0_0_copyload = *r1;
            r2_3 = a1 + 20;
            uint32_t r1_0_0_copyload = load32(r2_3);
            uint32_t switch_load = (uint32_t)switch_table_dfu_asks_next_piece_numbered_piece[(size_t)r0_0_0_copyload];
            size_t r13_0_0_copyload = load_size(a1);
            r74 = (unsigned char *)(uintptr_t)r13_0_0_copyload + (size_t)(umax32(r1_0_0_copyload, switch_load) + r3847_2);
            r82 = a2 + 1;
            r3_0 = 0;
            while (r3_0 != 16) {
                uint8_t r18 = dfu_slots_read_flash_byte_at(r74, r3_0);
                uint8_t r23 = r82[r3_0];
                if (r18 != r23) goto common_ret_gvnsink_split;
                r3_0 = r3_0 + 1;
            }
            size_t r3_2 = load_size(r2);
            uint8_t r0_0_0_copyload_2 = *r1;
            uint32_t r1_0_0_copyload_2 = load32(r2_3);
            uint32_t switch_load_2 = (uint32_t)switch_table_dfu_asks_next_piece_numbered_piece[(size_t)r0_0_0_copyload_2];
            r13 = ((uint32_t)r3_2 >> 1) - (umax32(r1_0_0_copyload_2, switch_load_2) << 1);
            r17 = load32u(a2 + 5);
            if (r13 >= r17) {
                store32(a0, 1);
                store32(a0 + 4, r3847_2);
                store32(a0 + 8, r3847_3);
                store32(a0 + 12, r13);
                store32(a0 + 16, r17);
                return;
            }
        }
    }
common_ret_gvnsink_split:
    memset(a0, 0, 20);
    return;
}
#endif

#ifndef DFU_READ
/* dfu_asks::asking::Asking::see: crates/dfu_asks/src/calls.rt */
static void dfu_asks_asking_Asking_see(unsigned char *a0, unsigned char *a1, size_t a2, unsigned char *a3, size_t a4) {
    _Alignas(8) unsigned char r3[24];
    _Alignas(4) unsigned char r9[20];
    uint8_t r6_0_0_copyload;
    uint32_t r4_0_0_copyload, r4_3_0_copyload, r4_4_0_copyload, r4_5_0_copyload, r44, v3;
    size_t r17;
    uint8_t r4;
    r6_0_0_copyload = a1[40];
    if (wide(a4) > 0xffffffffU) {
        *a0 = 1;
        a0[1] = 1;
        return;
    }
    uint32_t r7_0_0_copyload = load32(a1 + 44);
    store_size(r3, (size_t)(uintptr_t)a3);
    store_size(r3 + 8, a4);
    r3[16] = r6_0_0_copyload;
    store32(r3 + 20, r7_0_0_copyload);
    dfu_asks_noted_look(r9, r3, a1 + 84);
    uint8_t r38 = *r9;
    if (r38 != 1) {
        *a0 = 1;
        a0[1] = 1;
        return;
    }
    r4_0_0_copyload = load32(r9 + 4);
    r4_3_0_copyload = load32(r9 + 8);
    r4_4_0_copyload = load32(r9 + 12);
    r4_5_0_copyload = load32(r9 + 16);
    r17 = load_size(a1 + 64);
    if (a2 >= r17) {
        uint16_t r5_2_0_copyload = load16(a1 + 12);
        if (umin_size(a2, 4096) >= (size_t)r5_2_0_copyload) {
            r44 = load32(a1 + 80);
            if (r44 <= r4_4_0_copyload) {
                size_t r42 = load_size(a1 + 72);
                uint32_t switch_load = (uint32_t)switch_table_dfu_asks_asking_Asking_advance[(size_t)r6_0_0_copyload];
                if (r42 == (size_t)(switch_load & r44)) {
                    uint8_t r1_0_0_copyload = a3[(size_t)r4_3_0_copyload];
                    r4 = r1_0_0_copyload != 165;
                    uint8_t v2 = a1[48];
                    v3 = load32(a1 + 52);
                    switch (v2) {
                    case 3:
                    case 5:
                        if (!((r17 != 0) ? (((uint64_t)r17 + (uint64_t)(size_t)v3) <= (uint64_t)(size_t)r4_4_0_copyload) : 0)) goto then_8;
                        if (!((v3 == 0) ? 1 : (r4 ? (r44 == v3) : 0))) goto then_8;
                        break;
                    case 4:
                    case 6:
                    case 7:
                    case 9:
                        if (!((((v3 - 1) < r4_4_0_copyload) ? r4 : 0) ? (r44 == v3) : 0)) goto then_8;
                        break;
                    case 0:
                    case 1:
                    case 2:
                    case 8:
                    case 10:
                    case 11:
                    case 12: break;
                    default: never();
                    }
                    *a0 = 0;
                    memcpy(a0 + 8, r3, 24);
                    store32(a0 + 32, r4_0_0_copyload);
                    store32(a0 + 36, r4_3_0_copyload);
                    store32(a0 + 40, r4_4_0_copyload);
                    store32(a0 + 44, r4_5_0_copyload);
                    return;
                }
            }
        }
    }
then_8:
    *a0 = 1;
    a0[1] = 2;
    return;
}
#else
/* dfu_asks::asking::Asking::see: crates/dfu_asks/src/calls.rt */
static void dfu_asks_asking_Asking_see(unsigned char *a0, unsigned char *a1, size_t a2, unsigned char *a3, size_t a4) {
    _Alignas(8) unsigned char r3[24];
    _Alignas(4) unsigned char r9[20];
    unsigned char *r21, *r16, *r43;
    uint32_t r4_0_0_copyload, r4_3_0_copyload, r4_4_0_copyload, r4_5_0_copyload, r44, r74, v3;
    uint8_t r4;
    r21 = a1 + 40;
    if (wide(a4) > 0xffffffffU) {
        *a0 = 1;
        a0[1] = 1;
        return;
    }
    uint32_t r7_0_0_copyload = load32(a1 + 44);
    uint8_t r6_0_0_copyload = *r21;
    store_size(r3, (size_t)(uintptr_t)a3);
    store_size(r3 + 8, a4);
    r3[16] = r6_0_0_copyload;
    store32(r3 + 20, r7_0_0_copyload);
    dfu_asks_noted_look(r9, r3, a1 + 84);
    uint8_t r38 = *r9;
    if (r38 != 1) {
        *a0 = 1;
        a0[1] = 1;
        return;
    }
    r4_0_0_copyload = load32(r9 + 4);
    r4_3_0_copyload = load32(r9 + 8);
    r4_4_0_copyload = load32(r9 + 12);
    r4_5_0_copyload = load32(r9 + 16);
    r16 = a1 + 64;
    size_t r17 = load_size(r16);
    if (a2 >= r17) {
        uint16_t r5_2_0_copyload = load16(a1 + 12);
        if (umin_size(a2, 4096) >= (size_t)r5_2_0_copyload) {
            r43 = a1 + 80;
            r44 = load32(r43);
            if (r44 <= r4_4_0_copyload) {
                size_t r42 = load_size(a1 + 72);
                uint8_t r10_0_0_copyload = *r21;
                uint32_t switch_load = (uint32_t)switch_table_dfu_asks_asking_Asking_advance[(size_t)r10_0_0_copyload];
                if (r42 == (size_t)(switch_load & r44)) {
                    uint8_t r2 = dfu_slots_read_byte_at(r3, r4_3_0_copyload);
                    r4 = r2 != 165;
                    r74 = load32(r43);
                    uint8_t v2 = a1[48];
                    v3 = load32(a1 + 52);
                    switch (v2) {
                    case 3:
                    case 5: {
                        size_t r92 = load_size(r16);
                        if (!((r92 != 0) ? (((uint64_t)r92 + (uint64_t)(size_t)v3) <= (uint64_t)(size_t)r4_4_0_copyload) : 0)) goto then_8;
                        if (!((v3 == 0) | (r4 ? (r74 == v3) : 0))) goto then_8;
                        break;
                    }
                    case 4:
                    case 6:
                    case 7:
                    case 9:
                        if (!((r4 & ((v3 - 1) < r4_4_0_copyload)) ? (r74 == v3) : 0)) goto then_8;
                        break;
                    case 0:
                    case 1:
                    case 2:
                    case 8:
                    case 10:
                    case 11:
                    case 12: break;
                    default: never();
                    }
                    *a0 = 0;
                    memcpy(a0 + 8, r3, 24);
                    store32(a0 + 32, r4_0_0_copyload);
                    store32(a0 + 36, r4_3_0_copyload);
                    store32(a0 + 40, r4_4_0_copyload);
                    store32(a0 + 44, r4_5_0_copyload);
                    return;
                }
            }
        }
    }
then_8:
    *a0 = 1;
    a0[1] = 2;
    return;
}
#endif

#ifndef DFU_READ
/* dfu_asks::asking::Asking::carry_out: crates/dfu_asks/src/carry.rt */
static void dfu_asks_asking_Asking_carry_out(unsigned char *a0, unsigned char *a1, unsigned char *a2, uint8_t a3, uint16_t a4, unsigned char *a5, size_t a6, unsigned char *a7, size_t a8, unsigned char *a9, size_t a10, unsigned char *a11, unsigned char *a12, unsigned char *a13, size_t a14) {
    _Alignas(8) unsigned char r0[16];
    unsigned char *const r3 = r0;
    uint32_t r1_517_4_copyload, r1_16_12_copyload, r1_19_16_copyload, r14, r14_2, r5_5_0, r23, r5_15_0, r27, r12_0_0_copyload, r5_21_0, r5_15_0_2;
    uint32_t r5_5_0_2;
    uint16_t r1_11_8_copyload, r1_15_8_copyload;
    size_t r1, a1_a0_3, r29, r11_3_0_copyload, a1_a0_4, r3_0, r5_18_0, r35_1345_1, r35_1345_0;
    uint8_t r5_0_0, r5_8_0, r16_0_0_0_extract_trunc25, r5_8_0_2, r35_0_1, r35_7_1, r35_0_0, r35_7_0;
    unsigned char *r49;
    uint8_t r1_0_0_copyload = *a2;
    r1_517_4_copyload = load32(a2 + 4);
    r1_11_8_copyload = load16(a2 + 8);
    r1_15_8_copyload = load16(a2 + 10);
    r1_16_12_copyload = load32(a2 + 12);
    r1_19_16_copyload = load32(a2 + 16);
    switch (r1_0_0_copyload) {
    case 0: {
        uint8_t r1_3_1_copyload = a2[1];
        a1[48] = (uint8_t)r1_517_4_copyload;
        a1[49] = (uint8_t)(r1_517_4_copyload >> 8);
        store16(a1 + 52, r1_11_8_copyload);
        store16(a1 + 54, r1_15_8_copyload);
        store32(a1 + 56, r1_16_12_copyload);
        store32(a1 + 60, r1_19_16_copyload);
        struct i8_i64 r99 = dfu_asks_asking_Asking_give(a1, r1_3_1_copyload, (uint16_t)((a3 & 1) ? a4 : 0), a13);
        r35_0_0 = 1;
        r35_7_0 = r99.a;
        r35_1345_0 = (size_t)r99.b;
        break;
    }
    case 1: {
        size_t a1_a0 = umin_size(umin_size(a8, a6), 4096);
        memmove(a7, a5, a1_a0);
        store64(a1 + 64, a1_a0);
        a1[48] = (uint8_t)r1_517_4_copyload;
        a1[49] = (uint8_t)(r1_517_4_copyload >> 8);
        store16(a1 + 52, r1_11_8_copyload);
        store16(a1 + 54, r1_15_8_copyload);
        store32(a1 + 56, r1_16_12_copyload);
        store32(a1 + 60, r1_19_16_copyload);
        r35_0_0 = 1;
        r35_7_0 = 0;
        r35_1345_0 = 0;
        break;
    }
    case 2: {
        uint32_t r15 = load32(a12 + 12);
        r1 = (size_t)r1_11_8_copyload;
        size_t a1_a0_2 = umin_size(r1, (size_t)usub_sat32(r15, r1_517_4_copyload));
        a1_a0_3 = umin_size(a14, a1_a0_2);
        if (a1_a0_2 != 0) {
            uint32_t r34 = load32(a12);
            uint8_t r0_0_0_copyload = a11[16];
            uint32_t r1_0_0_copyload_2 = load32(a11 + 20);
            uint32_t switch_load = (uint32_t)switch_table_dfu_asks_next_piece_numbered_piece[(size_t)r0_0_0_copyload];
            size_t r3_0_0_copyload = load_size(a11);
            memmove(a13, (unsigned char *)(uintptr_t)r3_0_0_copyload + (size_t)((r34 + r1_517_4_copyload) + (umax32(r1_0_0_copyload_2, switch_load) << 1)), a1_a0_3);
        }
        uint8_t r174 = a1_a0_3 < r1;
        a1[48] = (uint8_t)(r174 ? 2 : 11);
        a1[49] = 0;
        store32(a1 + 52, (uint32_t)(r174 ? 0 : (r1_517_4_copyload + (uint32_t)r1_11_8_copyload)));
        store16(a1 + 56, (uint16_t)(r174 ? 0 : r1_15_8_copyload));
        store16(a1 + 58, 0);
        store32(a1 + 60, 0);
        r35_0_0 = 1;
        r35_7_0 = 1;
        r35_1345_0 = a1_a0_3;
        break;
    }
    case 3:
    case 4: {
        uint8_t r10 = a1[48];
        switch (r10) {
        case 3: {
            uint32_t r13 = load32(a1 + 52);
            r14 = load32(a12 + 4);
            if (r13 != 0) {
                size_t r43 = load_size(a1 + 72);
                uint32_t r45 = load32(a1 + 80);
                r5_0_0 = 0;
                r23 = r14;
                r5_8_0 = 0;
                r5_15_0 = 0;
                r29 = r43;
                r27 = r45;
                goto dfu_asks_asking_Asking_begin_job_exit;
            }
            r5_5_0 = r14;
            break;
        }
        case 5: {
            uint32_t r17 = load32(a1 + 52);
            r14_2 = load32(a12 + 4);
            if (r17 != 0) {
                size_t r43_2 = load_size(a1 + 72);
                uint32_t r45_2 = load32(a1 + 80);
                r5_0_0 = 0;
                r23 = r14_2;
                r5_8_0 = 0;
                r5_15_0 = 0;
                r29 = r43_2;
                r27 = r45_2;
                goto dfu_asks_asking_Asking_begin_job_exit;
            }
            r5_5_0 = r14_2;
            break;
        }
        case 0:
        case 1:
        case 2:
        case 4:
        case 6:
        case 7:
        case 8:
        case 9:
        case 10:
        case 11:
        case 12: {
            uint32_t r16 = load32(a12 + 4);
            uint8_t r0_0_0_copyload_2 = a11[16];
            uint32_t r1_0_0_copyload_3 = load32(a11 + 20);
            uint32_t switch_load_2 = (uint32_t)switch_table_dfu_asks_next_piece_numbered_piece[(size_t)r0_0_0_copyload_2];
            uint32_t r22 = load32(a1 + 80);
            size_t r26 = load_size(a1 + 72);
            uint8_t r37 = a1[85];
            size_t r13_0_0_copyload = load_size(a11);
            store32(r3, 0xffffffffU);
            dfu_suffix_crc_Crc_update_small(r3, (unsigned char *)(uintptr_t)r13_0_0_copyload + (size_t)((umax32(r1_0_0_copyload_3, switch_load_2) << 1) + r16), (size_t)r22 - r26);
            dfu_suffix_crc_Crc_update_small(r3, a9, umin_size(a10, r26));
            uint32_t r1_2 = load32(r3);
            r5_0_0 = 1;
            r23 = r16;
            r5_8_0 = (uint8_t)(r37 + 1);
            r5_15_0 = r1_2;
            r29 = r26;
            r27 = r22;
            goto dfu_asks_asking_Asking_begin_job_exit;
        }
        default: never();
        }
        size_t r3_0_0_copyload_2 = load_size(a11);
        uint8_t r5_8_0_in_in = *((unsigned char *)(uintptr_t)r3_0_0_copyload_2 + (size_t)r5_5_0);
        r16_0_0_0_extract_trunc25 = 0;
        r5_21_0 = 0;
        r5_18_0 = 0;
        r5_15_0_2 = 0;
        r5_8_0_2 = r5_8_0_in_in == 165;
        r5_5_0_2 = r5_5_0;
        goto join_3;
dfu_asks_asking_Asking_begin_job_exit:
        if (r27 == 0) {
            r16_0_0_0_extract_trunc25 = r5_0_0;
            r5_21_0 = 0;
            r5_18_0 = r29;
            r5_15_0_2 = r5_15_0;
            r5_8_0_2 = r5_8_0;
            r5_5_0_2 = r23;
        }
        else {
            size_t r11_0_0_copyload = load_size(a11);
            r12_0_0_copyload = load32(a1 + 44);
            r49 = (unsigned char *)(uintptr_t)r11_0_0_copyload;
            if (r12_0_0_copyload != 0) {
                uint8_t r0_0_0_copyload_3 = a11[16];
                uint32_t r1_0_0_copyload_4 = load32(a11 + 20);
                uint32_t switch_load_3 = (uint32_t)switch_table_dfu_asks_next_piece_numbered_piece[(size_t)r0_0_0_copyload_3];
                uint32_t r37_2 = ((r27 - (uint32_t)r29) + r23) + (umax32(r1_0_0_copyload_4, switch_load_3) << 1);
                size_t r1_3 = (size_t)r37_2;
                r11_3_0_copyload = load_size(a11 + 8);
                size_t r41 = load_size(a1 + 64);
                uint32_t r22_2 = ((r37_2 & 16383) | (((r37_2 >> 14) % r12_0_0_copyload) << 14)) % r12_0_0_copyload;
                a1_a0_4 = (size_t)umin64(r11_3_0_copyload, (uint64_t)(size_t)((r22_2 == 0) ? 0 : umin_size((size_t)(r12_0_0_copyload - r22_2), r41 + r29)) + (uint64_t)r1_3);
                r3_0 = r1_3;
                for (;;) {
                    if (r3_0 >= a1_a0_4) {
                        r16_0_0_0_extract_trunc25 = r5_0_0;
                        r5_21_0 = r27;
                        r5_18_0 = r29;
                        r5_15_0_2 = r5_15_0;
                        r5_8_0_2 = r5_8_0;
                        r5_5_0_2 = r23;
                        goto join_3;
                    }
                    uint8_t r3_0_0_copyload_3 = r49[r3_0];
                    if (r3_0_0_copyload_3 != 255) break;
                    r3_0 = r3_0 + 1;
                }
                struct i8_i64 r83 = dfu_asks_asking_Asking_fail(a1, 1, a3, a4, r49, r11_3_0_copyload, a13);
                r35_0_1 = 1;
                r35_7_1 = r83.a;
                r35_1345_1 = (size_t)r83.b;
                goto dfu_asks_asking_Asking_start_exit;
            }
            r16_0_0_0_extract_trunc25 = r5_0_0;
            r5_21_0 = r27;
            r5_18_0 = r29;
            r5_15_0_2 = r5_15_0;
            r5_8_0_2 = r5_8_0;
            r5_5_0_2 = r23;
        }
join_3:
        store64(a1 + 72, r5_18_0);
        store32(a1 + 80, r5_21_0);
        store32(a1 + 104, 1);
        store32(a1 + 108, (uint32_t)r16_0_0_0_extract_trunc25);
        store32(a1 + 112, r5_5_0_2);
        a1[116] = r5_8_0_2;
        memset(a1 + 117, 0, 3);
        store32(a1 + 120, r5_15_0_2);
        store16(a1 + 124, a3);
        store16(a1 + 126, a4);
        store32(a1 + 128, 0);
        size_t r33_0_0_copyload = load_size(a11);
        size_t r33_3_0_copyload = load_size(a11 + 8);
        dfu_asks_asking_Asking_advance(r0, a1, a7, a8, a9, a10, (unsigned char *)(uintptr_t)r33_0_0_copyload, r33_3_0_copyload, a13);
        uint8_t v3 = *r0;
        uint8_t v4 = r0[1];
        size_t v5 = load_size(r0 + 8);
        r35_0_1 = v3;
        r35_7_1 = v4;
        r35_1345_1 = v5;
dfu_asks_asking_Asking_start_exit:
        r35_0_0 = r35_0_1;
        r35_7_0 = r35_7_1;
        r35_1345_0 = r35_1345_1;
        break;
    }
    default: never();
    }
    *a0 = r35_0_0;
    a0[1] = r35_7_0;
    store_size(a0 + 8, r35_1345_0);
    return;
}
#else
/* dfu_asks::asking::Asking::carry_out: crates/dfu_asks/src/carry.rt */
static void dfu_asks_asking_Asking_carry_out(unsigned char *a0, unsigned char *a1, unsigned char *a2, uint8_t a3, uint16_t a4, unsigned char *a5, size_t a6, unsigned char *a7, size_t a8, unsigned char *a9, size_t a10, unsigned char *a11, unsigned char *a12, unsigned char *a13, size_t a14) {
    _Alignas(1) unsigned char r4[64];
    _Alignas(8) unsigned char r5[32];
    unsigned char *const r0 = r5;
    unsigned char *const r3 = r5;
    uint32_t r1_517_4_copyload, r1_16_12_copyload, r1_19_16_copyload, r16, r16_7_0_copyload, r16_515_0_copyload, r16_314_0_copyload, r16_0_0_copyload, r12_0_0_copyload;
    uint16_t r1_11_8_copyload, r1_15_8_copyload;
    size_t r1, a1_a0_3, r26, r16_6_0_copyload, a1_a0_5, r3_0, r35_1343_1, r35_1343_0;
    unsigned char *r21, *r25, *r16_2, *r11_3_0_a2_sroa_idx, *r49;
    uint64_t r29, r5_0;
    uint8_t r37, r16_4_0_copyload, r35_0_1, r35_7_1, r35_0_0, r35_7_0;
    uint8_t r1_0_0_copyload = *a2;
    r1_517_4_copyload = load32(a2 + 4);
    r1_11_8_copyload = load16(a2 + 8);
    r1_15_8_copyload = load16(a2 + 10);
    r1_16_12_copyload = load32(a2 + 12);
    r1_19_16_copyload = load32(a2 + 16);
    switch (r1_0_0_copyload) {
    case 0: {
        uint8_t r1_3_1_copyload = a2[1];
        a1[48] = (uint8_t)r1_517_4_copyload;
        a1[49] = (uint8_t)(r1_517_4_copyload >> 8);
        store16(a1 + 52, r1_11_8_copyload);
        store16(a1 + 54, r1_15_8_copyload);
        store32(a1 + 56, r1_16_12_copyload);
        store32(a1 + 60, r1_19_16_copyload);
        struct i8_i64 r99 = dfu_asks_asking_Asking_give(a1, r1_3_1_copyload, (uint16_t)((a3 & 1) ? a4 : 0), a13);
        r35_0_0 = 1;
        r35_7_0 = r99.a;
        r35_1343_0 = (size_t)r99.b;
        break;
    }
    case 1: {
        size_t a1_a0 = umin_size(umin_size(a8, a6), 4096);
        memmove(a7, a5, a1_a0);
        store64(a1 + 64, a1_a0);
        a1[48] = (uint8_t)r1_517_4_copyload;
        a1[49] = (uint8_t)(r1_517_4_copyload >> 8);
        store16(a1 + 52, r1_11_8_copyload);
        store16(a1 + 54, r1_15_8_copyload);
        store32(a1 + 56, r1_16_12_copyload);
        store32(a1 + 60, r1_19_16_copyload);
        r35_0_0 = 1;
        r35_7_0 = 0;
        r35_1343_0 = 0;
        break;
    }
    case 2: {
        uint32_t r15 = load32(a12 + 12);
        r1 = (size_t)r1_11_8_copyload;
        size_t a1_a0_2 = umin_size(r1, (size_t)usub_sat32(r15, r1_517_4_copyload));
        a1_a0_3 = umin_size(a14, a1_a0_2);
        if (a1_a0_2 != 0) {
            uint32_t r34 = load32(a12);
            dfu_slots_read_read_data(a11, r34, r1_517_4_copyload, a13, a1_a0_3);
        }
        uint8_t r174 = a1_a0_3 < r1;
        a1[48] = (uint8_t)(r174 ? 2 : 11);
        a1[49] = 0;
        store32(a1 + 52, (uint32_t)(r174 ? 0 : (r1_517_4_copyload + (uint32_t)r1_11_8_copyload)));
        store16(a1 + 56, (uint16_t)(r174 ? 0 : r1_15_8_copyload));
        store16(a1 + 58, 0);
        store32(a1 + 60, 0);
        r35_0_0 = 1;
        r35_7_0 = 1;
        r35_1343_0 = a1_a0_3;
        break;
    }
    case 3:
    case 4: {
        uint8_t r10 = a1[48];
        switch (r10) {
        case 3:
        case 5: {
            uint32_t r17 = load32(a1 + 52);
            dfu_asks_asking_Asking_block_job(r5, a1, r17, a11, a12);
            uint8_t r16_0_0_copyload_pre = *r5;
            uint32_t r16_314_0_copyload_pre = load32(r5 + 4);
            uint8_t r16_4_0_copyload_pre = r5[8];
            uint32_t r16_515_0_copyload_pre = load32(r5 + 12);
            size_t r16_6_0_copyload_pre = load_size(r5 + 16);
            uint32_t r16_7_0_copyload_pre = load32(r5 + 24);
            r16_7_0_copyload = r16_7_0_copyload_pre;
            r16_6_0_copyload = r16_6_0_copyload_pre;
            r16_515_0_copyload = r16_515_0_copyload_pre;
            r16_4_0_copyload = r16_4_0_copyload_pre;
            r16_314_0_copyload = r16_314_0_copyload_pre;
            r16_0_0_copyload = (uint32_t)r16_0_0_copyload_pre;
            break;
        }
        case 0:
        case 1:
        case 2:
        case 4:
        case 6:
        case 7:
        case 8:
        case 9:
        case 10:
        case 11:
        case 12: {
            r16 = load32(a12 + 4);
            uint8_t r0_0_0_copyload = a11[16];
            uint32_t r1_0_0_copyload_2 = load32(a11 + 20);
            uint32_t switch_load = (uint32_t)switch_table_dfu_asks_next_piece_numbered_piece[(size_t)r0_0_0_copyload];
            r21 = a1 + 80;
            uint32_t r22 = load32(r21);
            r25 = a1 + 72;
            r26 = load_size(r25);
            r29 = (uint64_t)(size_t)r22 - (uint64_t)r26;
            r37 = a1[85];
            size_t r13_0_0_copyload = load_size(a11);
            r16_2 = (unsigned char *)(uintptr_t)r13_0_0_copyload + (size_t)((umax32(r1_0_0_copyload_2, switch_load) << 1) + r16);
            store32(r3, 0xffffffffU);
            memset(r4, 0, 64);
            r5_0 = 0;
            while (r5_0 < r29) {
                size_t a1_a0_4 = (size_t)umin64(r29 - r5_0, 64);
                DFU_READ(r16_2 + (size_t)r5_0, r4, a1_a0_4);
                dfu_suffix_crc_Crc_update_small(r3, r4, a1_a0_4);
                r5_0 = (uint64_t)a1_a0_4 + r5_0;
            }
            dfu_suffix_crc_Crc_update_small(r3, a9, umin_size(a10, r26));
            uint32_t r1_2 = load32(r3);
            size_t r23 = load_size(r25);
            uint32_t r25_2 = load32(r21);
            r16_7_0_copyload = r25_2;
            r16_6_0_copyload = r23;
            r16_515_0_copyload = r1_2;
            r16_4_0_copyload = (uint8_t)(r37 + 1);
            r16_314_0_copyload = r16;
            r16_0_0_copyload = 1;
            break;
        }
        default: never();
        }
        if (r16_7_0_copyload != 0) {
            size_t r11_0_0_copyload = load_size(a11);
            r11_3_0_a2_sroa_idx = a11 + 8;
            r12_0_0_copyload = load32(a1 + 44);
            r49 = (unsigned char *)(uintptr_t)r11_0_0_copyload;
            if (r12_0_0_copyload != 0) {
                size_t r11_3_0_copyload = load_size(r11_3_0_a2_sroa_idx);
                uint32_t r23_2 = load32(a12 + 4);
                uint8_t r0_0_0_copyload_2 = a11[16];
                uint32_t r1_0_0_copyload_3 = load32(a11 + 20);
                uint32_t switch_load_2 = (uint32_t)switch_table_dfu_asks_next_piece_numbered_piece[(size_t)r0_0_0_copyload_2];
                uint32_t r27 = load32(a1 + 80);
                size_t r29_2 = load_size(a1 + 72);
                uint32_t r37_2 = ((r27 + r23_2) + (umax32(r1_0_0_copyload_3, switch_load_2) << 1)) - (uint32_t)r29_2;
                size_t r1_3 = (size_t)r37_2;
                size_t r41 = load_size(a1 + 64);
                uint32_t r22_2 = ((r37_2 & 16383) | (((r37_2 >> 14) % r12_0_0_copyload) << 14)) % r12_0_0_copyload;
                a1_a0_5 = (size_t)umin64(r11_3_0_copyload, (uint64_t)(size_t)((r22_2 == 0) ? 0 : umin_size((size_t)(r12_0_0_copyload - r22_2), r41 + r29_2)) + (uint64_t)r1_3);
                r3_0 = r1_3;
                for (;;) {
                    if (r3_0 >= a1_a0_5) goto join_3;
                    uint8_t r15_2 = dfu_slots_read_flash_byte_at(r49, r3_0);
                    if (r15_2 != 255) break;
                    r3_0 = r3_0 + 1;
                }
                size_t r26_0_0_copyload = load_size(a11);
                size_t r26_3_0_copyload = load_size(r11_3_0_a2_sroa_idx);
                struct i8_i64 r83 = dfu_asks_asking_Asking_fail(a1, 1, a3, a4, (unsigned char *)(uintptr_t)r26_0_0_copyload, r26_3_0_copyload, a13);
                r35_0_1 = 1;
                r35_7_1 = r83.a;
                r35_1343_1 = (size_t)r83.b;
                goto dfu_asks_asking_Asking_start_exit;
            }
        }
join_3:
        store64(a1 + 72, r16_6_0_copyload);
        store32(a1 + 80, r16_7_0_copyload);
        store32(a1 + 104, 1);
        store32(a1 + 108, r16_0_0_copyload);
        store32(a1 + 112, r16_314_0_copyload);
        a1[116] = r16_4_0_copyload;
        memset(a1 + 117, 0, 3);
        store32(a1 + 120, r16_515_0_copyload);
        store16(a1 + 124, a3);
        store16(a1 + 126, a4);
        store32(a1 + 128, 0);
        size_t r33_0_0_copyload = load_size(a11);
        size_t r33_3_0_copyload = load_size(a11 + 8);
        dfu_asks_asking_Asking_advance(r0, a1, a7, a8, a9, a10, (unsigned char *)(uintptr_t)r33_0_0_copyload, r33_3_0_copyload, a13);
        uint8_t v3 = *r0;
        uint8_t v4 = r0[1];
        size_t v5 = load_size(r0 + 8);
        r35_0_1 = v3;
        r35_7_1 = v4;
        r35_1343_1 = v5;
dfu_asks_asking_Asking_start_exit:
        r35_0_0 = r35_0_1;
        r35_7_0 = r35_7_1;
        r35_1343_0 = r35_1343_1;
        break;
    }
    default: never();
    }
    *a0 = r35_0_0;
    a0[1] = r35_7_0;
    store_size(a0 + 8, r35_1343_0);
    return;
}

/* dfu_asks::asking::Asking::block_job: crates/dfu_asks/src/start.rt */
static void dfu_asks_asking_Asking_block_job(unsigned char *a0, unsigned char *a1, uint32_t a2, unsigned char *a3, unsigned char *a4) {
    uint32_t r14, r45_sink;
    uint8_t sink;
    size_t r43_sink;
    r14 = load32(a4 + 4);
    if (a2 == 0) {
        uint8_t r2 = dfu_slots_read_byte_at(a3, r14);
        sink = r2 == 165;
        r43_sink = 0;
        r45_sink = 0;
    }
    else {
        size_t r43 = load_size(a1 + 72);
        uint32_t r45 = load32(a1 + 80);
        sink = 0;
        r43_sink = r43;
        r45_sink = r45;
    }
    store32(a0, 0);
    store32(a0 + 4, r14);
    a0[8] = sink;
    store32(a0 + 12, 0);
    store_size(a0 + 16, r43_sink);
    store32(a0 + 24, r45_sink);
    return;
}
#endif

/* dfu_device::table::decide: crates/dfu_device/src/table.rt */
static void dfu_device_table_decide(unsigned char *a0, unsigned char *a1, unsigned char *a2, unsigned char *a3) {
    uint8_t r1_3_1_copyload, r11, r8_0_0, r8_6_0, r8_5_0, r8_0_0_2, r8_6_0_2, r29_0_0, r29_15_0;
    uint32_t r1_51_4_copyload, r1_12_8_copyload, r8_1120_0, r8_16_0_0, r8_16_6_0, r8_16_7_0_0, r8_22_0_shrunk, r8_920_0, r8_13_0, r8_17_0_shrunk, r8_1120_0_2, r8_16_0_0_2;
    uint32_t r8_16_6_0_2, r8_16_7_0_0_2, r29_29117_0, r29_43_0, r29_57_0;
    uint16_t r1_12_0_0_extract_trunc, v0, v1;
    uint8_t r1_0_0_copyload = *a2;
    r1_3_1_copyload = a2[1];
    r1_51_4_copyload = load32(a2 + 4);
    r1_12_8_copyload = load32(a2 + 8);
    r1_12_0_0_extract_trunc = (uint16_t)r1_12_8_copyload;
    r11 = *a3;
    v0 = load16(a3 + 2);
    v1 = load16(a3 + 4);
    switch (r1_0_0_copyload) {
    case 0:
        switch (r11) {
        case 0: {
            uint16_t r21 = load16(a1 + 4);
            r29_0_0 = 0;
            r29_15_0 = 0;
            r29_29117_0 = 1;
            r29_43_0 = (uint32_t)umin16(v0, r21);
            r29_57_0 = 0;
            break;
        }
        case 3:
            r29_0_0 = 0;
            r29_15_0 = 1;
            r29_29117_0 = 0;
            r29_43_0 = 0;
            r29_57_0 = 0;
            break;
        case 5:
            r29_0_0 = 0;
            r29_15_0 = 2;
            r29_29117_0 = 0;
            r29_43_0 = 0;
            r29_57_0 = 0;
            break;
        case 1:
        case 2:
        case 4:
        case 6:
        case 7:
        case 8:
            r29_0_0 = 0;
            r29_15_0 = 3;
            r29_29117_0 = 0;
            r29_43_0 = 0;
            r29_57_0 = 0;
            break;
        default: never();
        }
        break;
    case 1:
        switch (r11) {
        case 3:
            r29_0_0 = 0;
            r29_15_0 = 1;
            r29_29117_0 = 1;
            r29_43_0 = r1_51_4_copyload;
            r29_57_0 = r1_12_8_copyload;
            break;
        case 5:
            r29_0_0 = 0;
            r29_15_0 = 2;
            r29_29117_0 = 1;
            r29_43_0 = r1_51_4_copyload;
            r29_57_0 = r1_12_8_copyload;
            break;
        case 0:
        case 1:
        case 2:
        case 4:
        case 6:
        case 7:
        case 8:
            r29_0_0 = 0;
            r29_15_0 = 3;
            r29_29117_0 = 0;
            r29_43_0 = 0;
            r29_57_0 = 0;
            break;
        default: never();
        }
        break;
    case 2:
        switch (r11) {
        case 1: {
            uint8_t r5 = *a1;
            if (!((v1 != 0) & (r5 & 1))) {
                r29_0_0 = 0;
                r29_15_0 = 3;
                r29_29117_0 = 3852;
                r29_43_0 = 0;
                r29_57_0 = 0;
            }
            else {
                uint16_t r12 = load16(a1 + 6);
                if (r12 < v1) {
                    r29_0_0 = 0;
                    r29_15_0 = 3;
                    r29_29117_0 = 3852;
                    r29_43_0 = 0;
                    r29_57_0 = 0;
                }
                else {
                    if (v0 != 0) {
                        r29_0_0 = 0;
                        r29_15_0 = 3;
                        r29_29117_0 = 2060;
                        r29_43_0 = 0;
                        r29_57_0 = 0;
                    }
                    else {
                        size_t r54 = load_size(a1 + 40);
                        if (r54 < (size_t)v1) {
                            r29_0_0 = 0;
                            r29_15_0 = 3;
                            r29_29117_0 = 2060;
                            r29_43_0 = 0;
                            r29_57_0 = 0;
                        }
                        else {
                            r29_0_0 = 1;
                            r29_15_0 = 0;
                            r29_29117_0 = 3;
                            r29_43_0 = 0;
                            r29_57_0 = 1;
                        }
                    }
                }
            }
            break;
        }
        case 2: {
            uint8_t r30 = a1[1];
            if (!((r30 & 1) ? (v1 != 0) : 0)) {
                r29_0_0 = 0;
                r29_15_0 = 3;
                r29_29117_0 = 3852;
                r29_43_0 = 0;
                r29_57_0 = 0;
            }
            else {
                uint16_t r13 = load16(a1 + 6);
                if (r13 < v1) {
                    r29_0_0 = 0;
                    r29_15_0 = 3;
                    r29_29117_0 = 3852;
                    r29_43_0 = 0;
                    r29_57_0 = 0;
                }
                else {
                    if (v0 == 0) {
                        r29_0_0 = 2;
                        r29_15_0 = 0;
                        r29_29117_0 = 0;
                        r29_43_0 = (uint32_t)v1 | 0x10000U;
                        r29_57_0 = 0;
                    }
                    else {
                        r29_0_0 = 0;
                        r29_15_0 = 3;
                        r29_29117_0 = 2060;
                        r29_43_0 = 0;
                        r29_57_0 = 0;
                    }
                }
            }
            break;
        }
        case 6:
            r29_0_0 = 0;
            r29_15_0 = 0;
            r29_29117_0 = 2;
            r29_43_0 = 0;
            r29_57_0 = 0;
            break;
        case 3:
            r29_0_0 = 0;
            r29_15_0 = 1;
            r29_29117_0 = 2;
            r29_43_0 = 0;
            r29_57_0 = 0;
            break;
        case 5:
            r29_0_0 = 0;
            r29_15_0 = 2;
            r29_29117_0 = 2;
            r29_43_0 = 0;
            r29_57_0 = 0;
            break;
        case 0:
        case 4:
        case 7:
        case 8:
            r29_0_0 = 0;
            r29_15_0 = 3;
            r29_29117_0 = 3852;
            r29_43_0 = 0;
            r29_57_0 = 0;
            break;
        default: never();
        }
        break;
    case 3:
        switch (r11) {
        case 3: {
            uint32_t r17 = load32(a1 + 16);
            if (r17 == 0) {
                r8_0_0 = 3;
                r8_6_0 = 1;
                r8_1120_0 = r1_51_4_copyload;
                r8_16_0_0 = r1_12_8_copyload;
                r8_16_6_0 = 0;
                r8_16_7_0_0 = 0;
                r8_22_0_shrunk = 0;
            }
            else {
                r8_0_0 = 0;
                r8_6_0 = 1;
                r8_1120_0 = 5;
                r8_16_0_0 = r1_51_4_copyload;
                r8_16_6_0 = r1_51_4_copyload;
                r8_16_7_0_0 = r1_51_4_copyload & 0xff000000U;
                r8_22_0_shrunk = r1_12_8_copyload;
            }
            break;
        }
        case 5:
            r8_0_0 = 0;
            r8_6_0 = 2;
            r8_1120_0 = 3;
            r8_16_0_0 = r1_51_4_copyload;
            r8_16_6_0 = r1_51_4_copyload;
            r8_16_7_0_0 = r1_51_4_copyload & 0xff000000U;
            r8_22_0_shrunk = r1_12_8_copyload;
            break;
        case 0:
        case 1:
        case 2:
        case 4:
        case 6:
        case 7:
        case 8:
            r8_0_0 = 0;
            r8_6_0 = 3;
            r8_1120_0 = 3852;
            r8_16_0_0 = 0;
            r8_16_6_0 = 0;
            r8_16_7_0_0 = 0;
            r8_22_0_shrunk = 0;
            break;
        default: never();
        }
        r29_0_0 = r8_0_0;
        r29_15_0 = r8_6_0;
        r29_29117_0 = r8_1120_0;
        r29_43_0 = ((r8_16_6_0 & 0xff0000U) | (r8_16_0_0 & 0xffffU)) | r8_16_7_0_0;
        r29_57_0 = r8_22_0_shrunk & 0xffffU;
        break;
    case 4:
        switch (r11) {
        case 3:
            r8_5_0 = 1;
            r8_920_0 = 6;
            r8_13_0 = r1_51_4_copyload;
            r8_17_0_shrunk = r1_12_8_copyload;
            break;
        case 5:
            r8_5_0 = 2;
            r8_920_0 = 4;
            r8_13_0 = r1_51_4_copyload;
            r8_17_0_shrunk = r1_12_8_copyload;
            break;
        case 0:
        case 1:
        case 2:
        case 4:
        case 6:
        case 7:
        case 8:
            r8_5_0 = 3;
            r8_920_0 = 3852;
            r8_13_0 = 0;
            r8_17_0_shrunk = 0;
            break;
        default: never();
        }
        r29_0_0 = 0;
        r29_15_0 = r8_5_0;
        r29_29117_0 = r8_920_0;
        r29_43_0 = r8_13_0;
        r29_57_0 = r8_17_0_shrunk & 0xffffU;
        break;
    case 5:
    case 9:
        r29_0_0 = 0;
        r29_15_0 = 3;
        r29_29117_0 = 3852;
        r29_43_0 = 0;
        r29_57_0 = 0;
        break;
    case 6:
        switch (r11) {
        case 1:
            if (v1 == 0) {
                uint32_t r22 = load32(a1 + 12);
                if (r1_51_4_copyload < r22) {
                    r29_0_0 = 0;
                    r29_15_0 = 3;
                    r29_29117_0 = 2316;
                    r29_43_0 = 0;
                    r29_57_0 = 0;
                }
                else {
                    r29_0_0 = 0;
                    r29_15_0 = 0;
                    r29_29117_0 = 7;
                    r29_43_0 = r1_51_4_copyload;
                    r29_57_0 = 0;
                }
            }
            else {
                uint16_t r12_2 = load16(a1 + 6);
                if (r12_2 < v1) {
                    r29_0_0 = 0;
                    r29_15_0 = 3;
                    r29_29117_0 = 3852;
                    r29_43_0 = 0;
                    r29_57_0 = 0;
                }
                else {
                    if (v0 != r1_12_0_0_extract_trunc) {
                        r29_0_0 = 0;
                        r29_15_0 = 3;
                        r29_29117_0 = 2060;
                        r29_43_0 = 0;
                        r29_57_0 = 0;
                    }
                    else {
                        size_t r54_2 = load_size(a1 + 40);
                        if ((uint64_t)r54_2 < ((uint64_t)(size_t)v1 + (uint64_t)(size_t)r1_51_4_copyload)) {
                            r29_0_0 = 0;
                            r29_15_0 = 3;
                            r29_29117_0 = 2060;
                            r29_43_0 = 0;
                            r29_57_0 = 0;
                        }
                        else {
                            r29_0_0 = 1;
                            r29_15_0 = 0;
                            r29_29117_0 = 3;
                            r29_43_0 = r1_51_4_copyload;
                            r29_57_0 = (r1_12_8_copyload + 1) & 0xffffU;
                        }
                    }
                }
            }
            break;
        case 6:
            r29_0_0 = 0;
            r29_15_0 = 0;
            r29_29117_0 = 2;
            r29_43_0 = 0;
            r29_57_0 = 0;
            break;
        case 3:
            r29_0_0 = 0;
            r29_15_0 = 1;
            r29_29117_0 = 6;
            r29_43_0 = r1_51_4_copyload;
            r29_57_0 = r1_12_8_copyload & 0xffffU;
            break;
        case 5:
            r29_0_0 = 0;
            r29_15_0 = 2;
            r29_29117_0 = 6;
            r29_43_0 = r1_51_4_copyload;
            r29_57_0 = r1_12_8_copyload & 0xffffU;
            break;
        case 0:
        case 2:
        case 4:
        case 7:
        case 8:
            r29_0_0 = 0;
            r29_15_0 = 3;
            r29_29117_0 = 3852;
            r29_43_0 = 0;
            r29_57_0 = 0;
            break;
        default: never();
        }
        break;
    case 7:
        switch (r11) {
        case 3: {
            uint32_t r18 = load32(a1 + 20);
            if (r18 == 0) {
                r8_0_0_2 = 4;
                r8_6_0_2 = 1;
                r8_1120_0_2 = r1_51_4_copyload;
                r8_16_0_0_2 = 2;
                r8_16_6_0_2 = 0;
                r8_16_7_0_0_2 = 0;
            }
            else {
                r8_0_0_2 = 0;
                r8_6_0_2 = 1;
                r8_1120_0_2 = 9;
                r8_16_0_0_2 = r1_51_4_copyload;
                r8_16_6_0_2 = r1_51_4_copyload;
                r8_16_7_0_0_2 = r1_51_4_copyload & 0xffff0000U;
            }
            break;
        }
        case 5:
            r8_0_0_2 = 0;
            r8_6_0_2 = 2;
            r8_1120_0_2 = 7;
            r8_16_0_0_2 = r1_51_4_copyload;
            r8_16_6_0_2 = r1_51_4_copyload;
            r8_16_7_0_0_2 = r1_51_4_copyload & 0xffff0000U;
            break;
        case 0:
        case 1:
        case 2:
        case 4:
        case 6:
        case 7:
        case 8:
            r8_0_0_2 = 0;
            r8_6_0_2 = 3;
            r8_1120_0_2 = 3852;
            r8_16_0_0_2 = 0;
            r8_16_6_0_2 = 0;
            r8_16_7_0_0_2 = 0;
            break;
        default: never();
        }
        r29_0_0 = r8_0_0_2;
        r29_15_0 = r8_6_0_2;
        r29_29117_0 = r8_1120_0_2;
        r29_43_0 = ((r8_16_6_0_2 & 0xff00U) | (r8_16_0_0_2 & 255)) | r8_16_7_0_0_2;
        r29_57_0 = 0;
        break;
    case 8: {
        size_t v2 = (size_t)r11;
        uint8_t switch_load = *(PLACE(switch_table_dfu_device_table_decide) + v2);
        uint32_t switch_load149 = (uint32_t)switch_table_dfu_device_table_decide_3[v2];
        r29_0_0 = 0;
        r29_15_0 = switch_load;
        r29_29117_0 = switch_load149;
        r29_43_0 = 0;
        r29_57_0 = 0;
        break;
    }
    case 10:
        r29_0_0 = 0;
        r29_15_0 = 3;
        r29_29117_0 = 10;
        r29_43_0 = 0;
        r29_57_0 = 0;
        break;
    case 11:
        switch (r11) {
        case 2:
            if (v1 == 0) {
                r29_0_0 = 0;
                r29_15_0 = 3;
                r29_29117_0 = 3852;
                r29_43_0 = 0;
                r29_57_0 = 0;
            }
            else {
                uint16_t r13_2 = load16(a1 + 6);
                if (r13_2 < v1) {
                    r29_0_0 = 0;
                    r29_15_0 = 3;
                    r29_29117_0 = 3852;
                    r29_43_0 = 0;
                    r29_57_0 = 0;
                }
                else {
                    if (v0 == r1_12_0_0_extract_trunc) {
                        r29_0_0 = 2;
                        r29_15_0 = 0;
                        r29_29117_0 = r1_51_4_copyload;
                        r29_43_0 = ((r1_12_8_copyload << 16) + 0x10000U) | (uint32_t)v1;
                        r29_57_0 = 0;
                    }
                    else {
                        r29_0_0 = 0;
                        r29_15_0 = 3;
                        r29_29117_0 = 2060;
                        r29_43_0 = 0;
                        r29_57_0 = 0;
                    }
                }
            }
            break;
        case 6:
            r29_0_0 = 0;
            r29_15_0 = 0;
            r29_29117_0 = 2;
            r29_43_0 = 0;
            r29_57_0 = 0;
            break;
        case 3:
            r29_0_0 = 0;
            r29_15_0 = 1;
            r29_29117_0 = 11;
            r29_43_0 = r1_51_4_copyload;
            r29_57_0 = r1_12_8_copyload & 0xffffU;
            break;
        case 5:
            r29_0_0 = 0;
            r29_15_0 = 2;
            r29_29117_0 = 11;
            r29_43_0 = r1_51_4_copyload;
            r29_57_0 = r1_12_8_copyload & 0xffffU;
            break;
        case 0:
        case 1:
        case 4:
        case 7:
        case 8:
            r29_0_0 = 0;
            r29_15_0 = 3;
            r29_29117_0 = 3852;
            r29_43_0 = 0;
            r29_57_0 = 0;
            break;
        default: never();
        }
        break;
    case 12:
        switch (r11) {
        case 4:
            r29_0_0 = 0;
            r29_15_0 = 0;
            r29_29117_0 = 2;
            r29_43_0 = 0;
            r29_57_0 = 0;
            break;
        case 3:
            r29_0_0 = 0;
            r29_15_0 = 1;
            r29_29117_0 = ((uint32_t)r1_3_1_copyload << 8) | 12;
            r29_43_0 = 0;
            r29_57_0 = 0;
            break;
        case 5:
            r29_0_0 = 0;
            r29_15_0 = 2;
            r29_29117_0 = ((uint32_t)r1_3_1_copyload << 8) | 12;
            r29_43_0 = 0;
            r29_57_0 = 0;
            break;
        case 0:
        case 1:
        case 2:
        case 6:
        case 7:
        case 8:
            r29_0_0 = 0;
            r29_15_0 = 3;
            r29_29117_0 = ((uint32_t)r1_3_1_copyload << 8) | 12;
            r29_43_0 = 0;
            r29_57_0 = 0;
            break;
        default: never();
        }
        break;
    default: never();
    }
    *a0 = r29_0_0;
    a0[1] = r29_15_0;
    store32(a0 + 4, r29_29117_0);
    store32(a0 + 8, r29_43_0);
    store32(a0 + 12, r29_57_0);
    store32(a0 + 16, 0);
    store32(a0 + 20, 0);
    return;
}

/* dfu_device_c::power::start: crates/dfu_device_c/src/power.rt */
static uint32_t dfu_device_c_power_start(unsigned char *a0, unsigned char *a1, unsigned char *a2, size_t a3, uint32_t a4) {
    _Alignas(4) unsigned char r7[52];
    unsigned char *const r8 = r7;
    uint32_t common_ret_op;
    dfu_core_config_settings_of(r7, a0);
    uint8_t r14 = *r7;
    if (r14 != 1) common_ret_op = 0xfffffffeU;
    else {
        uint8_t r3_2_0_copyload = r7[44];
        uint32_t r3_31_0_copyload = load32(r7 + 48);
        dfu_asks_noted_Noted_find(r8, a2, a3, r3_2_0_copyload, r3_31_0_copyload);
        uint8_t r24 = *r8;
        if (r24 != 1) common_ret_op = 0xfffffffdU;
        else {
            uint8_t r4_0_0_copyload = r8[1];
            store32(a1, 300);
            memset(a1 + 8, 0, 60);
            store32(a1 + 4, a4);
            store32(a1 + 20, (uint32_t)(r4_0_0_copyload & 1));
            memcpy(a1 + 28, r8 + 2, 16);
            common_ret_op = 0;
        }
    }
    return common_ret_op;
}
#ifdef DFU_READ

/* dfu_asks::blank::is_erased: crates/dfu_asks/src/blank.rt */
static uint8_t dfu_asks_blank_is_erased(unsigned char *a0, size_t a2, uint64_t a3) {
    uint64_t r3_6_0;
    unsigned char *r3_0_0_in;
    uint8_t r7;
    r3_6_0 = a3;
    r3_0_0_in = a0 + a2;
    for (;;) {
        r7 = r3_6_0 == 0;
        if (r7) break;
        uint8_t r37 = dfu_slots_read_flash_byte_at(r3_0_0_in, 0);
        if (r37 != 255) break;
        r3_6_0 = r3_6_0 - 1;
        r3_0_0_in = r3_0_0_in + 1;
    }
    return r7;
}
#endif

/* dfu_core_code: crates/dfu_device_c/src/tells.rt */
int32_t dfu_core_code(const struct dfu_record *record) {
    unsigned char *a0 = (unsigned char *)(uintptr_t)record;
    uint32_t common_ret_op;
    uint8_t r7 = dfu_core_mode_has_mode(a0);
    if (!r7) common_ret_op = 0xfffffffcU;
    else {
        uint32_t r17 = load32(a0 + 4);
        if (r17 < 12) common_ret_op = 0;
        else {
            uint16_t r24 = load16(a0 + 24);
            common_ret_op = (uint32_t)r24;
        }
    }
    return signed32(common_ret_op);
}

/* dfu_core_image: crates/dfu_device_c/src/image.rt */
int32_t dfu_core_image(const struct dfu_config *config, const uint8_t *flash, size_t size, struct dfu_place *place) {
    unsigned char *a0 = (unsigned char *)(uintptr_t)config;
    unsigned char *a1 = (unsigned char *)(uintptr_t)flash;
    size_t a2 = (size_t)size;
    unsigned char *a3 = (unsigned char *)(uintptr_t)place;
    _Alignas(4) unsigned char r5[52];
    unsigned char *const r10 = r5;
    uint8_t r3_2_0_copyload;
    uint32_t r3_31_0_copyload, common_ret_op;
    dfu_core_config_settings_of(r5, a0);
    uint8_t r12 = *r5;
    if (r12 != 1) common_ret_op = 0xfffffffeU;
    else {
        r3_2_0_copyload = r5[44];
        r3_31_0_copyload = load32(r5 + 48);
        dfu_asks_noted_Noted_find(r10, a1, a2, r3_2_0_copyload, r3_31_0_copyload);
        uint8_t r1_0_0_copyload = *r10;
        if (r1_0_0_copyload != 1) common_ret_op = 0xfffffffdU;
        else {
            uint8_t r5_4_0_0_copyload = r10[1];
            uint32_t r5_4_6_0_copyload = load32a2(r10 + 6);
            uint32_t switch_load = (uint32_t)switch_table_dfu_asks_next_piece_numbered_piece[(size_t)r3_2_0_copyload];
            store32(a3, (umax32(r3_31_0_copyload, switch_load) << 1) + (uint32_t)((r5_4_0_0_copyload & 1) ? (uint32_t)(a2 >> 1) : 0));
            store32(a3 + 4, r5_4_6_0_copyload);
            common_ret_op = 0;
        }
    }
    return signed32(common_ret_op);
}

/* dfu_core_state: crates/dfu_device_c/src/tells.rt */
int32_t dfu_core_state(const struct dfu_record *record) {
    unsigned char *a0 = (unsigned char *)(uintptr_t)record;
    uint32_t r14, common_ret_op;
    uint8_t r4 = dfu_core_mode_has_mode(a0);
    if (!r4) common_ret_op = 0xfffffffcU;
    else {
        r14 = load32(a0 + 4);
        if (r14 >= 12) common_ret_op = 10;
        else {
            uint32_t switch_load = (uint32_t)switch_table_dfu_core_state[(size_t)r14];
            common_ret_op = switch_load;
        }
    }
    return signed32(common_ret_op);
}

/* dfu_core_too_long: crates/dfu_device_c/src/long.rt */
int32_t dfu_core_too_long(const struct dfu_config *config, struct dfu_record *record, const uint8_t setup[8]) {
    unsigned char *a0 = (unsigned char *)(uintptr_t)config;
    unsigned char *a1 = (unsigned char *)(uintptr_t)record;
    unsigned char *a2 = (unsigned char *)(uintptr_t)setup;
    _Alignas(4) unsigned char r8[68];
    _Alignas(4) unsigned char r6[16];
    uint8_t r3_3_0_copyload, r3_4_0_copyload, r13_4_0, r13_7_0;
    uint64_t r2_0_0_copyload;
    uint32_t r13_107_0, r13_13_0, r13_16_0, common_ret_op;
    store32(r6, 0);
    dfu_core_mode_idle_mode(r8, a0, a1);
    uint8_t r18 = *r8;
    if (r18 != 0) {
        uint8_t r4_0_0_copyload = r8[1];
        uint32_t switch_load = (uint32_t)switch_table_dfu_core_numbers_CoreRefusal_number[(size_t)r4_0_0_copyload];
        common_ret_op = switch_load;
    }
    else {
        uint16_t r3_0_3_0_copyload = load16(r8 + 16);
        r3_3_0_copyload = r8[52];
        r3_4_0_copyload = r8[53];
        r2_0_0_copyload = load64u(a2);
        if (!((((size_t)r2_0_0_copyload & 255) == 33) ? (r3_0_3_0_copyload < (uint16_t)(size_t)(r2_0_0_copyload >> 48)) : 0)) common_ret_op = 0xfffffff7U;
        else {
            uint8_t r34 = a0[15];
            uint32_t r3_8_0_copyload = load32(r8 + 64);
            uint32_t r3_7_0_copyload = load32(r8 + 60);
            uint32_t r3_6_0_copyload = load32(r8 + 56);
            if (!(((r2_0_0_copyload & 0xff0000000000ULL) == 0) & (r34 == (uint8_t)(size_t)(r2_0_0_copyload >> 32)))) {
                r13_4_0 = r3_3_0_copyload;
                r13_7_0 = r3_4_0_copyload;
                r13_107_0 = r3_6_0_copyload;
                r13_13_0 = r3_7_0_copyload;
                r13_16_0 = r3_8_0_copyload;
            }
            else {
                switch (r3_3_0_copyload) {
                case 0:
                case 1:
                    r13_4_0 = 0;
                    r13_7_0 = 0;
                    r13_107_0 = 0;
                    r13_13_0 = 0;
                    r13_16_0 = 0;
                    break;
                case 10:
                    r13_4_0 = r3_3_0_copyload;
                    r13_7_0 = 0;
                    r13_107_0 = 0;
                    r13_13_0 = 0;
                    r13_16_0 = 0;
                    break;
                case 12:
                    r13_4_0 = r3_3_0_copyload;
                    r13_7_0 = r3_4_0_copyload;
                    r13_107_0 = 0;
                    r13_13_0 = 0;
                    r13_16_0 = 0;
                    break;
                case 2:
                case 3:
                case 4:
                case 5:
                case 6:
                case 7:
                case 8:
                case 9:
                case 11:
                    r13_4_0 = 12;
                    r13_7_0 = 15;
                    r13_107_0 = 0;
                    r13_13_0 = 0;
                    r13_16_0 = 0;
                    break;
                default: never();
                }
            }
            *r6 = r13_4_0;
            r6[1] = r13_7_0;
            store32(r6 + 4, r13_107_0);
            store32(r6 + 8, r13_13_0);
            store32(r6 + 12, r13_16_0);
            dfu_core_mode_set_mode(a1, r6);
            common_ret_op = 0xffffffffU;
        }
    }
    return signed32(common_ret_op);
}

/* dfu_core_version: crates/dfu_device_c/src/config.rt */
int32_t dfu_core_version(void) {
    return signed32(300);
}

/* dfu_core_due: crates/dfu_device_c/src/tells.rt */
int32_t dfu_core_due(const struct dfu_config *config, const struct dfu_record *record) {
    unsigned char *a0 = (unsigned char *)(uintptr_t)config;
    unsigned char *a1 = (unsigned char *)(uintptr_t)record;
    _Alignas(4) unsigned char r7[68];
    _Alignas(4) unsigned char r1_2[16];
    unsigned char *r13;
    uint32_t r3_6_0_copyload, r3_7_0_copyload, r3_8_0_copyload, r0_4_0, common_ret_op;
    uint8_t r1_3_0_copyload;
    size_t r1;
    dfu_core_mode_mode_in(r7, a0, a1);
    uint8_t r12 = *r7;
    if (r12 != 0) {
        uint8_t r4_0_0_copyload = r7[1];
        uint32_t switch_load = (uint32_t)switch_table_dfu_core_numbers_CoreRefusal_number[(size_t)r4_0_0_copyload];
        common_ret_op = switch_load;
    }
    else {
        r13 = r7 + 4;
        uint8_t r3_3_0_copyload = r7[52];
        r3_6_0_copyload = load32(r7 + 56);
        r3_7_0_copyload = load32(r7 + 60);
        r3_8_0_copyload = load32(r7 + 64);
        r1_3_0_copyload = r7[13];
        uint16_t r28 = load16(a1 + 26);
        r1 = (size_t)r28;
        store32(r1_2, 0);
        *r1_2 = r3_3_0_copyload;
        store32(r1_2 + 4, r3_6_0_copyload);
        switch (r3_3_0_copyload) {
        case 1:
            if (r1_3_0_copyload & 1) r0_4_0 = 1;
            else {
                r0_4_0 = umax32(usub_sat32(r3_6_0_copyload, r3_7_0_copyload), 1);
            }
            break;
        case 5: {
            uint32_t r41 = dfu_device_time_table_poll_ms(r13, r1_2, r1);
            r0_4_0 = umax32(usub_sat32(r41, r3_8_0_copyload), 1);
            break;
        }
        case 9: {
            uint32_t r49 = dfu_device_time_table_poll_ms(r13, r1_2, r1);
            r0_4_0 = umax32(usub_sat32(r49, r3_7_0_copyload), 1);
            break;
        }
        case 0:
        case 2:
        case 3:
        case 4:
        case 6:
        case 7:
        case 8:
        case 10:
        case 11:
        case 12:
            common_ret_op = 0;
            goto dfu_device_c_tells_dfu_core_due_exit;
        default: never();
        }
        common_ret_op = umin32(r0_4_0, 0x7fffffffU);
    }
dfu_device_c_tells_dfu_core_due_exit:
    return signed32(common_ret_op);
}

/* dfu_core_format_start: crates/dfu_device_c/src/format.rt */
int32_t dfu_core_format_start(const struct dfu_config *config, struct dfu_record *record, const uint8_t *flash, size_t size, const uint8_t *image, size_t length) {
    unsigned char *a0 = (unsigned char *)(uintptr_t)config;
    unsigned char *a1 = (unsigned char *)(uintptr_t)record;
    (void)flash;
    size_t a3 = (size_t)size;
    unsigned char *a4 = (unsigned char *)(uintptr_t)image;
    size_t a5 = (size_t)length;
    _Alignas(8) unsigned char r8[52];
    unsigned char *const r7 = r8;
    unsigned char *const r3 = r8;
    unsigned char *r13;
    uint32_t r5_31_0_copyload, common_ret_op;
    uint8_t r5_2_0_copyload;
    r13 = a4;
    dfu_core_config_settings_of(r8, a0);
    uint8_t r18 = *r8;
    if (r18 != 1) common_ret_op = 0xfffffffeU;
    else {
        if (wide(a3) > 0xffffffffU) common_ret_op = 0xfffffffdU;
        else {
            r5_31_0_copyload = load32(r8 + 48);
            r5_2_0_copyload = r8[44];
            store_size(r7 + 8, a3);
            r7[16] = r5_2_0_copyload;
            store32(r7 + 20, r5_31_0_copyload);
            uint8_t r28 = dfu_slots_layout_is_sized(r7);
            if (!r28) common_ret_op = 0xfffffffaU;
            else {
                uint32_t switch_load = (uint32_t)switch_table_dfu_asks_next_piece_numbered_piece[(size_t)r5_2_0_copyload];
                if (a5 > (size_t)(((uint32_t)a3 >> 1) - (umax32(r5_31_0_copyload, switch_load) << 1))) common_ret_op = 0xfffffff9U;
                else {
                    store32(r3, 0xffffffffU);
                    dfu_suffix_crc_Crc_update_small(r3, r13, a5);
                    uint32_t r1 = load32(r3);
                    store32(a1, 300);
                    memset(a1 + 4, 0, 64);
                    store32(a1 + 44, 3);
                    store32(a1 + 52, r1);
                    common_ret_op = 0xfffffff5U;
                }
            }
        }
    }
    return signed32(common_ret_op);
}

/* dfu_core_format_took: crates/dfu_device_c/src/format.rt */
int32_t dfu_core_format_took(const struct dfu_config *config, struct dfu_record *record, const uint8_t *flash, size_t size, const uint8_t *image, size_t length, uint32_t failed) {
    unsigned char *a0 = (unsigned char *)(uintptr_t)config;
    unsigned char *a1 = (unsigned char *)(uintptr_t)record;
    unsigned char *a2 = (unsigned char *)(uintptr_t)flash;
    size_t a3 = (size_t)size;
    unsigned char *a4 = (unsigned char *)(uintptr_t)image;
    size_t a5 = (size_t)length;
    uint32_t a6 = failed;
    _Alignas(8) unsigned char r3[112];
    unsigned char *const r7 = r3;
    _Alignas(8) unsigned char r5[112];
    _Alignas(4) unsigned char r8[28];
    _Alignas(4) unsigned char r6[24];
    unsigned char *r4, *r13, *r30;
    uint8_t r3_0_0_copyload, r7_0_0_0, r6_2;
    uint32_t r4_0_0_copyload, r31, r100, r7_8_0, r26, r3_3_4_copyload, common_ret_op;
    r4 = a2;
    r13 = a4;
    dfu_core_config_settings_of(r7, a0);
    uint8_t r18 = *r7;
    if (r18 != 1) common_ret_op = 0xfffffffeU;
    else {
        dfu_core_format_formatting_of(r8, r7 + 4, a1);
        uint8_t r23 = *r8;
        if (r23 != 1) common_ret_op = 0xfffffffcU;
        else {
            unsigned char *r24 = r8 + 4;
            memcpy(r6, r24, 24);
            r3_0_0_copyload = *r6;
            r4_0_0_copyload = load32(r6 + 4);
            r30 = r6 + 20;
            r31 = load32(r30);
            *r5 = r3_0_0_copyload;
            memset(r5 + 1, 0, 3);
            store32(r5 + 4, r4_0_0_copyload);
            store32(r5 + 8, 0);
            store32(r5 + 12, 0);
            store64(r5 + 16, (uint64_t)(uintptr_t)static_2);
            store64(r5 + 24, 0);
            store64(r5 + 32, (size_t)(uintptr_t)r13);
            store64(r5 + 40, a5);
            store64(r5 + 48, (size_t)r31);
            memset(r5 + 56, 0, 40);
            r5[96] = 4;
            memset(r5 + 97, 0, 15);
            uint8_t r38 = dfu_asks_formatting_Formatting_due(r24, a3, r5);
            if (!r38) common_ret_op = 0xfffffffcU;
            else {
                if (a6 == 0) {
                    uint8_t r70 = dfu_asks_cut_stands(r4, a3, r5);
                    if (r70) {
                        size_t r93 = load_size(r5 + 88);
                        r100 = r31 + (uint32_t)r93;
                        store32(r30, r100);
                        *r3 = r3_0_0_copyload;
                        store32(r3 + 4, r4_0_0_copyload);
                        store_size(r3 + 40, a5);
                        store_size(r3 + 48, (size_t)r100);
                        uint8_t r21 = dfu_asks_format_piece_part_piece(r6, a3, r3);
                        if (r21) {
                            uint8_t r6_pre = r6[12];
                            uint32_t r3_3_4_copyload_pre = load32(r6 + 16);
                            r26 = r100;
                            r3_3_4_copyload = r3_3_4_copyload_pre;
                            r6_2 = r6_pre;
                        }
                        else {
                            uint8_t r9 = r6[12];
                            switch (r9) {
                            case 0:
                                r7_0_0_0 = 1;
                                r7_8_0 = 0;
                                break;
                            case 1:
                                r7_0_0_0 = (uint8_t)((a5 == 0) ? 3 : 2);
                                r7_8_0 = 0;
                                break;
                            case 2: {
                                uint32_t r4_3_4_copyload = load32(r6 + 16);
                                uint64_t r32 = (uint64_t)(size_t)r4_3_4_copyload + 4096;
                                size_t switch_load = (size_t)switch_table_dfu_slots_layout_fill_size[(size_t)r3_0_0_copyload];
                                uint64_t v3 = (uint64_t)switch_load - 1;
                                uint8_t r38_fr = r32 < ((((uint64_t)switch_load - (uint64_t)((size_t)v3 & a5)) & v3) + (uint64_t)a5);
                                r7_0_0_0 = (uint8_t)(r38_fr ? 2 : 3);
                                r7_8_0 = (uint32_t)(r38_fr ? (uint32_t)r32 : 0);
                                break;
                            }
                            case 3:
                                r7_0_0_0 = 4;
                                r7_8_0 = 0;
                                break;
                            case 4:
                            case 5:
                                store32(a1 + 44, 0);
                                common_ret_op = 0;
                                goto dfu_device_c_format_dfu_core_format_took_exit;
                            default: never();
                            }
                            r26 = 0;
                            r3_3_4_copyload = r7_8_0;
                            r6_2 = r7_0_0_0;
                        }
                        store32(a1 + 44, 3);
                        uint32_t r22 = load32(r6 + 8);
                        store32(a1 + 52, r22);
                        store32(a1 + 56, r26);
                        a1[64] = r6_2;
                        store32(a1 + 48, (uint32_t)((r6_2 == 2) ? r3_3_4_copyload : 0));
                        common_ret_op = 0xfffffff5U;
                        goto dfu_device_c_format_dfu_core_format_took_exit;
                    }
                }
                store32(a1 + 44, 0);
                common_ret_op = 0xfffffff8U;
            }
        }
    }
dfu_device_c_format_dfu_core_format_took_exit:
    return signed32(common_ret_op);
}

/* dfu_core_functional: crates/dfu_device_c/src/config.rt */
int32_t dfu_core_functional(const struct dfu_config *config, uint8_t out[9]) {
    unsigned char *a0 = (unsigned char *)(uintptr_t)config;
    unsigned char *a1 = (unsigned char *)(uintptr_t)out;
    _Alignas(4) unsigned char r1[52];
    uint32_t common_ret_op;
    dfu_core_config_settings_of(r1, a0);
    uint8_t r3 = *r1;
    if (r3 != 1) common_ret_op = 0xfffffffeU;
    else {
        uint8_t r5 = a0[14];
        uint16_t r7 = load16(a0 + 10);
        uint16_t r9 = load16(a0 + 12);
        *a1 = 9;
        a1[1] = 33;
        a1[2] = r5 & 15;
        a1[3] = (uint8_t)r7;
        a1[4] = (uint8_t)(uint16_t)(r7 >> 8);
        a1[5] = (uint8_t)r9;
        a1[6] = (uint8_t)(uint16_t)(r9 >> 8);
        a1[7] = 16;
        a1[8] = 1;
        common_ret_op = 9;
    }
    return signed32(common_ret_op);
}

/* dfu_core_format_next: crates/dfu_device_c/src/format.rt */
int32_t dfu_core_format_next(const struct dfu_config *config, const struct dfu_record *record, const uint8_t *flash, size_t size, const uint8_t *image, size_t length, struct dfu_ask *ask) {
    unsigned char *a0 = (unsigned char *)(uintptr_t)config;
    unsigned char *a1 = (unsigned char *)(uintptr_t)record;
    (void)flash;
    size_t a3 = (size_t)size;
    unsigned char *a4 = (unsigned char *)(uintptr_t)image;
    size_t a5 = (size_t)length;
    unsigned char *a6 = (unsigned char *)(uintptr_t)ask;
    _Alignas(8) unsigned char r5[112];
    _Alignas(4) unsigned char r8[52];
    _Alignas(4) unsigned char r9[28];
    unsigned char *r13, *r22, *r42;
    uint32_t r6_41_0_copyload, common_ret_op;
    uint64_t r6_6_0_copyload;
    size_t r6_8_0_copyload;
    r13 = a4;
    dfu_core_config_settings_of(r8, a0);
    uint8_t r15 = *r8;
    if (r15 != 1) common_ret_op = 0xfffffffeU;
    else {
        dfu_core_format_formatting_of(r9, r8 + 4, a1);
        uint8_t r19 = *r9;
        if (r19 != 1) common_ret_op = 0xfffffffcU;
        else {
            unsigned char *r20 = r9 + 4;
            uint8_t r6_0_0_copyload = *r20;
            r6_41_0_copyload = load32(r9 + 8);
            uint32_t r6_52_0_copyload = load32(r9 + 24);
            r22 = a6 + 12;
            *r5 = r6_0_0_copyload;
            memset(r5 + 1, 0, 3);
            store32(r5 + 4, r6_41_0_copyload);
            store32(r5 + 8, 0);
            store32(r5 + 12, 0);
            store64(r5 + 16, (uint64_t)(uintptr_t)static_2);
            store64(r5 + 24, 0);
            store64(r5 + 32, (size_t)(uintptr_t)r13);
            store64(r5 + 40, a5);
            store64(r5 + 48, (size_t)r6_52_0_copyload);
            memset(r5 + 56, 0, 40);
            r5[96] = 4;
            memset(r5 + 97, 0, 15);
            uint8_t r30 = dfu_asks_formatting_Formatting_due(r20, a3, r5);
            if (r30) {
                r42 = r5 + 72;
                r6_6_0_copyload = load64(r5 + 80);
                r6_8_0_copyload = load_size(r5 + 88);
                uint8_t r45 = dfu_asks_next_and_took_is_sound(r6_41_0_copyload, r42);
                if (r45 ? ((uint64_t)a3 >= ((uint64_t)r6_8_0_copyload + r6_6_0_copyload)) : 0) {
                    uint8_t r6_0_0_copyload_2 = *r42;
                    dfu_asks_cut_fill(r5, r22);
                    store32(a6, (uint32_t)((r6_0_0_copyload_2 & 1) ? 1 : 2));
                    store32(a6 + 4, (uint32_t)r6_6_0_copyload);
                    store32(a6 + 8, (uint32_t)r6_8_0_copyload);
                    common_ret_op = 0;
                    goto dfu_device_c_format_dfu_core_format_next_exit;
                }
            }
            common_ret_op = 0xfffffffcU;
        }
    }
dfu_device_c_format_dfu_core_format_next_exit:
    return signed32(common_ret_op);
}

#ifndef DFU_READ
/* dfu_core_next: crates/dfu_device_c/src/calls.rt */
int32_t dfu_core_next(const struct dfu_config *config, const struct dfu_record *record, const uint8_t *block, size_t most, const uint8_t *flash, size_t size, struct dfu_ask *ask) {
    unsigned char *a0 = (unsigned char *)(uintptr_t)config;
    unsigned char *a1 = (unsigned char *)(uintptr_t)record;
    unsigned char *a2 = (unsigned char *)(uintptr_t)block;
    size_t a3 = (size_t)most;
    unsigned char *a4 = (unsigned char *)(uintptr_t)flash;
    size_t a5 = (size_t)size;
    unsigned char *a6 = (unsigned char *)(uintptr_t)ask;
    _Alignas(8) unsigned char r5[144];
    unsigned char *const r7 = r5;
    _Alignas(8) unsigned char r10[112];
    _Alignas(4) unsigned char r18[16];
    unsigned char *const r15 = r18;
    unsigned char *r4, *r13, *r26, *r62, *v2;
    uint16_t r54;
    uint8_t r5_0_0_copyload, r11_0_0_copyload;
    uint32_t r6_0_0_copyload, common_ret_op;
    uint64_t r11_6_0_copyload;
    size_t r11_8_0_copyload, a1_2;
    r4 = a2;
    r13 = a4;
    r26 = r5 + 1;
    *r26 = 4;
    dfu_core_keeping_found(a0, a1, a3, r5);
    uint8_t r32 = *r5;
    if (r32 != 0) {
        uint8_t r17_0_0_copyload = *r26;
        uint32_t switch_load = (uint32_t)switch_table_dfu_core_numbers_CoreRefusal_number[(size_t)r17_0_0_copyload];
        common_ret_op = switch_load;
    }
    else {
        if (wide(a5) > 0xffffffffU) common_ret_op = 0xfffffffcU;
        else {
            r54 = load16(a0 + 12);
            r62 = a6 + 12;
            v2 = r18 + 8;
            store32(v2, 0);
            uint8_t r29 = r5[112];
            if (r29 == 1) {
                size_t r1 = (size_t)r54;
                uint32_t r13_3_9_0_copyload = load32(r5 + 136);
                uint32_t r13_3_7_0_copyload = load32(r5 + 128);
                uint8_t r13_3_5_0_copyload = r5[124];
                uint32_t r13_3_4_0_copyload = load32(r5 + 120);
                uint8_t r13_3_0_0_copyload = r5[116];
                r5_0_0_copyload = r5[48];
                r6_0_0_copyload = load32(r5 + 52);
                uint32_t r17 = load32(r5 + 88);
                size_t r8 = load_size(r5 + 80);
                size_t r26_2 = load_size(r5 + 72);
                *r10 = r5_0_0_copyload;
                memset(r10 + 1, 0, 3);
                store32(r10 + 4, r6_0_0_copyload);
                store32(r10 + 8, r17);
                store32(r10 + 12, 0);
                store64(r10 + 16, (size_t)(uintptr_t)(r4 + r1));
                store64(r10 + 24, (size_t)umin64((uint64_t)a3 - (uint64_t)r1, r8));
                store64(r10 + 32, (size_t)(uintptr_t)r4);
                store64(r10 + 40, umin_size(r1, r26_2));
                store64(r10 + 48, (size_t)r13_3_9_0_copyload);
                memset(r10 + 56, 0, 40);
                r10[96] = 4;
                memset(r10 + 97, 0, 15);
                store32(r18, (uint32_t)r13_3_0_0_copyload);
                store32(r18 + 4, r13_3_4_0_copyload);
                *v2 = r13_3_5_0_copyload;
                store32(r18 + 12, r13_3_7_0_copyload);
                uint8_t r57 = dfu_asks_next_piece_next_piece(r18, r10);
                if (r57) {
                    unsigned char *r69 = r10 + 72;
                    r11_0_0_copyload = *r69;
                    r11_6_0_copyload = load64(r10 + 80);
                    r11_8_0_copyload = load_size(r10 + 88);
                    uint8_t r72 = dfu_asks_next_and_took_is_sound(r6_0_0_copyload, r69);
                    if (r72) {
                        size_t r2313 = a5 >> 1;
                        a1_2 = (size_t)((r11_6_0_copyload < (uint64_t)r2313) ? 0 : r2313);
                        if ((uint64_t)(a1_2 + r2313) >= ((uint64_t)r11_8_0_copyload + r11_6_0_copyload)) {
                            uint8_t r3_0_0_copyload = r13[a1_2];
                            if (r3_0_0_copyload == 165) {
                                store_size(r7, (size_t)(uintptr_t)r13);
                                store_size(r7 + 8, a5);
                                r7[16] = r5_0_0_copyload;
                                store32(r7 + 20, r6_0_0_copyload);
                                dfu_slots_places_check(r15, r7);
                                uint8_t r64 = *r15;
                                if (r64 != 0) goto dfu_asks_next_and_took_is_spare_exit_thread;
                                uint32_t r8_2_0_copyload = load32(r15 + 8);
                                if (a1_2 != (size_t)r8_2_0_copyload) goto dfu_asks_asking_Asking_next_exit_thread37;
                            }
                            dfu_asks_cut_fill(r10, r62);
                            store32(a6, (uint32_t)((r11_0_0_copyload & 1) ? 1 : 2));
                            store32(a6 + 4, (uint32_t)r11_6_0_copyload);
                            store32(a6 + 8, (uint32_t)r11_8_0_copyload);
                            common_ret_op = 0;
                            goto dfu_device_c_calls_dfu_core_next_exit;
                        }
dfu_asks_next_and_took_is_spare_exit_thread:
dfu_asks_asking_Asking_next_exit_thread37:
                        common_ret_op = 0xfffffffcU;
                        goto dfu_device_c_calls_dfu_core_next_exit;
                    }
                }
            }
            common_ret_op = 0xfffffffcU;
        }
    }
dfu_device_c_calls_dfu_core_next_exit:
    return signed32(common_ret_op);
}
#else
/* dfu_core_next: crates/dfu_device_c/src/calls.rt */
int32_t dfu_core_next(const struct dfu_config *config, const struct dfu_record *record, const uint8_t *block, size_t most, const uint8_t *flash, size_t size, struct dfu_ask *ask) {
    unsigned char *a0 = (unsigned char *)(uintptr_t)config;
    unsigned char *a1 = (unsigned char *)(uintptr_t)record;
    unsigned char *a2 = (unsigned char *)(uintptr_t)block;
    size_t a3 = (size_t)most;
    unsigned char *a4 = (unsigned char *)(uintptr_t)flash;
    size_t a5 = (size_t)size;
    unsigned char *a6 = (unsigned char *)(uintptr_t)ask;
    _Alignas(8) unsigned char r5[144];
    unsigned char *const r7 = r5;
    _Alignas(8) unsigned char r10[112];
    _Alignas(4) unsigned char r18[16];
    unsigned char *const r15 = r18;
    unsigned char *r4, *r13, *r26, *r62, *v2;
    uint16_t r54;
    uint8_t r5_0_0_copyload, r11_0_0_copyload;
    uint32_t r6_0_0_copyload, common_ret_op;
    uint64_t r11_6_0_copyload;
    size_t r11_8_0_copyload, a1_2;
    r4 = a2;
    r13 = a4;
    r26 = r5 + 1;
    *r26 = 4;
    dfu_core_keeping_found(a0, a1, a3, r5);
    uint8_t r32 = *r5;
    if (r32 != 0) {
        uint8_t r17_0_0_copyload = *r26;
        uint32_t switch_load = (uint32_t)switch_table_dfu_core_numbers_CoreRefusal_number[(size_t)r17_0_0_copyload];
        common_ret_op = switch_load;
    }
    else {
        if (wide(a5) > 0xffffffffU) common_ret_op = 0xfffffffcU;
        else {
            r54 = load16(a0 + 12);
            r62 = a6 + 12;
            v2 = r18 + 8;
            store32(v2, 0);
            uint8_t r29 = r5[112];
            if (r29 == 1) {
                size_t r1 = (size_t)r54;
                uint32_t r13_3_9_0_copyload = load32(r5 + 136);
                uint32_t r13_3_7_0_copyload = load32(r5 + 128);
                uint8_t r13_3_5_0_copyload = r5[124];
                uint32_t r13_3_4_0_copyload = load32(r5 + 120);
                uint8_t r13_3_0_0_copyload = r5[116];
                r5_0_0_copyload = r5[48];
                r6_0_0_copyload = load32(r5 + 52);
                uint32_t r17 = load32(r5 + 88);
                size_t r8 = load_size(r5 + 80);
                size_t r26_2 = load_size(r5 + 72);
                *r10 = r5_0_0_copyload;
                memset(r10 + 1, 0, 3);
                store32(r10 + 4, r6_0_0_copyload);
                store32(r10 + 8, r17);
                store32(r10 + 12, 0);
                store64(r10 + 16, (size_t)(uintptr_t)(r4 + r1));
                store64(r10 + 24, (size_t)umin64((uint64_t)a3 - (uint64_t)r1, r8));
                store64(r10 + 32, (size_t)(uintptr_t)r4);
                store64(r10 + 40, umin_size(r1, r26_2));
                store64(r10 + 48, (size_t)r13_3_9_0_copyload);
                memset(r10 + 56, 0, 40);
                r10[96] = 4;
                memset(r10 + 97, 0, 15);
                store32(r18, (uint32_t)r13_3_0_0_copyload);
                store32(r18 + 4, r13_3_4_0_copyload);
                *v2 = r13_3_5_0_copyload;
                store32(r18 + 12, r13_3_7_0_copyload);
                uint8_t r57 = dfu_asks_next_piece_next_piece(r18, r10);
                if (r57) {
                    unsigned char *r69 = r10 + 72;
                    r11_0_0_copyload = *r69;
                    r11_6_0_copyload = load64(r10 + 80);
                    r11_8_0_copyload = load_size(r10 + 88);
                    uint8_t r72 = dfu_asks_next_and_took_is_sound(r6_0_0_copyload, r69);
                    if (r72) {
                        size_t r2313 = a5 >> 1;
                        a1_2 = (size_t)((r11_6_0_copyload < (uint64_t)r2313) ? 0 : r2313);
                        if ((uint64_t)(a1_2 + r2313) >= ((uint64_t)r11_8_0_copyload + r11_6_0_copyload)) {
                            uint8_t r44 = dfu_slots_read_flash_byte_at(r13, a1_2);
                            if (r44 == 165) {
                                store_size(r7, (size_t)(uintptr_t)r13);
                                store_size(r7 + 8, a5);
                                r7[16] = r5_0_0_copyload;
                                store32(r7 + 20, r6_0_0_copyload);
                                dfu_slots_places_check(r15, r7);
                                uint8_t r64 = *r15;
                                if (r64 != 0) goto dfu_asks_next_and_took_is_spare_exit_thread;
                                uint32_t r8_2_0_copyload = load32(r15 + 8);
                                if (a1_2 != (size_t)r8_2_0_copyload) goto dfu_asks_asking_Asking_next_exit_thread37;
                            }
                            dfu_asks_cut_fill(r10, r62);
                            store32(a6, (uint32_t)((r11_0_0_copyload & 1) ? 1 : 2));
                            store32(a6 + 4, (uint32_t)r11_6_0_copyload);
                            store32(a6 + 8, (uint32_t)r11_8_0_copyload);
                            common_ret_op = 0;
                            goto dfu_device_c_calls_dfu_core_next_exit;
                        }
dfu_asks_next_and_took_is_spare_exit_thread:
dfu_asks_asking_Asking_next_exit_thread37:
                        common_ret_op = 0xfffffffcU;
                        goto dfu_device_c_calls_dfu_core_next_exit;
                    }
                }
            }
            common_ret_op = 0xfffffffcU;
        }
    }
dfu_device_c_calls_dfu_core_next_exit:
    return signed32(common_ret_op);
}
#endif

/* dfu_core_took: crates/dfu_device_c/src/calls.rt */
int32_t dfu_core_took(const struct dfu_config *config, struct dfu_record *record, uint8_t *block, size_t most, const uint8_t *flash, size_t size, uint32_t failed, uint8_t *out, size_t room) {
    unsigned char *a0 = (unsigned char *)(uintptr_t)config;
    unsigned char *a1 = (unsigned char *)(uintptr_t)record;
    unsigned char *a2 = (unsigned char *)(uintptr_t)block;
    size_t a3 = (size_t)most;
    unsigned char *a4 = (unsigned char *)(uintptr_t)flash;
    size_t a5 = (size_t)size;
    uint32_t a6 = failed;
    unsigned char *a7 = (unsigned char *)(uintptr_t)out;
    size_t a8 = (size_t)room;
    _Alignas(8) unsigned char r7[144];
    _Alignas(8) unsigned char r40[16];
    unsigned char *r4, *r13, *r22, *r49, *r58, *r19, *r62, *r65, *r9_9_0_r65_sroa_idx, *r9_13_0_r65_sroa_idx;
    size_t r1, r92, r27_2015_0_ph27;
    uint64_t r21;
    uint8_t r92_not;
    uint8_t r9_0_0_copyload, r9_9_0_copyload, r27_15_0_ph26;
    uint16_t r9_113_0_copyload;
    uint32_t r9_13_0_copyload, common_ret_op;
    struct i64_i8 r91;
    r4 = a2;
    r13 = a4;
    r22 = a7;
    if (a8 < 6) common_ret_op = 0xfffffffbU;
    else {
        r49 = r7 + 1;
        *r49 = 4;
        dfu_core_keeping_found(a0, a1, a3, r7);
        uint8_t r56 = *r7;
        if (r56 != 0) {
            uint8_t r22_0_0_copyload = *r49;
            uint32_t switch_load = (uint32_t)switch_table_dfu_core_numbers_CoreRefusal_number[(size_t)r22_0_0_copyload];
            common_ret_op = switch_load;
        }
        else {
            r58 = r7 + 8;
            uint16_t r73 = load16(a0 + 12);
            r1 = (size_t)r73;
            r19 = r4 + r1;
            r21 = (uint64_t)a3 - (uint64_t)r1;
            r92_not = a6 == 0;
            r62 = r7 + 112;
            uint8_t r63 = *r62;
            if (r63 == 1) {
                r65 = r7 + 116;
                r9_0_0_copyload = *r65;
                r9_9_0_r65_sroa_idx = r7 + 132;
                r9_9_0_copyload = *r9_9_0_r65_sroa_idx;
                r9_113_0_copyload = load16(r7 + 134);
                r9_13_0_r65_sroa_idx = r7 + 136;
                r9_13_0_copyload = load32(r9_13_0_r65_sroa_idx);
                r91 = dfu_asks_asking_Asking_look_at(r58, r65, r4, r1, r19, capped_size(r21), r13, a5);
                r92 = (size_t)r91.a;
                if (r92 != 0) {
                    if (!(r92_not & (r91.b & 1))) {
                        struct i8_i64 r146 = dfu_asks_asking_Asking_fail(r58, r92_not, r9_9_0_copyload, r9_113_0_copyload, r13, a5, r22);
                        r27_2015_0_ph27 = (size_t)r146.b;
                        r27_15_0_ph26 = r146.a;
                    }
                    else {
                        store32(r62, 1);
                        store32(r65, (uint32_t)r9_0_0_copyload);
                        store16(r9_9_0_r65_sroa_idx, r9_9_0_copyload);
                        store32(r9_13_0_r65_sroa_idx, r9_13_0_copyload + (uint32_t)r92);
                        dfu_asks_asking_Asking_advance(r40, r58, r4, r1, r19, capped_size(r21), r13, a5, r22);
                        uint8_t r0_1928_8_copyload32 = *r40;
                        uint8_t r0_26_9_copyload37 = r40[1];
                        size_t r0_3339_16_copyload43 = load_size(r40 + 8);
                        if (r0_1928_8_copyload32 == 0) {
                            dfu_core_keeping_keep(r58, a1);
                            common_ret_op = 0xfffffff5U;
                            goto dfu_device_c_calls_dfu_core_took_exit;
                        }
                        r27_2015_0_ph27 = r0_3339_16_copyload43;
                        r27_15_0_ph26 = r0_26_9_copyload37;
                    }
                    dfu_core_keeping_keep(r58, a1);
                    switch (r27_15_0_ph26) {
                    case 0:
                        common_ret_op = 0;
                        goto dfu_device_c_calls_dfu_core_took_exit;
                    case 1:
                        common_ret_op = (uint32_t)r27_2015_0_ph27;
                        goto dfu_device_c_calls_dfu_core_took_exit;
                    case 2:
                        common_ret_op = 0xffffffffU;
                        goto dfu_device_c_calls_dfu_core_took_exit;
                    default: never();
                    }
                }
            }
            common_ret_op = 0xfffffffcU;
        }
    }
dfu_device_c_calls_dfu_core_took_exit:
    return signed32(common_ret_op);
}

/* dfu_core_refuse: crates/dfu_device_c/src/refuse.rt */
int32_t dfu_core_refuse(const struct dfu_config *config, struct dfu_record *record, uint32_t status) {
    unsigned char *a0 = (unsigned char *)(uintptr_t)config;
    unsigned char *a1 = (unsigned char *)(uintptr_t)record;
    uint32_t a2 = status;
    _Alignas(4) unsigned char r6[68];
    _Alignas(4) unsigned char r11[16];
    uint8_t r12_0_0, r12_4_0;
    uint32_t r12_76_0, r12_10_0, r12_13_0, common_ret_op;
    store32(r11, 0);
    dfu_core_mode_idle_mode(r6, a0, a1);
    uint8_t r13 = *r6;
    if (r13 != 0) {
        uint8_t r3_0_0_copyload = r6[1];
        uint32_t switch_load = (uint32_t)switch_table_dfu_core_numbers_CoreRefusal_number[(size_t)r3_0_0_copyload];
        common_ret_op = switch_load;
    }
    else {
        if ((a2 - 1) >= 2) common_ret_op = 0xfffffff2U;
        else {
            uint32_t r2_8_0_copyload = load32(r6 + 64);
            uint32_t r2_7_0_copyload = load32(r6 + 60);
            uint32_t r2_6_0_copyload = load32(r6 + 56);
            uint8_t r2_4_0_copyload = r6[53];
            uint8_t r2_3_0_copyload = r6[52];
            switch (r2_3_0_copyload) {
            case 7:
            case 9:
                r12_0_0 = 12;
                r12_4_0 = (uint8_t)a2;
                r12_76_0 = 0;
                r12_10_0 = 0;
                r12_13_0 = 0;
                break;
            case 0:
            case 1:
            case 2:
            case 3:
            case 4:
            case 5:
            case 6:
            case 8:
            case 10:
            case 11:
            case 12:
                r12_0_0 = r2_3_0_copyload;
                r12_4_0 = r2_4_0_copyload;
                r12_76_0 = r2_6_0_copyload;
                r12_10_0 = r2_7_0_copyload;
                r12_13_0 = r2_8_0_copyload;
                break;
            default: never();
            }
            *r11 = r12_0_0;
            r11[1] = r12_4_0;
            store32(r11 + 4, r12_76_0);
            store32(r11 + 8, r12_10_0);
            store32(r11 + 12, r12_13_0);
            dfu_core_mode_set_mode(a1, r11);
            common_ret_op = 0;
        }
    }
    return signed32(common_ret_op);
}

/* dfu_core_refuse_close: crates/dfu_device_c/src/refuse.rt */
int32_t dfu_core_refuse_close(const struct dfu_config *config, struct dfu_record *record, const uint8_t setup[8], uint32_t status) {
    unsigned char *a0 = (unsigned char *)(uintptr_t)config;
    unsigned char *a1 = (unsigned char *)(uintptr_t)record;
    unsigned char *a2 = (unsigned char *)(uintptr_t)setup;
    uint32_t a3 = status;
    _Alignas(4) unsigned char r8[68];
    _Alignas(4) unsigned char r2[16];
    _Alignas(4) unsigned char r19[16];
    _Alignas(8) unsigned char r6[8];
    uint32_t common_ret_op;
    store32(r2, 0);
    store32(r19, 12);
    dfu_core_mode_idle_mode(r8, a0, a1);
    uint8_t r21 = *r8;
    if (r21 != 0) {
        uint8_t r4_0_0_copyload = r8[1];
        uint32_t switch_load = (uint32_t)switch_table_dfu_core_numbers_CoreRefusal_number[(size_t)r4_0_0_copyload];
        common_ret_op = switch_load;
    }
    else {
        uint8_t r3_3_0_copyload = r8[52];
        uint32_t r3_6_0_copyload = load32(r8 + 56);
        *r2 = r3_3_0_copyload;
        store32(r2 + 4, r3_6_0_copyload);
        if ((a3 - 1) >= 2) common_ret_op = 0xfffffff2U;
        else {
            uint8_t r44 = a0[15];
            uint64_t r2_0_0_copyload = load64u(a2);
            store64(r6, (uint64_t)((r44 == (uint8_t)(size_t)(r2_0_0_copyload >> 32)) ? 0 : 0x100000000ULL) | (r2_0_0_copyload & 0xffffff00ffffffffULL));
            uint8_t r48 = dfu_asks_closes_mode_closes(r8 + 4, r2, r6);
            if (!r48) common_ret_op = 0xfffffff3U;
            else {
                r19[1] = (uint8_t)a3;
                store32(r19 + 4, 0);
                store32(r19 + 8, 0);
                store32(r19 + 12, 0);
                dfu_core_mode_set_mode(a1, r19);
                common_ret_op = 0xffffffffU;
            }
        }
    }
    return signed32(common_ret_op);
}

#ifndef DFU_READ
/* dfu_core_candidate: crates/dfu_device_c/src/image.rt */
int32_t dfu_core_candidate(const struct dfu_config *config, const struct dfu_record *record, const uint8_t *flash, size_t size, struct dfu_place *place) {
    unsigned char *a0 = (unsigned char *)(uintptr_t)config;
    unsigned char *a1 = (unsigned char *)(uintptr_t)record;
    unsigned char *a2 = (unsigned char *)(uintptr_t)flash;
    size_t a3 = (size_t)size;
    unsigned char *a4 = (unsigned char *)(uintptr_t)place;
    _Alignas(8) unsigned char r3[144];
    _Alignas(8) unsigned char r3_2[24];
    _Alignas(4) unsigned char r13[20];
    unsigned char *r4, *r19;
    uint8_t r10_0_0_copyload, r2_0_0, r13_0_0_copyload_sink;
    uint32_t r11_0_0_copyload, r4_2_0_copyload, v4, common_ret_op;
    r4 = a2;
    r19 = r3 + 1;
    *r19 = 4;
    dfu_core_keeping_found(a0, a1, 4352, r3);
    uint8_t r22 = *r3;
    if (r22 != 0) {
        uint8_t r13_0_0_copyload = *r19;
        r13_0_0_copyload_sink = r13_0_0_copyload;
    }
    else {
        uint8_t r2 = r3[112];
        if (r2 == 1) r2_0_0 = 2;
        else {
            r10_0_0_copyload = r3[48];
            if (wide(a3) > 0xffffffffU) r2_0_0 = 3;
            else {
                r11_0_0_copyload = load32(r3 + 52);
                store_size(r3_2, (size_t)(uintptr_t)r4);
                store_size(r3_2 + 8, a3);
                r3_2[16] = r10_0_0_copyload;
                store32(r3_2 + 20, r11_0_0_copyload);
                dfu_asks_noted_look(r13, r3_2, r3 + 92);
                uint8_t r65 = *r13;
                if (r65 != 1) r2_0_0 = 3;
                else {
                    r4_2_0_copyload = load32(r13 + 8);
                    uint8_t v3 = r3[56];
                    v4 = load32(r3 + 60);
                    switch (v3) {
                    case 6:
                    case 7:
                    case 9: {
                        uint32_t r4_3_0_copyload = load32(r13 + 12);
                        if (r4_3_0_copyload >= v4) {
                            size_t v5 = (size_t)r10_0_0_copyload;
                            uint32_t switch_load = (uint32_t)switch_table_dfu_asks_next_piece_numbered_piece[v5];
                            uint32_t switch_load_2 = (uint32_t)switch_table_dfu_core_candidate[v5];
                            store32(a4, (umax32(r11_0_0_copyload, switch_load) << 1) + r4_2_0_copyload);
                            store32(a4 + 4, switch_load_2 & v4);
                            common_ret_op = 0;
                            goto dfu_device_c_image_dfu_core_candidate_exit;
                        }
                        r2_0_0 = 4;
                        break;
                    }
                    case 0:
                    case 1:
                    case 2:
                    case 3:
                    case 4:
                    case 5:
                    case 8:
                    case 10:
                    case 11:
                    case 12:
                        common_ret_op = 0xffffffecU;
                        goto dfu_device_c_image_dfu_core_candidate_exit;
                    default: never();
                    }
                }
            }
        }
        r13_0_0_copyload_sink = r2_0_0;
    }
    uint32_t switch_load_3 = (uint32_t)switch_table_dfu_core_numbers_CoreRefusal_number[(size_t)r13_0_0_copyload_sink];
    common_ret_op = switch_load_3;
dfu_device_c_image_dfu_core_candidate_exit:
    return signed32(common_ret_op);
}
#else
/* dfu_core_candidate: crates/dfu_device_c/src/image.rt */
int32_t dfu_core_candidate(const struct dfu_config *config, const struct dfu_record *record, const uint8_t *flash, size_t size, struct dfu_place *place) {
    unsigned char *a0 = (unsigned char *)(uintptr_t)config;
    unsigned char *a1 = (unsigned char *)(uintptr_t)record;
    unsigned char *a2 = (unsigned char *)(uintptr_t)flash;
    size_t a3 = (size_t)size;
    unsigned char *a4 = (unsigned char *)(uintptr_t)place;
    _Alignas(8) unsigned char r3[144];
    _Alignas(8) unsigned char r3_2[24];
    _Alignas(4) unsigned char r13[20];
    unsigned char *r4, *r19;
    uint32_t r11_0_0_copyload, r4_2_0_copyload, v4, common_ret_op;
    uint8_t r10_0_0_copyload, r2_0_0, r13_0_0_copyload_sink;
    r4 = a2;
    r19 = r3 + 1;
    *r19 = 4;
    dfu_core_keeping_found(a0, a1, 4352, r3);
    uint8_t r22 = *r3;
    if (r22 != 0) {
        uint8_t r13_0_0_copyload = *r19;
        r13_0_0_copyload_sink = r13_0_0_copyload;
    }
    else {
        uint8_t r2 = r3[112];
        if (r2 == 1) r2_0_0 = 2;
        else {
            if (wide(a3) > 0xffffffffU) r2_0_0 = 3;
            else {
                r11_0_0_copyload = load32(r3 + 52);
                r10_0_0_copyload = r3[48];
                store_size(r3_2, (size_t)(uintptr_t)r4);
                store_size(r3_2 + 8, a3);
                r3_2[16] = r10_0_0_copyload;
                store32(r3_2 + 20, r11_0_0_copyload);
                dfu_asks_noted_look(r13, r3_2, r3 + 92);
                uint8_t r65 = *r13;
                if (r65 != 1) r2_0_0 = 3;
                else {
                    r4_2_0_copyload = load32(r13 + 8);
                    uint8_t v3 = r3[56];
                    v4 = load32(r3 + 60);
                    switch (v3) {
                    case 6:
                    case 7:
                    case 9: {
                        uint32_t r4_3_0_copyload = load32(r13 + 12);
                        if (r4_3_0_copyload >= v4) {
                            size_t v5 = (size_t)r10_0_0_copyload;
                            uint32_t switch_load = (uint32_t)switch_table_dfu_asks_next_piece_numbered_piece[v5];
                            uint32_t switch_load_2 = (uint32_t)switch_table_dfu_core_candidate[v5];
                            store32(a4, (umax32(r11_0_0_copyload, switch_load) << 1) + r4_2_0_copyload);
                            store32(a4 + 4, switch_load_2 & v4);
                            common_ret_op = 0;
                            goto dfu_device_c_image_dfu_core_candidate_exit;
                        }
                        r2_0_0 = 4;
                        break;
                    }
                    case 0:
                    case 1:
                    case 2:
                    case 3:
                    case 4:
                    case 5:
                    case 8:
                    case 10:
                    case 11:
                    case 12:
                        common_ret_op = 0xffffffecU;
                        goto dfu_device_c_image_dfu_core_candidate_exit;
                    default: never();
                    }
                }
            }
        }
        r13_0_0_copyload_sink = r2_0_0;
    }
    uint32_t switch_load_3 = (uint32_t)switch_table_dfu_core_numbers_CoreRefusal_number[(size_t)r13_0_0_copyload_sink];
    common_ret_op = switch_load_3;
dfu_device_c_image_dfu_core_candidate_exit:
    return signed32(common_ret_op);
}
#endif

#ifndef DFU_READ
/* dfu_core_elapse: crates/dfu_device_c/src/calls.rt */
int32_t dfu_core_elapse(const struct dfu_config *config, struct dfu_record *record, uint8_t *block, size_t most, const uint8_t *flash, size_t size, uint32_t ms) {
    unsigned char *a0 = (unsigned char *)(uintptr_t)config;
    unsigned char *a1 = (unsigned char *)(uintptr_t)record;
    unsigned char *a2 = (unsigned char *)(uintptr_t)block;
    size_t a3 = (size_t)most;
    unsigned char *a4 = (unsigned char *)(uintptr_t)flash;
    size_t a5 = (size_t)size;
    uint32_t a6 = ms;
    _Alignas(8) unsigned char r5[144];
    _Alignas(8) unsigned char r19_2[48];
    _Alignas(8) unsigned char r23[48];
    unsigned char *const r29 = r23;
    _Alignas(4) unsigned char r12[24];
    _Alignas(1) unsigned char r13_2[6];
    unsigned char *r4, *r13, *r35, *r44, *r19, *r5_2, *v3, *r0_6_0_a0_sroa_idx;
    size_t r1;
    uint64_t r21, r21_2, r16, r19_3;
    uint32_t r2_2, r2_3, v5, v6, v7, r18_1148_0, r18_16_0, r18_21_0, r18_26_0, common_ret_op;
    uint8_t r11_2_0_copyload, r11_3_0_copyload, v4, r18_0_0, r18_0_0_copyload_sink;
    r4 = a2;
    r13 = a4;
    r35 = r5 + 1;
    *r35 = 4;
    dfu_core_keeping_found(a0, a1, a3, r5);
    uint8_t r42 = *r5;
    if (r42 != 0) {
        uint8_t r18_0_0_copyload = *r35;
        r18_0_0_copyload_sink = r18_0_0_copyload;
    }
    else {
        r44 = r5 + 8;
        uint16_t r59 = load16(a0 + 12);
        r1 = (size_t)r59;
        r19 = r4 + r1;
        r21 = (uint64_t)a3 - (uint64_t)r1;
        store32(r12, 0);
        uint8_t r2 = r5[112];
        if (r2 == 1) r18_0_0_copyload_sink = 2;
        else {
            dfu_asks_asking_Asking_see(r19_2, r44, r1, r13, a5);
            uint8_t r1_0_0_copyload = *r19_2;
            if (r1_0_0_copyload == 0) {
                r5_2 = r19_2 + 8;
                v3 = r19_2 + 32;
                memcpy(r23, r5 + 14, 10);
                r2_2 = load32(r5 + 28);
                r2_3 = load32(r5 + 32);
                r0_6_0_a0_sroa_idx = r23 + 24;
                memcpy(r0_6_0_a0_sroa_idx, r5 + 36, 12);
                r11_2_0_copyload = r23[2];
                r11_3_0_copyload = r23[3];
                v4 = r5[56];
                v5 = load32(r5 + 60);
                v6 = load32(r5 + 64);
                v7 = load32(r5 + 68);
                switch (v4) {
                case 1:
                    r21_2 = (uint64_t)(size_t)v6 + (uint64_t)(size_t)a6;
                    if (a6 == 0) {
                        r18_0_0 = 0;
                        r18_1148_0 = 1;
                        r18_16_0 = v5;
                        r18_21_0 = v6;
                        r18_26_0 = 0;
                    }
                    else {
                        if (r11_3_0_copyload & 1) {
                            r18_0_0 = 0;
                            r18_1148_0 = 2;
                            r18_16_0 = 0;
                            r18_21_0 = 0;
                            r18_26_0 = 0;
                        }
                        else {
                            if (r21_2 < (uint64_t)(size_t)umax32(v5, 1)) {
                                r18_0_0 = 0;
                                r18_1148_0 = 1;
                                r18_16_0 = v5;
                                r18_21_0 = (uint32_t)r21_2;
                                r18_26_0 = 0;
                            }
                            else {
                                r18_0_0 = 0;
                                r18_1148_0 = 0;
                                r18_16_0 = 0;
                                r18_21_0 = 0;
                                r18_26_0 = 0;
                            }
                        }
                    }
                    break;
                case 5: {
                    size_t r95 = load_size(r5 + 72);
                    r16 = (uint64_t)(size_t)v7 + (uint64_t)(size_t)a6;
                    uint32_t r21_3 = dfu_device_time_table_block_ms(r0_6_0_a0_sroa_idx, r2_2, v5, r95);
                    if ((a6 == 0) ? 1 : (r16 < (uint64_t)(size_t)r21_3)) {
                        r18_0_0 = 0;
                        r18_1148_0 = 5;
                        r18_16_0 = v5;
                        r18_21_0 = v6 & 0xffffU;
                        r18_26_0 = (uint32_t)r16;
                    }
                    else {
                        r18_0_0 = 3;
                        r18_1148_0 = v5;
                        r18_16_0 = (v6 & 0xffffU) | 0x10000U;
                        r18_21_0 = 0;
                        r18_26_0 = 0;
                    }
                    break;
                }
                case 9: {
                    r19_3 = (uint64_t)(size_t)v6 + (uint64_t)(size_t)a6;
                    uint32_t r24 = dfu_device_time_table_image_ms(r0_6_0_a0_sroa_idx, r2_3, v5);
                    if ((a6 == 0) ? 1 : (r19_3 < (uint64_t)(size_t)r24)) {
                        r18_0_0 = 0;
                        r18_1148_0 = 9;
                        r18_16_0 = v5;
                        r18_21_0 = (uint32_t)r19_3;
                        r18_26_0 = 0;
                    }
                    else {
                        r18_0_0 = 4;
                        r18_1148_0 = v5;
                        r18_16_0 = (uint32_t)((r11_2_0_copyload & 1) ? 8 : 10);
                        r18_21_0 = 0;
                        r18_26_0 = 0;
                    }
                    break;
                }
                case 0:
                case 2:
                case 3:
                case 4:
                case 6:
                case 7:
                case 8:
                case 10:
                case 11:
                case 12: {
                    uint8_t v8 = r5[57];
                    r18_0_0 = 0;
                    r18_1148_0 = ((uint32_t)v8 << 8) | (uint32_t)v4;
                    r18_16_0 = v5;
                    r18_21_0 = v6;
                    r18_26_0 = v7;
                    break;
                }
                default: never();
                }
                *r12 = r18_0_0;
                store32(r12 + 4, r18_1148_0);
                store32(r12 + 8, r18_16_0);
                store32(r12 + 12, r18_21_0);
                store32(r12 + 16, r18_26_0);
                dfu_asks_asking_Asking_carry_out(r29, r44, r12, 0, 0, PLACE(static_2), 0, r4, r1, r19, capped_size(r21), r5_2, v3, r13_2, 6);
                uint8_t v9 = *r29;
                dfu_core_keeping_keep(r44, a1);
                common_ret_op = (uint32_t)((v9 == 0) ? 0xfffffff5U : 0);
                goto dfu_device_c_calls_dfu_core_elapse_exit;
            }
            uint8_t r1_3_1_copyload = r19_2[1];
            r18_0_0_copyload_sink = (uint8_t)((uint32_t)0x4040302U >> (((uint32_t)r1_3_1_copyload << 3) & 31));
        }
    }
    uint32_t switch_load = (uint32_t)switch_table_dfu_core_numbers_CoreRefusal_number[(size_t)r18_0_0_copyload_sink];
    common_ret_op = switch_load;
dfu_device_c_calls_dfu_core_elapse_exit:
    return signed32(common_ret_op);
}
#else
/* dfu_core_elapse: crates/dfu_device_c/src/calls.rt */
int32_t dfu_core_elapse(const struct dfu_config *config, struct dfu_record *record, uint8_t *block, size_t most, const uint8_t *flash, size_t size, uint32_t ms) {
    unsigned char *a0 = (unsigned char *)(uintptr_t)config;
    unsigned char *a1 = (unsigned char *)(uintptr_t)record;
    unsigned char *a2 = (unsigned char *)(uintptr_t)block;
    size_t a3 = (size_t)most;
    unsigned char *a4 = (unsigned char *)(uintptr_t)flash;
    size_t a5 = (size_t)size;
    uint32_t a6 = ms;
    _Alignas(8) unsigned char r5[144];
    _Alignas(8) unsigned char r19_2[48];
    _Alignas(8) unsigned char r23[48];
    unsigned char *const r29 = r23;
    _Alignas(4) unsigned char r12[24];
    _Alignas(1) unsigned char r13_2[6];
    unsigned char *r4, *r13, *r35, *r44, *r19, *r5_2, *v3, *r0_6_0_a0_sroa_idx;
    size_t r1;
    uint64_t r21, r21_2, r16, r19_3;
    uint32_t r2_2, r2_3, v5, v6, v7, r18_1148_0, r18_16_0, r18_21_0, r18_26_0, common_ret_op;
    uint8_t r11_2_0_copyload, r11_3_0_copyload, v4, r18_0_0, r18_0_0_copyload_sink;
    r4 = a2;
    r13 = a4;
    r35 = r5 + 1;
    *r35 = 4;
    dfu_core_keeping_found(a0, a1, a3, r5);
    uint8_t r42 = *r5;
    if (r42 != 0) {
        uint8_t r18_0_0_copyload = *r35;
        r18_0_0_copyload_sink = r18_0_0_copyload;
    }
    else {
        r44 = r5 + 8;
        uint16_t r59 = load16(a0 + 12);
        r1 = (size_t)r59;
        r19 = r4 + r1;
        r21 = (uint64_t)a3 - (uint64_t)r1;
        store32(r12, 0);
        uint8_t r2 = r5[112];
        if (r2 == 1) r18_0_0_copyload_sink = 2;
        else {
            dfu_asks_asking_Asking_see(r19_2, r44, r1, r13, a5);
            uint8_t r1_0_0_copyload = *r19_2;
            if (r1_0_0_copyload == 0) {
                r5_2 = r19_2 + 8;
                v3 = r19_2 + 32;
                memcpy(r23, r5 + 14, 10);
                r2_2 = load32(r5 + 28);
                r2_3 = load32(r5 + 32);
                r0_6_0_a0_sroa_idx = r23 + 24;
                memcpy(r0_6_0_a0_sroa_idx, r5 + 36, 12);
                r11_2_0_copyload = r23[2];
                r11_3_0_copyload = r23[3];
                v4 = r5[56];
                v5 = load32(r5 + 60);
                v6 = load32(r5 + 64);
                v7 = load32(r5 + 68);
                switch (v4) {
                case 1:
                    r21_2 = (uint64_t)(size_t)v6 + (uint64_t)(size_t)a6;
                    if (a6 == 0) {
                        r18_0_0 = 0;
                        r18_1148_0 = 1;
                        r18_16_0 = v5;
                        r18_21_0 = v6;
                        r18_26_0 = 0;
                    }
                    else {
                        if (r11_3_0_copyload & 1) {
                            r18_0_0 = 0;
                            r18_1148_0 = 2;
                            r18_16_0 = 0;
                            r18_21_0 = 0;
                            r18_26_0 = 0;
                        }
                        else {
                            if (r21_2 < (uint64_t)(size_t)umax32(v5, 1)) {
                                r18_0_0 = 0;
                                r18_1148_0 = 1;
                                r18_16_0 = v5;
                                r18_21_0 = (uint32_t)r21_2;
                                r18_26_0 = 0;
                            }
                            else {
                                r18_0_0 = 0;
                                r18_1148_0 = 0;
                                r18_16_0 = 0;
                                r18_21_0 = 0;
                                r18_26_0 = 0;
                            }
                        }
                    }
                    break;
                case 5: {
                    size_t r95 = load_size(r5 + 72);
                    r16 = (uint64_t)(size_t)v7 + (uint64_t)(size_t)a6;
                    uint32_t r21_3 = dfu_device_time_table_block_ms(r0_6_0_a0_sroa_idx, r2_2, v5, r95);
                    if ((a6 == 0) ? 1 : (r16 < (uint64_t)(size_t)r21_3)) {
                        r18_0_0 = 0;
                        r18_1148_0 = 5;
                        r18_16_0 = v5;
                        r18_21_0 = v6 & 0xffffU;
                        r18_26_0 = (uint32_t)r16;
                    }
                    else {
                        r18_0_0 = 3;
                        r18_1148_0 = v5;
                        r18_16_0 = (v6 & 0xffffU) | 0x10000U;
                        r18_21_0 = 0;
                        r18_26_0 = 0;
                    }
                    break;
                }
                case 9: {
                    r19_3 = (uint64_t)(size_t)v6 + (uint64_t)(size_t)a6;
                    uint32_t r24 = dfu_device_time_table_image_ms(r0_6_0_a0_sroa_idx, r2_3, v5);
                    if ((a6 == 0) ? 1 : (r19_3 < (uint64_t)(size_t)r24)) {
                        r18_0_0 = 0;
                        r18_1148_0 = 9;
                        r18_16_0 = v5;
                        r18_21_0 = (uint32_t)r19_3;
                        r18_26_0 = 0;
                    }
                    else {
                        r18_0_0 = 4;
                        r18_1148_0 = v5;
                        r18_16_0 = (uint32_t)((r11_2_0_copyload & 1) ? 8 : 10);
                        r18_21_0 = 0;
                        r18_26_0 = 0;
                    }
                    break;
                }
                case 0:
                case 2:
                case 3:
                case 4:
                case 6:
                case 7:
                case 8:
                case 10:
                case 11:
                case 12: {
                    uint8_t v8 = r5[57];
                    r18_0_0 = 0;
                    r18_1148_0 = ((uint32_t)v8 << 8) | (uint32_t)v4;
                    r18_16_0 = v5;
                    r18_21_0 = v6;
                    r18_26_0 = v7;
                    break;
                }
                default: never();
                }
                *r12 = r18_0_0;
                store32(r12 + 4, r18_1148_0);
                store32(r12 + 8, r18_16_0);
                store32(r12 + 12, r18_21_0);
                store32(r12 + 16, r18_26_0);
                memset(r13_2, 0, 6);
                dfu_asks_asking_Asking_carry_out(r29, r44, r12, 0, 0, PLACE(static_2), 0, r4, r1, r19, capped_size(r21), r5_2, v3, r13_2, 6);
                uint8_t v9 = *r29;
                dfu_core_keeping_keep(r44, a1);
                common_ret_op = (uint32_t)((v9 == 0) ? 0xfffffff5U : 0);
                goto dfu_device_c_calls_dfu_core_elapse_exit;
            }
            uint8_t r1_3_1_copyload = r19_2[1];
            r18_0_0_copyload_sink = (uint8_t)((uint32_t)0x4040302U >> (((uint32_t)r1_3_1_copyload << 3) & 31));
        }
    }
    uint32_t switch_load = (uint32_t)switch_table_dfu_core_numbers_CoreRefusal_number[(size_t)r18_0_0_copyload_sink];
    common_ret_op = switch_load;
dfu_device_c_calls_dfu_core_elapse_exit:
    return signed32(common_ret_op);
}
#endif

/* dfu_core_usb_reset: crates/dfu_device_c/src/calls.rt */
int32_t dfu_core_usb_reset(const struct dfu_config *config, struct dfu_record *record, uint8_t *block, size_t most, const uint8_t *flash, size_t size) {
    unsigned char *a0 = (unsigned char *)(uintptr_t)config;
    unsigned char *a1 = (unsigned char *)(uintptr_t)record;
    (void)block;
    size_t a3 = (size_t)most;
    unsigned char *a4 = (unsigned char *)(uintptr_t)flash;
    size_t a5 = (size_t)size;
    _Alignas(8) unsigned char r5[144];
    _Alignas(8) unsigned char r14[48];
    unsigned char *r13, *r29, *r38;
    uint16_t r53;
    uint8_t r18_0_0_copyload_sink;
    uint32_t common_ret_op;
    r13 = a4;
    r29 = r5 + 1;
    *r29 = 4;
    dfu_core_keeping_found(a0, a1, a3, r5);
    uint8_t r36 = *r5;
    if (r36 != 0) {
        uint8_t r18_0_0_copyload = *r29;
        r18_0_0_copyload_sink = r18_0_0_copyload;
    }
    else {
        r38 = r5 + 8;
        r53 = load16(a0 + 12);
        uint8_t r2 = r5[112];
        if (r2 == 1) r18_0_0_copyload_sink = 2;
        else {
            dfu_asks_asking_Asking_see(r14, r38, (size_t)r53, r13, a5);
            uint8_t r1_0_0_copyload = *r14;
            if (r1_0_0_copyload == 0) {
                unsigned char *r42 = r5 + 56;
                uint8_t v3 = *r42;
                *r42 = (uint8_t)((v3 == 1) ? 2 : 0);
                r5[57] = 0;
                store32(r5 + 60, 0);
                store32(r5 + 64, 0);
                store32(r5 + 68, 0);
                dfu_core_keeping_keep(r38, a1);
                common_ret_op = 0;
                goto dfu_device_c_calls_dfu_core_usb_reset_exit;
            }
            uint8_t r1_3_1_copyload = r14[1];
            r18_0_0_copyload_sink = (uint8_t)((uint32_t)0x4040302U >> (((uint32_t)r1_3_1_copyload << 3) & 31));
        }
    }
    uint32_t switch_load = (uint32_t)switch_table_dfu_core_numbers_CoreRefusal_number[(size_t)r18_0_0_copyload_sink];
    common_ret_op = switch_load;
dfu_device_c_calls_dfu_core_usb_reset_exit:
    return signed32(common_ret_op);
}

/* dfu_core_handle: crates/dfu_device_c/src/calls.rt */
int32_t dfu_core_handle(const struct dfu_config *config, struct dfu_record *record, uint8_t *block, size_t most, const uint8_t *flash, size_t size, const uint8_t setup[8], const uint8_t *body, size_t length, uint8_t *out, size_t room) {
    unsigned char *a0 = (unsigned char *)(uintptr_t)config;
    unsigned char *a1 = (unsigned char *)(uintptr_t)record;
    unsigned char *a2 = (unsigned char *)(uintptr_t)block;
    size_t a3 = (size_t)most;
    unsigned char *a4 = (unsigned char *)(uintptr_t)flash;
    size_t a5 = (size_t)size;
    unsigned char *a6 = (unsigned char *)(uintptr_t)setup;
    unsigned char *a7 = (unsigned char *)(uintptr_t)body;
    size_t a8 = (size_t)length;
    unsigned char *a9 = (unsigned char *)(uintptr_t)out;
    size_t a10 = (size_t)room;
    _Alignas(8) unsigned char r9[144];
    _Alignas(8) unsigned char r12[48];
    unsigned char *const r10 = r12;
    _Alignas(8) unsigned char r27[48];
    _Alignas(8) unsigned char r21_2[24];
    unsigned char *const r0 = r21_2;
    unsigned char *const r12_2 = r21_2;
    _Alignas(4) unsigned char r1_2[16];
    _Alignas(4) unsigned char r13_2[6];
    unsigned char *r4, *r13, *r22, *r31, *r59, *r68, *r19, *r5, *v7;
    uint16_t r4_2, r9_0, r9_0_2, r16_24_0;
    uint64_t r2_0_0_copyload, r21;
    uint8_t r15_not_not;
    size_t r1, v14, v24;
    uint8_t v8, v9, r16_0_0, r16_4_0, v23, r27_0_0_copyload_sink;
    uint32_t v10, v11, v12, r16_9_0, r16_12_0, r16_15_0, r16_18_0, common_ret_op;
    r4 = a2;
    r13 = a4;
    r22 = a7;
    r31 = a9;
    r4_2 = load16(a0 + 12);
    if (a10 < (size_t)umax16(r4_2, 6)) common_ret_op = 0xfffffffbU;
    else {
        r59 = r9 + 1;
        *r59 = 4;
        dfu_core_keeping_found(a0, a1, a3, r9);
        uint8_t r66 = *r9;
        if (r66 != 0) {
            uint8_t r27_0_0_copyload = *r59;
            r27_0_0_copyload_sink = r27_0_0_copyload;
        }
        else {
            r68 = r9 + 8;
            uint8_t r78 = a0[15];
            r2_0_0_copyload = load64u(a6);
            r15_not_not = r78 == (uint8_t)(size_t)(r2_0_0_copyload >> 32);
            r1 = (size_t)r4_2;
            r19 = r4 + r1;
            r21 = (uint64_t)a3 - (uint64_t)r1;
            uint8_t r2 = r9[112];
            if (r2 == 1) r27_0_0_copyload_sink = 2;
            else {
                uint16_t r21_2_0_copyload = load16(r9 + 20);
                if (a10 < (size_t)umax16(r21_2_0_copyload, 6)) r27_0_0_copyload_sink = 4;
                else {
                    dfu_asks_asking_Asking_see(r27, r68, r1, r13, a5);
                    uint8_t r1_0_0_copyload = *r27;
                    if (r1_0_0_copyload == 0) {
                        r5 = r27 + 8;
                        v7 = r27 + 32;
                        uint32_t r12_3_0_copyload = load32(r27 + 40);
                        memcpy(r12, r9 + 14, 10);
                        uint32_t r2_2 = load32(r9 + 24);
                        uint32_t r2_3 = load32(r9 + 28);
                        uint32_t r2_4 = load32(r9 + 32);
                        store32(r12 + 12, r2_2);
                        store32(r12 + 16, r2_3);
                        store32(r12 + 20, r2_4);
                        store_size(r12 + 40, (size_t)r12_3_0_copyload);
                        v8 = r9[56];
                        v9 = r9[57];
                        v10 = load32(r9 + 60);
                        v11 = load32(r9 + 64);
                        v12 = load32(r9 + 68);
                        store32(r1_2, 0);
                        *r1_2 = v8;
                        r1_2[1] = v9;
                        store32(r1_2 + 4, v10);
                        store32(r1_2 + 8, v11);
                        store64(r12_2, (uint64_t)(r15_not_not ? 0 : 0x100000000ULL) | (r2_0_0_copyload & 0xffffff00ffffffffULL));
                        dfu_wire_setups_Setup_request(r13_2, r12_2);
                        uint8_t r2_5 = *r13_2;
                        v14 = (size_t)(r2_0_0_copyload >> 48);
                        switch (r2_5) {
                        case 3:
                        case 5: {
                            uint16_t r1_3_2_copyload = load16(r13_2 + 2);
                            r9_0 = r1_3_2_copyload;
                            break;
                        }
                        case 8:
                            r9_0_2 = 0;
                            goto then_1;
                        case 0:
                        case 1:
                        case 2:
                        case 4:
                        case 6:
                        case 7:
                            r9_0 = 0;
                            break;
                        default: never();
                        }
                        if (a8 == (size_t)((((size_t)r2_0_0_copyload & 255) == 33) ? v14 : 0)) {
                            dfu_device_table_decide(r21_2, r12, r1_2, r13_2);
                            uint8_t v16 = *r21_2;
                            uint8_t v17 = r21_2[1];
                            uint32_t v18 = load32(r21_2 + 4);
                            uint32_t v19 = load32(r21_2 + 8);
                            uint32_t v20 = load32(r21_2 + 12);
                            uint32_t v21 = load32(r21_2 + 16);
                            r16_0_0 = v16;
                            r16_4_0 = v17;
                            r16_9_0 = v18;
                            r16_12_0 = v19;
                            r16_15_0 = v20;
                            r16_18_0 = v21;
                            r16_24_0 = r9_0;
                            goto arm_8;
                        }
                        r9_0_2 = r9_0;
then_1:
                        r16_0_0 = 0;
                        r16_4_0 = 3;
                        r16_9_0 = ((uint32_t)v9 << 8) | (uint32_t)v8;
                        r16_12_0 = v10;
                        r16_15_0 = v11;
                        r16_18_0 = v12;
                        r16_24_0 = r9_0_2;
arm_8:
                        *r10 = r16_0_0;
                        r10[1] = r16_4_0;
                        store32(r10 + 4, r16_9_0);
                        store32(r10 + 8, r16_12_0);
                        store32(r10 + 12, r16_15_0);
                        store32(r10 + 16, r16_18_0);
                        dfu_asks_asking_Asking_carry_out(r0, r68, r10, 1, r16_24_0, r22, a8, r4, r1, r19, capped_size(r21), r5, v7, r31, a10);
                        uint8_t v22 = *r0;
                        v23 = r0[1];
                        v24 = load_size(r0 + 8);
                        dfu_core_keeping_keep(r68, a1);
                        if (v22 == 0) {
                            common_ret_op = 0xfffffff5U;
                            goto dfu_device_c_calls_dfu_core_handle_exit;
                        }
                        switch (v23) {
                        case 0:
                            common_ret_op = 0;
                            goto dfu_device_c_calls_dfu_core_handle_exit;
                        case 1:
                            common_ret_op = (uint32_t)v24;
                            goto dfu_device_c_calls_dfu_core_handle_exit;
                        case 2:
                            common_ret_op = 0xffffffffU;
                            goto dfu_device_c_calls_dfu_core_handle_exit;
                        default: never();
                        }
                    }
                    uint8_t r1_3_1_copyload = r27[1];
                    r27_0_0_copyload_sink = (uint8_t)((uint32_t)0x4040302U >> (((uint32_t)r1_3_1_copyload << 3) & 31));
                }
            }
        }
        uint32_t switch_load = (uint32_t)switch_table_dfu_core_numbers_CoreRefusal_number[(size_t)r27_0_0_copyload_sink];
        common_ret_op = switch_load;
    }
dfu_device_c_calls_dfu_core_handle_exit:
    return signed32(common_ret_op);
}

/* dfu_core_begin: crates/dfu_device_c/src/power.rt */
int32_t dfu_core_begin(const struct dfu_config *config, struct dfu_record *record, const uint8_t *flash, size_t size) {
    unsigned char *a0 = (unsigned char *)(uintptr_t)config;
    unsigned char *a1 = (unsigned char *)(uintptr_t)record;
    unsigned char *a2 = (unsigned char *)(uintptr_t)flash;
    size_t a3 = (size_t)size;
    uint32_t r8 = dfu_device_c_power_start(a0, a1, a2, a3, 2);
    return signed32(r8);
}

/* dfu_core_power_on: crates/dfu_device_c/src/power.rt */
int32_t dfu_core_power_on(const struct dfu_config *config, struct dfu_record *record, const uint8_t *flash, size_t size) {
    unsigned char *a0 = (unsigned char *)(uintptr_t)config;
    unsigned char *a1 = (unsigned char *)(uintptr_t)record;
    unsigned char *a2 = (unsigned char *)(uintptr_t)flash;
    size_t a3 = (size_t)size;
    uint32_t r8 = dfu_device_c_power_start(a0, a1, a2, a3, 0);
    return signed32(r8);
}

/* dfu_core_closes: crates/dfu_device_c/src/closes.rt */
int32_t dfu_core_closes(const struct dfu_config *config, const struct dfu_record *record, const uint8_t setup[8]) {
    unsigned char *a0 = (unsigned char *)(uintptr_t)config;
    unsigned char *a1 = (unsigned char *)(uintptr_t)record;
    unsigned char *a2 = (unsigned char *)(uintptr_t)setup;
    _Alignas(4) unsigned char r7[68];
    _Alignas(4) unsigned char r2[16];
    _Alignas(8) unsigned char r5[8];
    uint32_t common_ret_op;
    store32(r2, 0);
    dfu_core_mode_idle_mode(r7, a0, a1);
    uint8_t r14 = *r7;
    if (r14 != 0) {
        uint8_t r4_0_0_copyload = r7[1];
        uint32_t switch_load = (uint32_t)switch_table_dfu_core_numbers_CoreRefusal_number[(size_t)r4_0_0_copyload];
        common_ret_op = switch_load;
    }
    else {
        uint8_t r3_3_0_copyload = r7[52];
        uint32_t r3_6_0_copyload = load32(r7 + 56);
        *r2 = r3_3_0_copyload;
        store32(r2 + 4, r3_6_0_copyload);
        uint8_t r30 = a0[15];
        uint64_t r2_0_0_copyload = load64u(a2);
        store64(r5, (uint64_t)((r30 == (uint8_t)(size_t)(r2_0_0_copyload >> 32)) ? 0 : 0x100000000ULL) | (r2_0_0_copyload & 0xffffff00ffffffffULL));
        uint8_t r34 = dfu_asks_closes_mode_closes(r7 + 4, r2, r5);
        common_ret_op = (uint32_t)r34;
    }
    return signed32(common_ret_op);
}

#ifndef DFU_READ
/* dfu_core_is_blank: crates/dfu_device_c/src/blank.rt */
int32_t dfu_core_is_blank(const struct dfu_config *config, const uint8_t *flash, size_t size) {
    unsigned char *a0 = (unsigned char *)(uintptr_t)config;
    unsigned char *a1 = (unsigned char *)(uintptr_t)flash;
    size_t a2 = (size_t)size;
    _Alignas(8) unsigned char r7[52];
    unsigned char *const r5 = r7;
    unsigned char *r4, *r3_0_0_in, *r3_0_0_in_2;
    uint8_t r3_2_0_copyload;
    uint32_t r1_4_0, common_ret_op;
    uint64_t r26, r3_6_0, r3_6_0_2;
    uint8_t r7_2;
    r4 = a1;
    dfu_core_config_settings_of(r7, a0);
    uint8_t r14 = *r7;
    if (r14 != 1) common_ret_op = 0xfffffffeU;
    else {
        r3_2_0_copyload = r7[44];
        uint32_t r3_31_0_copyload = load32(r7 + 48);
        uint8_t or_cond = (r3_31_0_copyload < 0x40001U) & ((r3_31_0_copyload & 255) == 0);
        r1_4_0 = (uint32_t)(or_cond ? r3_31_0_copyload : 0);
        if (!((wide(a2) < 0x100000000ULL) & or_cond)) common_ret_op = 0xfffffffdU;
        else {
            store_size(r5 + 8, a2);
            r5[16] = r3_2_0_copyload;
            store32(r5 + 20, r1_4_0);
            uint8_t r10 = dfu_slots_layout_is_sized(r5);
            if (!r10) common_ret_op = 0xfffffffaU;
            else {
                uint32_t switch_load = (uint32_t)switch_table_dfu_asks_next_piece_numbered_piece[(size_t)r3_2_0_copyload];
                r26 = (uint64_t)(size_t)umax32(r1_4_0, switch_load) << 1;
                r3_6_0 = r26;
                r3_0_0_in = r4;
                while (r3_6_0 != 0) {
                    uint8_t r3_0_0_copyload = *r3_0_0_in;
                    if (r3_0_0_copyload != 255) {
                        common_ret_op = 0;
                        goto dfu_device_c_blank_dfu_core_is_blank_exit;
                    }
                    r3_6_0 = r3_6_0 - 1;
                    r3_0_0_in = r3_0_0_in + 1;
                }
                r3_6_0_2 = r26;
                r3_0_0_in_2 = r4 + (a2 >> 1);
                for (;;) {
                    r7_2 = r3_6_0_2 == 0;
                    if (r7_2) break;
                    uint8_t r3_0_0_copyload_2 = *r3_0_0_in_2;
                    if (r3_0_0_copyload_2 != 255) break;
                    r3_6_0_2 = r3_6_0_2 - 1;
                    r3_0_0_in_2 = r3_0_0_in_2 + 1;
                }
                common_ret_op = (uint32_t)r7_2;
            }
        }
    }
dfu_device_c_blank_dfu_core_is_blank_exit:
    return signed32(common_ret_op);
}
#else
/* dfu_core_is_blank: crates/dfu_device_c/src/blank.rt */
int32_t dfu_core_is_blank(const struct dfu_config *config, const uint8_t *flash, size_t size) {
    unsigned char *a0 = (unsigned char *)(uintptr_t)config;
    unsigned char *a1 = (unsigned char *)(uintptr_t)flash;
    size_t a2 = (size_t)size;
    _Alignas(8) unsigned char r7[52];
    unsigned char *const r5 = r7;
    unsigned char *r4;
    uint8_t r3_2_0_copyload;
    uint32_t r1_4_0, common_ret_op;
    uint64_t r26;
    r4 = a1;
    dfu_core_config_settings_of(r7, a0);
    uint8_t r14 = *r7;
    if (r14 != 1) common_ret_op = 0xfffffffeU;
    else {
        r3_2_0_copyload = r7[44];
        uint32_t r3_31_0_copyload = load32(r7 + 48);
        uint8_t or_cond = (r3_31_0_copyload < 0x40001U) & ((r3_31_0_copyload & 255) == 0);
        r1_4_0 = (uint32_t)(or_cond ? r3_31_0_copyload : 0);
        if (!((wide(a2) < 0x100000000ULL) & or_cond)) common_ret_op = 0xfffffffdU;
        else {
            store_size(r5 + 8, a2);
            r5[16] = r3_2_0_copyload;
            store32(r5 + 20, r1_4_0);
            uint8_t r10 = dfu_slots_layout_is_sized(r5);
            if (!r10) common_ret_op = 0xfffffffaU;
            else {
                uint32_t switch_load = (uint32_t)switch_table_dfu_asks_next_piece_numbered_piece[(size_t)r3_2_0_copyload];
                r26 = (uint64_t)(size_t)umax32(r1_4_0, switch_load) << 1;
                uint8_t r31 = dfu_asks_blank_is_erased(r4, 0, r26);
                if (!r31) common_ret_op = 0;
                else {
                    uint8_t r50 = dfu_asks_blank_is_erased(r4, a2 >> 1, r26);
                    common_ret_op = (uint32_t)r50;
                }
            }
        }
    }
    return signed32(common_ret_op);
}
#endif

/* dfu_core_would_stall: crates/dfu_device_c/src/stalls.rt */
int32_t dfu_core_would_stall(const struct dfu_config *config, const struct dfu_record *record, size_t size, const uint8_t setup[8]) {
    unsigned char *a0 = (unsigned char *)(uintptr_t)config;
    unsigned char *a1 = (unsigned char *)(uintptr_t)record;
    size_t a2 = (size_t)size;
    unsigned char *a3 = (unsigned char *)(uintptr_t)setup;
    _Alignas(8) unsigned char r7[68];
    unsigned char *const r17 = r7;
    unsigned char *const r18 = r7;
    _Alignas(8) unsigned char r12[48];
    _Alignas(4) unsigned char r1[16];
    _Alignas(4) unsigned char r10[6];
    _Alignas(4) unsigned char r16_2[6];
    uint32_t common_ret_op;
    dfu_core_mode_idle_mode(r7, a0, a1);
    uint8_t r16 = *r7;
    if (r16 != 0) {
        uint8_t r4_0_0_copyload = r7[1];
        uint32_t switch_load_2 = (uint32_t)switch_table_dfu_core_numbers_CoreRefusal_number[(size_t)r4_0_0_copyload];
        common_ret_op = switch_load_2;
    }
    else {
        uint32_t r3_0_3_0_copyload = load32(r7 + 20);
        uint32_t r3_0_4_0_copyload = load32(r7 + 24);
        uint32_t r3_0_5_0_copyload = load32(r7 + 28);
        uint8_t r3_0_7_0_copyload = r7[44];
        uint32_t r3_0_9_0_copyload = load32(r7 + 48);
        uint8_t r3_3_0_copyload = r7[52];
        uint8_t r3_4_0_copyload = r7[53];
        uint32_t r3_6_0_copyload = load32(r7 + 56);
        uint32_t r3_7_0_copyload = load32(r7 + 60);
        uint8_t r32 = a0[15];
        uint64_t r2_0_0_copyload = load64u(a3);
        uint32_t switch_load = (uint32_t)switch_table_dfu_asks_next_piece_numbered_piece[(size_t)r3_0_7_0_copyload];
        memcpy(r12, r7 + 10, 10);
        store32(r12 + 12, r3_0_3_0_copyload);
        store32(r12 + 16, r3_0_4_0_copyload);
        store32(r12 + 20, r3_0_5_0_copyload);
        store_size(r12 + 40, (size_t)usub_sat64(a2 >> 1, (uint64_t)(size_t)umax32(r3_0_9_0_copyload, switch_load) << 1));
        store64(r18, (uint64_t)((r32 == (uint8_t)(size_t)(r2_0_0_copyload >> 32)) ? 0 : 0x100000000ULL) | (r2_0_0_copyload & 0xffffff00ffffffffULL));
        dfu_wire_setups_Setup_request(r16_2, r18);
        store32(r1, 0);
        *r1 = r3_3_0_copyload;
        r1[1] = r3_4_0_copyload;
        store32(r1 + 4, r3_6_0_copyload);
        store32(r1 + 8, r3_7_0_copyload);
        uint8_t r11 = *r16_2;
        store16(r10, r11);
        uint16_t v6 = load16(r16_2 + 2);
        store16(r10 + 2, v6);
        uint16_t v7 = load16(r16_2 + 4);
        store16(r10 + 4, v7);
        dfu_device_table_decide(r17, r12, r1, r10);
        uint8_t r1_0_0_copyload = *r17;
        uint8_t r1_3_1_copyload = r17[1];
        common_ret_op = (uint32_t)(((uint8_t)(r1_0_0_copyload + 253) < 254) ? (r1_3_1_copyload == 3) : 0);
    }
    return signed32(common_ret_op);
}

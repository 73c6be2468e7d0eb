/* SPDX-License-Identifier: MIT OR Apache-2.0
 *
 * The body of dfuse_watch.h: the hosts of USB DFU 1.1 (dfu_host.h) and of DfuSe (dfuse_host.h), DfuSe files (dfuse_file.h),
 * what a file is (dfu_image.h), and when a device is given up (dfu_watch.h and this one).
 *
 * Made by dist/make/library of the proved crate. Nobody edits it: change the crate, and make it anew by dist/generate. Compile it as C11
 * beside its header. Memory is arrays of bytes here, laid out as on a 64-bit processor with the low byte first: a size takes
 * 8 bytes there, and so does a pointer. */
#include "dfuse_watch.h"

#include <stddef.h>
#include <stdint.h>

#if defined(__BYTE_ORDER__) && __BYTE_ORDER__ != __ORDER_LITTLE_ENDIAN__
#error "this file is for processors that store the low byte of a number first"
#endif

/* Of a C library these three. A compiler with builtins is asked for them: a copy of 4 bytes is then no call, also with -ffreestanding. */
#if defined(__GNUC__)
#define memcpy(to, from, count) __builtin_memcpy(to, from, count)
#define memmove(to, from, count) __builtin_memmove(to, from, count)
#define memset(to, byte, count) __builtin_memset(to, byte, count)
#define ALIGNED(p, n) __builtin_assume_aligned(p, n)
#else
void *memcpy(void *to, const void *from, size_t count);
void *memmove(void *to, const void *from, size_t count);
void *memset(void *to, int byte, size_t count);
#define ALIGNED(p, n) (p)
#endif
/* A table of constants as a place; nothing is written there. */
#define PLACE(table) ((unsigned char *)(uintptr_t)(table))

/* What no call comes to, as it is proved: `trap` where the program says so, `never` where its types do. */
#if defined(__GNUC__)
#define trap() __builtin_trap()
#define never() __builtin_unreachable()
#else
#define trap() for (;;) { }
#define never() for (;;) { }
#endif

_Static_assert((unsigned char)-1 == 255 && sizeof(int) == 4 && sizeof(void *) <= 8, "a processor that this file is not for");
_Static_assert(sizeof(size_t) >= 4 && sizeof(size_t) <= 8 && sizeof(size_t) == sizeof(void *), "a processor that this file is not for");

_Static_assert(offsetof(struct dfu_ids, device) == 0, "another layout");
_Static_assert(offsetof(struct dfu_ids, product) == 2, "another layout");
_Static_assert(offsetof(struct dfu_ids, vendor) == 4, "another layout");
_Static_assert(sizeof(struct dfu_ids) == 6, "another layout");
_Static_assert(_Alignof(struct dfu_ids) == 2, "another layout");
_Static_assert(offsetof(struct dfu_file, payload) == 0, "another layout");
_Static_assert(offsetof(struct dfu_file, suffix) == 8, "another layout");
_Static_assert(offsetof(struct dfu_file, crc) == 12, "another layout");
_Static_assert(offsetof(struct dfu_file, device) == 16, "another layout");
_Static_assert(offsetof(struct dfu_file, product) == 18, "another layout");
_Static_assert(offsetof(struct dfu_file, vendor) == 20, "another layout");
_Static_assert(offsetof(struct dfu_file, dfu) == 22, "another layout");
_Static_assert(sizeof(struct dfu_file) == 24, "another layout");
_Static_assert(_Alignof(struct dfu_file) == 8, "another layout");
_Static_assert(offsetof(struct dfu_session, version) == 0, "another layout");
_Static_assert(offsetof(struct dfu_session, goal) == 4, "another layout");
_Static_assert(offsetof(struct dfu_session, number) == 8, "another layout");
_Static_assert(offsetof(struct dfu_session, kept) == 16, "another layout");
_Static_assert(offsetof(struct dfu_session, phase) == 24, "another layout");
_Static_assert(offsetof(struct dfu_session, more) == 28, "another layout");
_Static_assert(offsetof(struct dfu_session, actions) == 32, "another layout");
_Static_assert(offsetof(struct dfu_session, restarts) == 36, "another layout");
_Static_assert(offsetof(struct dfu_session, transfer) == 38, "another layout");
_Static_assert(offsetof(struct dfu_session, detach_ms) == 40, "another layout");
_Static_assert(offsetof(struct dfu_session, tolerant) == 42, "another layout");
_Static_assert(offsetof(struct dfu_session, will_detach) == 43, "another layout");
_Static_assert(sizeof(struct dfu_session) == 48, "another layout");
_Static_assert(_Alignof(struct dfu_session) == 8, "another layout");
_Static_assert(offsetof(struct dfu_action, what) == 0, "another layout");
_Static_assert(offsetof(struct dfu_action, value) == 4, "another layout");
_Static_assert(offsetof(struct dfu_action, from) == 8, "another layout");
_Static_assert(offsetof(struct dfu_action, length) == 16, "another layout");
_Static_assert(offsetof(struct dfu_action, code) == 24, "another layout");
_Static_assert(offsetof(struct dfu_action, setup) == 28, "another layout");
_Static_assert(sizeof(struct dfu_action) == 40, "another layout");
_Static_assert(_Alignof(struct dfu_action) == 8, "another layout");
_Static_assert(offsetof(struct dfu_look, looks) == 0, "another layout");
_Static_assert(offsetof(struct dfu_look, named) == 4, "another layout");
_Static_assert(offsetof(struct dfu_look, line) == 8, "another layout");
_Static_assert(offsetof(struct dfu_look, column) == 16, "another layout");
_Static_assert(sizeof(struct dfu_look) == 24, "another layout");
_Static_assert(_Alignof(struct dfu_look) == 8, "another layout");
_Static_assert(offsetof(struct dfu_watch, silent) == 0, "another layout");
_Static_assert(offsetof(struct dfu_watch, resets) == 4, "another layout");
_Static_assert(offsetof(struct dfu_watch, stalled) == 8, "another layout");
_Static_assert(offsetof(struct dfu_watch, sent) == 9, "another layout");
_Static_assert(offsetof(struct dfu_watch, anew) == 10, "another layout");
_Static_assert(sizeof(struct dfu_watch) == 12, "another layout");
_Static_assert(_Alignof(struct dfu_watch) == 4, "another layout");
_Static_assert(offsetof(struct dfu_facts, reached) == 0, "another layout");
_Static_assert(offsetof(struct dfu_facts, gone) == 1, "another layout");
_Static_assert(offsetof(struct dfu_facts, many) == 2, "another layout");
_Static_assert(offsetof(struct dfu_facts, stopped) == 3, "another layout");
_Static_assert(offsetof(struct dfu_facts, open) == 4, "another layout");
_Static_assert(offsetof(struct dfu_facts, upgrade) == 5, "another layout");
_Static_assert(offsetof(struct dfu_facts, again) == 6, "another layout");
_Static_assert(offsetof(struct dfu_facts, same) == 7, "another layout");
_Static_assert(sizeof(struct dfu_facts) == 8, "another layout");
_Static_assert(_Alignof(struct dfu_facts) == 1, "another layout");
_Static_assert(offsetof(struct dfuse_file, targets) == 0, "another layout");
_Static_assert(offsetof(struct dfuse_file, setting) == 4, "another layout");
_Static_assert(offsetof(struct dfuse_file, device) == 8, "another layout");
_Static_assert(offsetof(struct dfuse_file, product) == 10, "another layout");
_Static_assert(offsetof(struct dfuse_file, vendor) == 12, "another layout");
_Static_assert(sizeof(struct dfuse_file) == 16, "another layout");
_Static_assert(_Alignof(struct dfuse_file) == 4, "another layout");
_Static_assert(offsetof(struct dfuse_map, name) == 0, "another layout");
_Static_assert(offsetof(struct dfuse_map, ranges) == 8, "another layout");
_Static_assert(sizeof(struct dfuse_map) == 16, "another layout");
_Static_assert(_Alignof(struct dfuse_map) == 8, "another layout");
_Static_assert(offsetof(struct dfuse_range, start) == 0, "another layout");
_Static_assert(offsetof(struct dfuse_range, size) == 8, "another layout");
_Static_assert(offsetof(struct dfuse_range, count) == 16, "another layout");
_Static_assert(offsetof(struct dfuse_range, access) == 20, "another layout");
_Static_assert(sizeof(struct dfuse_range) == 24, "another layout");
_Static_assert(_Alignof(struct dfuse_range) == 8, "another layout");
_Static_assert(offsetof(struct dfuse_element, address) == 0, "another layout");
_Static_assert(offsetof(struct dfuse_element, bytes) == 8, "another layout");
_Static_assert(offsetof(struct dfuse_element, length) == 16, "another layout");
_Static_assert(sizeof(struct dfuse_element) == 24, "another layout");
_Static_assert(_Alignof(struct dfuse_element) == 8, "another layout");
_Static_assert(offsetof(struct dfuse_plan, start) == 0, "another layout");
_Static_assert(offsetof(struct dfuse_plan, actions) == 4, "another layout");
_Static_assert(offsetof(struct dfuse_plan, restarts) == 8, "another layout");
_Static_assert(offsetof(struct dfuse_plan, transfer) == 10, "another layout");
_Static_assert(offsetof(struct dfuse_plan, front) == 12, "another layout");
_Static_assert(offsetof(struct dfuse_plan, leaves) == 14, "another layout");
_Static_assert(sizeof(struct dfuse_plan) == 16, "another layout");
_Static_assert(_Alignof(struct dfuse_plan) == 4, "another layout");
_Static_assert(offsetof(struct dfuse_session, version) == 0, "another layout");
_Static_assert(offsetof(struct dfuse_session, work) == 4, "another layout");
_Static_assert(offsetof(struct dfuse_session, at) == 8, "another layout");
_Static_assert(offsetof(struct dfuse_session, end) == 16, "another layout");
_Static_assert(offsetof(struct dfuse_session, pointer) == 24, "another layout");
_Static_assert(offsetof(struct dfuse_session, place) == 32, "another layout");
_Static_assert(offsetof(struct dfuse_session, step) == 36, "another layout");
_Static_assert(offsetof(struct dfuse_session, more) == 40, "another layout");
_Static_assert(offsetof(struct dfuse_session, report) == 44, "another layout");
_Static_assert(offsetof(struct dfuse_session, start) == 48, "another layout");
_Static_assert(offsetof(struct dfuse_session, actions) == 52, "another layout");
_Static_assert(offsetof(struct dfuse_session, restarts) == 56, "another layout");
_Static_assert(offsetof(struct dfuse_session, transfer) == 58, "another layout");
_Static_assert(offsetof(struct dfuse_session, front) == 60, "another layout");
_Static_assert(offsetof(struct dfuse_session, leaves) == 62, "another layout");
_Static_assert(sizeof(struct dfuse_session) == 64, "another layout");
_Static_assert(_Alignof(struct dfuse_session) == 8, "another layout");
_Static_assert(offsetof(struct dfuse_action, length) == 0, "another layout");
_Static_assert(offsetof(struct dfuse_action, what) == 8, "another layout");
_Static_assert(offsetof(struct dfuse_action, value) == 12, "another layout");
_Static_assert(offsetof(struct dfuse_action, more) == 16, "another layout");
_Static_assert(offsetof(struct dfuse_action, setup) == 20, "another layout");
_Static_assert(sizeof(struct dfuse_action) == 32, "another layout");
_Static_assert(_Alignof(struct dfuse_action) == 8, "another layout");
_Static_assert(offsetof(struct dfuse_watch, silent) == 0, "another layout");
_Static_assert(offsetof(struct dfuse_watch, waits) == 4, "another layout");
_Static_assert(offsetof(struct dfuse_watch, sent) == 8, "another layout");
_Static_assert(sizeof(struct dfuse_watch) == 12, "another layout");
_Static_assert(_Alignof(struct dfuse_watch) == 4, "another layout");

struct i32_i32 { uint32_t a; uint32_t b; };
struct i64_i1 { uint64_t a; uint8_t b; };
struct i8_i64 { uint8_t a; uint64_t b; };
struct ptr_i64 { unsigned char *a; uint64_t b; };

static inline uint16_t load16(const unsigned char *p) { uint16_t x = 0; memcpy(&x, ALIGNED(p, 2), 2); return x; }
static inline uint32_t load32(const unsigned char *p) { uint32_t x = 0; memcpy(&x, ALIGNED(p, 4), 4); return x; }
static inline uint32_t load32u(const unsigned char *p) { uint32_t x = 0; memcpy(&x, p, 4); return x; }
static inline uint64_t load64(const unsigned char *p) { uint64_t x = 0; memcpy(&x, ALIGNED(p, 8), 8); return x; }
static inline uint64_t load64a2(const unsigned char *p) { uint64_t x = 0; memcpy(&x, ALIGNED(p, 2), 8); return x; }
static inline uint64_t load64a4(const unsigned char *p) { uint64_t x = 0; memcpy(&x, ALIGNED(p, 4), 8); return x; }
static inline uint64_t load64u(const unsigned char *p) { uint64_t x = 0; memcpy(&x, p, 8); return x; }
static inline size_t load_size(const unsigned char *p) { size_t x = 0; memcpy(&x, ALIGNED(p, 8), sizeof x); return x; }
static inline struct i64_i1 product64(uint64_t x, uint64_t y) { return (struct i64_i1){ x * y, x != 0 && x * y / x != y }; }
static inline int32_t signed32(uint32_t x) { int32_t y; memcpy(&y, &x, 4); return y; }
static inline void store16(unsigned char *p, uint16_t x) { memcpy(ALIGNED(p, 2), &x, 2); }
static inline void store32(unsigned char *p, uint32_t x) { memcpy(ALIGNED(p, 4), &x, 4); }
static inline void store32a2(unsigned char *p, uint32_t x) { memcpy(ALIGNED(p, 2), &x, 4); }
static inline void store64(unsigned char *p, uint64_t x) { memcpy(ALIGNED(p, 8), &x, 8); }
static inline void store64a4(unsigned char *p, uint64_t x) { memcpy(ALIGNED(p, 4), &x, 8); }
static inline void store64u(unsigned char *p, uint64_t x) { memcpy(p, &x, 8); }
static inline void store_size(unsigned char *p, size_t x) { memcpy(ALIGNED(p, 8), &x, sizeof x); }
static inline uint64_t uadd_sat64(uint64_t x, uint64_t y) { return (uint64_t)(x + y) < x ? (uint64_t)-1 : (uint64_t)(x + y); }
static inline uint16_t umax16(uint16_t x, uint16_t y) { return x < y ? y : x; }
static inline uint32_t umax32(uint32_t x, uint32_t y) { return x < y ? y : x; }
static inline uint64_t umax64(uint64_t x, uint64_t y) { return x < y ? y : x; }
static inline uint64_t umin64(uint64_t x, uint64_t y) { return x < y ? x : y; }
static inline size_t umin_size(size_t x, size_t y) { return x < y ? x : y; }
static inline uint32_t usub_sat32(uint32_t x, uint32_t y) { return x < y ? 0 : (uint32_t)(x - y); }
static inline uint64_t usub_sat64(uint64_t x, uint64_t y) { return x < y ? 0 : (uint64_t)(x - y); }
static inline size_t usub_sat_size(size_t x, size_t y) { return x < y ? 0 : (size_t)(x - y); }

static _Alignas(4) const uint8_t static_0[64] = {
    0, 0, 0, 0, 0x64, 0x10, 0xb7, 0x1d, 0xc8, 0x20, 0x6e, 0x3b, 0xac, 0x30, 0xd9, 0x26, 0x90, 0x41, 0xdc, 0x76,
    0xf4, 0x51, 0x6b, 0x6b, 0x58, 0x61, 0xb2, 0x4d, 0x3c, 0x71, 5, 0x50, 0x20, 0x83, 0xb8, 0xed, 0x44, 0x93, 0xf, 0xf0,
    0xe8, 0xa3, 0xd6, 0xd6, 0x8c, 0xb3, 0x61, 0xcb, 0xb0, 0xc2, 0x64, 0x9b, 0xd4, 0xd2, 0xd3, 0x86, 0x78, 0xe2, 0xa, 0xa0,
    0x1c, 0xf2, 0xbd, 0xbd
};
static _Alignas(1) const uint8_t static_2[4] = {
    0x2e, 0x64, 0x66, 0x75
};
static _Alignas(1) const uint8_t static_3[4] = {
    0x2e, 0x68, 0x65, 0x78
};
static _Alignas(1) const uint8_t static_4[5] = {
    0x2e, 0x69, 0x68, 0x65, 0x78
};
static _Alignas(1) const uint8_t static_5[4] = {
    0x2e, 0x69, 0x68, 0x78
};
static _Alignas(1) const uint8_t static_6[4] = {
    0x2e, 0x6d, 0x63, 0x73
};
static _Alignas(1) const uint8_t static_7[4] = {
    0x2e, 0x73, 0x31, 0x39
};
static _Alignas(1) const uint8_t static_8[4] = {
    0x2e, 0x73, 0x32, 0x38
};
static _Alignas(1) const uint8_t static_9[4] = {
    0x2e, 0x73, 0x33, 0x37
};
static _Alignas(1) const uint8_t static_10[5] = {
    0x2e, 0x73, 0x72, 0x65, 0x63
};
static _Alignas(1) const uint8_t static_11[4] = {
    0x2e, 0x6d, 0x6f, 0x74
};
static _Alignas(1) const uint8_t static_12[4] = {
    0x2e, 0x75, 0x66, 0x32
};
static _Alignas(1) const uint8_t static_13[4] = {
    0x2e, 0x65, 0x6c, 0x66
};
static _Alignas(1) const uint8_t static_14[4] = {
    0x2e, 0x61, 0x78, 0x66
};
static _Alignas(1) const uint8_t static_15[5] = {
    0x44, 0x66, 0x75, 0x53, 0x65
};
static _Alignas(1) const uint8_t static_16[4] = {
    0x55, 0x46, 0x32, 0xa
};
static _Alignas(1) const uint8_t static_17[4] = {
    0x7f, 0x45, 0x4c, 0x46
};
static _Alignas(1) const uint8_t static_18[4] = {
    0x50, 0x4b, 3, 4
};
static _Alignas(1) const uint8_t static_19[2] = {
    0x1f, 0x8b
};
static _Alignas(1) const uint8_t static_20[1] = {
    0
};
static _Alignas(1) const uint8_t static_21[114] = {
    0x69, 0x6e, 0x73, 0x74, 0x61, 0x6c, 0x6c, 0x65, 0x64, 0x20, 0x75, 0x6e, 0x63, 0x6f, 0x6e, 0x66, 0x69, 0x72, 0x6d, 0x65,
    0x64, 0x20, 0x61, 0x62, 0x6f, 0x72, 0x74, 0x65, 0x64, 0x20, 0x67, 0x61, 0x76, 0x65, 0x2d, 0x75, 0x70, 0x20, 0x72, 0x65,
    0x66, 0x75, 0x73, 0x65, 0x64, 0x20, 0x72, 0x65, 0x73, 0x74, 0x61, 0x72, 0x74, 0x73, 0x2d, 0x73, 0x70, 0x65, 0x6e, 0x74,
    0x20, 0x75, 0x70, 0x6c, 0x6f, 0x61, 0x64, 0x65, 0x64, 0x20, 0x74, 0x6f, 0x6f, 0x2d, 0x6d, 0x61, 0x6e, 0x79, 0x2d, 0x62,
    0x6c, 0x6f, 0x63, 0x6b, 0x73, 0x20, 0x6e, 0x6f, 0x2d, 0x6d, 0x65, 0x6d, 0x6f, 0x72, 0x79, 0x20, 0x76, 0x65, 0x72, 0x69,
    0x66, 0x69, 0x65, 0x64, 0x20, 0x64, 0x69, 0x66, 0x66, 0x65, 0x72, 0x65, 0x6e, 0x74
};
static _Alignas(4) const uint8_t switch_table_dfu_host_session_Session_on_result[11] = {
    0x11, 0x11, 0x11, 0x11, 0x11, 0xc, 0xe, 0x11, 0x11, 0x11, 0x11
};
static const uint8_t switch_table_dfu_host_name[11] = {
    0, 0xa, 0x16, 0x1e, 0x26, 0x2e, 0x3d, 0x46, 0x56, 0x60, 0x69
};
static const uint8_t switch_table_dfu_host_name_1[11] = {
    9, 0x15, 0x1d, 0x25, 0x2d, 0x3c, 0x45, 0x55, 0x5f, 0x68, 0x72
};

static uint8_t dfu_host_c_watching_is_other(unsigned char *a0, unsigned char *a1);
static void dfu_formats_dfuse_file_read(unsigned char *a0, unsigned char *a1, size_t a2);
static void dfu_suffix_parse_read_small(unsigned char *a0, unsigned char *a1, size_t a2);
static void dfu_suffix_crc_Crc_update_small(unsigned char *a0, unsigned char *a1, size_t a2);
static void dfu_formats_dfuse_headings_take_heading(unsigned char *a0, unsigned char *a1, size_t a2);
static void dfu_formats_dfuse_elements_take_element(unsigned char *a0, unsigned char *a1, size_t a2);
static void dfu_formats_memory_map_Map_read(unsigned char *a0, unsigned char *a1, size_t a2);
static void dfu_formats_memory_place_take_address(unsigned char *a0, unsigned char *a1, uint64_t a2);
static void dfu_formats_memory_digits_take_number(unsigned char *a0, size_t a1, size_t a2, unsigned char *a3, uint64_t a4);
static uint64_t dfu_formats_memory_digits_digit_value(uint8_t a0);
static void dfu_host_c_file_file_in(unsigned char *a0, unsigned char *a1, size_t a2);
static uint8_t dfu_formats_images_endings_name_ends_in(unsigned char *a0, size_t a1, unsigned char *a2, size_t a3);
static uint8_t dfu_formats_images_looks_has_digits(unsigned char *a0, uint64_t a1);
static uint8_t dfu_formats_images_digits_hex_digit(uint8_t a0);
static uint8_t core_slice_reads_slice_T_starts_with_i8_core_cmp_numbers_U8PartialEq(unsigned char *a0, size_t a1, unsigned char *a2, size_t a3);
static uint8_t core_slice_scan_any_in_ends(unsigned char *a0, size_t a1, size_t a2);
static uint64_t core_slice_scan_skip_groups(unsigned char *a0, uint64_t a1, size_t a2, size_t a3);
static uint8_t core_slice_scan_any_in_run(unsigned char *a0, size_t a1, size_t a2);
static uint8_t dfu_formats_images_text_is_text(unsigned char *a0, size_t a1);
static void dfu_formats_images_places_bad_from(unsigned char *a0, uint8_t a1, unsigned char *a2, size_t a3);
static void dfu_host_c_reports_report_at(unsigned char *a0, uint64_t a1, uint32_t a2);
static void dfu_host_c_holding_session_of(unsigned char *a0, unsigned char *a1, unsigned char *a2, size_t a3);
static void dfu_host_c_holding_record_of(unsigned char *a0, unsigned char *a1, uint64_t a2);
static struct i32_i32 dfu_host_c_reports_report_numbers(uint8_t a0, uint8_t a1);
static struct ptr_i64 dfu_host_task_Task_block(unsigned char *a0, uint64_t a1);
static void dfu_host_task_download(unsigned char *a0, size_t a1, size_t a3);
static void dfu_host_task_send(unsigned char *a0, unsigned char *a1, size_t a3);
static void dfu_wire_requests_Request_setup(unsigned char *a0, unsigned char *a1);
static void dfu_wire_functionals_Functional_decode(unsigned char *a0, unsigned char *a1, size_t a2);
static void dfu_host_c_beginning_start(unsigned char *a0, unsigned char *a1);
static uint32_t dfu_host_c_beginning_install(unsigned char *a0, unsigned char *a1, size_t a2, unsigned char *a3, size_t a4, unsigned char *a5, uint32_t a6, uint16_t a7, uint8_t a8);
static void dfu_host_refusing_goal_to_install(unsigned char *a0, unsigned char *a1, unsigned char *a2, unsigned char *a3, uint8_t a4);
static void dfu_host_session_Session_on_result(unsigned char *a0, unsigned char *a1, uint8_t a2);
static void dfu_wire_statuses_Status_decode(unsigned char *a0, unsigned char *a1, size_t a2);
static uint8_t core_slice_scan_any_by_one(unsigned char *a0, size_t a1);
static uint8_t core_cmp_slices_groups_equal_i8_core_cmp_numbers_U8PartialEq(unsigned char *a0, size_t a1, unsigned char *a2);
static void dfu_host_progress_Progress_restarted(unsigned char *a0, unsigned char *a1);
static void dfu_host_progress_Progress_spent(unsigned char *a0, unsigned char *a1, unsigned char *a2, uint16_t a3);
static void dfu_host_task_Task_on_status(unsigned char *a0, unsigned char *a1, unsigned char *a2, unsigned char *a3, unsigned char *a4);
static void dfu_host_task_Task_troubled(unsigned char *a0, unsigned char *a1, unsigned char *a2);
static void dfu_host_task_Task_listed(unsigned char *a0, unsigned char *a1, unsigned char *a2);
static void dfu_host_c_dfuse_holding_map_of(unsigned char *a0, unsigned char *a1, size_t a2);
static void dfu_host_c_dfuse_holding_session_of(unsigned char *a0, unsigned char *a1, unsigned char *a2, unsigned char *a3, size_t a4);
static void dfuse_host_asking_ask(unsigned char *a0, unsigned char *a1);
static void dfuse_host_asking_setup_of(unsigned char *a0, unsigned char *a1);
static struct i8_i64 dfuse_host_plan_Plan_command_of(unsigned char *a0, unsigned char *a1, uint8_t a2, uint64_t a3);
static uint64_t dfuse_host_plan_Plan_page_start(unsigned char *a0, uint64_t a1);
static void dfuse_host_plan_Plan_page_of(unsigned char *a0, unsigned char *a1, uint64_t a2);
static void dfu_formats_memory_lookups_range_at(unsigned char *a0, uint64_t a1, unsigned char *a2, uint64_t a3);
static void dfuse_host_asking_address_command(unsigned char *a0, uint8_t a1, size_t a2);
static uint64_t dfuse_host_plan_Plan_end_of_work(unsigned char *a0, unsigned char *a1);
static uint64_t dfuse_host_image_image_end(unsigned char *a0, size_t a1);
static uint64_t dfuse_host_plan_Plan_front_end(unsigned char *a0);
static uint64_t dfuse_host_plan_Plan_element_end(unsigned char *a0, uint64_t a1);
static void dfuse_host_image_element_at(unsigned char *a0, uint64_t a1, unsigned char *a2, size_t a3);
static uint64_t dfuse_host_plan_Plan_page_end(unsigned char *a0, uint64_t a1);
static uint64_t dfuse_host_plan_Plan_write_end(unsigned char *a0, uint64_t a1, uint64_t a2);
static struct ptr_i64 dfuse_host_plan_Plan_bytes_in(unsigned char *a0, uint64_t a1, uint64_t a2);
static struct ptr_i64 dfuse_host_plan_Plan_read_bytes(unsigned char *a0, unsigned char *a1);
static uint64_t dfuse_host_plan_Plan_read_end(unsigned char *a0, uint64_t a1, uint64_t a2);
static void dfuse_host_asking_download(unsigned char *a0, unsigned char *a1, uint64_t a2);
static struct i32_i32 dfu_host_c_dfuse_reports_report_numbers(uint8_t a0, uint8_t a1);
static uint8_t dfuse_host_plan_Plan_grants(unsigned char *a0, unsigned char *a1);
static void dfu_host_c_dfuse_holding_record_of(unsigned char *a0, unsigned char *a1);
static void dfuse_host_session_Session_take_restart(unsigned char *a0, unsigned char *a1, unsigned char *a2);
static void dfuse_host_plan_Plan_phase_when_unsure(unsigned char *a0, unsigned char *a1, unsigned char *a2, uint8_t a3);
static void dfuse_host_plan_Plan_settle(unsigned char *a0, unsigned char *a1, unsigned char *a2, uint8_t a3, uint64_t a4);
static void dfuse_host_plan_Plan_to_erase(unsigned char *a0, unsigned char *a1, uint8_t a2, uint64_t a3, uint64_t a4);
static struct i8_i64 dfuse_host_plan_Plan_byte_in(unsigned char *a0, uint64_t a1, uint64_t a2);
static void dfuse_host_plan_Plan_to_write(unsigned char *a0, unsigned char *a1, uint8_t a2, uint64_t a3, uint64_t a4, uint64_t a5);
static void dfuse_host_plan_Plan_to_compare(unsigned char *a0, unsigned char *a1, uint8_t a2, uint64_t a3, uint64_t a4);
static uint8_t dfuse_host_plan_Plan_read_step(unsigned char *a0, uint64_t a1, uint8_t a2, uint64_t a3);
static void dfuse_host_plan_Plan_to_write_front(unsigned char *a0, unsigned char *a1, uint8_t a2, uint64_t a3, uint64_t a4);
static void dfuse_host_plan_Plan_to_compare_front(unsigned char *a0, unsigned char *a1, uint8_t a2, uint64_t a3, uint64_t a4);
static void dfuse_host_plan_Plan_on_unsure_command(unsigned char *a0, unsigned char *a1, unsigned char *a2, uint8_t a3, uint64_t a4);
static void dfuse_host_session_Session_spend_action(unsigned char *a0, unsigned char *a1, unsigned char *a2, uint16_t a3);

/* dfu_host_c::watching::is_other: crates/dfu_host_c/src/watching.rt */
static uint8_t dfu_host_c_watching_is_other(unsigned char *a0, unsigned char *a1) {
    uint8_t r1_0_in;
    uint8_t r9 = a1[4];
    if (r9 == 0) r1_0_in = 0;
    else {
        uint8_t r16 = a1[6];
        if (r16 != 0) r1_0_in = 0;
        else {
            uint8_t r26 = a1[5];
            if (r26 != 0) r1_0_in = 1;
            else {
                uint8_t r33 = a0[9];
                r1_0_in = r33 == 0;
            }
        }
    }
    return r1_0_in;
}

/* dfu_formats::dfuse::file::read: crates/dfu_formats/src/dfuse/file.rt */
static void dfu_formats_dfuse_file_read(unsigned char *a0, unsigned char *a1, size_t a2) {
    _Alignas(8) unsigned char r9[72];
    unsigned char *const r5 = r9;
    unsigned char *const r5_2 = r9;
    _Alignas(8) unsigned char r8[48];
    unsigned char *v1, *r5_2_0_r25_sroa_idx, *r5_32_0_r25_sroa_idx, *r5_4_0_r25_sroa_idx, *r5_5_0_r25_sroa_idx, *r5_5_3_0_r5_5_0_r25_sroa_idx_sroa_idx, *r4_2_0_r19_sroa_idx, *r4_3_0_r19_sroa_idx, *r21;
    size_t r2_0, wide_1311, r19, r3_0_0, r3_5_0, r5_5_0_0_copyload, r5_5_3_0_copyload, r3_0_0_2, r3_5_0_2, r6_26_0, r6_27_0;
    uint16_t r7_0_0, r7_0_0_2, r7_0_0_3, r6_17_1_0, r6_17_8_0, r6_17_9_0;
    uint8_t r98, r7_0, r4_0_0_copyload_pn, r5_4_0, r6_0_0, r6_9_0, r6_24_0;
    uint32_t r5_2_0_copyload, r6_0;
    dfu_suffix_parse_read_small(r5, a1, a2);
    uint8_t r14 = *r5;
    if (r14 == 0) r5_4_0 = 4;
    else {
        uint8_t r4_0_0_copyload = r5[1];
        switch (r4_0_0_copyload) {
        case 3: {
            v1 = a1 + a2;
            store32(r5_2, 0xffffffffU);
            dfu_suffix_crc_Crc_update_small(r5_2, a1, a2 - 4);
            uint32_t r15 = load32u(v1 - 4);
            uint32_t r1 = load32(r5_2);
            if (r15 == r1) {
                uint8_t r27 = *(v1 - 5);
                r2_0 = usub_sat_size(a2, (size_t)r27);
                uint8_t r11 = *(v1 - 16);
                uint8_t r15_2 = *(v1 - 15);
                r7_0_0 = (uint16_t)((uint32_t)r15_2 << 8) | r11;
                uint8_t r11_2 = *(v1 - 14);
                uint8_t r15_3 = *(v1 - 13);
                r7_0_0_2 = (uint16_t)((uint32_t)r15_3 << 8) | r11_2;
                uint8_t r11_3 = *(v1 - 12);
                uint8_t r15_4 = *(v1 - 11);
                r7_0_0_3 = (uint16_t)((uint32_t)r15_4 << 8) | r11_3;
                if (r2_0 < 11) {
                    r6_17_1_0 = 0;
                    r6_17_8_0 = 0;
                    r6_17_9_0 = 0;
                    r6_0_0 = 1;
                    r6_9_0 = 6;
                    r6_24_0 = 0;
                    r6_26_0 = 0;
                    r6_27_0 = 0;
                    goto dfu_formats_dfuse_file_read_file_exit;
                }
                uint8_t r20 = *a1;
                if (r20 != 68) {
                    r6_17_1_0 = 0;
                    r6_17_8_0 = 0;
                    r6_17_9_0 = 0;
                    r6_0_0 = 1;
                    r6_9_0 = 6;
                    r6_24_0 = 0;
                    r6_26_0 = 0;
                    r6_27_0 = 0;
                    goto dfu_formats_dfuse_file_read_file_exit;
                }
                uint8_t r29 = a1[1];
                if (r29 != 102) {
                    r6_17_1_0 = 0;
                    r6_17_8_0 = 0;
                    r6_17_9_0 = 0;
                    r6_0_0 = 1;
                    r6_9_0 = 6;
                    r6_24_0 = 0;
                    r6_26_0 = 0;
                    r6_27_0 = 0;
                    goto dfu_formats_dfuse_file_read_file_exit;
                }
                uint8_t r41 = a1[2];
                if (r41 != 117) {
                    r6_17_1_0 = 0;
                    r6_17_8_0 = 0;
                    r6_17_9_0 = 0;
                    r6_0_0 = 1;
                    r6_9_0 = 6;
                    r6_24_0 = 0;
                    r6_26_0 = 0;
                    r6_27_0 = 0;
                    goto dfu_formats_dfuse_file_read_file_exit;
                }
                uint8_t r53 = a1[3];
                if (r53 != 83) {
                    r6_17_1_0 = 0;
                    r6_17_8_0 = 0;
                    r6_17_9_0 = 0;
                    r6_0_0 = 1;
                    r6_9_0 = 6;
                    r6_24_0 = 0;
                    r6_26_0 = 0;
                    r6_27_0 = 0;
                    goto dfu_formats_dfuse_file_read_file_exit;
                }
                uint8_t r65 = a1[4];
                if (r65 != 101) {
                    r6_17_1_0 = 0;
                    r6_17_8_0 = 0;
                    r6_17_9_0 = 0;
                    r6_0_0 = 1;
                    r6_9_0 = 6;
                    r6_24_0 = 0;
                    r6_26_0 = 0;
                    r6_27_0 = 0;
                    goto dfu_formats_dfuse_file_read_file_exit;
                }
                uint8_t r57 = a1[5];
                if (r57 != 1) {
                    r6_17_1_0 = 0;
                    r6_17_8_0 = 0;
                    r6_17_9_0 = 0;
                    r6_0_0 = 1;
                    r6_9_0 = 7;
                    r6_24_0 = 0;
                    r6_26_0 = 0;
                    r6_27_0 = 0;
                    goto dfu_formats_dfuse_file_read_file_exit;
                }
                uint32_t r26 = load32u(a1 + 6);
                size_t r73 = (size_t)r26;
                if (!((r2_0 == r73) | (a2 == r73))) {
                    r6_17_1_0 = 0;
                    r6_17_8_0 = 0;
                    r6_17_9_0 = 0;
                    r6_0_0 = 1;
                    r6_9_0 = 8;
                    r6_24_0 = 0;
                    r6_26_0 = 0;
                    r6_27_0 = 0;
                    goto dfu_formats_dfuse_file_read_file_exit;
                }
                r98 = a1[10];
                if (r98 == 0) {
                    r6_17_1_0 = 0;
                    r6_17_8_0 = 0;
                    r6_17_9_0 = 0;
                    r6_0_0 = 1;
                    r6_9_0 = 9;
                    r6_24_0 = 0;
                    r6_26_0 = 0;
                    r6_27_0 = 0;
                    goto dfu_formats_dfuse_file_read_file_exit;
                }
                wide_1311 = (size_t)(uintptr_t)(a1 + 11);
                r19 = r2_0 - 11;
                r5_2_0_r25_sroa_idx = r9 + 32;
                r5_32_0_r25_sroa_idx = r9 + 40;
                r5_4_0_r25_sroa_idx = r9 + 48;
                r5_5_0_r25_sroa_idx = r9 + 56;
                r5_5_3_0_r5_5_0_r25_sroa_idx_sroa_idx = r9 + 64;
                r4_2_0_r19_sroa_idx = r8 + 32;
                r4_3_0_r19_sroa_idx = r8 + 40;
                r21 = r8 + 1;
                r3_0_0 = wide_1311;
                r3_5_0 = r19;
                r7_0 = 0;
                for (;;) {
                    if (r7_0 >= r98) goto dfu_formats_dfuse_targets_check_targets_exit;
                    dfu_formats_dfuse_headings_take_heading(r9, (unsigned char *)(uintptr_t)r3_0_0, r3_5_0);
                    uint8_t r22 = *r9;
                    if (r22 == 1) break;
                    r5_2_0_copyload = load32(r5_2_0_r25_sroa_idx);
                    size_t r5_32_0_copyload = load_size(r5_32_0_r25_sroa_idx);
                    size_t r5_4_0_copyload = load_size(r5_4_0_r25_sroa_idx);
                    r5_5_0_0_copyload = load_size(r5_5_0_r25_sroa_idx);
                    r5_5_3_0_copyload = load_size(r5_5_3_0_r5_5_0_r25_sroa_idx_sroa_idx);
                    r3_0_0_2 = r5_32_0_copyload;
                    r3_5_0_2 = r5_4_0_copyload;
                    r6_0 = 0;
                    while (r6_0 != r5_2_0_copyload) {
                        dfu_formats_dfuse_elements_take_element(r8, (unsigned char *)(uintptr_t)r3_0_0_2, r3_5_0_2);
                        uint8_t r18 = *r8;
                        if (r18 != 0) goto dfu_formats_dfuse_elements_check_elements_exit_thread;
                        size_t r4_2_0_copyload = load_size(r4_2_0_r19_sroa_idx);
                        size_t r4_3_0_copyload = load_size(r4_3_0_r19_sroa_idx);
                        r3_0_0_2 = r4_2_0_copyload;
                        r3_5_0_2 = r4_3_0_copyload;
                        r6_0 = r6_0 + 1;
                    }
                    if (r3_5_0_2 != 0) {
                        r4_0_0_copyload_pn = 11;
                        goto dfu_formats_dfuse_targets_check_targets_exit_thread;
                    }
                    r3_0_0 = r5_5_0_0_copyload;
                    r3_5_0 = r5_5_3_0_copyload;
                    r7_0 = (uint8_t)(r7_0 + 1);
                }
                uint8_t r4_0_0_copyload_2 = r9[1];
                r4_0_0_copyload_pn = r4_0_0_copyload_2;
                goto dfu_formats_dfuse_targets_check_targets_exit_thread;
dfu_formats_dfuse_elements_check_elements_exit_thread:;
                uint8_t r5_0_0_copyload = *r21;
                r4_0_0_copyload_pn = r5_0_0_copyload;
dfu_formats_dfuse_targets_check_targets_exit_thread:
                r6_17_1_0 = 0;
                r6_17_8_0 = 0;
                r6_17_9_0 = 0;
                r6_0_0 = 1;
                r6_9_0 = r4_0_0_copyload_pn;
                r6_24_0 = 0;
                r6_26_0 = 0;
                r6_27_0 = 0;
                goto dfu_formats_dfuse_file_read_file_exit;
dfu_formats_dfuse_targets_check_targets_exit:
                if (r3_5_0 == 0) {
                    r6_17_1_0 = r7_0_0;
                    r6_17_8_0 = r7_0_0_2;
                    r6_17_9_0 = r7_0_0_3;
                    r6_0_0 = 0;
                    r6_9_0 = 0;
                    r6_24_0 = r98;
                    r6_26_0 = wide_1311;
                    r6_27_0 = r19;
                    goto dfu_formats_dfuse_file_read_file_exit;
                }
                r6_17_1_0 = 0;
                r6_17_8_0 = 0;
                r6_17_9_0 = 0;
                r6_0_0 = 1;
                r6_9_0 = 15;
                r6_24_0 = 0;
                r6_26_0 = 0;
                r6_27_0 = 0;
                goto dfu_formats_dfuse_file_read_file_exit;
            }
            r5_4_0 = 5;
            break;
        }
        case 6:
            r5_4_0 = 0;
            break;
        case 0:
            r5_4_0 = 1;
            break;
        case 1:
            r5_4_0 = 2;
            break;
        case 2:
            r5_4_0 = 3;
            break;
        case 9:
        case 4:
        case 5:
        case 7:
        case 8:
            r5_4_0 = 4;
            break;
        default: never();
        }
    }
    r6_17_1_0 = 0;
    r6_17_8_0 = 0;
    r6_17_9_0 = 0;
    r6_0_0 = 1;
    r6_9_0 = r5_4_0;
    r6_24_0 = 0;
    r6_26_0 = 0;
    r6_27_0 = 0;
dfu_formats_dfuse_file_read_file_exit:
    *a0 = r6_0_0;
    a0[1] = r6_9_0;
    store16(a0 + 8, r6_17_1_0);
    store16(a0 + 10, r6_17_8_0);
    store16(a0 + 12, r6_17_9_0);
    a0[14] = r6_24_0;
    store_size(a0 + 16, r6_26_0);
    store_size(a0 + 24, r6_27_0);
    return;
}

/* dfu_suffix::parse::read_small: crates/dfu_suffix/src/parse.rt */
static void dfu_suffix_parse_read_small(unsigned char *a0, unsigned char *a1, size_t a2) {
    _Alignas(4) unsigned char r3[4];
    unsigned char *r16;
    uint8_t r48, r11_2, r15_2, r11_3, r15_3, r11_4, r15_4, r0_0_0, r0_6_0, r0_18_0;
    size_t v0, r0_914_0;
    uint16_t r7_0_0, r0_14_0_0, r0_14_6_0, r0_14_8_0, r0_16_0;
    uint64_t r0_12_0;
    if (a2 > 0x1000000U) {
        r0_14_0_0 = 0;
        r0_14_6_0 = 0;
        r0_14_8_0 = 0;
        r0_0_0 = 1;
        r0_6_0 = 6;
        r0_914_0 = 0;
        r0_12_0 = 0;
        r0_16_0 = 0;
        r0_18_0 = 0;
    }
    else {
        r16 = a1 + usub_sat_size(a2, 16);
        if (a2 < 16) {
            r0_14_0_0 = 0;
            r0_14_6_0 = 0;
            r0_14_8_0 = 0;
            r0_0_0 = 1;
            r0_6_0 = 0;
            r0_914_0 = 0;
            r0_12_0 = 0;
            r0_16_0 = 0;
            r0_18_0 = 0;
        }
        else {
            uint8_t r14 = r16[8];
            if (r14 != 85) {
                r0_14_0_0 = 0;
                r0_14_6_0 = 0;
                r0_14_8_0 = 0;
                r0_0_0 = 1;
                r0_6_0 = 1;
                r0_914_0 = 0;
                r0_12_0 = 0;
                r0_16_0 = 0;
                r0_18_0 = 0;
            }
            else {
                uint8_t r23 = r16[9];
                if (r23 != 70) {
                    r0_14_0_0 = 0;
                    r0_14_6_0 = 0;
                    r0_14_8_0 = 0;
                    r0_0_0 = 1;
                    r0_6_0 = 1;
                    r0_914_0 = 0;
                    r0_12_0 = 0;
                    r0_16_0 = 0;
                    r0_18_0 = 0;
                }
                else {
                    uint8_t r35 = r16[10];
                    if (r35 != 68) {
                        r0_14_0_0 = 0;
                        r0_14_6_0 = 0;
                        r0_14_8_0 = 0;
                        r0_0_0 = 1;
                        r0_6_0 = 1;
                        r0_914_0 = 0;
                        r0_12_0 = 0;
                        r0_16_0 = 0;
                        r0_18_0 = 0;
                    }
                    else {
                        r48 = r16[11];
                        v0 = (size_t)r48;
                        if ((r48 < 16) | (a2 < v0)) {
                            r0_14_0_0 = 0;
                            r0_14_6_0 = 0;
                            r0_14_8_0 = 0;
                            r0_0_0 = 1;
                            r0_6_0 = 2;
                            r0_914_0 = 0;
                            r0_12_0 = 0;
                            r0_16_0 = 0;
                            r0_18_0 = 0;
                        }
                        else {
                            uint8_t r11 = r16[6];
                            uint8_t r15 = r16[7];
                            r7_0_0 = (uint16_t)((uint32_t)r15 << 8) | r11;
                            if (r7_0_0 == 282) {
                                r0_14_0_0 = 0;
                                r0_14_6_0 = 0;
                                r0_14_8_0 = 0;
                                r0_0_0 = 1;
                                r0_6_0 = 3;
                                r0_914_0 = 0;
                                r0_12_0 = 0;
                                r0_16_0 = 0;
                                r0_18_0 = 0;
                            }
                            else {
                                r11_2 = *r16;
                                r15_2 = r16[1];
                                r11_3 = r16[2];
                                r15_3 = r16[3];
                                r11_4 = r16[4];
                                r15_4 = r16[5];
                                store32(r3, 0xffffffffU);
                                dfu_suffix_crc_Crc_update_small(r3, a1, a2);
                                uint32_t r1 = load32(r3);
                                if (r1 == 0) {
                                    r0_14_0_0 = (uint16_t)((uint32_t)r15_2 << 8) | r11_2;
                                    r0_14_6_0 = (uint16_t)((uint32_t)r15_3 << 8) | r11_3;
                                    r0_14_8_0 = (uint16_t)((uint32_t)r15_4 << 8) | r11_4;
                                    r0_0_0 = 0;
                                    r0_6_0 = 0;
                                    r0_914_0 = (size_t)(uintptr_t)a1;
                                    r0_12_0 = (uint64_t)a2 - (uint64_t)v0;
                                    r0_16_0 = r7_0_0;
                                    r0_18_0 = r48;
                                }
                                else {
                                    r0_14_0_0 = 0;
                                    r0_14_6_0 = 0;
                                    r0_14_8_0 = 0;
                                    r0_0_0 = 1;
                                    r0_6_0 = 4;
                                    r0_914_0 = 0;
                                    r0_12_0 = 0;
                                    r0_16_0 = 0;
                                    r0_18_0 = 0;
                                }
                            }
                        }
                    }
                }
            }
        }
    }
    *a0 = r0_0_0;
    a0[1] = r0_6_0;
    store_size(a0 + 8, r0_914_0);
    store64(a0 + 16, r0_12_0);
    store16(a0 + 24, r0_14_0_0);
    store16(a0 + 26, r0_14_6_0);
    store16(a0 + 28, r0_14_8_0);
    store16(a0 + 30, r0_16_0);
    a0[32] = r0_18_0;
    return;
}

/* dfu_suffix::crc::Crc::update_small: crates/dfu_suffix/src/crc.rt */
static void dfu_suffix_crc_Crc_update_small(unsigned char *a0, unsigned char *a1, size_t a2) {
    size_t r4_0;
    uint32_t r3_0;
    uint32_t r5 = load32(a0);
    r4_0 = 0;
    r3_0 = r5;
    if (r4_0 != a2) {
        do {
            uint8_t r23 = a1[r4_0];
            uint32_t r6 = r3_0 ^ (uint32_t)r23;
            uint32_t r20 = load32(PLACE(static_0) + (size_t)((r6 << 2) & 60));
            uint32_t r23_2 = (r6 >> 4) ^ r20;
            uint32_t r20_2 = load32(PLACE(static_0) + (size_t)((r23_2 << 2) & 60));
            r4_0 = r4_0 + 1;
            r3_0 = (r23_2 >> 4) ^ r20_2;
        } while (r4_0 != a2);
    }
    store32(a0, r3_0);
    return;
}

/* dfu_formats::dfuse::headings::take_heading: crates/dfu_formats/src/dfuse/headings.rt */
static void dfu_formats_dfuse_headings_take_heading(unsigned char *a0, unsigned char *a1, size_t a2) {
    size_t r57, r19;
    if (a2 < 274) {
        *a0 = 1;
        a0[1] = 10;
        return;
    }
    uint8_t r23 = *a1;
    if (r23 == 84) {
        uint8_t r32 = a1[1];
        if (r32 == 97) {
            uint8_t r44 = a1[2];
            if (r44 == 114) {
                uint8_t r56 = a1[3];
                if (r56 == 103) {
                    uint8_t r68 = a1[4];
                    if (r68 == 101) {
                        uint8_t r80 = a1[5];
                        if (r80 == 116) {
                            uint32_t r26 = load32u(a1 + 266);
                            r57 = (size_t)r26;
                            r19 = a2 - 274;
                            if (r19 < r57) {
                                *a0 = 1;
                                a0[1] = 11;
                                return;
                            }
                            unsigned char *r16 = a1 + 274;
                            uint8_t r90 = a1[6];
                            uint32_t r26_2 = load32u(a1 + 270);
                            *a0 = 0;
                            a0[8] = r90;
                            store32(a0 + 32, r26_2);
                            store_size(a0 + 40, (size_t)(uintptr_t)r16);
                            store_size(a0 + 48, r57);
                            store_size(a0 + 56, (size_t)(uintptr_t)(r16 + r57));
                            store_size(a0 + 64, r19 - r57);
                            return;
                        }
                    }
                }
            }
        }
    }
    *a0 = 1;
    a0[1] = 10;
    return;
}

/* dfu_formats::dfuse::elements::take_element: crates/dfu_formats/src/dfuse/elements.rt */
static void dfu_formats_dfuse_elements_take_element(unsigned char *a0, unsigned char *a1, size_t a2) {
    uint32_t r26, r26_2;
    unsigned char *r16;
    size_t wide_1311, r19, r49;
    if (a2 < 8) {
        *a0 = 1;
        a0[1] = 12;
        return;
    }
    r26 = load32u(a1);
    r26_2 = load32u(a1 + 4);
    r16 = a1 + 8;
    wide_1311 = (size_t)(uintptr_t)r16;
    r19 = a2 - 8;
    r49 = (size_t)r26_2;
    if (r19 < r49) {
        *a0 = 1;
        a0[1] = 12;
        return;
    }
    if (r26_2 == 0) {
        *a0 = 1;
        a0[1] = 13;
        return;
    }
    if (((uint64_t)r49 + (uint64_t)(size_t)r26) > 0x100000000ULL) {
        *a0 = 1;
        a0[1] = 14;
        return;
    }
    *a0 = 0;
    store32(a0 + 8, r26);
    store32(a0 + 12, 0);
    store64(a0 + 16, wide_1311);
    store64(a0 + 24, r49);
    store_size(a0 + 32, (size_t)(uintptr_t)(r16 + r49));
    store_size(a0 + 40, r19 - r49);
    return;
}

/* dfu_formats::memory::map::Map::read */
static void dfu_formats_memory_map_Map_read(unsigned char *a0, unsigned char *a1, size_t a2) {
    _Alignas(8) unsigned char r17_11[782];
    unsigned char *const r1 = r17_11;
    unsigned char *const r12 = r17_11;
    unsigned char *const r4 = r17_11;
    unsigned char *const r5 = r17_11;
    unsigned char *const r14 = r17_11;
    _Alignas(8) unsigned char r3[776];
    unsigned char *const r9 = r3;
    unsigned char *const r0_20 = r3;
    _Alignas(2) unsigned char r0_20_8[776];
    size_t r19, wide_1311, r23, r7_3_0_copyload, r2_0, r5_0_0, r1_0, r8_17_0_0, r9_2, r11_2, r0_131_0;
    unsigned char *r16, *r4_0_0_in, *r11_3_0_r3_sroa_idx, *r20, *r3_3_0_r27_sroa_idx, *r3_4_0_r27_sroa_idx, *r16_2, *r3_3_0_r23_sroa_idx, *r3_4_0_r23_sroa_idx, *r43, *r5_3_0_r43_sroa_idx, *r5_3_3_0_r5_3_0_r43_sroa_idx_sroa_idx;
    unsigned char *r29_2, *r27_2, *r58139, *r16_4, *r17_11_8_r60_sroa_idx, *r26, *r16_5, *r10, *r14_2, *r23_2;
    uint64_t r3_0, r3_0_2, r4_0, r7_0_0_copyload, r7_4_0_copyload, r3_2, r5_4_0, r4_0_2, r21, r3_4_0_copyload, r17, r3_4_0_copyload_2;
    uint64_t r19_3, r5_6_4_0_ph138, r5_6_1_0_ph137, r17_2, r21_2, r19_4, r8_17_5_0, r8_13_0, r4_2, indvars_iv_in, r4_0_3, indvars_iv;
    uint64_t r51, r19_5, r3_0_3, r3_0_lcssa, r0_19_0;
    uint8_t r25_3, r25_4, r8_6_0, r17_6_0, r0_0_0, r0_7_0;
    memset(r0_20_8, 0, 776);
    if (a2 != 0) {
        uint8_t r25 = *a1;
        if (r25 == 64) {
            r19 = a2 - 1;
            r16 = a1 + 1;
            wide_1311 = (size_t)(uintptr_t)r16;
            r4_0_0_in = r16;
            r23 = r19;
            r3_0 = 0;
            for (;;) {
                if (r23 == 0) goto arm_2;
                uint8_t r2 = *r4_0_0_in;
                if (r2 == 47) {
                    r3_0_2 = 0;
                    r4_0 = 0;
                    break;
                }
                r4_0_0_in = r4_0_0_in + 1;
                r23 = r23 - 1;
                r3_0 = r3_0 + 1;
            }
            if (r4_0 != r3_0) {
                do {
                    uint64_t r27 = r4_0 + 1;
                    uint8_t r29 = r16[(size_t)r4_0];
                    r3_0_2 = (uint64_t)((r29 == 32) ? r3_0_2 : r27);
                    r4_0 = r27;
                } while (r4_0 != r3_0);
            }
            uint64_t r47 = r3_0 + 1;
            dfu_formats_memory_place_take_address(r14, r16 + (size_t)r47, (uint64_t)r19 - r47);
            uint8_t r45 = *r14;
            if (r45 != 0) {
                uint8_t r8_0_0_copyload = r14[1];
                memset(r0_20, 0, 776);
                r0_0_0 = 1;
                r0_7_0 = r8_0_0_copyload;
                r0_131_0 = 0;
                r0_19_0 = 0;
                goto dfu_formats_memory_map_read_map_exit;
            }
            r7_0_0_copyload = load64(r14 + 8);
            r7_3_0_copyload = load_size(r14 + 16);
            r7_4_0_copyload = load64(r14 + 24);
            memset(r1, 0, 768);
            r2_0 = 0;
            while (r2_0 != 32) {
                memset(r1 + (r2_0 * 24), 0, 24);
                r2_0 = r2_0 + 1;
            }
            memcpy(r3, r1, 768);
            r11_3_0_r3_sroa_idx = r3 + 768;
            r20 = r5 + 8;
            r3_3_0_r27_sroa_idx = r5 + 16;
            r3_4_0_r27_sroa_idx = r5 + 24;
            r16_2 = r4 + 8;
            r3_3_0_r23_sroa_idx = r4 + 16;
            r3_4_0_r23_sroa_idx = r4 + 24;
            r43 = r12 + 8;
            r5_3_0_r43_sroa_idx = r12 + 16;
            r5_3_3_0_r5_3_0_r43_sroa_idx_sroa_idx = r12 + 24;
            r3_2 = 0;
            r5_0_0 = r7_3_0_copyload;
            r5_4_0 = r7_4_0_copyload;
            r4_0_2 = r7_0_0_copyload;
            for (;;) {
                dfu_formats_memory_digits_take_number(r5, 10, 5, (unsigned char *)(uintptr_t)r5_0_0, r5_4_0);
                uint8_t r19_2 = *r5;
                if (r19_2 != 1) goto arm_2_2;
                r21 = load64(r20);
                if (r21 == 0) goto arm_2_2;
                size_t r3_3_0_copyload = load_size(r3_3_0_r27_sroa_idx);
                r3_4_0_copyload = load64(r3_4_0_r27_sroa_idx);
                r29_2 = (unsigned char *)(uintptr_t)r3_3_0_copyload;
                if (r3_4_0_copyload == 0) goto arm_2_2;
                uint8_t r25_2 = *r29_2;
                if (r25_2 != 42) goto arm_2_2;
                dfu_formats_memory_digits_take_number(r4, 10, 5, r29_2 + 1, r3_4_0_copyload - 1);
                uint8_t r15 = *r4;
                if (r15 != 1) goto arm_6;
                r17 = load64(r16_2);
                if (r17 == 0) goto arm_6;
                size_t r3_3_0_copyload_2 = load_size(r3_3_0_r23_sroa_idx);
                r3_4_0_copyload_2 = load64(r3_4_0_r23_sroa_idx);
                r27_2 = (unsigned char *)(uintptr_t)r3_3_0_copyload_2;
                if (r3_4_0_copyload_2 == 0) break;
                r25_3 = *r27_2;
                switch (r25_3) {
                case 75:
                    r1_0 = 1024;
                    break;
                case 77:
                    r1_0 = 0x100000U;
                    break;
                case 32:
                case 66:
                    r1_0 = 1;
                    break;
                default:
                    r25_4 = r25_3;
                    r58139 = r27_2;
                    r5_6_4_0_ph138 = r3_4_0_copyload_2;
                    r5_6_1_0_ph137 = r17;
                    goto arm_3;
                }
                r19_3 = r3_4_0_copyload_2 - 1;
                if (r19_3 == 0) {
                    r17_6_0 = 4;
                    goto arm_9;
                }
                unsigned char *r16_3 = r27_2 + 1;
                uint8_t r25_pre = *r16_3;
                r25_4 = r25_pre;
                r58139 = r16_3;
                r5_6_4_0_ph138 = r19_3;
                r5_6_1_0_ph137 = (uint64_t)r1_0 * r17;
arm_3:
                if ((uint8_t)(r25_4 + 159) >= 7) {
                    r17_6_0 = 4;
                    goto arm_9;
                }
                if (((r5_6_1_0_ph137 * r21) + r4_0_2) > 0x100000000ULL) {
                    r17_6_0 = 5;
                    goto arm_9;
                }
                if (r3_2 == 32) {
                    r17_6_0 = 6;
                    goto arm_9;
                }
                unsigned char *r13 = r3 + ((size_t)r3_2 * 24);
                store32(r13, (uint32_t)r4_0_2);
                store32(r13 + 4, 0);
                store64(r13 + 8, r5_6_1_0_ph137);
                store32(r13 + 16, (uint32_t)r21);
                r13[20] = r25_4 & 1;
                r13[21] = (uint8_t)(r25_4 >> 1) & 1;
                r13[22] = (uint8_t)(r25_4 >> 2) & 1;
                r13[23] = 0;
                r17_2 = r3_2 + 1;
                store64(r11_3_0_r3_sroa_idx, r17_2);
                r21_2 = (r5_6_1_0_ph137 * (uint64_t)((size_t)r21 & 0xffffffffU)) + (uint64_t)((size_t)r4_0_2 & 0xffffffffU);
                if (r5_6_4_0_ph138 == 1) goto arm_8;
                uint8_t r25_5 = r58139[1];
                r16_4 = r58139 + 2;
                r19_4 = r5_6_4_0_ph138 - 2;
                switch (r25_5) {
                case 44:
                    r8_17_0_0 = (size_t)(uintptr_t)r16_4;
                    r8_17_5_0 = r19_4;
                    r8_13_0 = r21_2;
                    break;
                case 47: {
                    dfu_formats_memory_place_take_address(r12, r16_4, r19_4);
                    uint8_t r42 = *r12;
                    if (r42 != 0) goto arm_10;
                    uint64_t r5_0_0_copyload = load64(r43);
                    size_t r5_3_0_0_copyload = load_size(r5_3_0_r43_sroa_idx);
                    uint64_t r5_3_3_0_copyload = load64(r5_3_3_0_r5_3_0_r43_sroa_idx_sroa_idx);
                    r8_17_0_0 = r5_3_0_0_copyload;
                    r8_17_5_0 = r5_3_3_0_copyload;
                    r8_13_0 = r5_0_0_copyload;
                    break;
                }
                default:
                    r8_6_0 = 7;
                    goto arm_11;
                }
                r3_2 = r17_2;
                r5_0_0 = r8_17_0_0;
                r5_4_0 = r8_17_5_0;
                r4_0_2 = r8_13_0;
            }
            r17_6_0 = 4;
            goto arm_9;
arm_8:
            r17_11_8_r60_sroa_idx = r17_11 + 6;
            memcpy(r17_11_8_r60_sroa_idx, r3, 776);
            memcpy(r9, r17_11_8_r60_sroa_idx, 776);
            r4_2 = load64(r9 + 768);
            indvars_iv_in = r4_2;
            r4_0_3 = 0;
            for (;;) {
                indvars_iv = indvars_iv_in - 1;
                if (r4_0_3 == r4_2) break;
                r26 = r9 + ((size_t)r4_0_3 * 24);
                r51 = r4_0_3 + 1;
                r16_5 = r9 + ((size_t)r51 * 24);
                r19_5 = r4_2 - r51;
                r10 = r26 + 16;
                r14_2 = r26 + 8;
                r3_0_3 = 0;
                for (;;) {
                    if (r3_0_3 == r19_5) {
                        r3_0_lcssa = indvars_iv;
                        break;
                    }
                    r23_2 = r16_5 + ((size_t)r3_0_3 * 24);
                    uint32_t r7 = load32(r26);
                    r9_2 = (size_t)r7;
                    uint32_t r11 = load32(r10);
                    uint64_t r15_2 = load64(r14_2);
                    uint32_t r9_3 = load32(r23_2);
                    r11_2 = (size_t)r9_3;
                    if (((r15_2 * (uint64_t)(size_t)r11) + (uint64_t)r9_2) > (uint64_t)r11_2) {
                        uint32_t r11_3 = load32(r23_2 + 16);
                        uint64_t r15_3 = load64(r23_2 + 8);
                        if (((r15_3 * (uint64_t)(size_t)r11_3) + (uint64_t)r11_2) > (uint64_t)r9_2) {
                            r3_0_lcssa = r3_0_3;
                            break;
                        }
                    }
                    r3_0_3 = r3_0_3 + 1;
                }
                if (r3_0_lcssa < r19_5) goto then_11;
                indvars_iv_in = indvars_iv;
                r4_0_3 = r51;
            }
            memcpy(r0_20, r17_11_8_r60_sroa_idx, 776);
            r0_0_0 = 0;
            r0_7_0 = 0;
            r0_131_0 = wide_1311;
            r0_19_0 = r3_0_2;
            goto dfu_formats_memory_map_read_map_exit;
then_11:
            memcpy(r0_20, r0_20_8, 776);
            r0_0_0 = 1;
            r0_7_0 = 8;
            r0_131_0 = 0;
            r0_19_0 = 0;
            goto dfu_formats_memory_map_read_map_exit;
arm_10:;
            uint8_t r6_0_0_copyload = r12[1];
            r8_6_0 = r6_0_0_copyload;
arm_11:
            r17_6_0 = r8_6_0;
            goto arm_9;
arm_6:
            r17_6_0 = 3;
            goto arm_9;
arm_2_2:
            r17_6_0 = 2;
arm_9:
            memcpy(r0_20, r0_20_8, 776);
            r0_0_0 = 1;
            r0_7_0 = r17_6_0;
            r0_131_0 = 0;
            r0_19_0 = 0;
            goto dfu_formats_memory_map_read_map_exit;
        }
    }
arm_2:
    memset(r0_20, 0, 776);
    r0_0_0 = 1;
    r0_7_0 = 0;
    r0_131_0 = 0;
    r0_19_0 = 0;
dfu_formats_memory_map_read_map_exit:
    *a0 = r0_0_0;
    a0[1] = r0_7_0;
    store64(a0 + 8, r0_131_0);
    store64(a0 + 16, r0_19_0);
    memcpy(a0 + 24, r0_20, 776);
    return;
}

/* dfu_formats::memory::place::take_address: crates/dfu_formats/src/memory/place.rt */
static void dfu_formats_memory_place_take_address(unsigned char *a0, unsigned char *a1, uint64_t a2) {
    _Alignas(8) unsigned char r5[32];
    unsigned char *r6_0_0, *r28;
    uint64_t r6_4_0, r3_0_0_copyload, r3_4_0_copyload, r7_9_3_0, r7_72_0;
    size_t r7_9_0_0;
    uint8_t r7_4_0;
    if (a2 == 0) {
        r6_0_0 = a1;
        r6_4_0 = 0;
    }
    else {
        uint8_t r25 = *a1;
        if (r25 != 48) {
            r6_0_0 = a1;
            r6_4_0 = a2;
        }
        else {
            if (a2 == 1) {
                r6_0_0 = a1;
                r6_4_0 = 1;
            }
            else {
                uint8_t r25_2 = a1[1];
                switch (r25_2) {
                case 88:
                case 120:
                    r6_0_0 = a1 + 2;
                    r6_4_0 = a2 - 2;
                    break;
                default:
                    r6_0_0 = a1;
                    r6_4_0 = a2;
                    break;
                }
            }
        }
    }
    dfu_formats_memory_digits_take_number(r5, 16, 8, r6_0_0, r6_4_0);
    uint8_t r25_3 = *r5;
    if (r25_3 != 1) {
        r7_9_0_0 = 0;
        r7_9_3_0 = 0;
        r7_4_0 = 1;
        r7_72_0 = 0;
    }
    else {
        r3_0_0_copyload = load64(r5 + 8);
        size_t r3_3_0_copyload = load_size(r5 + 16);
        r3_4_0_copyload = load64(r5 + 24);
        r28 = (unsigned char *)(uintptr_t)r3_3_0_copyload;
        if (r3_4_0_copyload == 0) {
            r7_9_0_0 = 0;
            r7_9_3_0 = 0;
            r7_4_0 = 1;
            r7_72_0 = 0;
        }
        else {
            uint8_t r25_4 = *r28;
            if (r25_4 == 47) {
                r7_9_0_0 = (size_t)(uintptr_t)(r28 + 1);
                r7_9_3_0 = r3_4_0_copyload - 1;
                r7_4_0 = 0;
                r7_72_0 = r3_0_0_copyload;
            }
            else {
                r7_9_0_0 = 0;
                r7_9_3_0 = 0;
                r7_4_0 = 1;
                r7_72_0 = 0;
            }
        }
    }
    *a0 = r7_4_0;
    a0[1] = r7_4_0;
    store64(a0 + 8, r7_72_0);
    store_size(a0 + 16, r7_9_0_0);
    store64(a0 + 24, r7_9_3_0);
    return;
}

/* dfu_formats::memory::digits::take_number: crates/dfu_formats/src/memory/digits.rt */
static void dfu_formats_memory_digits_take_number(unsigned char *a0, size_t a1, size_t a2, unsigned char *a3, uint64_t a4) {
    uint64_t r4_0, r3_0_lcssa, r4_0_2, r3_0;
    r4_0 = 0;
    for (;;) {
        if (r4_0 == a4) {
            r3_0_lcssa = a4;
            break;
        }
        uint8_t r25 = a3[(size_t)r4_0];
        uint64_t r27 = dfu_formats_memory_digits_digit_value(r25);
        if ((uint64_t)a1 <= r27) {
            r3_0_lcssa = r4_0;
            break;
        }
        r4_0 = r4_0 + 1;
    }
    if ((r3_0_lcssa - 1) >= (uint64_t)a2) {
        memset(a0, 0, 32);
        return;
    }
    r4_0_2 = 0;
    r3_0 = 0;
    while (r4_0_2 != r3_0_lcssa) {
        uint8_t r27_2 = a3[(size_t)r4_0_2];
        uint64_t r29 = dfu_formats_memory_digits_digit_value(r27_2);
        r4_0_2 = r4_0_2 + 1;
        r3_0 = r29 + (r3_0 * (uint64_t)a1);
    }
    store_size(a0, 1);
    store64(a0 + 8, r3_0);
    store_size(a0 + 16, (size_t)(uintptr_t)(a3 + (size_t)r3_0_lcssa));
    store64(a0 + 24, a4 - r3_0_lcssa);
    return;
}

/* dfu_formats::memory::digits::digit_value: crates/dfu_formats/src/memory/digits.rt */
static uint64_t dfu_formats_memory_digits_digit_value(uint8_t a0) {
    uint64_t r1_0;
    if (a0 < 48) r1_0 = 16;
    else {
        if (a0 < 58) r1_0 = (size_t)(uint8_t)(a0 + 208);
        else {
            if (a0 < 65) r1_0 = 16;
            else {
                if (a0 < 71) r1_0 = (uint64_t)(size_t)a0 - 55;
                else {
                    if ((uint8_t)(a0 + 159) < 6) r1_0 = (uint64_t)(size_t)a0 - 87;
                    else {
                        r1_0 = 16;
                    }
                }
            }
        }
    }
    return r1_0;
}

/* dfu_host_c::file::file_in: crates/dfu_host_c/src/file.rt */
static void dfu_host_c_file_file_in(unsigned char *a0, unsigned char *a1, size_t a2) {
    _Alignas(8) unsigned char r0[40];
    dfu_suffix_parse_read_small(r0, a1, a2);
    uint8_t v0 = *r0;
    *a0 = v0;
    uint8_t v1 = r0[1];
    a0[1] = v1;
    memcpy(a0 + 8, r0 + 8, 32);
    return;
}

/* dfu_formats::images::endings::name_ends_in: crates/dfu_formats/src/images/endings.rt */
static uint8_t dfu_formats_images_endings_name_ends_in(unsigned char *a0, size_t a1, unsigned char *a2, size_t a3) {
    unsigned char *r16;
    size_t r5_0;
    uint8_t exitcond_not, common_ret_op;
    if (a3 < a1) common_ret_op = 0;
    else {
        r16 = a2 + (a3 - a1);
        r5_0 = 0;
        for (;;) {
            exitcond_not = r5_0 == a1;
            if (exitcond_not) {
                common_ret_op = exitcond_not;
                break;
            }
            uint8_t r46 = r16[r5_0];
            uint8_t r52 = a0[r5_0];
            if ((uint8_t)(((uint8_t)(r46 + 191) < 26) ? (uint8_t)(r46 + 32) : r46) != (uint8_t)(((uint8_t)(r52 + 191) < 26) ? (uint8_t)(r52 + 32) : r52)) {
                common_ret_op = exitcond_not;
                break;
            }
            r5_0 = r5_0 + 1;
        }
    }
    return common_ret_op;
}

/* dfu_formats::images::looks::has_digits: crates/dfu_formats/src/images/looks.rt */
static uint8_t dfu_formats_images_looks_has_digits(unsigned char *a0, uint64_t a1) {
    uint8_t r5_0_off0;
    if (a1 < 2) r5_0_off0 = 0;
    else {
        uint8_t r28 = *a0;
        uint8_t r30 = dfu_formats_images_digits_hex_digit(r28);
        if (r30 >= 16) r5_0_off0 = 0;
        else {
            uint8_t r37 = a0[1];
            uint8_t r39 = dfu_formats_images_digits_hex_digit(r37);
            r5_0_off0 = r39 < 16;
        }
    }
    return r5_0_off0;
}

/* dfu_formats::images::digits::hex_digit: crates/dfu_formats/src/images/digits.rt */
static uint8_t dfu_formats_images_digits_hex_digit(uint8_t a0) {
    uint8_t r1_0;
    if (a0 < 48) r1_0 = 16;
    else {
        if (a0 < 58) r1_0 = (uint8_t)(a0 + 208);
        else {
            if (a0 < 65) r1_0 = 16;
            else {
                if (a0 < 71) r1_0 = (uint8_t)(a0 + 201);
                else {
                    r1_0 = (uint8_t)(((uint8_t)(a0 + 159) < 6) ? (uint8_t)(a0 + 169) : 16);
                }
            }
        }
    }
    return r1_0;
}

/* core::slice::reads::slice+T::starts_with::<i8,31'core::cmp::numbers::U8PartialEq{}> */
static uint8_t core_slice_reads_slice_T_starts_with_i8_core_cmp_numbers_U8PartialEq(unsigned char *a0, size_t a1, unsigned char *a2, size_t a3) {
    _Alignas(8) unsigned char r9[32];
    uint8_t common_ret_op_2, common_ret_op;
    if (a1 < a3) common_ret_op = 0;
    else {
        store_size(r9, (size_t)(uintptr_t)a2);
        store_size(r9 + 16, (size_t)(uintptr_t)a0);
        if (a3 >= 4) {
            uint8_t r41 = core_slice_scan_any_in_ends(r9, a3, 4);
            common_ret_op_2 = r41;
        }
        else {
            uint8_t r7 = core_slice_scan_any_in_run(r9, 0, 1);
            uint8_t r11 = core_slice_scan_any_in_run(r9, 1, 1);
            uint8_t r21 = core_slice_scan_any_in_run(r9, a3 - 1, 1);
            common_ret_op_2 = (r7 | r11) | r21;
        }
        common_ret_op = !common_ret_op_2;
    }
    return common_ret_op;
}

/* core::slice::scan::any_in_ends::<#953750c03e87c3e2> */
static uint8_t core_slice_scan_any_in_ends(unsigned char *a0, size_t a1, size_t a2) {
    uint8_t r4 = core_slice_scan_any_in_run(a0, 0, a2);
    uint8_t r8 = core_slice_scan_any_in_run(a0, a1 - a2, a2);
    return r4 | r8;
}

/* core::slice::scan::skip_groups::<#953750c03e87c3e2> */
static uint64_t core_slice_scan_skip_groups(unsigned char *a0, uint64_t a1, size_t a2, size_t a3) {
    uint64_t v0, r1_0;
    v0 = (uint64_t)a3 - 1;
    r1_0 = a1;
    while (v0 < ((uint64_t)a2 - r1_0)) {
        uint8_t r22 = core_slice_scan_any_in_run(a0, (size_t)r1_0, a3);
        if (r22) break;
        r1_0 = r1_0 + (uint64_t)a3;
    }
    return r1_0;
}

/* core::slice::scan::any_in_run::<#953750c03e87c3e2> */
static uint8_t core_slice_scan_any_in_run(unsigned char *a0, size_t a1, size_t a2) {
    unsigned char *r14, *r19;
    size_t r2_0;
    uint8_t r1_0_off0;
    size_t r3_0_0_copyload = load_size(a0);
    size_t r4_0_0_copyload = load_size(a0 + 16);
    r14 = (unsigned char *)(uintptr_t)r3_0_0_copyload;
    r19 = (unsigned char *)(uintptr_t)r4_0_0_copyload;
    r2_0 = 0;
    r1_0_off0 = 0;
    while (r2_0 != a2) {
        size_t r12 = r2_0 + a1;
        uint8_t r3 = r14[r12];
        uint8_t r4 = r19[r12];
        r2_0 = r2_0 + 1;
        r1_0_off0 = r1_0_off0 | (r3 != r4);
    }
    return r1_0_off0;
}

/* dfu_formats::images::text::is_text: crates/dfu_formats/src/images/text.rt */
static uint8_t dfu_formats_images_text_is_text(unsigned char *a0, size_t a1) {
    uint8_t r3_0_0, r3_5_0, r3_8_0, r27, r10_5_011, r10_8_010, r10_10_09;
    size_t r4_0;
    uint8_t r3_0_in;
    if (a1 == 0) r3_0_in = 0;
    else {
        r3_0_0 = 0;
        r3_5_0 = 128;
        r3_8_0 = 191;
        r4_0 = 0;
        while (r4_0 != a1) {
            r27 = a0[r4_0];
            if (r3_0_0 != 0) {
                if ((r3_5_0 > r27) | (r27 > r3_8_0)) {
                    r3_0_in = 0;
                    goto join_3;
                }
                r10_5_011 = (uint8_t)(r3_0_0 + 255);
                r10_8_010 = 128;
                r10_10_09 = 191;
            }
            else {
                switch (r27) {
                case 224:
                    r10_5_011 = 2;
                    r10_8_010 = 160;
                    r10_10_09 = 191;
                    break;
                case 237:
                    r10_5_011 = 2;
                    r10_8_010 = 128;
                    r10_10_09 = 159;
                    break;
                case 240:
                    r10_5_011 = 3;
                    r10_8_010 = 144;
                    r10_10_09 = 191;
                    break;
                case 244:
                    r10_5_011 = 3;
                    r10_8_010 = 128;
                    r10_10_09 = 143;
                    break;
                default:
                    if ((uint8_t)(r27 ^ 128) > 127) {
                        if (r27 < 9) {
                            r3_0_in = 0;
                            goto join_3;
                        }
                        if (r27 < 11) {
                            r10_5_011 = 0;
                            r10_8_010 = 128;
                            r10_10_09 = 191;
                        }
                        else {
                            if ((r27 != 11) & (r27 < 14)) {
                                r10_5_011 = 0;
                                r10_8_010 = 128;
                                r10_10_09 = 191;
                            }
                            else {
                                if (!((r27 > 31) & (r27 != 127))) {
                                    r3_0_in = 0;
                                    goto join_3;
                                }
                                r10_5_011 = 0;
                                r10_8_010 = 128;
                                r10_10_09 = 191;
                            }
                        }
                    }
                    else {
                        if (r27 < 194) {
                            r3_0_in = 0;
                            goto join_3;
                        }
                        if (r27 < 224) {
                            r10_5_011 = 1;
                            r10_8_010 = 128;
                            r10_10_09 = 191;
                        }
                        else {
                            if (r27 < 240) {
                                r10_5_011 = 2;
                                r10_8_010 = 128;
                                r10_10_09 = 191;
                            }
                            else {
                                if (r27 >= 244) {
                                    r3_0_in = 0;
                                    goto join_3;
                                }
                                r10_5_011 = 3;
                                r10_8_010 = 128;
                                r10_10_09 = 191;
                            }
                        }
                    }
                    break;
                }
            }
            r3_0_0 = r10_5_011;
            r3_5_0 = r10_8_010;
            r3_8_0 = r10_10_09;
            r4_0 = r4_0 + 1;
        }
        r3_0_in = r3_0_0 == 0;
    }
join_3:
    return r3_0_in;
}

/* dfu_formats::images::places::bad_from: crates/dfu_formats/src/images/places.rt */
static void dfu_formats_images_places_bad_from(unsigned char *a0, uint8_t a1, unsigned char *a2, size_t a3) {
    uint64_t r4_0, r5_0;
    size_t r6_0, r6_0_2;
    uint8_t r3_0_0, r29, r2_7_0;
    r4_0 = 1;
    r6_0 = 0;
    for (;;) {
        r3_0_0 = 0;
        r5_0 = 1;
        r6_0_2 = r6_0;
        for (;;) {
            if (r6_0_2 >= a3) goto after_1;
            r29 = a2[r6_0_2];
            if (r29 == 10) break;
            switch (r3_0_0) {
            case 0:
                if (r29 == a1) {
                    r2_7_0 = 1;
                    goto arm_11;
                }
                switch (r29) {
                case 32:
                case 13:
                case 9:
                    r2_7_0 = 0;
                    goto arm_11;
                default: goto arm_12;
                }
            case 1: {
                uint8_t r36 = dfu_formats_images_digits_hex_digit(r29);
                if (r36 < 16) {
                    r2_7_0 = 1;
                    goto arm_11;
                }
                break;
            }
            case 2: break;
            default: never();
            }
            switch (r29) {
            case 32:
            case 13:
            case 9:
                r2_7_0 = 2;
                break;
            default: goto arm_12;
            }
arm_11:
            r3_0_0 = r2_7_0;
            r5_0 = r5_0 + 1;
            r6_0_2 = r6_0_2 + 1;
        }
        r4_0 = r4_0 + 1;
        r6_0 = r6_0_2 + 1;
    }
arm_12:
    store_size(a0, 1);
    store64(a0 + 8, r4_0);
    store64(a0 + 16, r5_0);
    return;
after_1:
    memset(a0, 0, 24);
    return;
}

/* dfu_host_c::reports::report_at: crates/dfu_host_c/src/reports.rt */
static void dfu_host_c_reports_report_at(unsigned char *a0, uint64_t a1, uint32_t a2) {
    uint8_t r2_26_0, r2_14_0, r2_0_0;
    switch (a1) {
    case 1:
        r2_26_0 = 0;
        r2_14_0 = 0;
        r2_0_0 = 1;
        break;
    case 2:
        r2_26_0 = 0;
        r2_14_0 = 1;
        r2_0_0 = 1;
        break;
    case 3:
        r2_26_0 = 0;
        r2_14_0 = 2;
        r2_0_0 = 1;
        break;
    case 4:
        r2_26_0 = 0;
        r2_14_0 = 3;
        r2_0_0 = 1;
        break;
    case 5: {
        uint8_t r4 = a2 < 16;
        r2_26_0 = (uint8_t)(r4 ? (uint8_t)a2 : 0);
        r2_14_0 = (uint8_t)(r4 ? 4 : 0);
        r2_0_0 = r4;
        break;
    }
    case 6:
        r2_26_0 = 0;
        r2_14_0 = 5;
        r2_0_0 = 1;
        break;
    case 7:
        r2_26_0 = 0;
        r2_14_0 = 6;
        r2_0_0 = 1;
        break;
    case 8:
        r2_26_0 = 0;
        r2_14_0 = 7;
        r2_0_0 = 1;
        break;
    case 9:
        r2_26_0 = 0;
        r2_14_0 = 8;
        r2_0_0 = 1;
        break;
    case 10:
        r2_26_0 = 0;
        r2_14_0 = 9;
        r2_0_0 = 1;
        break;
    case 11:
        r2_26_0 = 0;
        r2_14_0 = 10;
        r2_0_0 = 1;
        break;
    default:
        r2_26_0 = 0;
        r2_14_0 = 0;
        r2_0_0 = 0;
        break;
    }
    *a0 = r2_0_0;
    a0[1] = r2_14_0;
    a0[2] = r2_26_0;
    return;
}

/* dfu_host_c::holding::session_of: crates/dfu_host_c/src/holding.rt */
static void dfu_host_c_holding_session_of(unsigned char *a0, unsigned char *a1, unsigned char *a2, size_t a3) {
    _Alignas(4) unsigned char r31[3];
    unsigned char *const r36_2 = r31;
    size_t wide_16916, r3_12_0_0, r3_12_6_0, r3_7_0_0;
    uint8_t v0;
    uint32_t r36, r40, r6_158_0, r6_106_0, r6_106_0_2, r6_158_0_2, r79;
    uint64_t r38, r6_132_0, r6_132_0_2;
    uint8_t sink, r6_54_0, r6_28_0, r6_0_0_0, r6_28_0_2, r6_54_0_2, r70, r75;
    uint16_t r6_80_0, r6_80_0_2, r65, r77, r81;
    uint32_t r13 = load32(a1);
    if (r13 != 300) {
        memset(a0, 0, 72);
        return;
    }
    uint32_t r20 = load32(a1 + 4);
    wide_16916 = (size_t)(uintptr_t)a2;
    switch (r20) {
    case 1:
        r3_12_0_0 = wide_16916;
        r3_12_6_0 = a3;
        v0 = 0;
        r3_7_0_0 = 0;
        break;
    case 2:
        r3_12_0_0 = 0;
        r3_12_6_0 = 0;
        v0 = 1;
        r3_7_0_0 = 1;
        break;
    case 3:
        r3_12_0_0 = wide_16916;
        r3_12_6_0 = a3;
        v0 = 0;
        r3_7_0_0 = 2;
        break;
    case 4:
        r3_12_0_0 = wide_16916;
        r3_12_6_0 = a3;
        v0 = 0;
        r3_7_0_0 = 3;
        break;
    default: goto arm_5;
    }
    r36 = load32(a1 + 24);
    r38 = load64(a1 + 8);
    r40 = load32(a1 + 28);
    switch (r36) {
    case 0:
    case 1:
    case 2:
    case 3:
    case 4:
    case 5:
    case 7:
    case 12:
    case 13:
    case 14:
    case 17:
    case 21:
    case 22:
    case 24:
        r6_158_0 = 0;
        r6_132_0 = 0;
        r6_106_0 = 0;
        break;
    case 6:
    case 15:
    case 16:
        r6_158_0 = 0;
        r6_132_0 = 0;
        r6_106_0 = r40;
        break;
    case 8:
    case 9:
    case 10:
        r6_158_0 = 0;
        r6_132_0 = r38;
        r6_106_0 = 0;
        break;
    case 11:
        r6_158_0 = r40;
        r6_132_0 = r38;
        r6_106_0 = 0;
        break;
    case 18:
        sink = 18;
        goto dfu_host_c_phases_phase_at_exit_gvnsink_split;
    case 19:
        sink = 19;
        goto dfu_host_c_phases_phase_at_exit_gvnsink_split;
    case 20: {
        dfu_host_c_reports_report_at(r31, r38, r40);
        uint8_t r320 = *r31;
        uint8_t v1 = r320 == 1;
        uint8_t r4_0_0_copyload = r31[1];
        uint8_t r4_3_1_copyload = r31[2];
        r6_80_0 = (uint8_t)(v1 ? r4_3_1_copyload : 0);
        r6_54_0 = (uint8_t)(v1 ? r4_0_0_copyload : 0);
        r6_28_0 = (uint8_t)(v1 ? 20 : 0);
        r6_0_0_0 = r320;
        goto dfu_host_c_phases_phase_at_exit;
    }
    case 23: {
        dfu_host_c_reports_report_at(r36_2, r38, r40);
        uint8_t r374 = *r36_2;
        uint8_t v2 = r374 == 1;
        uint8_t r5_0_0_copyload = r36_2[1];
        uint8_t r5_3_1_copyload = r36_2[2];
        r6_80_0 = (uint8_t)(v2 ? r5_3_1_copyload : 0);
        r6_54_0 = (uint8_t)(v2 ? r5_0_0_copyload : 0);
        r6_28_0 = (uint8_t)(v2 ? 23 : 0);
        r6_0_0_0 = r374;
        goto dfu_host_c_phases_phase_at_exit;
    }
    default: goto arm_5;
    }
    r6_28_0_2 = (uint8_t)r36;
    r6_54_0_2 = 0;
    r6_80_0_2 = 0;
    r6_106_0_2 = r6_106_0;
    r6_132_0_2 = r6_132_0;
    r6_158_0_2 = r6_158_0;
    goto arm_4;
dfu_host_c_phases_phase_at_exit_gvnsink_split:;
    uint8_t r4_sink = r38 < 0x10000U;
    r6_80_0 = (uint16_t)(size_t)umin64(r38, 0x10000U);
    r6_54_0 = 0;
    r6_28_0 = (uint8_t)(r4_sink ? sink : 0);
    r6_0_0_0 = r4_sink;
dfu_host_c_phases_phase_at_exit:
    if (r6_0_0_0 != 1) goto arm_5;
    r6_28_0_2 = r6_28_0;
    r6_54_0_2 = r6_54_0;
    r6_80_0_2 = r6_80_0;
    r6_106_0_2 = 0;
    r6_132_0_2 = 0;
    r6_158_0_2 = 0;
arm_4:
    r65 = load16(a1 + 38);
    uint8_t r67 = a1[42];
    r70 = r67 != 0;
    uint8_t r72 = a1[43];
    r75 = r72 != 0;
    r77 = load16(a1 + 40);
    r79 = load32(a1 + 32);
    r81 = load16(a1 + 36);
    if ((v0 | (r3_12_6_0 != 0)) & (r65 != 0)) {
        switch (r6_28_0_2) {
        case 8: {
            size_t r10 = (size_t)r65;
            struct i64_i1 mul = product64(r10, r6_132_0_2);
            if (v0 | (mul.b | ((uint64_t)r3_12_6_0 <= (r6_132_0_2 * (uint64_t)r10)))) goto arm_9;
            break;
        }
        case 9: {
            size_t r10_2 = (size_t)r65;
            struct i64_i1 mul_2 = product64(r10_2, r6_132_0_2);
            if (v0 | (mul_2.b | ((uint64_t)r3_12_6_0 <= (r6_132_0_2 * (uint64_t)r10_2)))) goto arm_9;
            break;
        }
        case 10: {
            size_t r10_3 = (size_t)r65;
            struct i64_i1 mul_3 = product64(r10_3, r6_132_0_2);
            if (v0 | (mul_3.b | ((uint64_t)r3_12_6_0 <= (r6_132_0_2 * (uint64_t)r10_3)))) goto arm_9;
            break;
        }
        case 11: {
            size_t r10_4 = (size_t)r65;
            struct i64_i1 mul_4 = product64(r10_4, r6_132_0_2);
            if (v0 | (mul_4.b | ((uint64_t)r3_12_6_0 <= (r6_132_0_2 * (uint64_t)r10_4)))) goto arm_9;
            break;
        }
        case 12:
            if (v0 | (r3_12_6_0 == 0)) goto arm_9;
            break;
        case 13:
            if (v0 | (r3_12_6_0 == 0)) goto arm_9;
            break;
        case 18:
            if (!(v0 & (r6_80_0_2 != 0xffffU))) goto arm_9;
            break;
        case 19:
            if (r6_80_0_2 == 0xffffU) goto arm_9;
            break;
        case 0:
        case 1:
        case 2:
        case 3:
        case 4:
        case 5:
        case 6:
        case 7:
        case 14:
        case 15:
        case 16:
        case 17:
        case 20:
        case 21:
        case 22:
        case 23:
        case 24: break;
        default: never();
        }
        store_size(a0, 1);
        store_size(a0 + 8, r3_7_0_0);
        store_size(a0 + 16, r3_12_0_0);
        store_size(a0 + 24, r3_12_6_0);
        store16(a0 + 32, r65);
        a0[34] = r70;
        a0[35] = r75;
        store16(a0 + 36, r77);
        a0[40] = r6_28_0_2;
        a0[41] = r6_54_0_2;
        store16(a0 + 42, r6_80_0_2);
        store32(a0 + 44, r6_106_0_2);
        store64(a0 + 48, r6_132_0_2);
        store32(a0 + 56, r6_158_0_2);
        store32(a0 + 64, r79);
        store16(a0 + 68, r81);
        return;
    }
arm_9:
    memset(a0, 0, 72);
    return;
arm_5:
    memset(a0, 0, 72);
    return;
}

/* dfu_host_c::holding::record_of: crates/dfu_host_c/src/holding.rt */
static void dfu_host_c_holding_record_of(unsigned char *a0, unsigned char *a1, uint64_t a2) {
    uint8_t r9, r16, r20, r6_0_0_copyload, r6_3_1_copyload, r1_6_0_0_extract_trunc;
    uint16_t r14, r24, v0, r41;
    uint64_t r6_9_8_copyload, r24_52_0;
    uint32_t r38, r24_77_0;
    r9 = *a1;
    r14 = load16(a1 + 24);
    r16 = a1[26];
    r20 = a1[27];
    r24 = load16(a1 + 28);
    r6_0_0_copyload = a1[32];
    r6_3_1_copyload = a1[33];
    v0 = load16(a1 + 34);
    r6_9_8_copyload = load64(a1 + 40);
    r38 = load32(a1 + 56);
    r41 = load16(a1 + 60);
    r1_6_0_0_extract_trunc = (uint8_t)v0;
    switch (r6_0_0_copyload) {
    case 0:
    case 1:
    case 2:
    case 3:
    case 4:
    case 5:
    case 7:
    case 12:
    case 13:
    case 14:
    case 17:
    case 21:
    case 22:
    case 24:
        r24_52_0 = 0;
        r24_77_0 = 0;
        break;
    case 6:
    case 15:
    case 16: {
        uint32_t r6_7_4_copyload = load32(a1 + 36);
        r24_52_0 = 0;
        r24_77_0 = r6_7_4_copyload;
        break;
    }
    case 8:
    case 9:
    case 10:
        r24_52_0 = r6_9_8_copyload;
        r24_77_0 = 0;
        break;
    case 11: {
        uint32_t r6_11_16_copyload = load32(a1 + 48);
        r24_52_0 = r6_9_8_copyload;
        r24_77_0 = r6_11_16_copyload;
        break;
    }
    case 18:
        r24_52_0 = (size_t)v0;
        r24_77_0 = 0;
        break;
    case 19:
        r24_52_0 = (size_t)v0;
        r24_77_0 = 0;
        break;
    case 20: {
        struct i32_i32 r10 = dfu_host_c_reports_report_numbers(r6_3_1_copyload, r1_6_0_0_extract_trunc);
        r24_52_0 = (size_t)r10.a;
        r24_77_0 = r10.b;
        break;
    }
    case 23: {
        struct i32_i32 r10_2 = dfu_host_c_reports_report_numbers(r6_3_1_copyload, r1_6_0_0_extract_trunc);
        r24_52_0 = (size_t)r10_2.a;
        r24_77_0 = r10_2.b;
        break;
    }
    default: never();
    }
    store32(a0, 300);
    store32(a0 + 4, (uint32_t)r9 + 1);
    store64(a0 + 8, r24_52_0);
    store64(a0 + 16, a2);
    store32(a0 + 24, (uint32_t)r6_0_0_copyload);
    store32(a0 + 28, r24_77_0);
    store32(a0 + 32, r38);
    store16(a0 + 36, r41);
    store16(a0 + 38, r14);
    store16(a0 + 40, r24);
    a0[42] = r16;
    a0[43] = r20;
    store32(a0 + 44, 0);
    return;
}

/* dfu_host_c::reports::report_numbers: crates/dfu_host_c/src/reports.rt */
static struct i32_i32 dfu_host_c_reports_report_numbers(uint8_t a0, uint8_t a1) {
    uint32_t r4_0_0, r4_13_0;
    switch (a0) {
    case 0:
        r4_0_0 = 1;
        r4_13_0 = 0;
        break;
    case 1:
        r4_0_0 = 2;
        r4_13_0 = 0;
        break;
    case 2:
        r4_0_0 = 3;
        r4_13_0 = 0;
        break;
    case 3:
        r4_0_0 = 4;
        r4_13_0 = 0;
        break;
    case 4:
        r4_0_0 = 5;
        r4_13_0 = (uint32_t)a1;
        break;
    case 5:
        r4_0_0 = 6;
        r4_13_0 = 0;
        break;
    case 6:
        r4_0_0 = 7;
        r4_13_0 = 0;
        break;
    case 7:
        r4_0_0 = 8;
        r4_13_0 = 0;
        break;
    case 8:
        r4_0_0 = 9;
        r4_13_0 = 0;
        break;
    case 9:
        r4_0_0 = 10;
        r4_13_0 = 0;
        break;
    case 10:
        r4_0_0 = 11;
        r4_13_0 = 0;
        break;
    default: never();
    }
    struct i32_i32 r22_half = (struct i32_i32){ 0, 0 };
    r22_half.a = r4_0_0;
    struct i32_i32 r22 = r22_half;
    r22.b = r4_13_0;
    return r22;
}

/* dfu_host::task::Task::block: crates/dfu_host/src/task.rt */
static struct ptr_i64 dfu_host_task_Task_block(unsigned char *a0, uint64_t a1) {
    uint16_t r13;
    size_t r2_4_0;
    unsigned char *r2_0_0;
    r13 = load16(a0 + 24);
    uint8_t r7 = *a0;
    if (r7 == 1) {
        r2_4_0 = 0;
        r2_0_0 = PLACE(static_20);
    }
    else {
        size_t r16 = load_size(a0 + 16);
        size_t r18_wide = load_size(a0 + 8);
        r2_4_0 = r16;
        r2_0_0 = (unsigned char *)(uintptr_t)r18_wide;
    }
    size_t r15 = (size_t)r13;
    struct i64_i1 mul = product64(r15, a1);
    size_t a1_a0 = (size_t)((r13 == 0) ? 0 : (size_t)(mul.b ? r2_4_0 : (size_t)umin64(r2_4_0, a1 * (uint64_t)r15)));
    struct ptr_i64 r47_half = (struct ptr_i64){ 0, 0 };
    r47_half.a = r2_0_0 + a1_a0;
    struct ptr_i64 r47 = r47_half;
    r47.b = umin_size(r2_4_0 - a1_a0, r15);
    return r47;
}

/* dfu_host::task::download: crates/dfu_host/src/task.rt */
static void dfu_host_task_download(unsigned char *a0, size_t a1, size_t a3) {
    _Alignas(8) unsigned char r0[32];
    _Alignas(4) unsigned char r6[6];
    store16(r6, 1);
    store16(r6 + 2, (uint16_t)a1);
    store16(r6 + 4, (uint16_t)a3);
    dfu_host_task_send(r0, r6, a3);
    uint8_t v0 = *r0;
    *a0 = v0;
    uint64_t v1 = load64u(r0 + 1);
    store64u(a0 + 1, v1);
    memcpy(a0 + 16, r0 + 16, 16);
    return;
}

/* dfu_host::task::send: crates/dfu_host/src/task.rt */
static void dfu_host_task_send(unsigned char *a0, unsigned char *a1, size_t a3) {
    _Alignas(4) unsigned char r12[10];
    dfu_wire_requests_Request_setup(r12, a1);
    uint8_t r24 = *r12;
    if (r24 != 1) trap();
    uint64_t v1 = load64a2(r12 + 2);
    *a0 = 0;
    store64u(a0 + 1, v1);
    store_size(a0 + 24, a3);
    return;
}

/* dfu_wire::requests::Request::setup: crates/dfu_wire/src/requests.rt */
static void dfu_wire_requests_Request_setup(unsigned char *a0, unsigned char *a1) {
    uint8_t r15, r13_0_0_2, r13_0_0;
    size_t sink;
    uint16_t r13_16_0_2, r13_16_0, r13_23_0;
    r15 = *a1;
    switch (r15) {
    case 0: {
        uint16_t r17 = load16(a1 + 2);
        r13_0_0 = 33;
        r13_16_0 = r17;
        r13_23_0 = 0;
        goto join_10;
    }
    case 1: {
        uint16_t r23 = load16(a1 + 2);
        sink = 4;
        r13_0_0_2 = 33;
        r13_16_0_2 = r23;
        break;
    }
    case 2: {
        uint16_t r32 = load16(a1 + 2);
        sink = 4;
        r13_0_0_2 = 161;
        r13_16_0_2 = r32;
        break;
    }
    case 3:
    case 5:
        sink = 2;
        r13_0_0_2 = 161;
        r13_16_0_2 = 0;
        break;
    case 4:
    case 6:
        r13_0_0 = 33;
        r13_16_0 = 0;
        r13_23_0 = 0;
        goto join_10;
    case 7:
    case 8:
        memset(a0, 0, 10);
        return;
    default: never();
    }
    uint16_t r50 = load16(a1 + sink);
    r13_0_0 = r13_0_0_2;
    r13_16_0 = r13_16_0_2;
    r13_23_0 = r50;
join_10:
    store16(a0, 1);
    a0[2] = r13_0_0;
    a0[3] = r15;
    store16(a0 + 4, r13_16_0);
    store16(a0 + 6, 0);
    store16(a0 + 8, r13_23_0);
    return;
}

/* dfu_wire::functionals::Functional::decode */
static void dfu_wire_functionals_Functional_decode(unsigned char *a0, unsigned char *a1, size_t a2) {
    uint8_t r39;
    size_t r1;
    uint16_t r19_0;
    if (a2 == 0) {
        *a0 = 1;
        memset(a0 + 1, 0, 11);
        return;
    }
    r39 = *a1;
    switch (r39) {
    case 9:
    case 7: {
        r1 = (size_t)r39;
        if (a2 < r1) {
            *a0 = 1;
            memset(a0 + 1, 0, 11);
            return;
        }
        if (a2 > r1) {
            *a0 = 1;
            a0[1] = 1;
            return;
        }
        uint8_t r92 = a1[1];
        if (r92 != 33) {
            *a0 = 1;
            a0[1] = 3;
            return;
        }
        if (r39 != 9) r19_0 = 256;
        else {
            uint8_t r11 = a1[7];
            uint8_t r15 = a1[8];
            r19_0 = (uint16_t)((uint32_t)r15 << 8) | r11;
        }
        uint8_t r116 = a1[2];
        uint8_t r11_2 = a1[3];
        uint8_t r15_2 = a1[4];
        uint8_t r11_3 = a1[5];
        uint8_t r15_3 = a1[6];
        *a0 = 0;
        a0[2] = r116 & 1;
        a0[3] = (uint8_t)(r116 >> 1) & 1;
        a0[4] = (uint8_t)(r116 >> 2) & 1;
        a0[5] = (uint8_t)(r116 >> 3) & 1;
        store16(a0 + 6, (uint16_t)((uint32_t)r15_2 << 8) | r11_2);
        store16(a0 + 8, (uint16_t)((uint32_t)r15_3 << 8) | r11_3);
        store16(a0 + 10, r19_0);
        return;
    }
    default:
        *a0 = 1;
        a0[1] = 2;
        return;
    }
}

/* dfu_host_c::beginning::start: crates/dfu_host_c/src/beginning.rt */
static void dfu_host_c_beginning_start(unsigned char *a0, unsigned char *a1) {
    _Alignas(8) unsigned char r1[48];
    dfu_host_c_holding_record_of(r1, a1, 0);
    memcpy(a0, r1, 48);
    return;
}

/* dfu_host_c::beginning::install: crates/dfu_host_c/src/beginning.rt */
static uint32_t dfu_host_c_beginning_install(unsigned char *a0, unsigned char *a1, size_t a2, unsigned char *a3, size_t a4, unsigned char *a5, uint32_t a6, uint16_t a7, uint8_t a8) {
    _Alignas(8) unsigned char r11[64];
    unsigned char *const r8 = r11;
    unsigned char *const r14 = r11;
    _Alignas(8) unsigned char r10[40];
    unsigned char *const r8_3 = r10;
    unsigned char *const r8_2 = r10;
    unsigned char *const r5_26 = r10;
    unsigned char *r14_0_3_0_r8_sroa_idx;
    uint16_t v4, v10, sink39, sink36, sink, sink39_2, sink36_2, sink_2, r5_18_0, r5_24_0, r5_32_0;
    uint8_t v6, v8, r5_0_1, r5_6_1, sink38, sink37, r5_0_2, r5_6_2, sink38_2, sink37_2, r5_0_0, r5_6_0;
    uint8_t r5_20_0, r5_22_0;
    size_t sink40, sink40_2, r5_1136_0;
    uint32_t sink35, sink35_2, r5_30_0, common_ret_op;
    dfu_host_c_file_file_in(r10, a1, a2);
    uint8_t r23 = *r10;
    if (r23 != 0) {
        uint8_t r7_0_0_copyload = r10[1];
        common_ret_op = (uint32_t)r7_0_0_copyload ^ 0xffffffffU;
    }
    else {
        dfu_wire_functionals_Functional_decode(r14, a3, a4);
        uint8_t r42 = *r14;
        if (r42 != 0) {
            uint8_t r9_0_0_copyload = r14[1];
            common_ret_op = (uint32_t)0xffffffe1U - (uint32_t)r9_0_0_copyload;
        }
        else {
            uint64_t v2 = load64a2(r14 + 2);
            memcpy(r8, r10 + 8, 32);
            r14_0_3_0_r8_sroa_idx = r8 + 32;
            store64(r14_0_3_0_r8_sroa_idx, v2);
            v4 = (uint16_t)(size_t)(v2 >> 48);
            v6 = (uint8_t)(size_t)(v2 >> 16);
            v8 = (uint8_t)(size_t)(v2 >> 24);
            v10 = (uint16_t)(size_t)(v2 >> 32);
            if (a8) {
                dfu_host_refusing_goal_to_install(r8_2, r8, r14_0_3_0_r8_sroa_idx, a5, 1);
                uint8_t r1_0_0_copyload = *r8_2;
                if (r1_0_0_copyload == 0) {
                    uint8_t r6 = r8_2[8];
                    r5_0_1 = 0;
                    r5_6_1 = 0;
                    sink40 = (size_t)r6;
                    sink39 = v4;
                    sink38 = v6;
                    sink37 = v8;
                    sink36 = v10;
                    sink35 = umax32(a6, 1);
                    sink = a7;
                }
                else {
                    uint8_t r1_3_1_copyload = r8_2[1];
                    r5_0_1 = 1;
                    r5_6_1 = r1_3_1_copyload;
                    sink40 = 0;
                    sink39 = 0;
                    sink38 = 0;
                    sink37 = 0;
                    sink36 = 0;
                    sink35 = 0;
                    sink = 0;
                }
                memset(r5_26, 0, 26);
                r5_0_0 = r5_0_1;
                r5_6_0 = r5_6_1;
                r5_1136_0 = sink40;
                r5_18_0 = sink39;
                r5_20_0 = sink38;
                r5_22_0 = sink37;
                r5_24_0 = sink36;
                r5_30_0 = sink35;
                r5_32_0 = sink;
            }
            else {
                dfu_host_refusing_goal_to_install(r8_3, r8, r14_0_3_0_r8_sroa_idx, a5, 0);
                uint8_t r1_0_0_copyload_2 = *r8_3;
                if (r1_0_0_copyload_2 == 0) {
                    uint8_t r6_2 = r8_3[8];
                    r5_0_2 = 0;
                    r5_6_2 = 0;
                    sink40_2 = (size_t)r6_2;
                    sink39_2 = v4;
                    sink38_2 = v6;
                    sink37_2 = v8;
                    sink36_2 = v10;
                    sink35_2 = umax32(a6, 1);
                    sink_2 = a7;
                }
                else {
                    uint8_t r1_3_1_copyload_2 = r8_3[1];
                    r5_0_2 = 1;
                    r5_6_2 = r1_3_1_copyload_2;
                    sink40_2 = 0;
                    sink39_2 = 0;
                    sink38_2 = 0;
                    sink37_2 = 0;
                    sink36_2 = 0;
                    sink35_2 = 0;
                    sink_2 = 0;
                }
                memset(r5_26, 0, 26);
                r5_0_0 = r5_0_2;
                r5_6_0 = r5_6_2;
                r5_1136_0 = sink40_2;
                r5_18_0 = sink39_2;
                r5_20_0 = sink38_2;
                r5_22_0 = sink37_2;
                r5_24_0 = sink36_2;
                r5_30_0 = sink35_2;
                r5_32_0 = sink_2;
            }
            if (r5_0_0 != 0) common_ret_op = (uint32_t)0xffffffebU - (uint32_t)r5_6_0;
            else {
                store_size(r11, r5_1136_0);
                store16(r11 + 24, r5_18_0);
                r11[26] = r5_20_0;
                r11[27] = r5_22_0;
                store16(r11 + 28, r5_24_0);
                memcpy(r11 + 30, r5_26, 26);
                store32(r11 + 56, r5_30_0);
                store16(r11 + 60, r5_32_0);
                dfu_host_c_beginning_start(a0, r11);
                common_ret_op = 0;
            }
        }
    }
    return common_ret_op;
}

/* dfu_host::refusing::goal_to_install: crates/dfu_host/src/refusing.rt */
static void dfu_host_refusing_goal_to_install(unsigned char *a0, unsigned char *a1, unsigned char *a2, unsigned char *a3, uint8_t a4) {
    uint16_t r1_2_0_copyload;
    uint8_t r3_4_0, r8_4_0;
    r1_2_0_copyload = load16(a3 + 2);
    uint64_t r0_3_0_copyload = load64(a1 + 8);
    if (r0_3_0_copyload == 0) r8_4_0 = 0;
    else {
        uint16_t r1_3_0_copyload = load16(a3 + 4);
        uint16_t r7_3_0_copyload = load16(a1 + 20);
        if (!((r7_3_0_copyload == 0xffffU) | (r7_3_0_copyload == r1_3_0_copyload))) r8_4_0 = 1;
        else {
            uint16_t r7_2_0_copyload = load16(a1 + 18);
            if (!((r7_2_0_copyload == 0xffffU) | (r7_2_0_copyload == r1_2_0_copyload))) r8_4_0 = 1;
            else {
                uint8_t r36 = *a2;
                if (r36 & 1) {
                    if (!a4) {
                        uint16_t r69 = load16(a2 + 6);
                        if (r69 == 0) {
                            *a0 = 1;
                            a0[1] = 4;
                            return;
                        }
                        *a0 = 0;
                        store_size(a0 + 8, 0);
                        return;
                    }
                    uint8_t r10 = a2[1];
                    if (!(r10 & 1)) r3_4_0 = 3;
                    else {
                        uint16_t r21 = load16(a2 + 6);
                        if (r21 != 0) {
                            *a0 = 0;
                            store_size(a0 + 8, 2);
                            return;
                        }
                        r3_4_0 = 4;
                    }
                    *a0 = 1;
                    a0[1] = r3_4_0;
                    return;
                }
                r8_4_0 = 2;
            }
        }
    }
    *a0 = 1;
    a0[1] = r8_4_0;
    return;
}

/* dfu_host::session::Session::on_result: crates/dfu_host/src/session.rt */
static void dfu_host_session_Session_on_result(unsigned char *a0, unsigned char *a1, uint8_t a2) {
    _Alignas(8) unsigned char r17_2[32];
    unsigned char *const r1_3 = r17_2;
    unsigned char *const r1_2 = r17_2;
    unsigned char *const r5 = r17_2;
    unsigned char *const r1_4 = r17_2;
    unsigned char *const r4 = r17_2;
    _Alignas(8) unsigned char r0[32];
    unsigned char *const r23 = r0;
    _Alignas(8) unsigned char r24[24];
    unsigned char *const r10_2 = r24;
    unsigned char *const r2 = r24;
    _Alignas(8) unsigned char r25[24];
    _Alignas(8) unsigned char r26[24];
    _Alignas(8) unsigned char r12_2[16];
    _Alignas(4) unsigned char r27_4[2];
    _Alignas(4) unsigned char r28_4[2];
    _Alignas(4) unsigned char r29_4[2];
    _Alignas(4) unsigned char r32_4[2];
    _Alignas(4) unsigned char r33_4[2];
    _Alignas(4) unsigned char r34_4[2];
    _Alignas(4) unsigned char r36_4[2];
    _Alignas(4) unsigned char r37_4[2];
    _Alignas(4) unsigned char r38_4[2];
    size_t r0_3_0_0_copyload, r0_3_3_0_copyload, r15, r19;
    unsigned char *r12, *r21, *r14, *r39_9_0_in, *r39_9_0_in_2, *r39_9_0_in_3;
    uint16_t v0, r1_4_0_copyload, r1_9_0_copyload, r31_6_0_0, r26_2, r40, r8_6_0;
    uint8_t common_ret_op, v9, or_cond;
    uint8_t r18_0_0, r18_10_0, r10, r13_2, r1_3_0_copyload, v11, r39_0_0_in_speculated, r6_0_0, r31_4_0, r31_0_0, r39_0_0_in_speculated_2, r6_0_0_2;
    uint8_t r39_0_0_in_speculated_3, r6_0_0_3, r7_0_0, r7_5_0, r7_8_0_0, r7_8_4_0_0, r6_4_0, r6_7_0_0, r6_7_4_0_0, r6_0_0_4, r8_0_0, r8_4_0;
    uint8_t r8_7_0_0, r8_0_0_2, r8_4_0_2;
    uint32_t r18_121_0, r1_5_0_copyload, r1_7_0_copyload, r31_8_0, r31_12_0;
    uint64_t r18_14_0, r1_6_0_copyload, r1_8_0_copyload, r31_10_0, r39_17_0_in_speculated, r6_10_0;
    uint8_t r1 = *a1;
    r0_3_0_0_copyload = load_size(a1 + 8);
    r0_3_3_0_copyload = load_size(a1 + 16);
    r12 = a0 + 32;
    v0 = load16(a0 + 34);
    switch (r1) {
    case 0:
        r18_0_0 = r1;
        r18_10_0 = r1;
        r18_121_0 = 0;
        r18_14_0 = 0;
        break;
    case 1: {
        uint8_t v1 = *r12;
        r21 = (unsigned char *)(uintptr_t)r0_3_0_0_copyload;
        switch (v1) {
        case 0:
        case 1:
        case 10:
        case 14:
        case 17: {
            dfu_wire_statuses_Status_decode(r4, r21, r0_3_3_0_copyload);
            uint8_t r9 = *r4;
            uint8_t v2 = r9 == 0;
            uint32_t r5_5_3_2_copyload = load32(r4 + 4);
            uint64_t r5_5_5_2_copyload = load64a4(r4 + 8);
            r18_0_0 = (uint8_t)(v2 ? 1 : 7);
            r18_10_0 = 0;
            r18_121_0 = (uint32_t)(v2 ? r5_5_3_2_copyload : 0);
            r18_14_0 = (uint64_t)(v2 ? r5_5_5_2_copyload : 0);
            break;
        }
        case 9:
        case 13:
            if (r0_3_3_0_copyload != 1) {
                r18_0_0 = 7;
                r18_10_0 = 0;
                r18_121_0 = 0;
                r18_14_0 = 0;
            }
            else {
                uint8_t r27 = *r21;
                uint8_t v3 = r27 < 11;
                r18_0_0 = (uint8_t)(v3 ? 2 : 7);
                r18_10_0 = (uint8_t)(v3 ? r27 : 0);
                r18_121_0 = 0;
                r18_14_0 = 0;
            }
            break;
        case 18:
            if (a2 & (r0_3_3_0_copyload != 0)) {
                uint16_t r7 = load16(a0 + 24);
                size_t r9_2 = (size_t)r7;
                if ((r0_3_3_0_copyload < r9_2) | ((v0 != 0xfffeU) & (r0_3_3_0_copyload == r9_2))) {
                    r18_0_0 = 5;
                    r18_10_0 = 0;
                    r18_121_0 = 0;
                    r18_14_0 = 0;
                    break;
                }
            }
            r18_0_0 = 3;
            r18_10_0 = 0;
            r18_121_0 = 0;
            r18_14_0 = r0_3_3_0_copyload;
            break;
        case 19: {
            struct ptr_i64 r13 = dfu_host_task_Task_block(a0, (size_t)v0);
            r14 = r13.a;
            if (r0_3_3_0_copyload != (size_t)r13.b) common_ret_op = 0;
            else {
                store_size(r5, r0_3_0_0_copyload);
                store_size(r5 + 16, (size_t)(uintptr_t)r14);
                if (r0_3_3_0_copyload < 4) {
                    uint8_t r60 = core_slice_scan_any_by_one(r5, r0_3_3_0_copyload);
                    common_ret_op = !r60;
                }
                else {
                    uint8_t r70 = core_slice_scan_any_in_run(r5, 0, 4);
                    if (r70) common_ret_op = 0;
                    else {
                        uint8_t r83 = core_cmp_slices_groups_equal_i8_core_cmp_numbers_U8PartialEq(r21, r0_3_3_0_copyload, r14);
                        common_ret_op = r83;
                    }
                }
            }
            r18_0_0 = 4;
            r18_10_0 = common_ret_op;
            r18_121_0 = 0;
            r18_14_0 = r0_3_3_0_copyload;
            break;
        }
        case 2:
        case 3:
        case 4:
        case 5:
        case 6:
        case 7:
        case 8:
        case 11:
        case 12:
        case 15:
        case 16:
        case 20:
        case 21:
        case 22:
        case 23:
        case 24:
            r18_0_0 = 7;
            r18_10_0 = 0;
            r18_121_0 = 0;
            r18_14_0 = 0;
            break;
        default: never();
        }
        break;
    }
    case 2:
        r18_0_0 = 6;
        r18_10_0 = 0;
        r18_121_0 = 0;
        r18_14_0 = 0;
        break;
    case 3:
        r18_0_0 = 7;
        r18_10_0 = 0;
        r18_121_0 = 0;
        r18_14_0 = 0;
        break;
    case 4:
        r18_0_0 = 8;
        r18_10_0 = 0;
        r18_121_0 = 0;
        r18_14_0 = 0;
        break;
    case 5:
        r18_0_0 = 9;
        r18_10_0 = 0;
        r18_121_0 = 0;
        r18_14_0 = 0;
        break;
    case 6:
        r18_0_0 = 10;
        r18_10_0 = 0;
        r18_121_0 = 0;
        r18_14_0 = 0;
        break;
    case 7:
        r18_0_0 = 11;
        r18_10_0 = 0;
        r18_121_0 = 0;
        r18_14_0 = 0;
        break;
    default: never();
    }
    memcpy(r1_2, r12, 32);
    r10 = *r1_2;
    if ((uint8_t)(r10 + 233) < 2) memcpy(r0, r12, 32);
    else {
        switch (r18_0_0) {
        case 10:
            dfu_host_progress_Progress_restarted(r0, r1_2);
            break;
        case 11: {
            memcpy(r1_3, r12, 32);
            store_size(r2 + 16, 0);
            uint8_t v5 = *r1_3;
            switch (v5) {
            case 14:
            case 15:
            case 16: {
                uint8_t r13_pr = *a0;
                r13_2 = r13_pr;
                break;
            }
            case 20: {
                uint8_t r2_2 = *a0;
                if (r2_2 & 1) goto then_1;
                r13_2 = r2_2;
                break;
            }
            case 0:
            case 1:
            case 2:
            case 3:
            case 4:
            case 5:
            case 6:
            case 7:
            case 8:
            case 9:
            case 10:
            case 11:
            case 12:
            case 13:
            case 17:
            case 18:
            case 19:
            case 21:
            case 22:
            case 23:
            case 24: goto then_1;
            default: never();
            }
            uint8_t v6 = r13_2 != 2;
            *r2 = (uint8_t)(v6 ? 23 : 0);
            r2[1] = v6;
            memset(r2 + 2, 0, 18);
            if (r13_2 == 2) store_size(a0, 3);
            uint16_t r36 = load16(r1_3 + 28);
            dfu_host_progress_Progress_spent(r0, r1_3, r2, r36);
            goto dfu_host_progress_Progress_left_exit;
then_1:
            dfu_host_progress_Progress_restarted(r0, r1_3);
dfu_host_progress_Progress_left_exit:
            break;
        }
        case 0:
        case 1:
        case 2:
        case 3:
        case 4:
        case 5:
        case 6:
        case 7:
        case 8:
        case 9: {
            r1_3_0_copyload = r1_2[1];
            r1_4_0_copyload = load16(r1_2 + 2);
            r1_5_0_copyload = load32(r1_2 + 4);
            r1_6_0_copyload = load64(r1_2 + 8);
            r1_7_0_copyload = load32(r1_2 + 16);
            r1_8_0_copyload = load64a4(r1_2 + 20);
            r1_9_0_copyload = load16(r1_2 + 28);
            v9 = r18_0_0 == 9;
            or_cond = v9 & (r10 == 20);
            unsigned char *v10 = r1_4 + 16;
            store_size(v10, 0);
            *r1_4 = r10;
            r1_4[1] = r1_3_0_copyload;
            store16(r1_4 + 2, r1_4_0_copyload);
            store32(r1_4 + 4, r1_5_0_copyload);
            store64(r1_4 + 8, r1_6_0_copyload);
            store32(v10, r1_7_0_copyload);
            store64(r12_2, 0);
            *r12_2 = r18_0_0;
            store32(r12_2 + 4, r18_121_0);
            store64(r12_2 + 8, r18_14_0);
            memset(r23, 0, 24);
            memset(r24, 0, 24);
            memset(r25, 0, 24);
            memset(r26, 0, 24);
            store16(r27_4, 0);
            store16(r28_4, 0);
            store16(r29_4, 0);
            store16(r32_4, 0);
            store16(r33_4, 0);
            store16(r34_4, 0);
            store16(r36_4, 0);
            store16(r37_4, 0);
            store16(r38_4, 0);
            v11 = (uint8_t)r1_4_0_copyload;
            switch (r10) {
            case 0:
            case 17:
                *r24 = 1;
                dfu_host_task_Task_on_status(r23, a0, r1_4, r12_2, r24);
                break;
            case 1:
                *r25 = 7;
                dfu_host_task_Task_on_status(r23, a0, r1_4, r12_2, r25);
                break;
            case 10:
            case 14:
                *r26 = 17;
                dfu_host_task_Task_on_status(r23, a0, r1_4, r12_2, r26);
                break;
            case 2: {
                switch (r18_0_0) {
                case 0:
                    r39_0_0_in_speculated = 3;
                    r39_9_0_in = r27_4;
                    break;
                case 6:
                    r39_0_0_in_speculated = 0;
                    r39_9_0_in = r28_4;
                    break;
                case 1:
                case 2:
                case 3:
                case 4:
                case 5:
                case 7:
                case 8:
                case 9:
                    r39_0_0_in_speculated = 0;
                    r39_9_0_in = r29_4;
                    break;
                default: never();
                }
                uint16_t r39_9_0 = load16(r39_9_0_in);
                *r23 = r39_0_0_in_speculated;
                store16(r23 + 2, r39_9_0);
                memset(r23 + 4, 0, 16);
                break;
            }
            case 3:
                switch (r18_0_0) {
                case 8: {
                    uint8_t r12_3 = a0[27];
                    if (r12_3 & 1) {
                        r6_0_0 = 0;
                        goto dfu_host_task_Task_after_enter_exit;
                    }
                    break;
                }
                case 9: {
                    uint8_t r18 = a0[27];
                    if (!(r18 & 1)) {
                        r6_0_0 = 0;
                        goto dfu_host_task_Task_after_enter_exit;
                    }
                    break;
                }
                case 0:
                case 1:
                case 2:
                case 3:
                case 4:
                case 5:
                case 6:
                case 7: break;
                default: never();
                }
                r6_0_0 = 3;
dfu_host_task_Task_after_enter_exit:
                *r23 = r6_0_0;
                memset(r23 + 1, 0, 19);
                break;
            case 4:
            case 5: break;
            case 6: {
                uint8_t v12 = r18_0_0 == 8;
                *r23 = (uint8_t)(v12 ? 0 : 6);
                r23[1] = (uint8_t)(v12 ? 0 : r1_3_0_copyload);
                store16(r23 + 2, (uint16_t)(v12 ? 0 : r1_4_0_copyload));
                store32(r23 + 4, (uint32_t)(v12 ? 0 : r1_5_0_copyload));
                store64(r23 + 8, (uint64_t)(v12 ? 0 : r1_6_0_copyload));
                store32(r23 + 16, (uint32_t)(v12 ? 0 : r1_7_0_copyload));
                break;
            }
            case 7:
                if (v9) {
                    r31_6_0_0 = 0;
                    r31_4_0 = 0;
                    r31_8_0 = 0;
                    r31_10_0 = 0;
                    r31_12_0 = 0;
                    r31_0_0 = 0;
                }
                else {
                    r31_6_0_0 = r1_4_0_copyload;
                    r31_4_0 = r1_3_0_copyload;
                    r31_8_0 = r1_5_0_copyload;
                    r31_10_0 = r1_6_0_copyload;
                    r31_12_0 = r1_7_0_copyload;
                    r31_0_0 = 7;
                }
                *r23 = r31_0_0;
                r23[1] = r31_4_0;
                store16(r23 + 2, r31_6_0_0);
                store32(r23 + 4, r31_8_0);
                store64(r23 + 8, r31_10_0);
                store32(r23 + 16, r31_12_0);
                break;
            case 8: {
                switch (r18_0_0) {
                case 0:
                    r39_0_0_in_speculated_2 = 10;
                    r39_9_0_in_2 = r32_4;
                    r39_17_0_in_speculated = r1_6_0_copyload;
                    break;
                case 6:
                    r39_0_0_in_speculated_2 = 17;
                    r39_9_0_in_2 = r33_4;
                    r39_17_0_in_speculated = 0;
                    break;
                case 1:
                case 2:
                case 3:
                case 4:
                case 5:
                case 7:
                case 8:
                case 9:
                    r39_0_0_in_speculated_2 = 9;
                    r39_9_0_in_2 = r34_4;
                    r39_17_0_in_speculated = r1_6_0_copyload;
                    break;
                default: never();
                }
                uint16_t r39_9_0_2 = load16(r39_9_0_in_2);
                *r23 = r39_0_0_in_speculated_2;
                store16(r23 + 2, r39_9_0_2);
                store64(r23 + 8, r39_17_0_in_speculated);
                break;
            }
            case 9:
                switch (r18_0_0) {
                case 2:
                    switch (r18_10_0) {
                    case 3:
                        r6_0_0_2 = 10;
                        r6_10_0 = r1_6_0_copyload;
                        goto dfu_host_task_Task_after_ask_exit;
                    case 2:
                        if (r1_6_0_copyload == 0) {
                            r6_0_0_2 = 8;
                            r6_10_0 = 0;
                            goto dfu_host_task_Task_after_ask_exit;
                        }
                        break;
                    case 5:
                        if (r1_6_0_copyload != 0) {
                            r6_0_0_2 = 8;
                            r6_10_0 = r1_6_0_copyload;
                            goto dfu_host_task_Task_after_ask_exit;
                        }
                        break;
                    case 0:
                    case 1:
                    case 4:
                    case 6:
                    case 7:
                    case 8:
                    case 9:
                    case 10: break;
                    default: never();
                    }
                    break;
                case 6: break;
                case 0:
                case 1:
                case 3:
                case 4:
                case 5:
                case 7:
                case 8:
                case 9:
                    r6_0_0_2 = 9;
                    r6_10_0 = r1_6_0_copyload;
                    goto dfu_host_task_Task_after_ask_exit;
                default: never();
                }
                r6_0_0_2 = 17;
                r6_10_0 = 0;
dfu_host_task_Task_after_ask_exit:
                *r23 = r6_0_0_2;
                store64(r23 + 8, r6_10_0);
                break;
            case 11: {
                uint8_t v13 = r18_0_0 == 8;
                *r23 = (uint8_t)(v13 ? 10 : 11);
                r23[1] = (uint8_t)(v13 ? 0 : r1_3_0_copyload);
                store16(r23 + 2, (uint16_t)(v13 ? 0 : r1_4_0_copyload));
                store32(r23 + 4, (uint32_t)(v13 ? 0 : r1_5_0_copyload));
                store64(r23 + 8, r1_6_0_copyload);
                store32(r23 + 16, (uint32_t)(v13 ? 0 : r1_7_0_copyload));
                break;
            }
            case 12: {
                switch (r18_0_0) {
                case 0:
                    r39_0_0_in_speculated_3 = 14;
                    r39_9_0_in_3 = r36_4;
                    break;
                case 6:
                    r39_0_0_in_speculated_3 = 17;
                    r39_9_0_in_3 = r37_4;
                    break;
                case 1:
                case 2:
                case 3:
                case 4:
                case 5:
                case 7:
                case 8:
                case 9:
                    r39_0_0_in_speculated_3 = 13;
                    r39_9_0_in_3 = r38_4;
                    break;
                default: never();
                }
                uint16_t r39_9_0_3 = load16(r39_9_0_in_3);
                *r23 = r39_0_0_in_speculated_3;
                store16(r23 + 2, r39_9_0_3);
                memset(r23 + 4, 0, 16);
                break;
            }
            case 13:
                switch (r18_0_0) {
                case 2: {
                    uint8_t switch_load = *(PLACE(switch_table_dfu_host_session_Session_on_result) + (size_t)r18_10_0);
                    r6_0_0_3 = switch_load;
                    break;
                }
                case 6:
                    r6_0_0_3 = 17;
                    break;
                case 0:
                case 1:
                case 3:
                case 4:
                case 5:
                case 7:
                case 8:
                case 9:
                    r6_0_0_3 = 13;
                    break;
                default: never();
                }
                *r23 = r6_0_0_3;
                memset(r23 + 1, 0, 19);
                break;
            case 15: {
                uint8_t v15 = r18_0_0 == 8;
                *r23 = (uint8_t)(v15 ? 14 : 15);
                r23[1] = (uint8_t)(v15 ? 0 : r1_3_0_copyload);
                store16(r23 + 2, (uint16_t)(v15 ? 0 : r1_4_0_copyload));
                store32(r23 + 4, (uint32_t)(v15 ? 0 : r1_5_0_copyload));
                store64(r23 + 8, (uint64_t)(v15 ? 0 : r1_6_0_copyload));
                store32(r23 + 16, (uint32_t)(v15 ? 0 : r1_7_0_copyload));
                break;
            }
            case 16: {
                uint8_t v16 = r18_0_0 == 8;
                *r23 = (uint8_t)(v16 ? 20 : 16);
                r23[1] = (uint8_t)(v16 ? 1 : r1_3_0_copyload);
                store16(r23 + 2, (uint16_t)(v16 ? 0 : r1_4_0_copyload));
                store32(r23 + 4, (uint32_t)(v16 ? 0 : r1_5_0_copyload));
                store64(r23 + 8, (uint64_t)(v16 ? 0 : r1_6_0_copyload));
                store32(r23 + 16, (uint32_t)(v16 ? 0 : r1_7_0_copyload));
                break;
            }
            case 18:
                switch (r18_0_0) {
                case 3: {
                    uint16_t r13_3 = load16(a0 + 24);
                    r15 = (size_t)r13_3;
                    if (r18_14_0 < (uint64_t)r15) {
                        r7_0_0 = 21;
                        r7_5_0 = 0;
                        r7_8_0_0 = 0;
                        r7_8_4_0_0 = 0;
                    }
                    else {
                        if (r18_14_0 > (uint64_t)r15) {
                            r7_0_0 = 0;
                            r7_5_0 = 0;
                            r7_8_0_0 = 0;
                            r7_8_4_0_0 = 0;
                        }
                        else {
                            r26_2 = (uint16_t)(r1_4_0_copyload + 1);
                            if (r26_2 == 0xffffU) {
                                r7_0_0 = 23;
                                r7_5_0 = 7;
                                r7_8_0_0 = 0;
                                r7_8_4_0_0 = 0;
                            }
                            else {
                                r7_0_0 = 18;
                                r7_5_0 = 0;
                                r7_8_0_0 = (uint8_t)r26_2;
                                r7_8_4_0_0 = (uint8_t)(uint16_t)(r26_2 >> 8);
                            }
                        }
                    }
                    break;
                }
                case 5:
                    r7_0_0 = 23;
                    r7_5_0 = 8;
                    r7_8_0_0 = 0;
                    r7_8_4_0_0 = 0;
                    break;
                case 0:
                case 1:
                case 2:
                case 4:
                case 6:
                case 7:
                case 8:
                case 9:
                    r7_0_0 = 0;
                    r7_5_0 = 0;
                    r7_8_0_0 = 0;
                    r7_8_4_0_0 = 0;
                    break;
                default: never();
                }
                *r23 = r7_0_0;
                r23[1] = r7_5_0;
                store16(r23 + 2, (uint16_t)((uint32_t)r7_8_4_0_0 << 8) | r7_8_0_0);
                memset(r23 + 4, 0, 16);
                break;
            case 19:
                if (r18_0_0 != 4) {
                    r8_0_0 = 0;
                    r8_4_0 = 0;
                    r8_6_0 = 0;
                }
                else {
                    uint16_t r17 = load16(a0 + 24);
                    r19 = (size_t)r17;
                    if (r18_14_0 > (uint64_t)r19) {
                        r8_0_0 = 0;
                        r8_4_0 = 0;
                        r8_6_0 = 0;
                    }
                    else {
                        if (!(r18_10_0 & 1)) {
                            r6_4_0 = 10;
                            r6_7_0_0 = 0;
                            r6_7_4_0_0 = 0;
                            r6_0_0_4 = 20;
                        }
                        else {
                            if (r18_14_0 < (uint64_t)r19) {
                                r6_4_0 = 9;
                                r6_7_0_0 = 0;
                                r6_7_4_0_0 = 0;
                                r6_0_0_4 = 20;
                            }
                            else {
                                r40 = (uint16_t)(r1_4_0_copyload + 1);
                                if (r40 == 0xffffU) {
                                    r6_4_0 = 7;
                                    r6_7_0_0 = 0;
                                    r6_7_4_0_0 = 0;
                                    r6_0_0_4 = 23;
                                }
                                else {
                                    r6_4_0 = 0;
                                    r6_7_0_0 = (uint8_t)r40;
                                    r6_7_4_0_0 = (uint8_t)(uint16_t)(r40 >> 8);
                                    r6_0_0_4 = 19;
                                }
                            }
                        }
                        r8_0_0 = r6_0_0_4;
                        r8_4_0 = r6_4_0;
                        r8_6_0 = (uint16_t)((uint32_t)r6_7_4_0_0 << 8) | r6_7_0_0;
                    }
                }
                *r23 = r8_0_0;
                r23[1] = r8_4_0;
                store16(r23 + 2, r8_6_0);
                memset(r23 + 4, 0, 16);
                break;
            case 20:
                if (!v9) {
                    r8_7_0_0 = v11;
                    r8_0_0_2 = 20;
                    r8_4_0_2 = r1_3_0_copyload;
                }
                else {
                    uint8_t r13_4 = *a0;
                    uint8_t v18 = r13_4 == 2;
                    r8_7_0_0 = (uint8_t)(v18 ? 0 : v11);
                    r8_0_0_2 = (uint8_t)(v18 ? 0 : 23);
                    r8_4_0_2 = (uint8_t)(v18 ? 0 : r1_3_0_copyload);
                }
                *r23 = r8_0_0_2;
                r23[1] = r8_4_0_2;
                r23[2] = r8_7_0_0;
                memset(r23 + 3, 0, 17);
                break;
            case 21:
                *r23 = (uint8_t)(v9 ? 24 : 21);
                memset(r23 + 1, 0, 19);
                break;
            case 22:
                *r23 = 23;
                r23[1] = 2;
                break;
            default: never();
            }
            uint8_t v19 = *r23;
            uint8_t v20 = r23[1];
            uint16_t v21 = load16(r23 + 2);
            uint32_t v22 = load32(r23 + 4);
            uint64_t v23 = load64(r23 + 8);
            uint32_t v24 = load32(r23 + 16);
            *r10_2 = v19;
            r10_2[1] = v20;
            store16(r10_2 + 2, v21);
            store32(r10_2 + 4, v22);
            store64(r10_2 + 8, v23);
            store32(r10_2 + 16, v24);
            if (or_cond) {
                uint8_t r10_3 = *a0;
                if (r10_3 == 2) store_size(a0, 3);
            }
            store64a4(r17_2 + 20, r1_8_0_copyload);
            dfu_host_progress_Progress_spent(r0, r17_2, r10_2, r1_9_0_copyload);
            break;
        }
        default: never();
        }
    }
    memcpy(r12, r0, 32);
    return;
}

/* dfu_wire::statuses::Status::decode */
static void dfu_wire_statuses_Status_decode(unsigned char *a0, unsigned char *a1, size_t a2) {
    uint8_t r52, r69;
    if (a2 < 6) {
        *a0 = 1;
        memset(a0 + 4, 0, 12);
        return;
    }
    if (a2 != 6) {
        *a0 = 1;
        memset(a0 + 4, 0, 12);
        return;
    }
    r52 = *a1;
    if (r52 >= 16) {
        *a0 = 1;
        memset(a0 + 4, 0, 12);
        return;
    }
    r69 = a1[4];
    if (r69 >= 11) {
        *a0 = 1;
        memset(a0 + 4, 0, 12);
        return;
    }
    uint8_t r13 = a1[1];
    uint8_t r17 = a1[2];
    uint8_t r21 = a1[3];
    *a0 = 0;
    store32(a0 + 4, (uint32_t)r52);
    store32(a0 + 8, (((uint32_t)r17 << 8) | (uint32_t)r13) | ((uint32_t)r21 << 16));
    a0[12] = r69;
    memset(a0 + 13, 0, 3);
    return;
}

/* core::slice::scan::any_by_one::<#953750c03e87c3e2> */
static uint8_t core_slice_scan_any_by_one(unsigned char *a0, size_t a1) {
    unsigned char *r12;
    size_t r1_0, common_ret_op;
    r12 = a0 + 16;
    r1_0 = 0;
    for (;;) {
        if (r1_0 == a1) {
            common_ret_op = a1;
            break;
        }
        size_t r3_0_0_copyload = load_size(a0);
        size_t r4_0_0_copyload = load_size(r12);
        uint8_t r3 = *((unsigned char *)(uintptr_t)r3_0_0_copyload + r1_0);
        uint8_t r4 = *((unsigned char *)(uintptr_t)r4_0_0_copyload + r1_0);
        if (r3 != r4) {
            common_ret_op = r1_0;
            break;
        }
        r1_0 = r1_0 + 1;
    }
    return common_ret_op < a1;
}

/* core::cmp::slices::groups_equal::<i8,31'core::cmp::numbers::U8PartialEq{}> */
static uint8_t core_cmp_slices_groups_equal_i8_core_cmp_numbers_U8PartialEq(unsigned char *a0, size_t a1, unsigned char *a2) {
    _Alignas(8) unsigned char r7[32];
    uint8_t common_ret_op;
    store_size(r7, (size_t)(uintptr_t)a0);
    store_size(r7 + 16, (size_t)(uintptr_t)a2);
    if (a1 < 9) {
        uint8_t r41 = core_slice_scan_any_in_ends(r7, a1, 4);
        common_ret_op = r41;
    }
    else {
        if (a1 < 33) {
            size_t r11 = a1 - 8;
            uint8_t r12 = core_slice_scan_any_in_run(r7, 0, 8);
            uint8_t r17 = core_slice_scan_any_in_run(r7, umin_size(r11, 8), 8);
            uint8_t r30 = core_slice_scan_any_in_run(r7, umin_size(r11, 16), 8);
            uint8_t r39 = core_slice_scan_any_in_run(r7, r11, 8);
            common_ret_op = ((r12 | r17) | r30) | r39;
        }
        else {
            if (a1 < 65) {
                uint8_t r61 = core_slice_scan_any_in_ends(r7, a1, 32);
                common_ret_op = r61;
            }
            else {
                uint64_t r67 = core_slice_scan_skip_groups(r7, 0, a1, 64);
                uint64_t r69 = core_slice_scan_skip_groups(r7, r67, a1, 32);
                if (((uint64_t)a1 - r69) > 31) common_ret_op = 1;
                else {
                    uint8_t r82 = core_slice_scan_any_in_run(r7, a1 - 32, 32);
                    common_ret_op = r82;
                }
            }
        }
    }
    return !common_ret_op;
}

/* dfu_host::progress::Progress::restarted: crates/dfu_host/src/progress.rt */
static void dfu_host_progress_Progress_restarted(unsigned char *a0, unsigned char *a1) {
    _Alignas(8) unsigned char r0[32];
    unsigned char *const r5 = r0;
    _Alignas(8) unsigned char r1[32];
    _Alignas(8) unsigned char r3[24];
    _Alignas(8) unsigned char r7[24];
    _Alignas(8) unsigned char r8[24];
    uint16_t r17;
    memcpy(r1, a1, 32);
    memset(r3, 0, 24);
    memset(r7, 0, 24);
    memset(r8, 0, 24);
    uint8_t r10 = *r1;
    if (r10 == 22) {
        *r3 = 23;
        r3[1] = 2;
        uint16_t r15 = load16(r1 + 28);
        dfu_host_progress_Progress_spent(r0, r1, r3, r15);
        memcpy(a0, r0, 32);
        return;
    }
    r17 = load16(r1 + 28);
    if (r17 != 0) dfu_host_progress_Progress_spent(r5, r1, r8, (uint16_t)(r17 + 0xffffU));
    else {
        *r7 = 23;
        r7[1] = 5;
        dfu_host_progress_Progress_spent(r5, r1, r7, 0);
    }
    memcpy(a0, r5, 32);
    return;
}

/* dfu_host::progress::Progress::spent: crates/dfu_host/src/progress.rt */
static void dfu_host_progress_Progress_spent(unsigned char *a0, unsigned char *a1, unsigned char *a2, uint16_t a3) {
    uint32_t r1_2_0_copyload, v3, v5, r12_13_4_0, r12_19_0;
    uint8_t v0, v1, r2_5_0_0_extract_trunc, r2_5_3_0_extract_trunc, r12_13_0_0, r12_0_0, r12_5_0, r12_9_0;
    uint64_t v4, r12_16_0;
    r1_2_0_copyload = load32(a1 + 24);
    v0 = *a2;
    v1 = a2[1];
    uint16_t v2 = load16(a2 + 2);
    r2_5_0_0_extract_trunc = (uint8_t)v2;
    r2_5_3_0_extract_trunc = (uint8_t)(uint16_t)(v2 >> 8);
    v3 = load32(a2 + 4);
    v4 = load64(a2 + 8);
    v5 = load32(a2 + 16);
    if ((uint8_t)(v0 + 233) < 2) {
        r12_13_0_0 = r2_5_3_0_extract_trunc;
        r12_13_4_0 = v3;
        r12_0_0 = v0;
        r12_5_0 = v1;
        r12_9_0 = r2_5_0_0_extract_trunc;
        r12_16_0 = v4;
        r12_19_0 = v5;
    }
    else {
        uint8_t r26 = r1_2_0_copyload < 2;
        r12_13_0_0 = (uint8_t)(r26 ? 0 : r2_5_3_0_extract_trunc);
        r12_13_4_0 = (uint32_t)(r26 ? 0 : v3);
        r12_0_0 = (uint8_t)(r26 ? 23 : v0);
        r12_5_0 = (uint8_t)(r26 ? 3 : v1);
        r12_9_0 = (uint8_t)(r26 ? 0 : r2_5_0_0_extract_trunc);
        r12_16_0 = (uint64_t)(r26 ? 0 : v4);
        r12_19_0 = (uint32_t)(r26 ? 0 : v5);
    }
    *a0 = r12_0_0;
    a0[1] = r12_5_0;
    store16(a0 + 2, (uint16_t)((uint32_t)r12_13_0_0 << 8) | r12_9_0);
    store32(a0 + 4, r12_13_4_0);
    store64(a0 + 8, r12_16_0);
    store32(a0 + 16, r12_19_0);
    store32(a0 + 24, usub_sat32(r1_2_0_copyload, 1));
    store16(a0 + 28, a3);
    return;
}

/* dfu_host::task::Task::on_status: crates/dfu_host/src/row.rt */
static void dfu_host_task_Task_on_status(unsigned char *a0, unsigned char *a1, unsigned char *a2, unsigned char *a3, unsigned char *a4) {
    _Alignas(8) unsigned char r5_3[24];
    unsigned char *const r7_2 = r5_3;
    unsigned char *const r5 = r5_3;
    unsigned char *const r14 = r5_3;
    _Alignas(4) unsigned char r9[12];
    unsigned char *const r11 = r9;
    unsigned char *const r10_2 = r9;
    unsigned char *const r12 = r9;
    uint8_t v0, r1_4_0_copyload, v14, v15, r1_7_0_copyload, v23, v24, v30, v31, r3_0_0, r3_4_0, r29_0_0;
    uint8_t r29_5_0;
    uint64_t v1, v11, r29_17_0;
    uint32_t r1_0_0_copyload, r1_3_0_copyload, v10, v12, r1_0_0_copyload_2, r1_5_0_copyload, v20, v22, v27, v29, r3_10_0, r3_16_0;
    uint32_t r29_13_0, r29_21_0;
    unsigned char *v8, *v16, *v25;
    uint16_t r8, v13, v19, v26, r3_7_0, r29_9_0;
    size_t r2_4_0, v21, v28, r3_13_0;
    v0 = *a2;
    v1 = load64(a2 + 8);
    uint8_t r12_0_0_copyload = *a3;
    uint8_t v2 = *a4;
    uint8_t v3 = a4[1];
    uint16_t v4 = load16(a4 + 2);
    uint32_t v5 = load32(a4 + 4);
    size_t v6 = load_size(a4 + 8);
    uint32_t v7 = load32(a4 + 16);
    switch (r12_0_0_copyload) {
    case 1: {
        memcpy(r12, a3 + 4, 12);
        switch (v0) {
        case 10:
            r1_0_0_copyload = load32(r12);
            r1_3_0_copyload = load32(r12 + 4);
            r1_4_0_copyload = r12[8];
            v8 = r5 + 16;
            store_size(v8, 0);
            switch (r1_4_0_copyload) {
            case 3:
            case 4:
                v10 = r1_3_0_copyload;
                v11 = v1;
                v12 = 0;
                v13 = 0;
                v14 = 0;
                v15 = 11;
                break;
            case 5: {
                r8 = load16(a1 + 24);
                uint8_t r7 = *a1;
                if (r7 == 1) r2_4_0 = 0;
                else {
                    size_t r16 = load_size(a1 + 16);
                    r2_4_0 = r16;
                }
                size_t r10 = (size_t)r8;
                uint8_t r24_not = ((uint64_t)r2_4_0 - (v1 * (uint64_t)r10)) > (uint64_t)r10;
                v10 = 0;
                v11 = (uint64_t)(r24_not ? (v1 + 1) : 0);
                v12 = 0;
                v13 = 0;
                v14 = 0;
                v15 = (uint8_t)(r24_not ? 8 : 12);
                break;
            }
            case 0:
            case 1:
            case 2:
            case 6:
            case 7:
            case 8:
            case 9:
            case 10: {
                store32(r10_2, r1_0_0_copyload);
                store32(r10_2 + 4, r1_3_0_copyload);
                r10_2[8] = r1_4_0_copyload;
                dfu_host_task_Task_troubled(r5, a1, r10_2);
                uint8_t pre = *r5;
                uint8_t pre7 = r5[1];
                uint16_t pre8 = load16(r5 + 2);
                uint32_t pre9 = load32(r5 + 4);
                size_t pre10 = load_size(r5 + 8);
                uint32_t pre11 = load32(v8);
                v10 = pre11;
                v11 = pre10;
                v12 = pre9;
                v13 = pre8;
                v14 = pre7;
                v15 = pre;
                break;
            }
            default: never();
            }
            *r14 = v15;
            r14[1] = v14;
            store16(r14 + 2, v13);
            store32(r14 + 4, v12);
            store64(r14 + 8, v11);
            store32(r14 + 16, v10);
            break;
        case 14: {
            r1_0_0_copyload_2 = load32(r12);
            r1_5_0_copyload = load32(r12 + 4);
            r1_7_0_copyload = r12[8];
            uint8_t r5_2 = a1[26];
            if (!(r5_2 & 1)) {
                v25 = r5_3 + 16;
                store_size(v25, 0);
                switch (r1_7_0_copyload) {
                case 6:
                case 7:
                    v26 = 0;
                    v27 = 0;
                    v28 = 0;
                    v29 = r1_5_0_copyload;
                    v30 = 0;
                    v31 = 16;
                    break;
                case 2:
                case 8:
                    v26 = 0;
                    v27 = 0;
                    v28 = 0;
                    v29 = 0;
                    v30 = 1;
                    v31 = 20;
                    break;
                case 0:
                case 1:
                case 3:
                case 4:
                case 5:
                case 9:
                case 10: {
                    store32(r9, r1_0_0_copyload_2);
                    store32(r9 + 4, r1_5_0_copyload);
                    r9[8] = r1_7_0_copyload;
                    dfu_host_task_Task_troubled(r5_3, a1, r9);
                    uint8_t pre_4 = *r5_3;
                    uint8_t pre7_2 = r5_3[1];
                    uint32_t pre8_2 = load32(r5_3 + 4);
                    size_t pre9_2 = load_size(r5_3 + 8);
                    uint32_t pre10_3 = load32(v25);
                    uint16_t pre_5 = load16(r5_3 + 2);
                    v26 = pre_5;
                    v27 = pre10_3;
                    v28 = pre9_2;
                    v29 = pre8_2;
                    v30 = pre7_2;
                    v31 = pre_4;
                    break;
                }
                default: never();
                }
                r3_0_0 = v31;
                r3_4_0 = v30;
                r3_7_0 = v26;
                r3_10_0 = v29;
                r3_13_0 = v28;
                r3_16_0 = v27;
            }
            else {
                v16 = r7_2 + 16;
                store_size(v16, 0);
                switch (r1_7_0_copyload) {
                case 6:
                case 7:
                    v19 = 0;
                    v20 = 0;
                    v21 = 0;
                    v22 = r1_5_0_copyload;
                    v23 = 0;
                    v24 = 15;
                    goto dfu_host_task_Task_confirmed_exit;
                case 2:
                    if ((r1_0_0_copyload_2 & 255) == 0) {
                        v19 = 0;
                        v20 = 0;
                        v21 = 0;
                        v22 = 0;
                        v23 = 0;
                        v24 = 20;
                        goto dfu_host_task_Task_confirmed_exit;
                    }
                    break;
                case 0:
                case 1:
                case 3:
                case 4:
                case 5:
                case 8:
                case 9:
                case 10: break;
                default: never();
                }
                store32(r11, r1_0_0_copyload_2);
                store32(r11 + 4, r1_5_0_copyload);
                r11[8] = r1_7_0_copyload;
                dfu_host_task_Task_troubled(r7_2, a1, r11);
                uint8_t pre_2 = *r7_2;
                uint8_t pre10_2 = r7_2[1];
                uint32_t pre11_2 = load32(r7_2 + 4);
                size_t pre12 = load_size(r7_2 + 8);
                uint32_t pre13 = load32(v16);
                uint16_t pre_3 = load16(r7_2 + 2);
                v19 = pre_3;
                v20 = pre13;
                v21 = pre12;
                v22 = pre11_2;
                v23 = pre10_2;
                v24 = pre_2;
dfu_host_task_Task_confirmed_exit:
                r3_0_0 = v24;
                r3_4_0 = v23;
                r3_7_0 = v19;
                r3_10_0 = v22;
                r3_13_0 = v21;
                r3_16_0 = v20;
            }
            *r14 = r3_0_0;
            r14[1] = r3_4_0;
            store16(r14 + 2, r3_7_0);
            store32(r14 + 4, r3_10_0);
            store64(r14 + 8, r3_13_0);
            store32(r14 + 16, r3_16_0);
            break;
        }
        case 17:
            dfu_host_task_Task_troubled(r14, a1, r12);
            break;
        case 0:
        case 1:
        case 2:
        case 3:
        case 4:
        case 5:
        case 6:
        case 7:
        case 8:
        case 9:
        case 11:
        case 12:
        case 13:
        case 15:
        case 16:
        case 18:
        case 19:
        case 20:
        case 21:
        case 22:
        case 23:
        case 24:
            dfu_host_task_Task_listed(r14, a1, r12);
            break;
        default: never();
        }
        uint8_t v32 = *r14;
        uint8_t v33 = r14[1];
        uint16_t v34 = load16(r14 + 2);
        uint32_t v35 = load32(r14 + 4);
        uint64_t v36 = load64(r14 + 8);
        uint32_t v37 = load32(r14 + 16);
        r29_0_0 = v32;
        r29_5_0 = v33;
        r29_9_0 = v34;
        r29_13_0 = v35;
        r29_17_0 = v36;
        r29_21_0 = v37;
        break;
    }
    case 6:
        r29_0_0 = v2;
        r29_5_0 = v3;
        r29_9_0 = v4;
        r29_13_0 = v5;
        r29_17_0 = v6;
        r29_21_0 = v7;
        break;
    case 0:
    case 2:
    case 3:
    case 4:
    case 5:
    case 7:
    case 8:
    case 9:
    case 10:
    case 11: {
        uint32_t v38 = load32(a2 + 16);
        uint32_t v39 = load32(a2 + 4);
        uint16_t v40 = load16(a2 + 2);
        uint8_t v41 = a2[1];
        r29_0_0 = v0;
        r29_5_0 = v41;
        r29_9_0 = v40;
        r29_13_0 = v39;
        r29_17_0 = v1;
        r29_21_0 = v38;
        break;
    }
    default: never();
    }
    *a0 = r29_0_0;
    a0[1] = r29_5_0;
    store16(a0 + 2, r29_9_0);
    store32(a0 + 4, r29_13_0);
    store64(a0 + 8, r29_17_0);
    store32(a0 + 16, r29_21_0);
    return;
}

/* dfu_host::task::Task::troubled: crates/dfu_host/src/ending.rt */
static void dfu_host_task_Task_troubled(unsigned char *a0, unsigned char *a1, unsigned char *a2) {
    _Alignas(8) unsigned char r6[24];
    unsigned char *const r9 = r6;
    _Alignas(4) unsigned char r10[12];
    uint8_t r1_0_0_copyload, v4, v5, v11, v12;
    unsigned char *r1_3_0_a2_sroa_idx;
    uint32_t v1, v3, v7, v9;
    size_t v2, v8;
    uint16_t v10;
    r1_0_0_copyload = *a2;
    r1_3_0_a2_sroa_idx = a2 + 1;
    uint8_t r1_4_0_copyload = a2[8];
    memset(r9, 0, 24);
    if (r1_4_0_copyload != 10) {
        dfu_host_task_Task_listed(r6, a1, a2);
        uint8_t pre16 = *r6;
        uint8_t pre17 = r6[1];
        uint16_t pre18 = load16(r6 + 2);
        uint32_t pre19 = load32(r6 + 4);
        size_t pre20 = load_size(r6 + 8);
        uint32_t pre21 = load32(r6 + 16);
        v7 = pre21;
        v8 = pre20;
        v9 = pre19;
        v10 = pre18;
        v11 = pre17;
        v12 = pre16;
    }
    else {
        if ((uint8_t)(r1_0_0_copyload + 255) < 14) {
            r9[2] = r1_0_0_copyload;
            v1 = 0;
            v2 = 0;
            v3 = 0;
            v4 = 4;
            v5 = 23;
        }
        else {
            memcpy(r10 + 1, r1_3_0_a2_sroa_idx, 7);
            r10[8] = 10;
            dfu_host_task_Task_listed(r9, a1, r10);
            uint8_t pre = *r9;
            uint8_t pre12 = r9[1];
            uint32_t pre13 = load32(r9 + 4);
            size_t pre14 = load_size(r9 + 8);
            uint32_t pre15 = load32(r9 + 16);
            v1 = pre15;
            v2 = pre14;
            v3 = pre13;
            v4 = pre12;
            v5 = pre;
        }
        uint16_t v6 = load16(r9 + 2);
        v7 = v1;
        v8 = v2;
        v9 = v3;
        v10 = v6;
        v11 = v4;
        v12 = v5;
    }
    *a0 = v12;
    a0[1] = v11;
    store16(a0 + 2, v10);
    store32(a0 + 4, v9);
    store64(a0 + 8, v8);
    store32(a0 + 16, v7);
    return;
}

/* dfu_host::task::Task::listed: crates/dfu_host/src/row.rt */
static void dfu_host_task_Task_listed(unsigned char *a0, unsigned char *a1, unsigned char *a2) {
    uint8_t r5_0_0;
    uint32_t r5_12_0;
    uint8_t r1_4_0_copyload = a2[8];
    switch (r1_4_0_copyload) {
    case 0:
        r5_0_0 = 2;
        r5_12_0 = 0;
        break;
    case 1:
        r5_0_0 = 3;
        r5_12_0 = 0;
        break;
    case 2: {
        uint8_t r4 = *a1;
        r5_0_0 = (uint8_t)((uint32_t)0x13081208U >> (((uint32_t)r4 << 3) & 31));
        r5_12_0 = 0;
        break;
    }
    case 3:
    case 4:
    case 6:
    case 7: {
        uint32_t r1_3_0_copyload = load32(a2 + 4);
        r5_0_0 = 6;
        r5_12_0 = r1_3_0_copyload;
        break;
    }
    case 5:
    case 9:
        r5_0_0 = 5;
        r5_12_0 = 0;
        break;
    case 8:
        r5_0_0 = 7;
        r5_12_0 = 0;
        break;
    case 10:
        r5_0_0 = 4;
        r5_12_0 = 0;
        break;
    default: never();
    }
    *a0 = r5_0_0;
    a0[1] = 0;
    store16(a0 + 2, 0);
    store32(a0 + 4, r5_12_0);
    store64(a0 + 8, 0);
    store32(a0 + 16, 0);
    return;
}

/* dfu_host_c::dfuse::holding::map_of: crates/dfu_host_c/src/dfuse/holding.rt */
static void dfu_host_c_dfuse_holding_map_of(unsigned char *a0, unsigned char *a1, size_t a2) {
    _Alignas(8) unsigned char r4[800];
    _Alignas(8) unsigned char r5_4[792];
    size_t r5_0_0_0;
    memset(r5_4, 0, 792);
    dfu_formats_memory_map_Map_read(r4, a1, a2);
    uint8_t r10 = *r4;
    if (r10 != 0) r5_0_0_0 = 0;
    else {
        memcpy(r5_4, r4 + 8, 792);
        r5_0_0_0 = 1;
    }
    store_size(a0, r5_0_0_0);
    memcpy(a0 + 8, r5_4, 792);
    return;
}

/* dfu_host_c::dfuse::holding::session_of: crates/dfu_host_c/src/dfuse/holding.rt */
static void dfu_host_c_dfuse_holding_session_of(unsigned char *a0, unsigned char *a1, unsigned char *a2, unsigned char *a3, size_t a4) {
    uint32_t r10, r16, r20, r22, r0_32_0, r0_31_0, r0_29_0_shrunk, r0_204_0_shrunk;
    uint64_t r12, r18, r1_18_0, r1_26_0, r1_10_0, r0_30_0, r0_28_0, r0_27_0;
    uint8_t r0_16_0, r0_12_0, r0_8_0;
    uint32_t r4 = load32(a1);
    if (r4 == 300) {
        r10 = load32(a1 + 4);
        r12 = load64(a1 + 8);
        r16 = load32(a1 + 32);
        r18 = load64(a1 + 24);
        r20 = load32(a1 + 36);
        r22 = load32(a1 + 40);
        switch (r10) {
        case 7: {
            uint32_t r24 = load32(a1 + 44);
            switch (r24) {
            case 1:
                if (r22 >= 3) goto arm_2;
                r0_32_0 = 0;
                r0_31_0 = 0;
                r0_30_0 = 0;
                r0_29_0_shrunk = 0;
                r0_28_0 = 0;
                r0_27_0 = 0;
                r0_204_0_shrunk = 0;
                r0_16_0 = (uint8_t)r22;
                r0_12_0 = 0;
                r0_8_0 = 1;
                goto arm_1;
            case 2:
                r0_32_0 = 0;
                r0_31_0 = 0;
                r0_30_0 = 0;
                r0_29_0_shrunk = 0;
                r0_28_0 = 0;
                r0_27_0 = 0;
                r0_204_0_shrunk = 0;
                r0_16_0 = 0;
                r0_12_0 = 1;
                r0_8_0 = 1;
                goto arm_1;
            case 3:
                if (r22 >= 16) goto arm_2;
                r0_32_0 = 0;
                r0_31_0 = 0;
                r0_30_0 = 0;
                r0_29_0_shrunk = 0;
                r0_28_0 = 0;
                r0_27_0 = 0;
                r0_204_0_shrunk = 0;
                r0_16_0 = (uint8_t)r22;
                r0_12_0 = 2;
                r0_8_0 = 1;
                goto arm_1;
            case 4:
                r0_32_0 = 0;
                r0_31_0 = 0;
                r0_30_0 = 0;
                r0_29_0_shrunk = 0;
                r0_28_0 = 0;
                r0_27_0 = 0;
                r0_204_0_shrunk = 0;
                r0_16_0 = 0;
                r0_12_0 = 3;
                r0_8_0 = 1;
                goto arm_1;
            case 5:
                r0_32_0 = 0;
                r0_31_0 = 0;
                r0_30_0 = 0;
                r0_29_0_shrunk = 0;
                r0_28_0 = 0;
                r0_27_0 = 0;
                r0_204_0_shrunk = 0;
                r0_16_0 = 0;
                r0_12_0 = 4;
                r0_8_0 = 1;
                goto arm_1;
            case 6:
                r0_32_0 = 0;
                r0_31_0 = 0;
                r0_30_0 = 0;
                r0_29_0_shrunk = 0;
                r0_28_0 = 0;
                r0_27_0 = 0;
                r0_204_0_shrunk = 0;
                r0_16_0 = 0;
                r0_12_0 = 5;
                r0_8_0 = 1;
                goto arm_1;
            case 7:
                r0_32_0 = 0;
                r0_31_0 = 0;
                r0_30_0 = 0;
                r0_29_0_shrunk = 0;
                r0_28_0 = 0;
                r0_27_0 = 0;
                r0_204_0_shrunk = 0;
                r0_16_0 = 0;
                r0_12_0 = 6;
                r0_8_0 = 1;
                goto arm_1;
            default: goto arm_2;
            }
        }
        case 0:
        case 3:
        case 4:
        case 5:
            r1_18_0 = r12;
            r1_26_0 = 0;
            break;
        case 1:
        case 2: {
            uint64_t r14 = load64(a1 + 16);
            r1_18_0 = r12;
            r1_26_0 = r14;
            break;
        }
        case 6:
            r1_18_0 = 0;
            r1_26_0 = 0;
            break;
        default: goto arm_2;
        }
        switch (r16) {
        case 0:
            r1_10_0 = 0;
            break;
        case 1:
        case 2:
            r1_10_0 = r18;
            break;
        default: goto arm_2;
        }
        switch (r20) {
        case 0:
        case 1:
        case 2:
        case 4:
        case 5:
        case 6:
        case 9:
        case 10:
        case 11:
        case 12:
        case 13:
        case 14:
            r0_32_0 = 0;
            r0_31_0 = r20;
            r0_30_0 = r1_10_0;
            r0_29_0_shrunk = r16;
            r0_28_0 = r1_26_0;
            r0_27_0 = r1_18_0;
            r0_204_0_shrunk = r10;
            r0_16_0 = 0;
            r0_12_0 = 0;
            r0_8_0 = 0;
            break;
        case 3:
        case 7:
        case 8:
            r0_32_0 = r22;
            r0_31_0 = r20;
            r0_30_0 = r1_10_0;
            r0_29_0_shrunk = r16;
            r0_28_0 = r1_26_0;
            r0_27_0 = r1_18_0;
            r0_204_0_shrunk = r10;
            r0_16_0 = 0;
            r0_12_0 = 0;
            r0_8_0 = 0;
            break;
        default: goto arm_2;
        }
arm_1:;
        uint16_t r9 = load16(a1 + 58);
        uint16_t r11 = load16(a1 + 60);
        uint16_t r13 = load16(a1 + 62);
        uint32_t r17 = load32(a1 + 48);
        uint32_t r29 = load32(a1 + 52);
        uint16_t r32 = load16(a1 + 56);
        store_size(a0, 1);
        store_size(a0 + 8, (size_t)(uintptr_t)a2);
        store_size(a0 + 16, (size_t)(uintptr_t)a3);
        store_size(a0 + 24, a4);
        store16(a0 + 32, r9);
        store16(a0 + 34, r11);
        a0[36] = r13 != 0;
        store32(a0 + 40, r17);
        a0[48] = r0_8_0;
        a0[49] = r0_12_0;
        a0[50] = r0_16_0;
        store_size(a0 + 56, (size_t)r0_204_0_shrunk);
        store64(a0 + 64, r0_27_0);
        store64(a0 + 72, r0_28_0);
        store_size(a0 + 80, (size_t)r0_29_0_shrunk);
        store64(a0 + 88, r0_30_0);
        store32(a0 + 96, r0_31_0);
        store32(a0 + 100, r0_32_0);
        store32(a0 + 104, r29);
        store16(a0 + 108, r32);
        return;
    }
arm_2:
    memset(a0, 0, 112);
    return;
}

/* dfuse_host::asking::ask: crates/dfuse_host/src/asking.rt */
static void dfuse_host_asking_ask(unsigned char *a0, unsigned char *a1) {
    _Alignas(8) unsigned char r8[8];
    store64(r8, 0);
    dfuse_host_asking_setup_of(r8, a1);
    uint64_t r0_3_1_copyload = load64(r8);
    *a0 = 0;
    store64u(a0 + 1, r0_3_1_copyload);
    memset(a0 + 9, 0, 5);
    store_size(a0 + 16, (size_t)(uintptr_t)static_20);
    store64(a0 + 24, 0);
    return;
}

/* dfuse_host::asking::setup_of: crates/dfuse_host/src/asking.rt */
static void dfuse_host_asking_setup_of(unsigned char *a0, unsigned char *a1) {
    _Alignas(4) unsigned char r10[10];
    dfu_wire_requests_Request_setup(r10, a1);
    uint8_t r21 = *r10;
    if (r21 != 1) trap();
    uint64_t v1 = load64a2(r10 + 2);
    store64(a0, v1);
    return;
}

/* dfuse_host::plan::Plan::command_of: crates/dfuse_host/src/command.rt */
static struct i8_i64 dfuse_host_plan_Plan_command_of(unsigned char *a0, unsigned char *a1, uint8_t a2, uint64_t a3) {
    uint64_t r1_3_8_copyload, r23_pn;
    struct i8_i64 pn;
    uint8_t r2 = *a1;
    r1_3_8_copyload = load64(a1 + 8);
    switch (r2) {
    case 0: {
        uint64_t r23 = dfuse_host_plan_Plan_page_start(a0, r1_3_8_copyload);
        pn = (struct i8_i64){ 1, 0 };
        r23_pn = r23;
        break;
    }
    case 1:
        pn = (struct i8_i64){ 1, 0 };
        r23_pn = r1_3_8_copyload;
        break;
    case 2:
    case 4: {
        struct i8_i64 r21_half = (struct i8_i64){ 0, 0 };
        r21_half.a = (uint8_t)(((a2 == 1) ? (a3 == r1_3_8_copyload) : 0) ? 2 : 0);
        pn = r21_half;
        r23_pn = r1_3_8_copyload;
        break;
    }
    case 3:
    case 5:
        pn = (struct i8_i64){ 0, 0 };
        r23_pn = r1_3_8_copyload;
        break;
    case 6: {
        uint32_t r39 = load32(a0 + 32);
        pn = (struct i8_i64){ 0, 0 };
        r23_pn = (size_t)r39;
        break;
    }
    default: never();
    }
    struct i8_i64 r59_merged = pn;
    r59_merged.b = r23_pn;
    return r59_merged;
}

/* dfuse_host::plan::Plan::page_start: crates/dfuse_host/src/plan.rt */
static uint64_t dfuse_host_plan_Plan_page_start(unsigned char *a0, uint64_t a1) {
    _Alignas(8) unsigned char r2[32];
    dfuse_host_plan_Plan_page_of(r2, a0, a1);
    uint8_t r4 = *r2;
    uint32_t r1_0_0_copyload = load32(r2 + 8);
    return (uint64_t)((r4 == 0) ? a1 : (size_t)r1_0_0_copyload);
}

/* dfuse_host::plan::Plan::page_of: crates/dfuse_host/src/plan.rt */
static void dfuse_host_plan_Plan_page_of(unsigned char *a0, unsigned char *a1, uint64_t a2) {
    _Alignas(8) unsigned char r4_2[32];
    uint8_t r11;
    uint64_t r3_31_0_copyload, r5_4_4_0;
    uint32_t r5_4_0_0;
    if (a2 > 0xffffffffU) {
        memset(a0, 0, 32);
        return;
    }
    size_t r12_wide = load_size(a1);
    unsigned char *r12 = (unsigned char *)(uintptr_t)r12_wide;
    uint64_t r4 = load64(r12 + 784);
    dfu_formats_memory_lookups_range_at(r4_2, a2, r12 + 16, r4);
    r11 = *r4_2;
    if (r11 != 1) {
        r5_4_0_0 = 0;
        r5_4_4_0 = 0;
    }
    else {
        r3_31_0_copyload = load64(r4_2 + 16);
        if (r3_31_0_copyload == 0) trap();
        uint32_t r3_0_0_copyload = load32(r4_2 + 8);
        uint64_t r13 = a2 - (uint64_t)(size_t)r3_0_0_copyload;
        r5_4_0_0 = r3_0_0_copyload + (uint32_t)((size_t)r13 - (size_t)(r13 % r3_31_0_copyload));
        r5_4_4_0 = r3_31_0_copyload;
    }
    store_size(a0, (size_t)r11);
    store32(a0 + 8, r5_4_0_0);
    store64(a0 + 16, r5_4_4_0);
    return;
}

/* dfu_formats::memory::lookups::range_at: crates/dfu_formats/src/memory/lookups.rt */
static void dfu_formats_memory_lookups_range_at(unsigned char *a0, uint64_t a1, unsigned char *a2, uint64_t a3) {
    _Alignas(8) unsigned char r0_5[24];
    uint64_t r3_0;
    unsigned char *r23;
    size_t r7;
    r3_0 = 0;
    while (r3_0 != a3) {
        r23 = a2 + ((size_t)r3_0 * 24);
        uint32_t r5 = load32(r23);
        r7 = (size_t)r5;
        if (a1 >= (uint64_t)r7) {
            uint32_t r11 = load32(r23 + 16);
            uint64_t r15 = load64(r23 + 8);
            if (a1 < ((r15 * (uint64_t)(size_t)r11) + (uint64_t)r7)) goto then_8;
        }
        r3_0 = r3_0 + 1;
    }
    memset(a0, 0, 32);
    return;
then_8:
    memcpy(r0_5, r23, 24);
    store_size(a0, 1);
    memcpy(a0 + 8, r0_5, 24);
    return;
}

/* dfuse_host::asking::address_command: crates/dfuse_host/src/asking.rt */
static void dfuse_host_asking_address_command(unsigned char *a0, uint8_t a1, size_t a2) {
    _Alignas(8) unsigned char r17[8];
    _Alignas(4) unsigned char r18[6];
    store64(r17, 0);
    store16(r18, 1);
    store16(r18 + 2, 0);
    store16(r18 + 4, 5);
    dfuse_host_asking_setup_of(r17, r18);
    uint64_t r0_3_1_copyload = load64(r17);
    *a0 = 1;
    store64u(a0 + 1, r0_3_1_copyload);
    a0[9] = a1;
    store32a2(a0 + 10, (uint32_t)a2);
    memset(a0 + 16, 0, 16);
    return;
}

/* dfuse_host::plan::Plan::end_of_work: crates/dfuse_host/src/command.rt */
static uint64_t dfuse_host_plan_Plan_end_of_work(unsigned char *a0, unsigned char *a1) {
    uint64_t r9_0;
    uint8_t r2 = *a1;
    switch (r2) {
    case 1:
    case 2: {
        uint64_t r1_4_16_copyload = load64(a1 + 16);
        r9_0 = r1_4_16_copyload;
        break;
    }
    case 0:
    case 3: {
        size_t r10_0_0_copyload = load_size(a0 + 8);
        size_t r10_3_0_copyload = load_size(a0 + 16);
        uint64_t r20 = dfuse_host_image_image_end((unsigned char *)(uintptr_t)r10_0_0_copyload, r10_3_0_copyload);
        r9_0 = r20;
        break;
    }
    case 4:
    case 5: {
        uint64_t r21 = dfuse_host_plan_Plan_front_end(a0);
        r9_0 = r21;
        break;
    }
    case 6:
        r9_0 = 0;
        break;
    default: never();
    }
    return r9_0;
}

/* dfuse_host::image::image_end: crates/dfuse_host/src/image.rt */
static uint64_t dfuse_host_image_image_end(unsigned char *a0, size_t a1) {
    size_t r4_0;
    uint64_t r3_0;
    r4_0 = 0;
    r3_0 = 0;
    while (r4_0 != a1) {
        unsigned char *r23 = a0 + (r4_0 * 24);
        uint32_t r5 = load32(r23);
        uint64_t r10 = load64(r23 + 16);
        r4_0 = r4_0 + 1;
        r3_0 = umax64(r3_0, r10 + (uint64_t)(size_t)r5);
    }
    return r3_0;
}

/* dfuse_host::plan::Plan::front_end: crates/dfuse_host/src/plan.rt */
static uint64_t dfuse_host_plan_Plan_front_end(unsigned char *a0) {
    size_t common_ret_op;
    size_t r2_3_0_copyload = load_size(a0 + 16);
    if (r2_3_0_copyload == 0) common_ret_op = 0;
    else {
        size_t r2_0_0_copyload = load_size(a0 + 8);
        uint32_t r18 = load32((unsigned char *)(uintptr_t)r2_0_0_copyload);
        common_ret_op = (size_t)r18;
    }
    uint16_t r15 = load16(a0 + 26);
    uint64_t r22 = dfuse_host_plan_Plan_element_end(a0, common_ret_op);
    uint64_t r24 = dfuse_host_plan_Plan_page_end(a0, common_ret_op);
    return umin64(umin64(r24, r22), (uint64_t)common_ret_op + (uint64_t)(size_t)r15);
}

/* dfuse_host::plan::Plan::element_end: crates/dfuse_host/src/plan.rt */
static uint64_t dfuse_host_plan_Plan_element_end(unsigned char *a0, uint64_t a1) {
    _Alignas(8) unsigned char r2[32];
    size_t r3_0_0_copyload = load_size(a0 + 8);
    size_t r3_3_0_copyload = load_size(a0 + 16);
    dfuse_host_image_element_at(r2, a1, (unsigned char *)(uintptr_t)r3_0_0_copyload, r3_3_0_copyload);
    uint8_t r10 = *r2;
    uint32_t r1_0_0_copyload = load32(r2 + 8);
    uint64_t r1_31_0_copyload = load64(r2 + 24);
    return (uint64_t)((r10 == 0) ? a1 : (r1_31_0_copyload + (uint64_t)(size_t)r1_0_0_copyload));
}

/* dfuse_host::image::element_at: crates/dfuse_host/src/image.rt */
static void dfuse_host_image_element_at(unsigned char *a0, uint64_t a1, unsigned char *a2, size_t a3) {
    _Alignas(8) unsigned char r0_5[24];
    size_t r3_0, r7;
    unsigned char *r23;
    r3_0 = 0;
    while (r3_0 != a3) {
        r23 = a2 + (r3_0 * 24);
        uint32_t r5 = load32(r23);
        r7 = (size_t)r5;
        if (a1 >= (uint64_t)r7) {
            uint64_t r10 = load64(r23 + 16);
            if (a1 < (r10 + (uint64_t)r7)) goto then_8;
        }
        r3_0 = r3_0 + 1;
    }
    memset(a0, 0, 32);
    return;
then_8:
    memcpy(r0_5, r23, 24);
    store_size(a0, 1);
    memcpy(a0 + 8, r0_5, 24);
    return;
}

/* dfuse_host::plan::Plan::page_end: crates/dfuse_host/src/plan.rt */
static uint64_t dfuse_host_plan_Plan_page_end(unsigned char *a0, uint64_t a1) {
    _Alignas(8) unsigned char r2[32];
    dfuse_host_plan_Plan_page_of(r2, a0, a1);
    uint8_t r5 = *r2;
    uint32_t r1_0_0_copyload = load32(r2 + 8);
    uint64_t r1_31_0_copyload = load64(r2 + 16);
    return (uint64_t)((r5 == 0) ? a1 : (r1_31_0_copyload + (uint64_t)(size_t)r1_0_0_copyload));
}

/* dfuse_host::plan::Plan::write_end: crates/dfuse_host/src/plan.rt */
static uint64_t dfuse_host_plan_Plan_write_end(unsigned char *a0, uint64_t a1, uint64_t a2) {
    uint16_t r4 = load16(a0 + 24);
    uint64_t r10 = dfuse_host_plan_Plan_element_end(a0, a1);
    uint64_t r11 = dfuse_host_plan_Plan_page_end(a0, a1);
    return umin64(umin64(a2, umin64(r11, r10)), uadd_sat64((size_t)umax16(r4, 1), a1));
}

/* dfuse_host::plan::Plan::bytes_in: crates/dfuse_host/src/asking.rt */
static struct ptr_i64 dfuse_host_plan_Plan_bytes_in(unsigned char *a0, uint64_t a1, uint64_t a2) {
    _Alignas(8) unsigned char r4[32];
    uint64_t r0_4_0;
    unsigned char *r0_0_0;
    size_t r5_0_0_copyload = load_size(a0 + 8);
    size_t r5_3_0_copyload = load_size(a0 + 16);
    dfuse_host_image_element_at(r4, a1, (unsigned char *)(uintptr_t)r5_0_0_copyload, r5_3_0_copyload);
    uint8_t r21 = *r4;
    if (r21 != 1) {
        r0_4_0 = 0;
        r0_0_0 = PLACE(static_20);
    }
    else {
        uint32_t r1_0_0_copyload = load32(r4 + 8);
        size_t r1_34_0_copyload = load_size(r4 + 16);
        uint64_t r1_4_0_copyload = load64(r4 + 24);
        uint64_t r31 = a1 - (uint64_t)(size_t)r1_0_0_copyload;
        r0_4_0 = umin64(usub_sat64(a2, a1), r1_4_0_copyload - r31);
        r0_0_0 = (unsigned char *)(uintptr_t)r1_34_0_copyload + (size_t)r31;
    }
    struct ptr_i64 r49_half = (struct ptr_i64){ 0, 0 };
    r49_half.a = r0_0_0;
    struct ptr_i64 r49 = r49_half;
    r49.b = r0_4_0;
    return r49;
}

/* dfuse_host::plan::Plan::read_bytes: crates/dfuse_host/src/asking.rt */
static struct ptr_i64 dfuse_host_plan_Plan_read_bytes(unsigned char *a0, unsigned char *a1) {
    uint8_t r2 = *a1;
    uint64_t v0 = load64(a1 + 8);
    uint64_t spec_select = (uint64_t)((r2 == 6) ? 0 : v0);
    uint64_t r12 = dfuse_host_plan_Plan_end_of_work(a0, a1);
    uint64_t r15 = dfuse_host_plan_Plan_read_end(a0, spec_select, r12);
    struct ptr_i64 r18 = dfuse_host_plan_Plan_bytes_in(a0, spec_select, r15);
    return r18;
}

/* dfuse_host::plan::Plan::read_end: crates/dfuse_host/src/plan.rt */
static uint64_t dfuse_host_plan_Plan_read_end(unsigned char *a0, uint64_t a1, uint64_t a2) {
    uint16_t r4 = load16(a0 + 24);
    uint64_t r8 = dfuse_host_plan_Plan_element_end(a0, a1);
    return umin64(umin64(a2, r8), uadd_sat64((size_t)umax16(r4, 1), a1));
}

/* dfuse_host::asking::download: crates/dfuse_host/src/asking.rt */
static void dfuse_host_asking_download(unsigned char *a0, unsigned char *a1, uint64_t a2) {
    _Alignas(8) unsigned char r5[8];
    _Alignas(4) unsigned char r6[6];
    store64(r5, 0);
    store16(r6, 1);
    store16(r6 + 2, 2);
    store16(r6 + 4, (uint16_t)a2);
    dfuse_host_asking_setup_of(r5, r6);
    uint64_t r0_3_1_copyload = load64(r5);
    *a0 = 0;
    store64u(a0 + 1, r0_3_1_copyload);
    memset(a0 + 9, 0, 5);
    store_size(a0 + 16, (size_t)(uintptr_t)a1);
    store64(a0 + 24, a2);
    return;
}

/* dfu_host_c::dfuse::reports::report_numbers: crates/dfu_host_c/src/dfuse/reports.rt */
static struct i32_i32 dfu_host_c_dfuse_reports_report_numbers(uint8_t a0, uint8_t a1) {
    uint32_t r5_0_0;
    uint8_t r5_9_0_shrunk;
    switch (a0) {
    case 0:
        r5_0_0 = 1;
        r5_9_0_shrunk = a1;
        break;
    case 1:
        r5_0_0 = 2;
        r5_9_0_shrunk = 0;
        break;
    case 2:
        r5_0_0 = 3;
        r5_9_0_shrunk = a1;
        break;
    case 3:
        r5_0_0 = 4;
        r5_9_0_shrunk = 0;
        break;
    case 4:
        r5_0_0 = 5;
        r5_9_0_shrunk = 0;
        break;
    case 5:
        r5_0_0 = 6;
        r5_9_0_shrunk = 0;
        break;
    case 6:
        r5_0_0 = 7;
        r5_9_0_shrunk = 0;
        break;
    default: never();
    }
    struct i32_i32 r24_half = (struct i32_i32){ 0, 0 };
    r24_half.a = r5_0_0;
    struct i32_i32 r24 = r24_half;
    r24.b = (uint32_t)r5_9_0_shrunk;
    return r24;
}

/* dfuse_host::plan::Plan::grants: crates/dfuse_host/src/refusing.rt */
static uint8_t dfuse_host_plan_Plan_grants(unsigned char *a0, unsigned char *a1) {
    _Alignas(8) unsigned char r7[32];
    size_t r2_3_0_copyload, r3_0;
    unsigned char *r26, *r21, *r5_36_0_r21_sroa_idx, *r5_4_0_r21_sroa_idx, *r5_5_0_r21_sroa_idx, *r5_6_0_r21_sroa_idx, *r5_7_0_r21_sroa_idx, *r5;
    uint8_t r15, r31, r50, or_cond_old, r3_04;
    uint64_t r14, r4, r4_0, r5_36_0_copyload;
    uint32_t r5_0_0_copyload, r5_4_0_copyload;
    uint8_t r5_7_0_copyload;
    uint8_t r1_0_0_copyload = *a1;
    uint8_t r1_3_0_copyload = a1[1];
    uint8_t r1_4_0_copyload = a1[2];
    size_t r2_0_0_copyload = load_size(a0 + 8);
    r2_3_0_copyload = load_size(a0 + 16);
    r26 = (unsigned char *)(uintptr_t)r2_0_0_copyload;
    r21 = r7 + 8;
    r5_36_0_r21_sroa_idx = r7 + 16;
    r5_4_0_r21_sroa_idx = r7 + 24;
    r5_5_0_r21_sroa_idx = r7 + 28;
    r5_6_0_r21_sroa_idx = r7 + 29;
    r5_7_0_r21_sroa_idx = r7 + 30;
    r15 = !(r1_0_0_copyload & 1);
    r31 = !(r1_3_0_copyload & 1);
    r50 = !(r1_4_0_copyload & 1);
    r3_0 = 0;
    for (;;) {
        if (r3_0 == r2_3_0_copyload) {
            r3_04 = 1;
            goto common_ret;
        }
        unsigned char *r28 = r26 + (r3_0 * 24);
        size_t r30_wide = load_size(a0);
        unsigned char *r30 = (unsigned char *)(uintptr_t)r30_wide;
        uint32_t r32 = load32(r28);
        size_t r34 = (size_t)r32;
        uint64_t r10 = load64(r28 + 16);
        r14 = r10 + (uint64_t)r34;
        r5 = r30 + 16;
        r4 = load64(r30 + 784);
        r4_0 = r34;
        while (r4_0 < r14) {
            dfu_formats_memory_lookups_range_at(r7, r4_0, r5, r4);
            uint8_t r20 = *r7;
            if (r20 != 1) goto dfu_formats_memory_map_Map_grants_exit_thread;
            r5_0_0_copyload = load32(r21);
            r5_36_0_copyload = load64(r5_36_0_r21_sroa_idx);
            r5_4_0_copyload = load32(r5_4_0_r21_sroa_idx);
            uint8_t r5_5_0_copyload = *r5_5_0_r21_sroa_idx;
            uint8_t r5_6_0_copyload = *r5_6_0_r21_sroa_idx;
            r5_7_0_copyload = *r5_7_0_r21_sroa_idx;
            or_cond_old = (r5_6_0_copyload & 1) ? 1 : r31;
            if (r5_5_0_copyload & 1) {
                if (!(or_cond_old ? ((r5_7_0_copyload & 1) ? 1 : r50) : 0)) goto dfu_formats_memory_map_Map_grants_exit_thread;
            }
            else {
                if (!((r15 ? or_cond_old : 0) ? ((r5_7_0_copyload & 1) ? 1 : r50) : 0)) goto dfu_formats_memory_map_Map_grants_exit_thread;
            }
            r4_0 = (r5_36_0_copyload * (uint64_t)(size_t)r5_4_0_copyload) + (uint64_t)(size_t)r5_0_0_copyload;
        }
        r3_0 = r3_0 + 1;
    }
dfu_formats_memory_map_Map_grants_exit_thread:
    r3_04 = r3_0 >= r2_3_0_copyload;
common_ret:
    return r3_04;
}

/* dfu_host_c::dfuse::holding::record_of: crates/dfu_host_c/src/dfuse/holding.rt */
static void dfu_host_c_dfuse_holding_record_of(unsigned char *a0, unsigned char *a1) {
    uint64_t r2_92_8_copyload, r2_10_8_copyload, r2_123_8_copyload, r16_91_0, r16_16_0, spec_select, r12_5_0, r12_7_0, r12_12_0;
    uint8_t r2_11_8_copyload, r2_13_8_copyload, r2_71_8_copyload, r12_0_0_shrunk, r12_9_0_shrunk;
    uint32_t r2_144_8_copyload, r12_14_0, r12_16_0, r12_18_0;
    uint8_t v0 = a1[40];
    r2_92_8_copyload = load64(a1 + 56);
    r2_10_8_copyload = load64(a1 + 64);
    r2_11_8_copyload = a1[72];
    r2_123_8_copyload = load64(a1 + 80);
    r2_13_8_copyload = a1[88];
    r2_144_8_copyload = load32(a1 + 92);
    if (v0 != 0) {
        uint8_t v3 = a1[42];
        uint8_t v4 = a1[41];
        struct i32_i32 r22 = dfu_host_c_dfuse_reports_report_numbers(v4, v3);
        r12_0_0_shrunk = 7;
        r12_5_0 = 0;
        r12_7_0 = 0;
        r12_9_0_shrunk = 0;
        r12_12_0 = 0;
        r12_14_0 = 0;
        r12_16_0 = r22.b;
        r12_18_0 = r22.a;
    }
    else {
        r2_71_8_copyload = a1[48];
        switch (r2_71_8_copyload) {
        case 0:
        case 3:
        case 4:
        case 5:
            r16_91_0 = r2_92_8_copyload;
            r16_16_0 = 0;
            break;
        case 1:
        case 2:
            r16_91_0 = r2_92_8_copyload;
            r16_16_0 = r2_10_8_copyload;
            break;
        case 6:
            r16_91_0 = 0;
            r16_16_0 = 0;
            break;
        default: never();
        }
        spec_select = (uint64_t)((r2_11_8_copyload == 0) ? 0 : r2_123_8_copyload);
        switch (r2_13_8_copyload) {
        case 0:
            r12_0_0_shrunk = r2_71_8_copyload;
            r12_5_0 = r16_91_0;
            r12_7_0 = r16_16_0;
            r12_9_0_shrunk = r2_11_8_copyload;
            r12_12_0 = spec_select;
            r12_14_0 = 0;
            r12_16_0 = 0;
            r12_18_0 = 0;
            break;
        case 1:
            r12_0_0_shrunk = r2_71_8_copyload;
            r12_5_0 = r16_91_0;
            r12_7_0 = r16_16_0;
            r12_9_0_shrunk = r2_11_8_copyload;
            r12_12_0 = spec_select;
            r12_14_0 = 1;
            r12_16_0 = 0;
            r12_18_0 = 0;
            break;
        case 2:
            r12_0_0_shrunk = r2_71_8_copyload;
            r12_5_0 = r16_91_0;
            r12_7_0 = r16_16_0;
            r12_9_0_shrunk = r2_11_8_copyload;
            r12_12_0 = spec_select;
            r12_14_0 = 2;
            r12_16_0 = 0;
            r12_18_0 = 0;
            break;
        case 3:
            r12_0_0_shrunk = r2_71_8_copyload;
            r12_5_0 = r16_91_0;
            r12_7_0 = r16_16_0;
            r12_9_0_shrunk = r2_11_8_copyload;
            r12_12_0 = spec_select;
            r12_14_0 = 3;
            r12_16_0 = r2_144_8_copyload;
            r12_18_0 = 0;
            break;
        case 4:
            r12_0_0_shrunk = r2_71_8_copyload;
            r12_5_0 = r16_91_0;
            r12_7_0 = r16_16_0;
            r12_9_0_shrunk = r2_11_8_copyload;
            r12_12_0 = spec_select;
            r12_14_0 = 4;
            r12_16_0 = 0;
            r12_18_0 = 0;
            break;
        case 5:
            r12_0_0_shrunk = r2_71_8_copyload;
            r12_5_0 = r16_91_0;
            r12_7_0 = r16_16_0;
            r12_9_0_shrunk = r2_11_8_copyload;
            r12_12_0 = spec_select;
            r12_14_0 = 5;
            r12_16_0 = 0;
            r12_18_0 = 0;
            break;
        case 6:
            r12_0_0_shrunk = r2_71_8_copyload;
            r12_5_0 = r16_91_0;
            r12_7_0 = r16_16_0;
            r12_9_0_shrunk = r2_11_8_copyload;
            r12_12_0 = spec_select;
            r12_14_0 = 6;
            r12_16_0 = 0;
            r12_18_0 = 0;
            break;
        case 7:
            r12_0_0_shrunk = r2_71_8_copyload;
            r12_5_0 = r16_91_0;
            r12_7_0 = r16_16_0;
            r12_9_0_shrunk = r2_11_8_copyload;
            r12_12_0 = spec_select;
            r12_14_0 = 7;
            r12_16_0 = r2_144_8_copyload;
            r12_18_0 = 0;
            break;
        case 8:
            r12_0_0_shrunk = r2_71_8_copyload;
            r12_5_0 = r16_91_0;
            r12_7_0 = r16_16_0;
            r12_9_0_shrunk = r2_11_8_copyload;
            r12_12_0 = spec_select;
            r12_14_0 = 8;
            r12_16_0 = r2_144_8_copyload;
            r12_18_0 = 0;
            break;
        case 9:
            r12_0_0_shrunk = r2_71_8_copyload;
            r12_5_0 = r16_91_0;
            r12_7_0 = r16_16_0;
            r12_9_0_shrunk = r2_11_8_copyload;
            r12_12_0 = spec_select;
            r12_14_0 = 9;
            r12_16_0 = 0;
            r12_18_0 = 0;
            break;
        case 10:
            r12_0_0_shrunk = r2_71_8_copyload;
            r12_5_0 = r16_91_0;
            r12_7_0 = r16_16_0;
            r12_9_0_shrunk = r2_11_8_copyload;
            r12_12_0 = spec_select;
            r12_14_0 = 10;
            r12_16_0 = 0;
            r12_18_0 = 0;
            break;
        case 11:
            r12_0_0_shrunk = r2_71_8_copyload;
            r12_5_0 = r16_91_0;
            r12_7_0 = r16_16_0;
            r12_9_0_shrunk = r2_11_8_copyload;
            r12_12_0 = spec_select;
            r12_14_0 = 11;
            r12_16_0 = 0;
            r12_18_0 = 0;
            break;
        case 12:
            r12_0_0_shrunk = r2_71_8_copyload;
            r12_5_0 = r16_91_0;
            r12_7_0 = r16_16_0;
            r12_9_0_shrunk = r2_11_8_copyload;
            r12_12_0 = spec_select;
            r12_14_0 = 12;
            r12_16_0 = 0;
            r12_18_0 = 0;
            break;
        case 13:
            r12_0_0_shrunk = r2_71_8_copyload;
            r12_5_0 = r16_91_0;
            r12_7_0 = r16_16_0;
            r12_9_0_shrunk = r2_11_8_copyload;
            r12_12_0 = spec_select;
            r12_14_0 = 13;
            r12_16_0 = 0;
            r12_18_0 = 0;
            break;
        case 14:
            r12_0_0_shrunk = r2_71_8_copyload;
            r12_5_0 = r16_91_0;
            r12_7_0 = r16_16_0;
            r12_9_0_shrunk = r2_11_8_copyload;
            r12_12_0 = spec_select;
            r12_14_0 = 14;
            r12_16_0 = 0;
            r12_18_0 = 0;
            break;
        default: never();
        }
    }
    uint32_t r19 = load32(a1 + 32);
    uint32_t r21 = load32(a1 + 96);
    uint16_t r23 = load16(a1 + 100);
    uint16_t r25 = load16(a1 + 24);
    uint16_t r27 = load16(a1 + 26);
    uint8_t r29 = a1[28];
    store32(a0, 300);
    store32(a0 + 4, (uint32_t)r12_0_0_shrunk);
    store64(a0 + 8, r12_5_0);
    store64(a0 + 16, r12_7_0);
    store64(a0 + 24, r12_12_0);
    store32(a0 + 32, (uint32_t)r12_9_0_shrunk);
    store32(a0 + 36, r12_14_0);
    store32(a0 + 40, r12_16_0);
    store32(a0 + 44, r12_18_0);
    store32(a0 + 48, r19);
    store32(a0 + 52, r21);
    store16(a0 + 56, r23);
    store16(a0 + 58, r25);
    store16(a0 + 60, r27);
    store16(a0 + 62, r29);
    return;
}

/* dfuse_host::session::Session::take_restart: crates/dfuse_host/src/session.rt */
static void dfuse_host_session_Session_take_restart(unsigned char *a0, unsigned char *a1, unsigned char *a2) {
    _Alignas(8) unsigned char r0[104];
    unsigned char *const r1_0 = r0;
    _Alignas(8) unsigned char r10[104];
    unsigned char *const r4 = r10;
    unsigned char *const r8 = r10;
    _Alignas(8) unsigned char r3[56];
    uint16_t r1_5_0_copyload;
    uint8_t r2_0_0_copyload, r2_5_0_copyload, r2_7_0_copyload, v0, v1, v2;
    uint64_t r2_38_0_copyload, r2_4_0_copyload, r2_69_0_copyload;
    memcpy(r1_0, a1, 100);
    r1_5_0_copyload = load16(a1 + 100);
    r2_0_0_copyload = *a2;
    r2_38_0_copyload = load64(a2 + 8);
    r2_4_0_copyload = load64(a2 + 16);
    r2_5_0_copyload = a2[24];
    r2_69_0_copyload = load64(a2 + 32);
    r2_7_0_copyload = a2[40];
    memset(r8, 0, 56);
    if (r1_5_0_copyload == 0) {
        *r8 = 1;
        r8[1] = 5;
        dfuse_host_session_Session_spend_action(r0, a1, r8, 0);
    }
    else {
        if ((uint8_t)(r2_7_0_copyload + 249) >= 2) {
            store_size(r4 + 8, (size_t)r2_0_0_copyload);
            store64(r4 + 16, r2_38_0_copyload);
            store64(r4 + 24, r2_4_0_copyload);
            memset(r4 + 32, 0, 24);
            v0 = 0;
            v1 = 0;
            v2 = 0;
        }
        else {
            struct i8_i64 r35 = dfuse_host_plan_Plan_command_of(a1, a2, r2_5_0_copyload, r2_69_0_copyload);
            dfuse_host_plan_Plan_phase_when_unsure(r4, a1, a2, r35.a);
            uint8_t pre = *r4;
            uint8_t pre10 = r4[1];
            uint8_t pre11 = r4[2];
            v0 = pre11;
            v1 = pre10;
            v2 = pre;
        }
        *r3 = v2;
        r3[1] = v1;
        r3[2] = v0;
        memcpy(r3 + 8, r4 + 8, 48);
        memcpy(r10, r1_0, 100);
        dfuse_host_session_Session_spend_action(r0, r10, r3, (uint16_t)(r1_5_0_copyload + 0xffffU));
    }
    memcpy(a0, r0, 104);
    return;
}

/* dfuse_host::plan::Plan::phase_when_unsure: crates/dfuse_host/src/command.rt */
static void dfuse_host_plan_Plan_phase_when_unsure(unsigned char *a0, unsigned char *a1, unsigned char *a2, uint8_t a3) {
    uint8_t r2, r11_1017_0_in;
    uint64_t v0, v1, r11_13_0, r11_15_0;
    r2 = *a2;
    v0 = load64(a2 + 8);
    v1 = load64(a2 + 16);
    if (a3 != 2) {
        r11_1017_0_in = r2;
        r11_13_0 = v0;
        r11_15_0 = v1;
    }
    else {
        switch (r2) {
        case 2: {
            uint64_t r24 = dfuse_host_plan_Plan_page_start(a1, v0);
            r11_1017_0_in = 1;
            r11_13_0 = r24;
            r11_15_0 = v1;
            break;
        }
        case 4: {
            uint64_t r32 = dfuse_host_plan_Plan_page_start(a1, v0);
            uint64_t r34 = dfuse_host_plan_Plan_page_end(a1, v0);
            size_t r17_0_0_copyload = load_size(a1 + 8);
            size_t r17_3_0_copyload = load_size(a1 + 16);
            uint64_t r39 = dfuse_host_image_image_end((unsigned char *)(uintptr_t)r17_0_0_copyload, r17_3_0_copyload);
            r11_1017_0_in = 1;
            r11_13_0 = r32;
            r11_15_0 = umin64(r39, r34);
            break;
        }
        case 0:
        case 1:
        case 3:
        case 5:
        case 6:
            r11_1017_0_in = r2;
            r11_13_0 = v0;
            r11_15_0 = v1;
            break;
        default: never();
        }
    }
    *a0 = 0;
    a0[1] = 0;
    a0[2] = 0;
    store_size(a0 + 8, (size_t)r11_1017_0_in);
    store64(a0 + 16, r11_13_0);
    store64(a0 + 24, r11_15_0);
    memset(a0 + 32, 0, 24);
    return;
}

/* dfuse_host::plan::Plan::settle: crates/dfuse_host/src/settling.rt */
static void dfuse_host_plan_Plan_settle(unsigned char *a0, unsigned char *a1, unsigned char *a2, uint8_t a3, uint64_t a4) {
    _Alignas(8) unsigned char r19[56];
    uint64_t r1_3_8_copyload, r1_10_16_copyload, r5_29_0;
    uint8_t r5_0_0;
    size_t r5_1640_0, r5_26_0;
    uint32_t r5_32_0;
    uint8_t r2 = *a2;
    r1_3_8_copyload = load64(a2 + 8);
    r1_10_16_copyload = load64(a2 + 16);
    memset(r19, 0, 56);
    switch (r2) {
    case 0:
        dfuse_host_plan_Plan_to_erase(r19, a1, a3, a4, r1_3_8_copyload);
        break;
    case 1:
        store_size(r19 + 8, 1);
        store64(r19 + 16, r1_3_8_copyload);
        store64(r19 + 24, r1_10_16_copyload);
        store_size(r19 + 32, (size_t)a3);
        store64(r19 + 40, a4);
        store32(r19 + 48, (uint32_t)((a3 == 2) ? 10 : 5));
        break;
    case 2:
        dfuse_host_plan_Plan_to_write(r19, a1, a3, a4, r1_3_8_copyload, r1_10_16_copyload);
        break;
    case 3:
        dfuse_host_plan_Plan_to_compare(r19, a1, a3, a4, r1_3_8_copyload);
        break;
    case 4:
        dfuse_host_plan_Plan_to_write_front(r19, a1, a3, a4, r1_3_8_copyload);
        break;
    case 5:
        dfuse_host_plan_Plan_to_compare_front(r19, a1, a3, a4, r1_3_8_copyload);
        break;
    case 6:
        if (a3 == 2) {
            r5_0_0 = 0;
            r5_1640_0 = 6;
            r5_26_0 = 2;
            r5_29_0 = a4;
            r5_32_0 = 10;
        }
        else {
            uint8_t r21 = a1[28];
            if (!(r21 & 1)) {
                r5_0_0 = 1;
                r5_1640_0 = 0;
                r5_26_0 = 0;
                r5_29_0 = 0;
                r5_32_0 = 0;
            }
            else {
                if (a3 != 0) {
                    uint32_t r38 = load32(a1 + 32);
                    if (a4 == (uint64_t)(size_t)r38) {
                        r5_0_0 = 0;
                        r5_1640_0 = 6;
                        r5_26_0 = 1;
                        r5_29_0 = a4;
                        r5_32_0 = 12;
                        goto dfuse_host_plan_Plan_to_leave_exit;
                    }
                }
                r5_0_0 = 0;
                r5_1640_0 = 6;
                r5_26_0 = (size_t)a3;
                r5_29_0 = a4;
                r5_32_0 = 5;
            }
        }
dfuse_host_plan_Plan_to_leave_exit:
        *r19 = r5_0_0;
        store_size(r19 + 8, r5_1640_0);
        memset(r19 + 16, 0, 16);
        store_size(r19 + 32, r5_26_0);
        store64(r19 + 40, r5_29_0);
        store32(r19 + 48, r5_32_0);
        break;
    default: never();
    }
    uint8_t v3 = *r19;
    uint8_t v4 = r19[1];
    uint8_t v5 = r19[2];
    *a0 = v3;
    a0[1] = v4;
    a0[2] = v5;
    memcpy(a0 + 8, r19 + 8, 48);
    return;
}

/* dfuse_host::plan::Plan::to_erase: crates/dfuse_host/src/settling.rt */
static void dfuse_host_plan_Plan_to_erase(unsigned char *a0, unsigned char *a1, uint8_t a2, uint64_t a3, uint64_t a4) {
    _Alignas(8) unsigned char r8[56];
    unsigned char *r14, *r7_3_0_r14_sroa_idx;
    struct i8_i64 r20;
    uint8_t v2, v3, v4;
    memset(r8, 0, 56);
    r14 = a1 + 8;
    size_t r7_0_0_copyload = load_size(r14);
    r7_3_0_r14_sroa_idx = a1 + 16;
    size_t r7_3_0_copyload = load_size(r7_3_0_r14_sroa_idx);
    uint64_t r18 = dfuse_host_image_image_end((unsigned char *)(uintptr_t)r7_0_0_copyload, r7_3_0_copyload);
    r20 = dfuse_host_plan_Plan_byte_in(a1, a4, r18);
    if (r20.a != 0) {
        store64(r8 + 16, r20.b);
        store_size(r8 + 32, (size_t)a2);
        store64(r8 + 40, a3);
        store32(r8 + 48, (uint32_t)((a2 == 2) ? 10 : 5));
        v2 = 0;
        v3 = 0;
        v4 = 0;
    }
    else {
        uint64_t r26 = dfuse_host_plan_Plan_front_end(a1);
        size_t r11_0_0_copyload = load_size(r14);
        size_t r11_3_0_copyload = load_size(r7_3_0_r14_sroa_idx);
        uint64_t r31 = dfuse_host_image_image_end((unsigned char *)(uintptr_t)r11_0_0_copyload, r11_3_0_copyload);
        dfuse_host_plan_Plan_to_write(r8, a1, a2, a3, r26, r31);
        uint8_t pre = *r8;
        uint8_t pre6 = r8[1];
        uint8_t pre7 = r8[2];
        v2 = pre7;
        v3 = pre6;
        v4 = pre;
    }
    *a0 = v4;
    a0[1] = v3;
    a0[2] = v2;
    memcpy(a0 + 8, r8 + 8, 48);
    return;
}

/* dfuse_host::plan::Plan::byte_in: crates/dfuse_host/src/settling.rt */
static struct i8_i64 dfuse_host_plan_Plan_byte_in(unsigned char *a0, uint64_t a1, uint64_t a2) {
    size_t r3_3_0_copyload, r3_0, r7_2;
    unsigned char *r7;
    uint8_t exitcond_not_not_not_not_not_not_not_not_not_not_not;
    uint64_t r0_4_0;
    size_t r3_0_0_copyload = load_size(a0 + 8);
    r3_3_0_copyload = load_size(a0 + 16);
    r7 = (unsigned char *)(uintptr_t)r3_0_0_copyload;
    r3_0 = 0;
    for (;;) {
        exitcond_not_not_not_not_not_not_not_not_not_not_not = r3_0 != r3_3_0_copyload;
        if (!exitcond_not_not_not_not_not_not_not_not_not_not_not) {
            r0_4_0 = 0;
            goto dfuse_host_image_next_byte_exit;
        }
        unsigned char *r26 = r7 + (r3_0 * 24);
        uint32_t r5 = load32(r26);
        r7_2 = (size_t)r5;
        uint64_t r10 = load64(r26 + 16);
        if (a1 < (r10 + (uint64_t)r7_2)) break;
        r3_0 = r3_0 + 1;
    }
    r0_4_0 = umax64(r7_2, a1);
dfuse_host_image_next_byte_exit:;
    uint8_t or_cond = exitcond_not_not_not_not_not_not_not_not_not_not_not & (r0_4_0 < a2);
    struct i8_i64 r29_half = (struct i8_i64){ 0, 0 };
    r29_half.a = or_cond;
    struct i8_i64 r29 = r29_half;
    r29.b = (uint64_t)(or_cond ? r0_4_0 : 0);
    return r29;
}

/* dfuse_host::plan::Plan::to_write: crates/dfuse_host/src/settling.rt */
static void dfuse_host_plan_Plan_to_write(unsigned char *a0, unsigned char *a1, uint8_t a2, uint64_t a3, uint64_t a4, uint64_t a5) {
    _Alignas(8) unsigned char r6[56];
    struct i8_i64 r10;
    uint8_t v2, v3, v4;
    memset(r6, 0, 56);
    r10 = dfuse_host_plan_Plan_byte_in(a1, a4, a5);
    if (r10.a == 0) {
        uint64_t r16 = dfuse_host_plan_Plan_front_end(a1);
        dfuse_host_plan_Plan_to_compare(r6, a1, a2, a3, r16);
        uint8_t pre = *r6;
        uint8_t pre6 = r6[1];
        uint8_t pre7 = r6[2];
        v2 = pre7;
        v3 = pre6;
        v4 = pre;
    }
    else {
        store_size(r6 + 8, 2);
        store64(r6 + 16, r10.b);
        store64(r6 + 24, a5);
        store_size(r6 + 32, (size_t)a2);
        store64(r6 + 40, a3);
        store32(r6 + 48, (uint32_t)((a2 == 2) ? 10 : 5));
        v2 = 0;
        v3 = 0;
        v4 = 0;
    }
    *a0 = v4;
    a0[1] = v3;
    a0[2] = v2;
    memcpy(a0 + 8, r6 + 8, 48);
    return;
}

/* dfuse_host::plan::Plan::to_compare: crates/dfuse_host/src/settling.rt */
static void dfuse_host_plan_Plan_to_compare(unsigned char *a0, unsigned char *a1, uint8_t a2, uint64_t a3, uint64_t a4) {
    _Alignas(8) unsigned char r8[56];
    size_t r7_3_0_copyload, common_ret_op;
    unsigned char *r14;
    struct i8_i64 r19;
    uint8_t v1, v2, v3;
    size_t r7_0_0_copyload = load_size(a1 + 8);
    r7_3_0_copyload = load_size(a1 + 16);
    r14 = (unsigned char *)(uintptr_t)r7_0_0_copyload;
    uint64_t r17 = dfuse_host_image_image_end(r14, r7_3_0_copyload);
    r19 = dfuse_host_plan_Plan_byte_in(a1, a4, r17);
    if (r19.a != 0) {
        uint64_t r21 = r19.b;
        uint8_t r42 = dfuse_host_plan_Plan_read_step(a1, r21, a2, a3);
        store_size(r8 + 8, 3);
        store64(r8 + 16, r21);
        store64(r8 + 24, 0);
        store_size(r8 + 32, (size_t)a2);
        store64(r8 + 40, a3);
        store32(r8 + 48, (uint32_t)r42);
        store32(r8 + 52, 0);
        v1 = 0;
        v2 = 0;
        v3 = 0;
    }
    else {
        if (r7_3_0_copyload == 0) common_ret_op = 0;
        else {
            uint32_t r18 = load32(r14);
            common_ret_op = (size_t)r18;
        }
        dfuse_host_plan_Plan_to_write_front(r8, a1, a2, a3, common_ret_op);
        uint8_t pre = *r8;
        uint8_t pre7 = r8[1];
        uint8_t pre8 = r8[2];
        v1 = pre8;
        v2 = pre7;
        v3 = pre;
    }
    *a0 = v3;
    a0[1] = v2;
    a0[2] = v1;
    memcpy(a0 + 8, r8 + 8, 48);
    return;
}

/* dfuse_host::plan::Plan::read_step: crates/dfuse_host/src/settling.rt */
static uint8_t dfuse_host_plan_Plan_read_step(unsigned char *a0, uint64_t a1, uint8_t a2, uint64_t a3) {
    _Alignas(8) unsigned char r9[32];
    uint64_t a3_fr;
    uint8_t r6_0_0_0;
    a3_fr = a3;
    switch (a2) {
    case 0:
        r6_0_0_0 = 5;
        break;
    case 1:
        r6_0_0_0 = (uint8_t)((a3_fr == a1) ? 9 : 5);
        break;
    case 2:
        if (a1 >= a3_fr) {
            uint64_t r21 = a1 - a3_fr;
            uint16_t r4 = load16(a0 + 24);
            size_t a0_a1 = (size_t)umax16(r4, 1);
            uint64_t r35 = r21 / (uint64_t)a0_a1;
            if (!((r35 > 0xfffdU) | (r21 != (r35 * (uint64_t)a0_a1)))) {
                size_t r10_0_0_copyload = load_size(a0 + 8);
                size_t r10_3_0_copyload = load_size(a0 + 16);
                dfuse_host_image_element_at(r9, a1, (unsigned char *)(uintptr_t)r10_0_0_copyload, r10_3_0_copyload);
                uint8_t r51 = *r9;
                uint32_t r3_0_0_copyload = load32(r9 + 8);
                r6_0_0_0 = (uint8_t)(((r51 != 0) & (a3_fr >= (uint64_t)(size_t)r3_0_0_copyload)) ? 11 : 10);
                break;
            }
        }
        r6_0_0_0 = 10;
        break;
    default: never();
    }
    return r6_0_0_0;
}

/* dfuse_host::plan::Plan::to_write_front: crates/dfuse_host/src/settling.rt */
static void dfuse_host_plan_Plan_to_write_front(unsigned char *a0, unsigned char *a1, uint8_t a2, uint64_t a3, uint64_t a4) {
    _Alignas(8) unsigned char r7[56];
    struct i8_i64 r14;
    size_t common_ret_op;
    uint8_t v2, v3, v4;
    uint64_t r12 = dfuse_host_plan_Plan_front_end(a1);
    r14 = dfuse_host_plan_Plan_byte_in(a1, a4, r12);
    if (r14.a != 0) {
        store_size(r7 + 8, 4);
        store64(r7 + 16, r14.b);
        store64(r7 + 24, 0);
        store_size(r7 + 32, (size_t)a2);
        store64(r7 + 40, a3);
        store32(r7 + 48, (uint32_t)((a2 == 2) ? 10 : 5));
        store32(r7 + 52, 0);
        v2 = 0;
        v3 = 0;
        v4 = 0;
    }
    else {
        size_t r9_3_0_copyload = load_size(a1 + 16);
        if (r9_3_0_copyload == 0) common_ret_op = 0;
        else {
            size_t r9_0_0_copyload = load_size(a1 + 8);
            uint32_t r18 = load32((unsigned char *)(uintptr_t)r9_0_0_copyload);
            common_ret_op = (size_t)r18;
        }
        dfuse_host_plan_Plan_to_compare_front(r7, a1, a2, a3, common_ret_op);
        uint8_t pre = *r7;
        uint8_t pre7 = r7[1];
        uint8_t pre8 = r7[2];
        v2 = pre8;
        v3 = pre7;
        v4 = pre;
    }
    *a0 = v4;
    a0[1] = v3;
    a0[2] = v2;
    memcpy(a0 + 8, r7 + 8, 48);
    return;
}

/* dfuse_host::plan::Plan::to_compare_front: crates/dfuse_host/src/settling.rt */
static void dfuse_host_plan_Plan_to_compare_front(unsigned char *a0, unsigned char *a1, uint8_t a2, uint64_t a3, uint64_t a4) {
    struct i8_i64 r12;
    uint8_t r7_0_0, r7_16_0_shrunk;
    size_t r7_106_0;
    uint64_t r7_13_0, r7_18_0;
    uint32_t r7_20_0;
    uint64_t r10 = dfuse_host_plan_Plan_front_end(a1);
    r12 = dfuse_host_plan_Plan_byte_in(a1, a4, r10);
    if (r12.a != 0) {
        uint64_t r14 = r12.b;
        uint8_t r29 = dfuse_host_plan_Plan_read_step(a1, r14, a2, a3);
        r7_0_0 = 0;
        r7_106_0 = 5;
        r7_13_0 = r14;
        r7_16_0_shrunk = a2;
        r7_18_0 = a3;
        r7_20_0 = (uint32_t)r29;
    }
    else {
        if (a2 == 2) {
            r7_0_0 = 0;
            r7_106_0 = 6;
            r7_13_0 = 0;
            r7_16_0_shrunk = 2;
            r7_18_0 = a3;
            r7_20_0 = 10;
        }
        else {
            uint8_t r21 = a1[28];
            if (!(r21 & 1)) {
                r7_0_0 = 1;
                r7_106_0 = 0;
                r7_13_0 = 0;
                r7_16_0_shrunk = 0;
                r7_18_0 = 0;
                r7_20_0 = 0;
            }
            else {
                if (a2 != 0) {
                    uint32_t r38 = load32(a1 + 32);
                    if (a3 == (uint64_t)(size_t)r38) {
                        r7_0_0 = 0;
                        r7_106_0 = 6;
                        r7_13_0 = 0;
                        r7_16_0_shrunk = 1;
                        r7_18_0 = a3;
                        r7_20_0 = 12;
                        goto join_4;
                    }
                }
                r7_0_0 = 0;
                r7_106_0 = 6;
                r7_13_0 = 0;
                r7_16_0_shrunk = a2;
                r7_18_0 = a3;
                r7_20_0 = 5;
            }
        }
    }
join_4:
    *a0 = r7_0_0;
    a0[1] = 0;
    a0[2] = 0;
    store_size(a0 + 8, r7_106_0);
    store64(a0 + 16, r7_13_0);
    store64(a0 + 24, 0);
    store_size(a0 + 32, (size_t)r7_16_0_shrunk);
    store64(a0 + 40, r7_18_0);
    store32(a0 + 48, r7_20_0);
    store32(a0 + 52, 0);
    return;
}

/* dfuse_host::plan::Plan::on_unsure_command: crates/dfuse_host/src/sending.rt */
static void dfuse_host_plan_Plan_on_unsure_command(unsigned char *a0, unsigned char *a1, unsigned char *a2, uint8_t a3, uint64_t a4) {
    _Alignas(8) unsigned char r0[56];
    struct i8_i64 r15 = dfuse_host_plan_Plan_command_of(a1, a2, a3, a4);
    dfuse_host_plan_Plan_phase_when_unsure(r0, a1, a2, r15.a);
    uint8_t v0 = *r0;
    *a0 = v0;
    uint8_t v1 = r0[1];
    a0[1] = v1;
    uint8_t v2 = r0[2];
    a0[2] = v2;
    memcpy(a0 + 8, r0 + 8, 48);
    return;
}

/* dfuse_host::session::Session::spend_action: crates/dfuse_host/src/session.rt */
static void dfuse_host_session_Session_spend_action(unsigned char *a0, unsigned char *a1, unsigned char *a2, uint16_t a3) {
    _Alignas(8) unsigned char r9_21[16];
    uint32_t r1_3_0_copyload, r2_18_8_copyload, r9_27_0;
    uint8_t v1, v2, r2_73_8_copyload, r2_15_8_copyload, r9_0_0, r9_5_0, r9_9_0, r9_1328_0, r9_23_0;
    uint64_t r2_11_8_copyload, r2_12_8_copyload, r9_17_5_0, r9_19_0;
    unsigned char *r2_13_8_r8_sroa_idx;
    r1_3_0_copyload = load32(a1 + 96);
    uint8_t v0 = *a2;
    v1 = a2[1];
    v2 = a2[2];
    r2_73_8_copyload = a2[8];
    r2_11_8_copyload = load64(a2 + 16);
    r2_12_8_copyload = load64(a2 + 24);
    r2_13_8_r8_sroa_idx = a2 + 32;
    r2_15_8_copyload = a2[48];
    r2_18_8_copyload = load32(a2 + 52);
    if (v0 == 1) {
        memcpy(r9_21, r2_13_8_r8_sroa_idx, 16);
        r9_17_5_0 = r2_11_8_copyload;
        r9_0_0 = 1;
        r9_5_0 = v1;
        r9_9_0 = v2;
        r9_1328_0 = r2_73_8_copyload;
        r9_19_0 = r2_12_8_copyload;
        r9_23_0 = r2_15_8_copyload;
        r9_27_0 = r2_18_8_copyload;
    }
    else {
        if (r1_3_0_copyload >= 2) {
            memcpy(r9_21, r2_13_8_r8_sroa_idx, 16);
            r9_17_5_0 = r2_11_8_copyload;
            r9_0_0 = 0;
            r9_5_0 = v1;
            r9_9_0 = v2;
            r9_1328_0 = r2_73_8_copyload;
            r9_19_0 = r2_12_8_copyload;
            r9_23_0 = r2_15_8_copyload;
            r9_27_0 = r2_18_8_copyload;
        }
        else {
            uint8_t v4 = r2_73_8_copyload == 6;
            memset(r9_21, 0, 16);
            r9_17_5_0 = 0;
            r9_0_0 = 1;
            r9_5_0 = (uint8_t)(v4 ? 0 : 4);
            r9_9_0 = (uint8_t)((v4 & ((uint8_t)(r2_15_8_copyload + 244) < 3)) ? 2 : 0);
            r9_1328_0 = 0;
            r9_19_0 = 0;
            r9_23_0 = 0;
            r9_27_0 = 0;
        }
    }
    memmove(a0, a1, 40);
    a0[40] = r9_0_0;
    a0[41] = r9_5_0;
    a0[42] = r9_9_0;
    a0[48] = r9_1328_0;
    store64(a0 + 56, r9_17_5_0);
    store64(a0 + 64, r9_19_0);
    memcpy(a0 + 72, r9_21, 16);
    a0[88] = r9_23_0;
    store32(a0 + 92, r9_27_0);
    store32(a0 + 96, usub_sat32(r1_3_0_copyload, 1));
    store16(a0 + 100, a3);
    return;
}

/* dfu_host_version: crates/dfu_host_c/src/version.rt */
int32_t dfu_host_version(void) {
    return signed32(300);
}

/* dfu_watch_detaches: crates/dfu_host_c/src/watching.rt */
uint32_t dfu_watch_detaches(const struct dfu_watch *watch) {
    unsigned char *a0 = (unsigned char *)(uintptr_t)watch;
    uint32_t r2_0_in;
    uint8_t r6 = a0[8];
    if (r6 == 0) r2_0_in = 0;
    else {
        uint32_t r13 = load32(a0 + 4);
        r2_0_in = (uint32_t)(r13 == 0);
    }
    return r2_0_in;
}

/* dfuse_watch_wait: crates/dfu_host_c/src/dfuse/watching.rt */
uint32_t dfuse_watch_wait(struct dfuse_watch *watch, uint32_t ms) {
    unsigned char *a0 = (unsigned char *)(uintptr_t)watch;
    uint32_t a1 = ms;
    uint32_t sink, v0;
    if (a1 != 0) {
        sink = 0;
        v0 = a1;
    }
    else {
        uint32_t r12 = load32(a0 + 4);
        uint32_t r2_0 = r12 + (uint32_t)(r12 < 4);
        sink = r2_0;
        v0 = (uint32_t)((r2_0 > 3) ? 5 : 0);
    }
    store32(a0 + 4, sink);
    return v0;
}

/* dfuse_watch_closes: crates/dfu_host_c/src/dfuse/watching.rt */
uint32_t dfuse_watch_closes(const struct dfuse_session *session) {
    unsigned char *a0 = (unsigned char *)(uintptr_t)session;
    uint32_t r1_0_in;
    uint32_t r5 = load32(a0 + 4);
    if (r5 != 6) r1_0_in = 0;
    else {
        uint32_t r12 = load32(a0 + 36);
        r1_0_in = (uint32_t)(r12 > 11);
    }
    return r1_0_in;
}

/* dfu_watch_before: crates/dfu_host_c/src/watching.rt */
uint32_t dfu_watch_before(const struct dfu_watch *watch, const struct dfu_action *action, uint32_t by_another) {
    unsigned char *a0 = (unsigned char *)(uintptr_t)watch;
    unsigned char *a1 = (unsigned char *)(uintptr_t)action;
    uint32_t a2 = by_another;
    uint32_t r22_pr_pre, r1_0;
    r22_pr_pre = load32(a1);
    if (!((a2 != 0) ? (r22_pr_pre == 0) : 0)) {
        if (r22_pr_pre == 2) {
            uint8_t r29 = a0[8];
            if (r29 != 0) {
                uint32_t r39 = load32(a0 + 4);
                if (r39 > 2) {
                    r1_0 = 6;
                    goto dfu_host_c_watching_dfu_watch_before_exit;
                }
            }
        }
    }
    else {
        uint8_t r20 = a1[28];
        switch (r20) {
        case 33: {
            uint8_t r33 = a1[29];
            if (r33 == 1) {
                r1_0 = 7;
                goto dfu_host_c_watching_dfu_watch_before_exit;
            }
            break;
        }
        case 161: {
            uint8_t r38 = a1[29];
            if (r38 == 2) {
                r1_0 = 7;
                goto dfu_host_c_watching_dfu_watch_before_exit;
            }
            break;
        }
        default: break;
        }
    }
    r1_0 = 0;
dfu_host_c_watching_dfu_watch_before_exit:
    return r1_0;
}

/* dfu_watch_is_other: crates/dfu_host_c/src/watching.rt */
uint32_t dfu_watch_is_other(const struct dfu_watch *watch, const struct dfu_facts *facts) {
    unsigned char *a0 = (unsigned char *)(uintptr_t)watch;
    unsigned char *a1 = (unsigned char *)(uintptr_t)facts;
    uint8_t r2 = dfu_host_c_watching_is_other(a0, a1);
    return (uint32_t)r2;
}

/* dfuse_file_image: crates/dfu_host_c/src/dfuse/file_image.rt */
int32_t dfuse_file_image(const uint8_t *file, size_t length, uint8_t setting, struct dfuse_element *places, size_t room, uint64_t *count) {
    unsigned char *a0 = (unsigned char *)(uintptr_t)file;
    size_t a1 = (size_t)length;
    uint8_t a2 = setting;
    unsigned char *a3 = (unsigned char *)(uintptr_t)places;
    size_t a4 = (size_t)room;
    unsigned char *a5 = (unsigned char *)(uintptr_t)count;
    _Alignas(8) unsigned char r4[72];
    unsigned char *const r4_2 = r4;
    unsigned char *const r10 = r4;
    _Alignas(8) unsigned char r8_4[24];
    unsigned char *r13, *r32, *r1_5_0_r32_sroa_idx, *r1_63_0_r32_sroa_idx, *r1_7_0_r32_sroa_idx, *r1_8_0_r32_sroa_idx, *r1_8_5_0_r1_8_0_r32_sroa_idx_sroa_idx, *r26, *v1, *r4_7_8_sroa_idx;
    uint8_t r5_0_0, r5_0_0_2, r35;
    size_t r5_6_0, r5_9_0, r5_6_0_2, r5_9_0_2, r1_63_0_copyload, r1_7_0_copyload, r1_8_0_0_copyload, r1_8_5_0_copyload, r4_57_0, r4_7_0, r4_57_8_copyload, r4_7_8_copyload;
    uint8_t r4_0_off0;
    uint64_t r3_0, r5_0;
    uint32_t r1_5_0_copyload, r4_0_0, common_ret_op;
    r13 = (unsigned char *)((uintptr_t)a3 + (uintptr_t)(size_t)((a3 == NULL) ? 4096 : 0));
    dfu_formats_dfuse_file_read(r10, (unsigned char *)((uintptr_t)a0 + (uintptr_t)(size_t)((a0 == NULL) ? 4096 : 0)), a1);
    uint8_t r23 = *r10;
    if (r23 != 0) {
        uint8_t r7_0_0_copyload = r10[1];
        common_ret_op = (uint32_t)0xffffffb9U - (uint32_t)r7_0_0_copyload;
    }
    else {
        uint8_t r6_3_0_copyload = r10[14];
        size_t r6_5_0_copyload = load_size(r10 + 16);
        size_t r6_6_0_copyload = load_size(r10 + 24);
        r32 = r4 + 8;
        r1_5_0_r32_sroa_idx = r4 + 32;
        r1_63_0_r32_sroa_idx = r4 + 40;
        r1_7_0_r32_sroa_idx = r4 + 48;
        r1_8_0_r32_sroa_idx = r4 + 56;
        r1_8_5_0_r1_8_0_r32_sroa_idx_sroa_idx = r4 + 64;
        r26 = r4_2 + 8;
        v1 = r4_2 + 32;
        r4_7_8_sroa_idx = r4_2 + 40;
        r5_0_0 = r6_3_0_copyload;
        r5_6_0 = r6_5_0_copyload;
        r5_9_0 = r6_6_0_copyload;
        r4_0_off0 = 0;
        r3_0 = 0;
        for (;;) {
            r5_0_0_2 = r5_0_0;
            r5_6_0_2 = r5_6_0;
            r5_9_0_2 = r5_9_0;
            for (;;) {
                if (r5_0_0_2 == 0) goto after_1;
                dfu_formats_dfuse_headings_take_heading(r4, (unsigned char *)(uintptr_t)r5_6_0_2, r5_9_0_2);
                uint8_t r31 = *r4;
                if (r31 == 1) goto after_1;
                uint8_t r1_0_0_copyload = *r32;
                r1_5_0_copyload = load32(r1_5_0_r32_sroa_idx);
                r1_63_0_copyload = load_size(r1_63_0_r32_sroa_idx);
                r1_7_0_copyload = load_size(r1_7_0_r32_sroa_idx);
                r1_8_0_0_copyload = load_size(r1_8_0_r32_sroa_idx);
                r1_8_5_0_copyload = load_size(r1_8_5_0_r1_8_0_r32_sroa_idx_sroa_idx);
                r35 = (uint8_t)(r5_0_0_2 + 255);
                if (r1_0_0_copyload == a2) break;
                r5_0_0_2 = r35;
                r5_6_0_2 = r1_8_0_0_copyload;
                r5_9_0_2 = r1_8_5_0_copyload;
            }
            r4_0_0 = r1_5_0_copyload;
            r4_57_0 = r1_63_0_copyload;
            r4_7_0 = r1_7_0_copyload;
            r5_0 = r3_0;
            while (r4_0_0 != 0) {
                dfu_formats_dfuse_elements_take_element(r4_2, (unsigned char *)(uintptr_t)r4_57_0, r4_7_0);
                uint8_t r25 = *r4_2;
                if (r25 != 0) break;
                r4_57_8_copyload = load_size(v1);
                r4_7_8_copyload = load_size(r4_7_8_sroa_idx);
                memcpy(r8_4, r26, 24);
                if (r5_0 == (uint64_t)a4) goto arm_11;
                memcpy(r13 + ((size_t)r5_0 * 24), r8_4, 24);
                r4_0_0 = r4_0_0 - 1;
                r4_57_0 = r4_57_8_copyload;
                r4_7_0 = r4_7_8_copyload;
                r5_0 = r5_0 + 1;
            }
            r5_0_0 = r35;
            r5_6_0 = r1_8_0_0_copyload;
            r5_9_0 = r1_8_5_0_copyload;
            r4_0_off0 = 1;
            r3_0 = r5_0;
        }
after_1:
        if (!r4_0_off0) {
            common_ret_op = 0xffffffa9U;
            goto dfu_host_c_dfuse_file_image_dfuse_file_image_exit;
        }
        store64(a5, r3_0);
        common_ret_op = 0;
        goto dfu_host_c_dfuse_file_image_dfuse_file_image_exit;
arm_11:
        common_ret_op = 0xffffffa8U;
    }
dfu_host_c_dfuse_file_image_dfuse_file_image_exit:
    return signed32(common_ret_op);
}

/* dfuse_read_map: crates/dfu_host_c/src/dfuse/map.rt */
int32_t dfuse_read_map(const uint8_t *text, size_t length, struct dfuse_map *out) {
    unsigned char *a0 = (unsigned char *)(uintptr_t)text;
    size_t a1 = (size_t)length;
    unsigned char *a2 = (unsigned char *)(uintptr_t)out;
    _Alignas(8) unsigned char r5[800];
    uint32_t r6_0;
    dfu_formats_memory_map_Map_read(r5, (unsigned char *)((uintptr_t)a0 + (uintptr_t)(size_t)((a0 == NULL) ? 4096 : 0)), a1);
    uint8_t r13 = *r5;
    if (r13 != 0) {
        uint8_t r4_0_0_copyload = r5[1];
        r6_0 = (uint32_t)0xffffffcdU - (uint32_t)r4_0_0_copyload;
    }
    else {
        uint64_t r3_2_0_copyload = load64(r5 + 16);
        uint64_t r3_31_0_copyload = load64(r5 + 792);
        store64(a2, r3_2_0_copyload);
        store64(a2 + 8, r3_31_0_copyload);
        r6_0 = 0;
    }
    return signed32(r6_0);
}

/* dfuse_read_range: crates/dfu_host_c/src/dfuse/map.rt */
int32_t dfuse_read_range(const uint8_t *text, size_t length, uint32_t number, struct dfuse_range *out) {
    unsigned char *a0 = (unsigned char *)(uintptr_t)text;
    size_t a1 = (size_t)length;
    uint32_t a2 = number;
    unsigned char *a3 = (unsigned char *)(uintptr_t)out;
    _Alignas(8) unsigned char r7[800];
    _Alignas(8) unsigned char r3[792];
    size_t r33;
    uint32_t common_ret_op;
    dfu_formats_memory_map_Map_read(r7, (unsigned char *)((uintptr_t)a0 + (uintptr_t)(size_t)((a0 == NULL) ? 4096 : 0)), a1);
    uint8_t r19 = *r7;
    if (r19 != 0) {
        uint8_t r5_0_0_copyload = r7[1];
        common_ret_op = (uint32_t)0xffffffcdU - (uint32_t)r5_0_0_copyload;
    }
    else {
        memcpy(r3, r7 + 8, 792);
        uint64_t r4 = load64(r3 + 784);
        r33 = (size_t)a2;
        if (r4 <= (uint64_t)r33) common_ret_op = 0xffffffd4U;
        else {
            unsigned char *r19_2 = (r3 + 16) + (r33 * 24);
            uint32_t r7_2 = load32(r19_2);
            uint64_t r11 = load64(r19_2 + 8);
            uint32_t r13 = load32(r19_2 + 16);
            uint8_t r6_0_0_copyload = r19_2[20];
            uint8_t r6_3_0_copyload = r19_2[21];
            uint8_t r6_4_0_copyload = r19_2[22];
            store64(a3, (size_t)r7_2);
            store64(a3 + 8, r11);
            store32(a3 + 16, r13);
            store32(a3 + 20, (uint32_t)((((uint8_t)((uint32_t)r6_3_0_copyload << 1) & 2) | (r6_0_0_copyload & 1)) | ((uint8_t)((uint32_t)r6_4_0_copyload << 2) & 4)));
            common_ret_op = 0;
        }
    }
    return signed32(common_ret_op);
}

/* dfu_host_file: crates/dfu_host_c/src/file.rt */
int32_t dfu_host_file(const uint8_t *file, size_t length, struct dfu_file *out) {
    unsigned char *a0 = (unsigned char *)(uintptr_t)file;
    size_t a1 = (size_t)length;
    unsigned char *a2 = (unsigned char *)(uintptr_t)out;
    _Alignas(8) unsigned char r5[40];
    unsigned char *r4;
    uint32_t r6_0;
    r4 = (unsigned char *)((uintptr_t)a0 + (uintptr_t)(size_t)((a0 == NULL) ? 4096 : 0));
    dfu_host_c_file_file_in(r5, r4, a1);
    uint8_t r13 = *r5;
    if (r13 != 0) {
        uint8_t r4_0_0_copyload = r5[1];
        r6_0 = (uint32_t)r4_0_0_copyload ^ 0xffffffffU;
    }
    else {
        uint64_t r3_2_0_copyload = load64(r5 + 16);
        uint16_t r3_3_0_copyload = load16(r5 + 24);
        uint16_t r3_4_0_copyload = load16(r5 + 26);
        uint16_t r3_5_0_copyload = load16(r5 + 28);
        uint16_t r3_6_0_copyload = load16(r5 + 30);
        uint8_t r3_7_0_copyload = r5[32];
        uint32_t r15 = load32u((r4 + a1) - 4);
        store64(a2, r3_2_0_copyload);
        store32(a2 + 8, (uint32_t)r3_7_0_copyload);
        store32(a2 + 12, r15);
        store16(a2 + 16, r3_3_0_copyload);
        store16(a2 + 18, r3_4_0_copyload);
        store16(a2 + 20, r3_5_0_copyload);
        store16(a2 + 22, r3_6_0_copyload);
        r6_0 = 0;
    }
    return signed32(r6_0);
}

/* dfu_image_look: crates/dfu_host_c/src/looks.rt */
uint32_t dfu_image_look(const uint8_t *file, size_t length, const uint8_t *name, size_t name_length, struct dfu_look *look) {
    unsigned char *a0 = (unsigned char *)(uintptr_t)file;
    size_t a1 = (size_t)length;
    unsigned char *a2 = (unsigned char *)(uintptr_t)name;
    size_t a3 = (size_t)name_length;
    unsigned char *a4 = (unsigned char *)(uintptr_t)look;
    _Alignas(8) unsigned char r4_2[24];
    unsigned char *r4, *r13, *r4_0_0_in, *scevgep, *r3_0_0_in, *r3_0_0_in_lcssa;
    size_t r7_7_0, r7_4_0, r4_4_0, r3_7_0, r14_4_0_ph36, r14_4_0_2, r14_4_0_3, r1_0_1_extract_shift, r14_4_0, r1_0_1_extract_shift_2;
    uint8_t r7_0_0, r23;
    uint8_t r18, r9_0_0_0, r9_0_0_0_3, r9_0_0_0_2, cond_fr62;
    uint64_t r9_4_0_0, r9_4_5_0, r0_0_5_mask, r0_0_6, r0_0_6_3, r0_0_5_mask_3, r9_4_5_017, r9_4_0_015, r0_0_6_2, r0_0_5_mask_2, r9_4_5_018, r9_4_0_016;
    uint64_t v13, v14;
    uint32_t r9_0_2, r1_0_6_extract_trunc, r7_0_2, r7_0_3, r9_0, r7_0;
    r4 = (unsigned char *)((uintptr_t)a0 + (uintptr_t)(size_t)((a0 == NULL) ? 4096 : 0));
    r13 = (unsigned char *)((uintptr_t)a2 + (uintptr_t)(size_t)((a2 == NULL) ? 4096 : 0));
    uint8_t r78 = dfu_formats_images_endings_name_ends_in(PLACE(static_2), 4, r13, a3);
    if (r78) {
        r7_7_0 = 0;
        r7_4_0 = 1;
        r7_0_0 = 1;
    }
    else {
        uint8_t r94 = dfu_formats_images_endings_name_ends_in(PLACE(static_3), 4, r13, a3);
        if (r94) {
            r7_7_0 = 0;
            r7_4_0 = 0;
            r7_0_0 = 1;
        }
        else {
            uint8_t r107 = dfu_formats_images_endings_name_ends_in(PLACE(static_4), 5, r13, a3);
            if (r107) {
                r7_7_0 = 0;
                r7_4_0 = 0;
                r7_0_0 = 1;
            }
            else {
                uint8_t r123 = dfu_formats_images_endings_name_ends_in(PLACE(static_5), 4, r13, a3);
                if (r123) {
                    r7_7_0 = 0;
                    r7_4_0 = 0;
                    r7_0_0 = 1;
                }
                else {
                    uint8_t r139 = dfu_formats_images_endings_name_ends_in(PLACE(static_6), 4, r13, a3);
                    if (r139) {
                        r7_7_0 = 0;
                        r7_4_0 = 0;
                        r7_0_0 = 1;
                    }
                    else {
                        uint8_t r159 = dfu_formats_images_endings_name_ends_in(PLACE(static_7), 4, r13, a3);
                        if (r159) {
                            r7_7_0 = 1;
                            r7_4_0 = 0;
                            r7_0_0 = 1;
                        }
                        else {
                            uint8_t r172 = dfu_formats_images_endings_name_ends_in(PLACE(static_8), 4, r13, a3);
                            if (r172) {
                                r7_7_0 = 1;
                                r7_4_0 = 0;
                                r7_0_0 = 1;
                            }
                            else {
                                uint8_t r188 = dfu_formats_images_endings_name_ends_in(PLACE(static_9), 4, r13, a3);
                                if (r188) {
                                    r7_7_0 = 1;
                                    r7_4_0 = 0;
                                    r7_0_0 = 1;
                                }
                                else {
                                    uint8_t r204 = dfu_formats_images_endings_name_ends_in(PLACE(static_10), 5, r13, a3);
                                    if (r204) {
                                        r7_7_0 = 1;
                                        r7_4_0 = 0;
                                        r7_0_0 = 1;
                                    }
                                    else {
                                        uint8_t r220 = dfu_formats_images_endings_name_ends_in(PLACE(static_11), 4, r13, a3);
                                        if (r220) {
                                            r7_7_0 = 1;
                                            r7_4_0 = 0;
                                            r7_0_0 = 1;
                                        }
                                        else {
                                            uint8_t r240 = dfu_formats_images_endings_name_ends_in(PLACE(static_12), 4, r13, a3);
                                            if (r240) {
                                                r7_7_0 = 2;
                                                r7_4_0 = 0;
                                                r7_0_0 = 1;
                                            }
                                            else {
                                                uint8_t r257 = dfu_formats_images_endings_name_ends_in(PLACE(static_13), 4, r13, a3);
                                                if (r257) {
                                                    r7_7_0 = 3;
                                                    r7_4_0 = 0;
                                                    r7_0_0 = 1;
                                                }
                                                else {
                                                    uint8_t r270 = dfu_formats_images_endings_name_ends_in(PLACE(static_14), 4, r13, a3);
                                                    r7_7_0 = (size_t)(r270 ? 3 : 0);
                                                    r7_4_0 = 0;
                                                    r7_0_0 = r270;
                                                }
                                            }
                                        }
                                    }
                                }
                            }
                        }
                    }
                }
            }
        }
    }
    if (a1 < 3) {
        r4_4_0 = a1;
        r4_0_0_in = r4;
    }
    else {
        uint8_t r24 = *r4;
        if (r24 != 239) {
            r4_4_0 = a1;
            r4_0_0_in = r4;
        }
        else {
            uint8_t r29 = r4[1];
            if (r29 != 187) {
                r4_4_0 = a1;
                r4_0_0_in = r4;
            }
            else {
                uint8_t r34 = r4[2];
                if (r34 == 191) {
                    r4_4_0 = a1 - 3;
                    r4_0_0_in = r4 + 3;
                }
                else {
                    r4_4_0 = a1;
                    r4_0_0_in = r4;
                }
            }
        }
    }
    scevgep = r4_0_0_in + r4_4_0;
    r3_7_0 = r4_4_0;
    r3_0_0_in = r4_0_0_in;
    for (;;) {
        r18 = r3_7_0 == 0;
        if (r18) {
            r3_0_0_in_lcssa = scevgep;
            break;
        }
        uint8_t r35 = *r3_0_0_in;
        switch (r35) {
        case 32:
        case 13:
        case 9:
        case 10:
            r3_7_0 = r3_7_0 - 1;
            r3_0_0_in = r3_0_0_in + 1;
            break;
        default:
            r3_0_0_in_lcssa = r3_0_0_in;
            goto dfu_formats_images_text_unblanked_exit;
        }
    }
dfu_formats_images_text_unblanked_exit:;
    uint8_t r72 = core_slice_reads_slice_T_starts_with_i8_core_cmp_numbers_U8PartialEq(r4, a1, PLACE(static_15), 5);
    if (!r72) {
        if (!r18) {
            r23 = *r3_0_0_in_lcssa;
            if (r23 == 58) {
                uint8_t r37 = dfu_formats_images_looks_has_digits(r3_0_0_in_lcssa + 1, r3_7_0 - 1);
                if (!r37) {
                    uint8_t r44 = dfu_formats_images_text_is_text(r4, a1);
                    if (!r44) goto else_8;
                }
                dfu_formats_images_places_bad_from(r4_2, 58, r4_0_0_in, r4_4_0);
                r14_4_0_2 = 1;
                goto dfu_formats_images_places_bad_place_exit;
            }
            if ((r3_7_0 != 1) & (r23 == 83)) {
                uint8_t r28 = r3_0_0_in_lcssa[1];
                if ((uint8_t)(r28 + 208) < 10) {
                    uint8_t r55 = dfu_formats_images_looks_has_digits(r3_0_0_in_lcssa + 2, (uint64_t)r3_7_0 - 2);
                    if (r55) {
                        dfu_formats_images_places_bad_from(r4_2, 83, r4_0_0_in, r4_4_0);
                        r14_4_0_2 = 257;
                        goto dfu_formats_images_places_bad_place_exit;
                    }
                }
            }
        }
else_8:;
        uint8_t r109 = core_slice_reads_slice_T_starts_with_i8_core_cmp_numbers_U8PartialEq(r4, a1, PLACE(static_16), 4);
        if (r109) r14_4_0_ph36 = 513;
        else {
            uint8_t r123_2 = core_slice_reads_slice_T_starts_with_i8_core_cmp_numbers_U8PartialEq(r4, a1, PLACE(static_17), 4);
            if (!r123_2) {
                uint8_t r137 = core_slice_reads_slice_T_starts_with_i8_core_cmp_numbers_U8PartialEq(r4, a1, PLACE(static_18), 4);
                if (r137) {
                    r14_4_0 = 258;
                    goto dfu_formats_images_looks_look_at_exit_thread;
                }
                uint8_t r155 = core_slice_reads_slice_T_starts_with_i8_core_cmp_numbers_U8PartialEq(r4, a1, PLACE(static_19), 2);
                if (r155) {
                    r14_4_0 = 514;
                    goto dfu_formats_images_looks_look_at_exit_thread;
                }
                uint8_t r167 = dfu_formats_images_text_is_text(r4, a1);
                if (r167) {
                    r14_4_0 = 770;
                    goto dfu_formats_images_looks_look_at_exit_thread;
                }
                if (r7_0_0 == 0) {
                    v13 = 0;
                    r9_0 = 0;
                    r7_0 = 0;
                    v14 = 0;
                    goto dfu_host_c_looks_dfu_image_look_exit;
                }
                r9_4_0_0 = 0;
                r9_4_5_0 = 0;
                r14_4_0_3 = ((r7_4_0 << 16) | (r7_7_0 << 24)) | 1026;
                r9_0_0_0 = 0;
                goto dfu_formats_images_looks_look_at_exit;
            }
            r14_4_0_ph36 = 769;
        }
        memset(r4_2, 0, 24);
        r14_4_0_2 = r14_4_0_ph36;
dfu_formats_images_places_bad_place_exit:;
        uint8_t r28_2 = *r4_2;
        uint64_t r9_4_0_0_copyload = load64(r4_2 + 8);
        uint64_t r9_4_5_0_copyload = load64(r4_2 + 16);
        r9_4_0_0 = r9_4_0_0_copyload;
        r9_4_5_0 = r9_4_5_0_copyload;
        r14_4_0_3 = r14_4_0_2;
        r9_0_0_0 = r28_2 == 1;
dfu_formats_images_looks_look_at_exit:
        r0_0_5_mask = (uint64_t)r14_4_0_3 + ((uint64_t)(size_t)r7_0_0 << 32);
        r0_0_6 = r0_0_5_mask | (((uint64_t)r7_4_0 << 40) | ((uint64_t)r7_7_0 << 48));
        r1_0_1_extract_shift = (size_t)(r0_0_6 >> 8);
        switch ((uint8_t)r14_4_0_3) {
        case 0:
            r0_0_6_2 = r0_0_6;
            r0_0_5_mask_2 = r0_0_5_mask;
            r9_0_0_0_2 = r9_0_0_0;
            r9_4_5_018 = r9_4_5_0;
            r9_4_0_016 = r9_4_0_0;
            r9_0_2 = 0;
            goto dfu_host_c_looks_looks_number_exit;
        case 1:
            r0_0_6_2 = r0_0_6;
            r0_0_5_mask_2 = r0_0_5_mask;
            r9_0_0_0_2 = r9_0_0_0;
            r9_4_5_018 = r9_4_5_0;
            r9_4_0_016 = r9_4_0_0;
            r9_0_2 = ((uint32_t)r1_0_1_extract_shift & 255) + 1;
            goto dfu_host_c_looks_looks_number_exit;
        case 2:
            r1_0_1_extract_shift_2 = r1_0_1_extract_shift;
            r0_0_6_3 = r0_0_6;
            r0_0_5_mask_3 = r0_0_5_mask;
            r9_0_0_0_3 = r9_0_0_0;
            r9_4_5_017 = r9_4_5_0;
            r9_4_0_015 = r9_4_0_0;
            goto switch_lookup;
        default: never();
        }
    }
    r14_4_0 = 2;
dfu_formats_images_looks_look_at_exit_thread:;
    uint64_t r0_0_5_mask_4 = (uint64_t)r14_4_0 | ((uint64_t)(size_t)r7_0_0 << 32);
    uint64_t r0_0_6_4 = r0_0_5_mask_4 | (((uint64_t)r7_4_0 << 40) | ((uint64_t)r7_7_0 << 48));
    r1_0_1_extract_shift_2 = (size_t)(r0_0_6_4 >> 8);
    r0_0_6_3 = r0_0_6_4;
    r0_0_5_mask_3 = r0_0_5_mask_4;
    r9_0_0_0_3 = 0;
    r9_4_5_017 = 0;
    r9_4_0_015 = 0;
switch_lookup:
    r0_0_6_2 = r0_0_6_3;
    r0_0_5_mask_2 = r0_0_5_mask_3;
    r9_0_0_0_2 = r9_0_0_0_3;
    r9_4_5_018 = r9_4_5_017;
    r9_4_0_016 = r9_4_0_015;
    r9_0_2 = ((uint32_t)r1_0_1_extract_shift_2 & 255) + 5;
dfu_host_c_looks_looks_number_exit:
    cond_fr62 = r9_0_0_0_2;
    r1_0_6_extract_trunc = (uint32_t)(size_t)(r0_0_6_2 >> 48);
    if ((r0_0_5_mask_2 & 0xff00000000ULL) == 0) r7_0_2 = 0;
    else {
        if ((r0_0_6_2 & 0xff0000000000ULL) == 0) {
            uint32_t switch_offset = r1_0_6_extract_trunc + 1;
            if (cond_fr62) {
                r7_0_3 = switch_offset;
                goto v12;
            }
            v13 = 0;
            r9_0 = r9_0_2;
            r7_0 = switch_offset;
            v14 = 0;
            goto dfu_host_c_looks_dfu_image_look_exit;
        }
        r7_0_2 = 5;
    }
    if (!cond_fr62) {
        v13 = 0;
        r9_0 = r9_0_2;
        r7_0 = r7_0_2;
        v14 = 0;
        goto dfu_host_c_looks_dfu_image_look_exit;
    }
    r7_0_3 = r7_0_2;
v12:
    v13 = r9_4_5_018;
    r9_0 = r9_0_2;
    r7_0 = r7_0_3;
    v14 = r9_4_0_016;
dfu_host_c_looks_dfu_image_look_exit:
    store32(a4, r9_0);
    store32(a4 + 4, r7_0);
    store64(a4 + 8, v14);
    store64(a4 + 16, v13);
    return r9_0;
}

/* dfu_host_name: crates/dfu_host_c/src/names.rt */
int32_t dfu_host_name(uint32_t report, uint8_t *out, size_t room) {
    uint32_t a0 = report;
    unsigned char *a1 = (unsigned char *)(uintptr_t)out;
    size_t a2 = (size_t)room;
    _Alignas(4) unsigned char r2[3];
    unsigned char *r4, *r4_0_0;
    size_t r4_4_0;
    uint32_t common_ret_op;
    r4 = (unsigned char *)((uintptr_t)a1 + (uintptr_t)(size_t)((a1 == NULL) ? 4096 : 0));
    dfu_host_c_reports_report_at(r2, (size_t)a0, 0);
    uint8_t r9 = *r2;
    if (r9 != 1) {
        r4_4_0 = 0;
        r4_0_0 = PLACE(static_20);
    }
    else {
        uint8_t r1_0_0_copyload = r2[1];
        size_t v1 = (size_t)r1_0_0_copyload;
        size_t switch_load = (size_t)switch_table_dfu_host_name[v1];
        size_t switch_load2 = (size_t)switch_table_dfu_host_name_1[v1];
        uint64_t r33 = (uint64_t)switch_load2 - (uint64_t)switch_load;
        if ((uint64_t)a2 < r33) {
            common_ret_op = 0;
            goto dfu_host_c_names_dfu_host_name_exit;
        }
        r4_4_0 = (size_t)r33;
        r4_0_0 = PLACE(static_21) + switch_load;
    }
    memcpy(r4, r4_0_0, r4_4_0);
    common_ret_op = (uint32_t)r4_4_0;
dfu_host_c_names_dfu_host_name_exit:
    return signed32(common_ret_op);
}

/* dfu_host_abort: crates/dfu_host_c/src/steps.rt */
int32_t dfu_host_abort(struct dfu_session *session, const uint8_t *payload, size_t length) {
    unsigned char *a0 = (unsigned char *)(uintptr_t)session;
    unsigned char *a1 = (unsigned char *)(uintptr_t)payload;
    size_t a2 = (size_t)length;
    _Alignas(8) unsigned char r4[72];
    unsigned char *const r7 = r4;
    _Alignas(8) unsigned char r3[64];
    unsigned char *r1;
    uint32_t common_ret_op;
    dfu_host_c_holding_session_of(r4, a0, (unsigned char *)((uintptr_t)a1 + (uintptr_t)(size_t)((a1 == NULL) ? 4096 : 0)), a2);
    uint8_t r14 = *r4;
    if (r14 != 1) common_ret_op = 0xffffffd7U;
    else {
        memcpy(r3, r4 + 8, 64);
        r1 = r3 + 32;
        uint8_t r2 = *r1;
        if ((uint8_t)(r2 + 233) >= 2) {
            *r1 = 22;
            memset(r3 + 33, 0, 19);
        }
        uint64_t r19 = load64(a0 + 16);
        dfu_host_c_holding_record_of(r7, r3, r19);
        memcpy(a0, r7, 48);
        common_ret_op = 0;
    }
    return signed32(common_ret_op);
}

/* dfu_host_next: crates/dfu_host_c/src/action.rt */
int32_t dfu_host_next(const struct dfu_session *session, const uint8_t *payload, size_t length, struct dfu_action *action) {
    unsigned char *a0 = (unsigned char *)(uintptr_t)session;
    unsigned char *a1 = (unsigned char *)(uintptr_t)payload;
    size_t a2 = (size_t)length;
    unsigned char *a3 = (unsigned char *)(uintptr_t)action;
    _Alignas(8) unsigned char r4[72];
    unsigned char *const r18 = r4;
    _Alignas(8) unsigned char r3[64];
    _Alignas(4) unsigned char r19[6];
    unsigned char *const r45 = r19;
    _Alignas(4) unsigned char r23[6];
    _Alignas(4) unsigned char r27[6];
    _Alignas(4) unsigned char r31[6];
    _Alignas(4) unsigned char r35[6];
    uint8_t v1, v2, v15;
    uint16_t v3, r16;
    uint64_t v5, v16, v21, r14_18_0;
    uint32_t v6, r14_0, r14_0_0, r14_6_0, r14_15_0, common_ret_op;
    size_t r0_5_59_7_copyload, r2_0, r14_9_0, r14_12_0;
    dfu_host_c_holding_session_of(r4, a0, (unsigned char *)((uintptr_t)a1 + (uintptr_t)(size_t)((a1 == NULL) ? 4096 : 0)), a2);
    uint8_t r13 = *r4;
    if (r13 != 1) common_ret_op = 0xffffffd7U;
    else {
        memcpy(r3, r4 + 8, 64);
        v1 = r3[32];
        v2 = r3[33];
        v3 = load16(r3 + 34);
        uint32_t v4 = load32(r3 + 36);
        v5 = load64(r3 + 40);
        v6 = load32(r3 + 48);
        memset(r18, 0, 32);
        store16(r19 + 4, 0);
        store16(r23 + 4, 0);
        store16(r27 + 4, 0);
        store32a2(r31 + 2, 0);
        store32a2(r35 + 2, 0);
        switch (v1) {
        case 0:
        case 1:
        case 10:
        case 14:
        case 17:
            store16(r19, 3);
            store16(r19 + 2, 6);
            dfu_host_task_send(r18, r19, 0);
            goto dfu_host_session_Session_next_exitthread_pre_split;
        case 9:
        case 13:
            store16(r23, 5);
            store16(r23 + 2, 1);
            dfu_host_task_send(r18, r23, 0);
            goto dfu_host_session_Session_next_exitthread_pre_split;
        case 2: {
            uint16_t r65 = load16(r3 + 28);
            store16(r27, 0);
            store16(r27 + 2, r65);
            dfu_host_task_send(r18, r27, 0);
            goto dfu_host_session_Session_next_exitthread_pre_split;
        }
        case 3: {
            uint8_t r7 = r3[27];
            uint16_t r13_2 = load16(r3 + 28);
            *r18 = (uint8_t)((uint8_t)2 - r7);
            memset(r18 + 1, 0, 3);
            store32(r18 + 4, (uint32_t)((r7 & 1) ? (uint32_t)umax16(r13_2, 1) : 0));
            memset(r18 + 16, 0, 16);
            goto dfu_host_session_Session_next_exitthread_pre_split;
        }
        case 4:
            store16(r31, 4);
            dfu_host_task_send(r18, r31, 0);
            goto dfu_host_session_Session_next_exitthread_pre_split;
        case 5:
        case 22:
            store16(r35, 6);
            dfu_host_task_send(r18, r35, 0);
            goto dfu_host_session_Session_next_exitthread_pre_split;
        case 8: {
            struct ptr_i64 r89 = dfu_host_task_Task_block(r3, v5);
            dfu_host_task_download(r18, (size_t)v5, (size_t)r89.b);
            goto dfu_host_session_Session_next_exitthread_pre_split;
        }
        case 12: {
            r16 = load16(r3 + 24);
            if (r16 == 0) trap();
            uint8_t r7_2 = *r3;
            size_t r16_2 = load_size(r3 + 16);
            dfu_host_task_download(r18, (size_t)((uint64_t)((r7_2 == 1) ? 0xffffffffffffffffULL : ((uint64_t)r16_2 - 1)) / (uint64_t)(size_t)r16) + 1, 0);
            goto dfu_host_session_Session_next_exitthread_pre_split;
        }
        case 6:
        case 15:
        case 16:
            r14_0 = v4;
            break;
        case 11:
            r14_0 = v6;
            break;
        case 18:
        case 19: {
            uint16_t r127 = load16(r3 + 24);
            store16(r45, 2);
            store16(r45 + 2, v3);
            store16(r45 + 4, r127);
            dfu_host_task_send(r18, r45, 0);
            goto dfu_host_session_Session_next_exitthread_pre_split;
        }
        case 7:
        case 20:
        case 21:
            r0_5_59_7_copyload = 0;
            v15 = 2;
            goto dfu_host_session_Session_next_exit;
        case 23:
            r18[1] = v2;
            r18[2] = (uint8_t)v3;
            goto dfu_host_session_Session_sends_from_exit_thread;
        case 24:
            r18[1] = 6;
            goto dfu_host_session_Session_sends_from_exit_thread;
        default: never();
        }
        store32(r18 + 4, r14_0);
        r0_5_59_7_copyload = 0;
        v15 = 1;
        goto dfu_host_session_Session_next_exit;
dfu_host_session_Session_next_exitthread_pre_split:;
        uint8_t pr = *r18;
        size_t r0_5_59_7_copyload_pre = load_size(r18 + 24);
        r0_5_59_7_copyload = r0_5_59_7_copyload_pre;
        v15 = pr;
dfu_host_session_Session_next_exit:
        v16 = load64u(r18 + 1);
        if (v1 != 8) r2_0 = 0;
        else {
            uint8_t r7_3 = *r3;
            size_t r16_3 = load_size(r3 + 16);
            size_t r2_4_0 = (size_t)((r7_3 == 1) ? 0 : r16_3);
            uint16_t r13_3 = load16(r3 + 24);
            size_t r15 = (size_t)r13_3;
            struct i64_i1 mul = product64(r15, v5);
            r2_0 = (size_t)((r13_3 == 0) ? 0 : (size_t)(mul.b ? r2_4_0 : (size_t)umin64(r2_4_0, v5 * (uint64_t)r15)));
        }
        switch (v15) {
        case 0:
            r14_0_0 = 0;
            r14_6_0 = 0;
            r14_9_0 = r2_0;
            r14_12_0 = r0_5_59_7_copyload;
            r14_15_0 = 0;
            r14_18_0 = v16;
            goto dfu_host_c_action_record_of_exit;
        case 1:
            r14_0_0 = 1;
            r14_6_0 = (uint32_t)(size_t)(v16 >> 24);
            r14_9_0 = 0;
            r14_12_0 = 0;
            r14_15_0 = 0;
            r14_18_0 = 0;
            goto dfu_host_c_action_record_of_exit;
        case 2:
            r14_0_0 = 2;
            r14_6_0 = 0;
            r14_9_0 = 0;
            r14_12_0 = 0;
            r14_15_0 = 0;
            r14_18_0 = 0;
            goto dfu_host_c_action_record_of_exit;
        case 3:
            v21 = v16;
            goto arm_4;
        default: never();
        }
dfu_host_session_Session_sends_from_exit_thread:;
        uint64_t v14 = load64u(r18 + 1);
        v21 = v14;
arm_4:;
        struct i32_i32 r77 = dfu_host_c_reports_report_numbers((uint8_t)v21, (uint8_t)(size_t)(v21 >> 8));
        r14_0_0 = 3;
        r14_6_0 = r77.a;
        r14_9_0 = 0;
        r14_12_0 = 0;
        r14_15_0 = r77.b;
        r14_18_0 = 0;
dfu_host_c_action_record_of_exit:
        store32(a3, r14_0_0);
        store32(a3 + 4, r14_6_0);
        store64(a3 + 8, r14_9_0);
        store64(a3 + 16, r14_12_0);
        store32(a3 + 24, r14_15_0);
        store64a4(a3 + 28, r14_18_0);
        store32(a3 + 36, 0);
        common_ret_op = 0;
    }
    return signed32(common_ret_op);
}

/* dfuse_read_file: crates/dfu_host_c/src/dfuse/file.rt */
int32_t dfuse_read_file(const uint8_t *file, size_t length, struct dfuse_file *out) {
    unsigned char *a0 = (unsigned char *)(uintptr_t)file;
    size_t a1 = (size_t)length;
    unsigned char *a2 = (unsigned char *)(uintptr_t)out;
    _Alignas(8) unsigned char r4[72];
    unsigned char *const r4_2 = r4;
    unsigned char *const r5 = r4;
    uint16_t r3_0_0_copyload, r3_3_0_copyload, r3_4_0_copyload;
    uint8_t r3_5_0_copyload, r1_0_0_copyload, r1_0_0_in, r1_0_0;
    size_t r3_61_0_copyload, r3_7_0_copyload, r1_9_0, r1_14_0;
    unsigned char *r32, *r1_8_0_r32_sroa_idx, *r1_8_5_0_r1_8_0_r32_sroa_idx_sroa_idx;
    uint32_t v1, r6_0;
    dfu_formats_dfuse_file_read(r5, (unsigned char *)((uintptr_t)a0 + (uintptr_t)(size_t)((a0 == NULL) ? 4096 : 0)), a1);
    uint8_t r13 = *r5;
    if (r13 != 0) {
        uint8_t r4_0_0_copyload = r5[1];
        r6_0 = (uint32_t)0xffffffb9U - (uint32_t)r4_0_0_copyload;
    }
    else {
        r3_0_0_copyload = load16(r5 + 8);
        r3_3_0_copyload = load16(r5 + 10);
        r3_4_0_copyload = load16(r5 + 12);
        r3_5_0_copyload = r5[14];
        r3_61_0_copyload = load_size(r5 + 16);
        r3_7_0_copyload = load_size(r5 + 24);
        if (r3_5_0_copyload == 0) v1 = 256;
        else {
            dfu_formats_dfuse_headings_take_heading(r4, (unsigned char *)(uintptr_t)r3_61_0_copyload, r3_7_0_copyload);
            uint8_t r31 = *r4;
            if (r31 == 1) v1 = 256;
            else {
                r1_0_0_copyload = r4[8];
                size_t r1_8_0_0_copyload = load_size(r4 + 56);
                size_t r1_8_5_0_copyload = load_size(r4 + 64);
                r32 = r4_2 + 8;
                r1_8_0_r32_sroa_idx = r4_2 + 56;
                r1_8_5_0_r1_8_0_r32_sroa_idx_sroa_idx = r4_2 + 64;
                r1_0_0_in = r3_5_0_copyload;
                r1_9_0 = r1_8_0_0_copyload;
                r1_14_0 = r1_8_5_0_copyload;
                for (;;) {
                    r1_0_0 = (uint8_t)(r1_0_0_in + 255);
                    if (r1_0_0 == 0) break;
                    dfu_formats_dfuse_headings_take_heading(r4_2, (unsigned char *)(uintptr_t)r1_9_0, r1_14_0);
                    uint8_t r31_2 = *r4_2;
                    if (r31_2 == 1) break;
                    uint8_t r1_0_0_copyload_2 = *r32;
                    size_t r1_8_0_0_copyload_2 = load_size(r1_8_0_r32_sroa_idx);
                    size_t r1_8_5_0_copyload_2 = load_size(r1_8_5_0_r1_8_0_r32_sroa_idx_sroa_idx);
                    if (r1_0_0_copyload_2 != r1_0_0_copyload) {
                        v1 = 256;
                        goto dfu_host_c_dfuse_file_file_record_exit;
                    }
                    r1_0_0_in = r1_0_0;
                    r1_9_0 = r1_8_0_0_copyload_2;
                    r1_14_0 = r1_8_5_0_copyload_2;
                }
                v1 = (uint32_t)r1_0_0_copyload;
            }
        }
dfu_host_c_dfuse_file_file_record_exit:
        store32(a2, (uint32_t)r3_5_0_copyload);
        store32(a2 + 4, v1);
        store16(a2 + 8, r3_0_0_copyload);
        store16(a2 + 10, r3_3_0_copyload);
        store16(a2 + 12, r3_4_0_copyload);
        store16(a2 + 14, 0);
        r6_0 = 0;
    }
    return signed32(r6_0);
}

/* dfu_host_upload: crates/dfu_host_c/src/beginning.rt */
int32_t dfu_host_upload(struct dfu_session *session, const uint8_t *descriptor, size_t size, uint32_t actions, uint16_t restarts) {
    unsigned char *a0 = (unsigned char *)(uintptr_t)session;
    unsigned char *a1 = (unsigned char *)(uintptr_t)descriptor;
    size_t a2 = (size_t)size;
    uint32_t a3 = actions;
    uint16_t a4 = restarts;
    _Alignas(8) unsigned char r7[64];
    unsigned char *const r9 = r7;
    uint8_t r4_4_0_copyload, r4_5_0_copyload;
    uint16_t r4_6_0_copyload, r4_7_0_copyload;
    uint32_t common_ret_op;
    dfu_wire_functionals_Functional_decode(r9, (unsigned char *)((uintptr_t)a1 + (uintptr_t)(size_t)((a1 == NULL) ? 4096 : 0)), a2);
    uint8_t r21 = *r9;
    if (r21 != 0) {
        uint8_t r5_0_0_copyload = r9[1];
        common_ret_op = (uint32_t)0xffffffe1U - (uint32_t)r5_0_0_copyload;
    }
    else {
        uint8_t r4_3_0_copyload = r9[3];
        r4_4_0_copyload = r9[4];
        r4_5_0_copyload = r9[5];
        r4_6_0_copyload = load16(r9 + 6);
        r4_7_0_copyload = load16(r9 + 8);
        if (!(r4_3_0_copyload & 1)) common_ret_op = 0xffffffe8U;
        else {
            if (r4_7_0_copyload == 0) common_ret_op = 0xffffffe7U;
            else {
                store_size(r7, 1);
                store16(r7 + 24, r4_7_0_copyload);
                r7[26] = r4_4_0_copyload;
                r7[27] = r4_5_0_copyload;
                store16(r7 + 28, r4_6_0_copyload);
                memset(r7 + 30, 0, 26);
                store32(r7 + 56, umax32(a3, 1));
                store16(r7 + 60, a4);
                dfu_host_c_beginning_start(a0, r7);
                common_ret_op = 0;
            }
        }
    }
    return signed32(common_ret_op);
}

/* dfu_host_download: crates/dfu_host_c/src/beginning.rt */
int32_t dfu_host_download(struct dfu_session *session, const uint8_t *file, size_t length, const uint8_t *descriptor, size_t size, const struct dfu_ids *device, uint32_t actions, uint16_t restarts) {
    unsigned char *a0 = (unsigned char *)(uintptr_t)session;
    unsigned char *a1 = (unsigned char *)(uintptr_t)file;
    size_t a2 = (size_t)length;
    unsigned char *a3 = (unsigned char *)(uintptr_t)descriptor;
    size_t a4 = (size_t)size;
    unsigned char *a5 = (unsigned char *)(uintptr_t)device;
    uint32_t a6 = actions;
    uint16_t a7 = restarts;
    _Alignas(4) unsigned char r7[6];
    uint16_t r6 = load16(a5 + 2);
    uint16_t r8 = load16(a5 + 4);
    store16(r7 + 2, r6);
    store16(r7 + 4, r8);
    uint32_t r19 = dfu_host_c_beginning_install(a0, (unsigned char *)((uintptr_t)a1 + (uintptr_t)(size_t)((a1 == NULL) ? 4096 : 0)), a2, (unsigned char *)((uintptr_t)a3 + (uintptr_t)(size_t)((a3 == NULL) ? 4096 : 0)), a4, r7, a6, a7, 0);
    return signed32(r19);
}

/* dfu_host_verified: crates/dfu_host_c/src/beginning.rt */
int32_t dfu_host_verified(struct dfu_session *session, const uint8_t *file, size_t length, const uint8_t *descriptor, size_t size, const struct dfu_ids *device, uint32_t actions, uint16_t restarts) {
    unsigned char *a0 = (unsigned char *)(uintptr_t)session;
    unsigned char *a1 = (unsigned char *)(uintptr_t)file;
    size_t a2 = (size_t)length;
    unsigned char *a3 = (unsigned char *)(uintptr_t)descriptor;
    size_t a4 = (size_t)size;
    unsigned char *a5 = (unsigned char *)(uintptr_t)device;
    uint32_t a6 = actions;
    uint16_t a7 = restarts;
    _Alignas(4) unsigned char r7[6];
    uint16_t r6 = load16(a5 + 2);
    uint16_t r8 = load16(a5 + 4);
    store16(r7 + 2, r6);
    store16(r7 + 4, r8);
    uint32_t r19 = dfu_host_c_beginning_install(a0, (unsigned char *)((uintptr_t)a1 + (uintptr_t)(size_t)((a1 == NULL) ? 4096 : 0)), a2, (unsigned char *)((uintptr_t)a3 + (uintptr_t)(size_t)((a3 == NULL) ? 4096 : 0)), a4, r7, a6, a7, 1);
    return signed32(r19);
}

/* dfu_host_take: crates/dfu_host_c/src/steps.rt */
int32_t dfu_host_take(struct dfu_session *session, const uint8_t *payload, size_t length, uint8_t *kept, size_t room, uint32_t seen, const uint8_t *bytes, size_t count) {
    unsigned char *a0 = (unsigned char *)(uintptr_t)session;
    unsigned char *a1 = (unsigned char *)(uintptr_t)payload;
    size_t a2 = (size_t)length;
    unsigned char *a3 = (unsigned char *)(uintptr_t)kept;
    size_t a4 = (size_t)room;
    uint32_t a5 = seen;
    unsigned char *a6 = (unsigned char *)(uintptr_t)bytes;
    size_t a7 = (size_t)count;
    _Alignas(8) unsigned char r9[72];
    unsigned char *const r0 = r9;
    unsigned char *const r16 = r9;
    _Alignas(8) unsigned char r7[64];
    _Alignas(8) unsigned char r18[24];
    unsigned char *r13, *r22, *r16_sink3_gep, *r16_sink3_gep15, *r16_sink3_gep18, *r16_sink3_gep21, *r16_sink3_phi, *r16_sink3_phi17, *r16_sink3;
    uint64_t r30, r14_0;
    size_t wide_23668, v3, r3_11_0_0, r3_20_10_0, r3_20_0_0;
    uint8_t sink;
    uint32_t common_ret_op;
    r13 = (unsigned char *)((uintptr_t)a3 + (uintptr_t)(size_t)((a3 == NULL) ? 4096 : 0));
    r22 = (unsigned char *)((uintptr_t)a6 + (uintptr_t)(size_t)((a6 == NULL) ? 4096 : 0));
    dfu_host_c_holding_session_of(r9, a0, (unsigned char *)((uintptr_t)a1 + (uintptr_t)(size_t)((a1 == NULL) ? 4096 : 0)), a2);
    uint8_t r26 = *r9;
    r16_sink3_gep = r16 + 8;
    r16_sink3_gep15 = r18 + 8;
    r16_sink3_gep18 = r16 + 16;
    r16_sink3_gep21 = r18 + 16;
    if (r26 != 1) common_ret_op = 0xffffffd7U;
    else {
        memcpy(r7, r9 + 8, 64);
        r30 = load64(a0 + 16);
        if ((uint64_t)a4 < r30) common_ret_op = 0xffffffd7U;
        else {
            switch (a5) {
            case 0:
            case 2:
            case 3:
            case 4:
            case 6:
            case 5:
            case 7:
                r3_11_0_0 = (size_t)a5;
                r3_20_10_0 = 0;
                r3_20_0_0 = 0;
                r16_sink3_phi = r16_sink3_gep;
                r16_sink3_phi17 = r16_sink3_gep18;
                r16_sink3 = r16;
                sink = 0;
                r14_0 = r30;
                break;
            case 1: {
                wide_23668 = (size_t)(uintptr_t)r22;
                uint8_t r8_0_0_copyload = r7[32];
                if (r8_0_0_copyload != 18) {
                    r3_11_0_0 = 1;
                    r3_20_10_0 = a7;
                    r3_20_0_0 = wide_23668;
                    r16_sink3_phi = r16_sink3_gep;
                    r16_sink3_phi17 = r16_sink3_gep18;
                    r16_sink3 = r16;
                    sink = 0;
                    r14_0 = r30;
                }
                else {
                    uint16_t r8_4_2_copyload = load16(r7 + 34);
                    uint16_t r7_2 = load16(r7 + 24);
                    size_t r9_2 = (size_t)r7_2;
                    v3 = (size_t)((r8_4_2_copyload == 0) ? 0 : (size_t)r30);
                    if (!((a7 < r9_2) | ((r8_4_2_copyload != 0xfffeU) & (a7 == r9_2)))) {
                        r3_11_0_0 = 1;
                        r3_20_10_0 = a7;
                        r3_20_0_0 = wide_23668;
                        r16_sink3_phi = r16_sink3_gep;
                        r16_sink3_phi17 = r16_sink3_gep18;
                        r16_sink3 = r16;
                        sink = 0;
                        r14_0 = r30;
                    }
                    else {
                        if ((a4 - v3) < a7) {
                            r3_11_0_0 = 1;
                            r3_20_10_0 = a7;
                            r3_20_0_0 = wide_23668;
                            r16_sink3_phi = r16_sink3_gep15;
                            r16_sink3_phi17 = r16_sink3_gep21;
                            r16_sink3 = r18;
                            sink = 1;
                            r14_0 = r30;
                        }
                        else {
                            memmove(r13 + v3, r22, a7);
                            r3_11_0_0 = 1;
                            r3_20_10_0 = a7;
                            r3_20_0_0 = wide_23668;
                            r16_sink3_phi = r16_sink3_gep;
                            r16_sink3_phi17 = r16_sink3_gep18;
                            r16_sink3 = r16;
                            sink = 0;
                            r14_0 = (uint64_t)v3 + (uint64_t)a7;
                        }
                    }
                }
                break;
            }
            default:
                common_ret_op = 0xffffffd6U;
                goto dfu_host_c_steps_dfu_host_take_exit;
            }
            store_size(r16_sink3, r3_11_0_0);
            store_size(r16_sink3_phi, r3_20_0_0);
            store_size(r16_sink3_phi17, r3_20_10_0);
            dfu_host_session_Session_on_result(r7, r16_sink3, sink);
            dfu_host_c_holding_record_of(r0, r7, r14_0);
            memcpy(a0, r0, 48);
            common_ret_op = 0;
        }
    }
dfu_host_c_steps_dfu_host_take_exit:
    return signed32(common_ret_op);
}

/* dfuse_watch_after: crates/dfu_host_c/src/dfuse/watching.rt */
uint32_t dfuse_watch_after(struct dfuse_watch *watch, const struct dfuse_session *session, const struct dfuse_action *action, uint32_t command, uint32_t seen, const struct dfu_facts *facts) {
    unsigned char *a0 = (unsigned char *)(uintptr_t)watch;
    unsigned char *a1 = (unsigned char *)(uintptr_t)session;
    unsigned char *a2 = (unsigned char *)(uintptr_t)action;
    uint32_t a3 = command;
    uint32_t a4 = seen;
    unsigned char *a5 = (unsigned char *)(uintptr_t)facts;
    unsigned char *r4, *r46;
    uint8_t r7, r14_0_in, r16_0_in, r30;
    uint32_t r3_0_ph27, r3_0, r3_0_2, r7_0, r2_0;
    r4 = a2 + 8;
    uint32_t r5 = load32(r4);
    r7 = r5 != 0;
    if (r7) {
        uint32_t r15 = load32(a0);
        r3_0 = r15;
    }
    else {
        uint8_t r11 = *a5;
        if (r11 == 0) {
            uint32_t r15_2 = load32(a0);
            r3_0 = r15_2;
        }
        else {
            if (a4 != 3) r3_0_ph27 = 0;
            else {
                uint32_t r20 = load32(a0);
                r3_0_ph27 = r20 + (uint32_t)(r20 < 24);
            }
            uint8_t r12 = a2[20];
            if (r12 != 161) {
                r3_0_2 = r3_0_ph27;
                r7_0 = 0;
                goto after_1;
            }
            uint8_t r22 = a2[21];
            if (r22 != 3) {
                r3_0_2 = r3_0_ph27;
                r7_0 = 0;
                goto after_1;
            }
            r3_0 = r3_0_ph27;
        }
    }
    uint32_t r44 = load32(a0 + 4);
    r3_0_2 = r3_0;
    r7_0 = r44;
after_1:
    r46 = a0 + 8;
    uint8_t r47 = *r46;
    uint8_t r49 = r47 != 0;
    if (r7 | r49) r16_0_in = r49;
    else {
        uint8_t r32 = a2[20];
        if (r32 != 33) r16_0_in = 0;
        else {
            uint8_t r45 = a2[21];
            if (r45 != 1) r16_0_in = 0;
            else {
                uint64_t r54 = load64(a2);
                if (r54 == 0) r16_0_in = 0;
                else {
                    uint8_t r67 = a2[22];
                    if (r67 != 0) r14_0_in = 1;
                    else {
                        uint8_t r77 = a2[23];
                        r14_0_in = r77 != 0;
                    }
                    r16_0_in = (a3 == 65) | r14_0_in;
                }
            }
        }
    }
    store32(a0, r3_0_2);
    store32(a0 + 4, r7_0);
    *r46 = r16_0_in;
    memset(a0 + 9, 0, 3);
    uint32_t r5_2 = load32(a1 + 4);
    if (r5_2 != 6) {
        uint8_t r3915 = a5[1];
        if (r3915 != 0) goto then_9;
    }
    else {
        uint32_t r12_2 = load32(a1 + 36);
        if (r12_2 > 11) {
            uint8_t r13 = a5[4];
            if (r13 == 0) {
                uint32_t r288 = load32(r4);
                if (r288 != 0) goto join_4;
            }
            else {
                uint8_t r20_2 = a5[6];
                uint32_t r28 = load32(r4);
                r30 = r28 != 0;
                if ((r20_2 == 0) | r30) {
                    if (r30) goto join_4;
                    r2_0 = 8;
                    goto dfu_host_c_dfuse_watching_dfuse_watch_after_exit;
                }
            }
            uint8_t r40 = a5[1];
            if (((a4 == 7) | (r40 != 0)) ? 1 : (r3_0_2 > 2)) {
                r2_0 = 8;
                goto dfu_host_c_dfuse_watching_dfuse_watch_after_exit;
            }
join_4:;
            uint8_t r39 = a5[1];
            if (r39 == 0) goto join_29;
            goto then_9;
        }
        uint8_t r3922 = a5[1];
        if (r3922 != 0) goto then_9;
    }
    if (r3_0_2 > 23) {
        r2_0 = 4;
        goto dfu_host_c_dfuse_watching_dfuse_watch_after_exit;
    }
    uint8_t r83 = a5[4];
    if (r83 != 0) {
        uint8_t r93 = a5[6];
        if (r93 == 0) {
            r2_0 = 5;
            goto dfu_host_c_dfuse_watching_dfuse_watch_after_exit;
        }
    }
join_29:
    r2_0 = 0;
    goto dfu_host_c_dfuse_watching_dfuse_watch_after_exit;
then_9:;
    uint8_t r46_2 = a5[3];
    if (r46_2 != 0) r2_0 = 9;
    else {
        uint8_t r53 = a5[2];
        r2_0 = (uint32_t)((r53 == 0) ? 2 : 3);
    }
dfu_host_c_dfuse_watching_dfuse_watch_after_exit:
    return r2_0;
}

/* dfu_watch_after: crates/dfu_host_c/src/watching.rt */
uint32_t dfu_watch_after(struct dfu_watch *watch, const struct dfu_action *action, uint32_t seen, const struct dfu_facts *facts) {
    unsigned char *a0 = (unsigned char *)(uintptr_t)watch;
    unsigned char *a1 = (unsigned char *)(uintptr_t)action;
    uint32_t a2 = seen;
    unsigned char *a3 = (unsigned char *)(uintptr_t)facts;
    uint32_t r9, r1_0, r1_0_3, r66, r1_0_2, r1_0_4, r1_0_5;
    uint8_t r19, r69;
    uint8_t v1, r6, r2_0_in, r18_0_in;
    unsigned char *r43, *r68;
    r9 = load32(a1);
    switch (r9) {
    case 0:
    case 2:
        if (a2 != 3) r1_0 = 0;
        else {
            uint32_t r29 = load32(a0);
            r1_0 = r29 + (uint32_t)(r29 < 24);
        }
        break;
    default: {
        uint32_t r24 = load32(a0);
        r1_0 = r24;
        break;
    }
    }
    switch (r9) {
    case 0: {
        uint8_t r10 = *a3;
        if (r10 != 0) {
            r19 = a3[5];
            if ((a2 < 2) | (r19 != 0)) r1_0_3 = 0;
            else {
                uint32_t r70_2 = load32(a0 + 4);
                r1_0_3 = r70_2;
            }
            r6 = 0;
            r1_0_4 = r1_0_3;
            r2_0_in = (a2 == 2) & (r19 == 0);
            goto dfu_host_c_watching_stalled_after_exit;
        }
        uint32_t r70 = load32(a0 + 4);
        v1 = 0;
        r1_0_2 = r70;
        break;
    }
    case 2: {
        uint8_t r49 = a0[8];
        r66 = load32(a0 + 4);
        if ((a2 == 5) & (r49 != 0)) {
            v1 = 1;
            r1_0_2 = r66 + (uint32_t)(r66 < 3);
        }
        else {
            v1 = 1;
            r1_0_2 = r66;
        }
        break;
    }
    default: {
        uint32_t r70_3 = load32(a0 + 4);
        v1 = 1;
        r1_0_2 = r70_3;
        break;
    }
    }
    uint8_t r23 = a0[8];
    r6 = v1;
    r1_0_4 = r1_0_2;
    r2_0_in = r23 != 0;
dfu_host_c_watching_stalled_after_exit:
    r43 = a0 + 9;
    uint8_t r44 = *r43;
    uint8_t r46 = r44 != 0;
    if (r6 | r46) r18_0_in = r46;
    else {
        uint8_t r10_2 = *a3;
        if (!((r9 == 0) & (r10_2 != 0))) r18_0_in = 0;
        else {
            uint8_t r20 = a1[28];
            if (r20 != 33) r18_0_in = 0;
            else {
                uint8_t r33 = a1[29];
                r18_0_in = r33 == 1;
            }
        }
    }
    r68 = a0 + 10;
    r69 = *r68;
    store32(a0, r1_0);
    store32(a0 + 4, r1_0_4);
    a0[8] = r2_0_in;
    *r43 = r18_0_in;
    a0[11] = 0;
    uint8_t r27 = a3[1];
    if (r27 != 0) {
        uint8_t r34 = a3[3];
        if (r34 == 0) {
            uint8_t r44_2 = a3[2];
            r1_0_5 = (uint32_t)((r44_2 == 0) ? 2 : 3);
            goto dfu_host_c_watching_dfu_watch_after_exit;
        }
    }
    if (r1_0 > 23) r1_0_5 = 4;
    else {
        uint8_t r57 = dfu_host_c_watching_is_other(a0, a3);
        if (r57) r1_0_5 = 5;
        else {
            uint8_t r62 = a3[4];
            if (r62 == 0) r1_0_5 = 0;
            else {
                uint8_t r69_2 = a3[5];
                if (r69_2 == 0) r1_0_5 = 0;
                else {
                    uint8_t r79 = a3[7];
                    if (r79 != 0) r1_0_5 = 0;
                    else {
                        if (r18_0_in | (r69 != 0)) r1_0_5 = 5;
                        else {
                            *r68 = 1;
                            r1_0_5 = 1;
                        }
                    }
                }
            }
        }
    }
dfu_host_c_watching_dfu_watch_after_exit:
    return r1_0_5;
}

/* dfuse_next: crates/dfu_host_c/src/dfuse/action.rt */
int32_t dfuse_next(const struct dfuse_session *session, const uint8_t *map, size_t map_length, const struct dfuse_element *image, size_t elements, uint8_t *body, size_t room, struct dfuse_action *action) {
    unsigned char *a0 = (unsigned char *)(uintptr_t)session;
    unsigned char *a1 = (unsigned char *)(uintptr_t)map;
    size_t a2 = (size_t)map_length;
    unsigned char *a3 = (unsigned char *)(uintptr_t)image;
    size_t a4 = (size_t)elements;
    unsigned char *a5 = (unsigned char *)(uintptr_t)body;
    size_t a6 = (size_t)room;
    unsigned char *a7 = (unsigned char *)(uintptr_t)action;
    _Alignas(8) unsigned char r9[800];
    unsigned char *const r10 = r9;
    unsigned char *const r0 = r9;
    unsigned char *const r14 = r9;
    unsigned char *const r12_5 = r9;
    _Alignas(8) unsigned char r7[792];
    _Alignas(8) unsigned char r15[32];
    _Alignas(8) unsigned char r1_3[24];
    unsigned char *const r1_2 = r1_3;
    unsigned char *const r1 = r1_3;
    unsigned char *const r16_2 = r1_3;
    _Alignas(4) unsigned char r16[6];
    _Alignas(4) unsigned char r17_2[6];
    _Alignas(4) unsigned char r18[6];
    _Alignas(4) unsigned char r19[6];
    unsigned char *r22, *r28, *v18;
    uint16_t r8_3_0_copyload;
    uint8_t r8_72_0_copyload, r8_10_0_copyload;
    uint64_t r8_83_0_copyload, r8_9_0_copyload, r8_114_0_copyload, r36, r10_10_5_2_copyload_pre, v19, v20, r10_4_0_0, sink;
    uint32_t r8_135_0_copyload, r74_sink, common_ret_op;
    size_t r17;
    r22 = (unsigned char *)((uintptr_t)a5 + (uintptr_t)(size_t)((a5 == NULL) ? 4096 : 0));
    dfu_host_c_dfuse_holding_map_of(r9, (unsigned char *)((uintptr_t)a1 + (uintptr_t)(size_t)((a1 == NULL) ? 4096 : 0)), a2);
    uint8_t r20 = *r9;
    if (r20 != 1) common_ret_op = 0xffffffd7U;
    else {
        memcpy(r7, r9 + 8, 792);
        dfu_host_c_dfuse_holding_session_of(r10, a0, r7, (unsigned char *)((uintptr_t)a3 + (uintptr_t)(size_t)((a3 == NULL) ? 4096 : 0)), a4);
        uint8_t r27 = *r10;
        if (r27 != 1) common_ret_op = 0xffffffd7U;
        else {
            r28 = r10 + 8;
            r8_3_0_copyload = load16(r10 + 32);
            uint8_t r8_41_0_copyload = r10[48];
            r8_72_0_copyload = r10[56];
            r8_83_0_copyload = load64(r10 + 64);
            r8_9_0_copyload = load64(r10 + 72);
            r8_10_0_copyload = r10[80];
            r8_114_0_copyload = load64(r10 + 88);
            r8_135_0_copyload = load32(r10 + 100);
            if (r8_41_0_copyload == 0) {
                uint8_t r8_12_0_copyload = r10[96];
                r17 = (size_t)r8_72_0_copyload;
                store_size(r1, r17);
                store64(r1 + 8, r8_83_0_copyload);
                memset(r15, 0, 32);
                store32a2(r16 + 2, 0);
                store16(r17_2 + 4, 0);
                store16(r18 + 4, 0);
                store32a2(r19 + 2, 0);
                switch (r8_12_0_copyload) {
                case 0:
                case 9:
                case 10:
                    store16(r16, 6);
                    dfuse_host_asking_ask(r15, r16);
                    break;
                case 1:
                case 6:
                case 13:
                    store16(r17_2, 5);
                    store16(r17_2 + 2, 1);
                    dfuse_host_asking_ask(r15, r17_2);
                    break;
                case 2:
                case 7:
                case 14:
                    store16(r18, 3);
                    store16(r18 + 2, 6);
                    dfuse_host_asking_ask(r15, r18);
                    break;
                case 3:
                case 8: {
                    store32(r15 + 4, r8_135_0_copyload);
                    uint64_t v17 = load64u(r15 + 1);
                    v20 = v17;
                    goto arm_3;
                }
                case 4:
                    store16(r19, 4);
                    dfuse_host_asking_ask(r15, r19);
                    break;
                case 5: {
                    struct i8_i64 r34 = dfuse_host_plan_Plan_command_of(r28, r1, r8_10_0_copyload, r8_114_0_copyload);
                    r36 = r34.b;
                    store_size(r1_2, r17);
                    store64(r1_2 + 16, r8_9_0_copyload);
                    switch (r34.a) {
                    case 0:
                        dfuse_host_asking_address_command(r14, 33, (size_t)r36);
                        break;
                    case 1:
                        dfuse_host_asking_address_command(r14, 65, (size_t)r36);
                        break;
                    case 2: {
                        uint64_t r27_2 = dfuse_host_plan_Plan_end_of_work(r28, r1_2);
                        uint64_t r30 = dfuse_host_plan_Plan_write_end(r28, r36, r27_2);
                        struct ptr_i64 r33 = dfuse_host_plan_Plan_bytes_in(r28, r36, r30);
                        dfuse_host_asking_download(r14, r33.a, r33.b);
                        break;
                    }
                    default: never();
                    }
                    uint8_t v7 = *r14;
                    uint64_t v8 = load64u(r14 + 1);
                    *r15 = v7;
                    store64u(r15 + 1, v8);
                    memcpy(r15 + 9, r14 + 9, 5);
                    memcpy(r15 + 16, r14 + 16, 16);
                    break;
                }
                case 11: {
                    store_size(r1_3, r17);
                    store64(r1_3 + 8, r8_83_0_copyload);
                    store64(r1_3 + 16, r8_9_0_copyload);
                    struct ptr_i64 r23 = dfuse_host_plan_Plan_read_bytes(r28, r1_3);
                    store16(r16_2, 2);
                    store16(r16_2 + 2, (uint16_t)((uint16_t)(size_t)(((uint64_t)((r8_10_0_copyload == 2) ? (uint64_t)((r8_72_0_copyload == 6) ? 0 : usub_sat64(r8_83_0_copyload, r8_114_0_copyload)) : 0) / (uint64_t)(size_t)umax16(r8_3_0_copyload, 1)) % 0xfffeU) + 2));
                    store16(r16_2 + 4, (uint16_t)(size_t)r23.b);
                    dfuse_host_asking_ask(r0, r16_2);
                    uint8_t v15 = *r0;
                    *r15 = v15;
                    uint64_t v16 = load64u(r0 + 1);
                    store64u(r15 + 1, v16);
                    memcpy(r15 + 9, r0 + 9, 5);
                    memcpy(r15 + 16, r0 + 16, 16);
                    break;
                }
                case 12:
                    dfuse_host_asking_download(r15, PLACE(static_20), 0);
                    break;
                default: never();
                }
                uint8_t pr = *r15;
                size_t r10_10_3_2_copyload_pre = load_size(r15 + 16);
                r10_10_5_2_copyload_pre = load64(r15 + 24);
                v18 = (unsigned char *)(uintptr_t)r10_10_3_2_copyload_pre;
                v19 = load64u(r15 + 1);
                memcpy(r12_5, r15 + 9, 5);
                switch (pr) {
                case 0:
                    if ((uint64_t)a6 < r10_10_5_2_copyload_pre) {
                        common_ret_op = 0xffffffd5U;
                        goto dfu_host_c_dfuse_action_dfuse_next_exit;
                    }
                    memmove(r22, v18, (size_t)r10_10_5_2_copyload_pre);
                    store64(a7, r10_10_5_2_copyload_pre);
                    store32(a7 + 8, 0);
                    store32(a7 + 12, 0);
                    r74_sink = 0;
                    sink = v19;
                    goto dfu_host_c_dfuse_action_dfuse_next_exit_gvnsink_split;
                case 1:
                    if (a6 < 5) {
                        common_ret_op = 0xffffffd5U;
                        goto dfu_host_c_dfuse_action_dfuse_next_exit;
                    }
                    memcpy(r22, r12_5, 5);
                    store64(a7, 5);
                    store32(a7 + 8, 0);
                    store32(a7 + 12, 0);
                    r74_sink = 0;
                    sink = v19;
                    goto dfu_host_c_dfuse_action_dfuse_next_exit_gvnsink_split;
                case 2:
                    v20 = v19;
                    break;
                case 3:
                    r10_4_0_0 = v19;
                    goto arm_4;
                default: never();
                }
arm_3:
                store64(a7, 0);
                store32(a7 + 8, 1);
                store32(a7 + 12, (uint32_t)(size_t)(v20 >> 24));
                memset(a7 + 16, 0, 16);
                common_ret_op = 0;
                goto dfu_host_c_dfuse_action_dfuse_next_exit;
            }
            uint8_t r8_6_0_copyload = r10[50];
            uint8_t r8_5_0_copyload = r10[49];
            r10_4_0_0 = ((size_t)r8_6_0_copyload << 8) | (size_t)r8_5_0_copyload;
arm_4:;
            struct i32_i32 r72 = dfu_host_c_dfuse_reports_report_numbers((uint8_t)r10_4_0_0, (uint8_t)(size_t)(r10_4_0_0 >> 8));
            store64(a7, 0);
            store32(a7 + 8, 3);
            store32(a7 + 12, r72.a);
            r74_sink = r72.b;
            sink = 0;
dfu_host_c_dfuse_action_dfuse_next_exit_gvnsink_split:
            store32(a7 + 16, r74_sink);
            store64a4(a7 + 20, sink);
            store32(a7 + 28, 0);
            common_ret_op = 0;
        }
    }
dfu_host_c_dfuse_action_dfuse_next_exit:
    return signed32(common_ret_op);
}

/* dfuse_begin: crates/dfu_host_c/src/dfuse/steps.rt */
int32_t dfuse_begin(struct dfuse_session *session, const uint8_t *map, size_t map_length, const struct dfuse_element *image, size_t elements, const struct dfuse_plan *plan) {
    unsigned char *a0 = (unsigned char *)(uintptr_t)session;
    unsigned char *a1 = (unsigned char *)(uintptr_t)map;
    size_t a2 = (size_t)map_length;
    unsigned char *a3 = (unsigned char *)(uintptr_t)image;
    size_t a4 = (size_t)elements;
    unsigned char *a5 = (unsigned char *)(uintptr_t)plan;
    _Alignas(8) unsigned char r11[800];
    unsigned char *const r9_2 = r11;
    unsigned char *const r8_6_0 = r11;
    _Alignas(8) unsigned char r5[792];
    _Alignas(8) unsigned char r20[64];
    unsigned char *const r16_5 = r20;
    unsigned char *const r4 = r20;
    _Alignas(8) unsigned char r8_6_10[24];
    _Alignas(4) unsigned char r11_3[3];
    unsigned char *r13, *r25, *r0_3_0_a0_sroa_idx, *r0_4_0_a0_sroa_idx, *r16_5_8_r52_sroa_idx;
    uint32_t r36, r3_0_2, r0_11_0_neg, r8_4_0_neg, r8_8_0, common_ret_op;
    uint16_t r38, r8_9_0;
    size_t r3_0, r4_0, r4_0_2, r30, r8_6_8_0;
    uint64_t r3_0_3;
    uint8_t v1;
    r13 = (unsigned char *)((uintptr_t)a3 + (uintptr_t)(size_t)((a3 == NULL) ? 4096 : 0));
    dfu_formats_memory_map_Map_read(r11, (unsigned char *)((uintptr_t)a1 + (uintptr_t)(size_t)((a1 == NULL) ? 4096 : 0)), a2);
    uint8_t r26 = *r11;
    if (r26 != 0) {
        uint8_t r7_0_0_copyload = r11[1];
        common_ret_op = (uint32_t)0xffffffcdU - (uint32_t)r7_0_0_copyload;
    }
    else {
        memcpy(r5, r11 + 8, 792);
        r36 = load32(a5 + 4);
        r38 = load16(a5 + 8);
        uint16_t r9 = load16(a5 + 10);
        uint16_t r11_2 = load16(a5 + 12);
        uint16_t r13_2 = load16(a5 + 14);
        uint32_t r17 = load32(a5);
        memset(r8_6_0, 0, 46);
        memset(r8_6_10, 0, 24);
        store_size(r4, (size_t)(uintptr_t)r5);
        store_size(r4 + 8, (size_t)(uintptr_t)r13);
        store_size(r4 + 16, a4);
        store16(r4 + 24, r9);
        store16(r4 + 26, r11_2);
        r4[28] = r13_2 != 0;
        store32(r4 + 32, r17);
        if (r9 == 0) r0_11_0_neg = 0xffffffc3U;
        else {
            if (a4 == 0) r0_11_0_neg = 0xffffffc2U;
            else {
                r3_0 = 0;
                for (;;) {
                    if (r3_0 == a4) {
                        r4_0 = 0;
                        r3_0_2 = 0;
                        break;
                    }
                    uint64_t r28 = load64((r13 + (r3_0 * 24)) + 16);
                    if (r28 == 0) {
                        r0_11_0_neg = 0xffffffc2U;
                        goto dfuse_host_plan_Plan_check_exit_thread;
                    }
                    r3_0 = r3_0 + 1;
                }
                for (;;) {
                    if (r4_0 == a4) {
                        r4_0_2 = 0;
                        r3_0_3 = 0;
                        break;
                    }
                    uint32_t r27 = load32(r13 + (r4_0 * 24));
                    if (r27 < r3_0_2) {
                        r0_11_0_neg = 0xffffffc1U;
                        goto dfuse_host_plan_Plan_check_exit_thread;
                    }
                    r4_0 = r4_0 + 1;
                    r3_0_2 = r27;
                }
                while (r4_0_2 != a4) {
                    r25 = r13 + (r4_0_2 * 24);
                    uint32_t r28_2 = load32(r25);
                    r30 = (size_t)r28_2;
                    if (r3_0_3 > (uint64_t)r30) {
                        r0_11_0_neg = 0xffffffc0U;
                        goto dfuse_host_plan_Plan_check_exit_thread;
                    }
                    uint64_t r10 = load64(r25 + 16);
                    r4_0_2 = r4_0_2 + 1;
                    r3_0_3 = r10 + (uint64_t)r30;
                }
                *r11_3 = 0;
                r0_3_0_a0_sroa_idx = r11_3 + 1;
                *r0_3_0_a0_sroa_idx = 0;
                r0_4_0_a0_sroa_idx = r11_3 + 2;
                *r0_4_0_a0_sroa_idx = 0;
                uint8_t r64 = dfuse_host_plan_Plan_grants(r4, r11_3);
                if (!r64) r0_11_0_neg = 0xffffffbfU;
                else {
                    *r11_3 = 0;
                    *r0_3_0_a0_sroa_idx = 0;
                    *r0_4_0_a0_sroa_idx = 1;
                    uint8_t r74 = dfuse_host_plan_Plan_grants(r4, r11_3);
                    if (!r74) r0_11_0_neg = 0xffffffbeU;
                    else {
                        *r11_3 = 0;
                        *r0_3_0_a0_sroa_idx = 1;
                        *r0_4_0_a0_sroa_idx = 0;
                        uint8_t r84 = dfuse_host_plan_Plan_grants(r4, r11_3);
                        if (r84) {
                            *r11_3 = 1;
                            *r0_3_0_a0_sroa_idx = 0;
                            *r0_4_0_a0_sroa_idx = 0;
                            uint8_t r94 = dfuse_host_plan_Plan_grants(r4, r11_3);
                            if (!r94) {
                                v1 = 0;
                                r8_6_8_0 = 0;
                                r8_4_0_neg = 0xffffffbcU;
                                r8_8_0 = 0;
                                r8_9_0 = 0;
                                goto dfuse_host_session_Session_begin_exit;
                            }
                            uint32_t r18 = load32(r13);
                            memcpy(r8_6_0 + 6, r4, 40);
                            memset(r8_6_10, 0, 24);
                            v1 = 1;
                            r8_6_8_0 = (size_t)r18;
                            r8_4_0_neg = 0xffffffc3U;
                            r8_8_0 = umax32(r36, 1);
                            r8_9_0 = r38;
                            goto dfuse_host_session_Session_begin_exit;
                        }
                        r0_11_0_neg = 0xffffffbdU;
                    }
                }
            }
        }
dfuse_host_plan_Plan_check_exit_thread:
        v1 = 0;
        r8_6_8_0 = 0;
        r8_4_0_neg = r0_11_0_neg;
        r8_8_0 = 0;
        r8_9_0 = 0;
dfuse_host_session_Session_begin_exit:
        r16_5_8_r52_sroa_idx = r16_5 + 6;
        memcpy(r16_5_8_r52_sroa_idx, r8_6_0 + 6, 40);
        if (!v1) common_ret_op = r8_4_0_neg;
        else {
            memcpy(r9_2, r16_5_8_r52_sroa_idx, 40);
            r9_2[40] = 0;
            r9_2[41] = 0;
            r9_2[42] = 0;
            store_size(r9_2 + 48, 0);
            store64(r9_2 + 56, r8_6_8_0);
            store64(r9_2 + 64, 0);
            memcpy(r9_2 + 72, r8_6_10, 24);
            store32(r9_2 + 96, r8_8_0);
            store16(r9_2 + 100, r8_9_0);
            dfu_host_c_dfuse_holding_record_of(r20, r9_2);
            memcpy(a0, r20, 64);
            common_ret_op = 0;
        }
    }
    return signed32(common_ret_op);
}

/* dfuse_take: crates/dfu_host_c/src/dfuse/steps.rt */
int32_t dfuse_take(struct dfuse_session *session, const uint8_t *map, size_t map_length, const struct dfuse_element *image, size_t elements, uint32_t seen, const uint8_t *bytes, size_t count) {
    unsigned char *a0 = (unsigned char *)(uintptr_t)session;
    unsigned char *a1 = (unsigned char *)(uintptr_t)map;
    size_t a2 = (size_t)map_length;
    unsigned char *a3 = (unsigned char *)(uintptr_t)image;
    size_t a4 = (size_t)elements;
    uint32_t a5 = seen;
    unsigned char *a6 = (unsigned char *)(uintptr_t)bytes;
    size_t a7 = (size_t)count;
    _Alignas(8) unsigned char r10[800];
    unsigned char *const r11 = r10;
    unsigned char *const r3 = r10;
    unsigned char *const r17 = r10;
    _Alignas(8) unsigned char r7[792];
    _Alignas(8) unsigned char r4_2[104];
    unsigned char *const r9_2 = r4_2;
    unsigned char *const r5_2 = r4_2;
    unsigned char *const r12 = r4_2;
    unsigned char *const r5 = r4_2;
    unsigned char *const r1 = r4_2;
    unsigned char *const r4 = r4_2;
    _Alignas(8) unsigned char r8[104];
    _Alignas(8) unsigned char r11_2[56];
    unsigned char *const r14_3 = r11_2;
    unsigned char *const r12_5 = r11_2;
    unsigned char *const r10_3 = r11_2;
    unsigned char *const r10_2 = r11_2;
    unsigned char *const r12_3 = r11_2;
    unsigned char *const r9_3 = r11_2;
    unsigned char *const r7_2 = r11_2;
    unsigned char *const r13_2 = r11_2;
    unsigned char *const r2 = r11_2;
    unsigned char *const r1_9 = r11_2;
    unsigned char *const r1_6 = r11_2;
    unsigned char *const r1_5 = r11_2;
    unsigned char *const r1_3 = r11_2;
    _Alignas(8) unsigned char r14_2[56];
    unsigned char *const r12_2 = r14_2;
    unsigned char *const r2_2 = r14_2;
    unsigned char *const r13 = r14_2;
    unsigned char *const r1_8 = r14_2;
    unsigned char *const r1_7 = r14_2;
    unsigned char *const r1_2 = r14_2;
    _Alignas(8) unsigned char r12_4[56];
    unsigned char *const r1_4 = r12_4;
    unsigned char *r22, *r31, *r23, *r23_2;
    size_t r3_16_0_0, r3_16_8_0, r18, r9_21_8_copyload25, r9_1321_8_copyload22, r17_83_8_copyload239, r17_46228_8_copyload230, r17_83_8_copyload240, r17_46228_8_copyload231, r17_46228_0, r17_83_0;
    uint8_t r3_9_0_0, r5_0_0_copyload, r5_10_0_copyload, r5_14_0_copyload, r5_5_3_0, r5_5_7_0, r5_0_0, r13_10_3_0, r13_10_9_0, r13_0_0, r13_6_0, r17_10_3_0;
    uint8_t r17_10_7_0, r17_0_0, r17_8_0, v6, v7, v8, r9_0_0, r9_5_0, r9_9_0, r9_1319_0_in, v12, v13;
    uint8_t v14, v15, v16, v17, v26, v27, v28, v29, v30, v31, v32, v33;
    uint8_t v34, v39, v40, v41, v42, v43, v44, r12_23_0_in, r12_0_0, r12_108_0_in, r12_17_0_in, r17_0_0_2;
    uint8_t r17_16_0, r17_31_0;
    uint64_t r5_6_0_copyload, r5_8_0_copyload, r5_13_0_copyload, r9_23_8_copyload26, r9_19_8_copyload24, r9_17_8_copyload23, r9_17_0, r9_20_0, r33, r17_94_8_copyload242, r17_72_8_copyload236, r17_61_8_copyload233;
    uint64_t r14_4, r11_5_0, r11_9_0, r17_94_8_copyload243, r17_72_8_copyload237, r17_61_8_copyload234, r12_26_0, r12_13_0, r12_15_0, r12_19_0, r17_61_0, r17_72_0;
    uint64_t r17_94_0;
    uint32_t r5_18_0_copyload, r5_5_6_0, r13_10_8_0, r17_10_6_0, r9_27_8_copyload28, r9_25_8_copyload27, r9_28_0, r9_31_0, sink, r17_111_8_copyload248, r17_101_8_copyload245, r17_111_8_copyload249;
    uint32_t r17_101_8_copyload246, r12_29_0, r12_21_0, r17_101_0, r17_111_0, common_ret_op;
    uint8_t common_ret_op_2;
    uint16_t r8_3_0_copyload, r8_5_0_copyload, r8_3_0_copyload8;
    r22 = (unsigned char *)((uintptr_t)a6 + (uintptr_t)(size_t)((a6 == NULL) ? 4096 : 0));
    dfu_host_c_dfuse_holding_map_of(r10, (unsigned char *)((uintptr_t)a1 + (uintptr_t)(size_t)((a1 == NULL) ? 4096 : 0)), a2);
    uint8_t r22_2 = *r10;
    if (r22_2 != 1) common_ret_op = 0xffffffd7U;
    else {
        memcpy(r7, r10 + 8, 792);
        dfu_host_c_dfuse_holding_session_of(r11, a0, r7, (unsigned char *)((uintptr_t)a3 + (uintptr_t)(size_t)((a3 == NULL) ? 4096 : 0)), a4);
        uint8_t r30 = *r11;
        if (r30 != 1) common_ret_op = 0xffffffd7U;
        else {
            r31 = r11 + 8;
            memcpy(r8, r31, 104);
            switch (a5) {
            case 0:
                r3_16_0_0 = 0;
                r3_16_8_0 = 0;
                r3_9_0_0 = 0;
                break;
            case 1:
                r3_16_0_0 = (size_t)(uintptr_t)r22;
                r3_16_8_0 = a7;
                r3_9_0_0 = 1;
                break;
            case 2:
                r3_16_0_0 = 0;
                r3_16_8_0 = 0;
                r3_9_0_0 = 2;
                break;
            case 3:
                r3_16_0_0 = 0;
                r3_16_8_0 = 0;
                r3_9_0_0 = 3;
                break;
            case 4:
                r3_16_0_0 = 0;
                r3_16_8_0 = 0;
                r3_9_0_0 = 4;
                break;
            case 6:
                r3_16_0_0 = 0;
                r3_16_8_0 = 0;
                r3_9_0_0 = 5;
                break;
            default:
                common_ret_op = 0xffffffd6U;
                goto dfu_host_c_dfuse_steps_dfuse_take_exit;
            }
            uint8_t r14 = r8[40];
            if (r14 == 0) {
                r5_0_0_copyload = r8[48];
                r5_6_0_copyload = load64(r8 + 56);
                r5_8_0_copyload = load64(r8 + 64);
                r5_10_0_copyload = r8[72];
                r5_13_0_copyload = load64(r8 + 80);
                r5_14_0_copyload = r8[88];
                r5_18_0_copyload = load32(r8 + 92);
                r18 = (size_t)r5_0_0_copyload;
                switch (r3_9_0_0) {
                case 0:
                    r17_10_3_0 = r3_9_0_0;
                    r17_10_6_0 = 0;
                    r17_10_7_0 = r3_9_0_0;
                    r17_0_0 = r3_9_0_0;
                    r17_8_0 = r3_9_0_0;
                    break;
                case 1:
                    r23 = (unsigned char *)(uintptr_t)r3_16_0_0;
                    store_size(r1, r18);
                    store64(r1 + 8, r5_6_0_copyload);
                    store64(r1 + 16, r5_8_0_copyload);
                    switch (r5_14_0_copyload) {
                    case 1:
                    case 6:
                    case 13:
                        if (r3_16_8_0 != 1) {
                            r13_10_3_0 = 0;
                            r13_10_8_0 = 0;
                            r13_10_9_0 = 0;
                            r13_0_0 = 5;
                            r13_6_0 = 0;
                        }
                        else {
                            uint8_t r27 = *r23;
                            uint8_t v3 = r27 < 11;
                            r13_10_3_0 = 0;
                            r13_10_8_0 = 0;
                            r13_10_9_0 = 0;
                            r13_0_0 = (uint8_t)(v3 ? 2 : 5);
                            r13_6_0 = (uint8_t)(v3 ? r27 : 0);
                        }
                        break;
                    case 2:
                    case 7:
                    case 14: {
                        dfu_wire_statuses_Status_decode(r4, r23, r3_16_8_0);
                        uint8_t r9 = *r4;
                        if (r9 != 0) {
                            r5_5_3_0 = 0;
                            r5_5_6_0 = 0;
                            r5_5_7_0 = 0;
                            r5_0_0 = 5;
                        }
                        else {
                            uint8_t r5_5_3_2_copyload = r4[4];
                            uint32_t r5_5_6_2_copyload = load32(r4 + 8);
                            uint8_t r5_5_7_2_copyload = r4[12];
                            r5_5_3_0 = r5_5_3_2_copyload;
                            r5_5_6_0 = r5_5_6_2_copyload;
                            r5_5_7_0 = r5_5_7_2_copyload;
                            r5_0_0 = 1;
                        }
                        r13_10_3_0 = r5_5_3_0;
                        r13_10_8_0 = r5_5_6_0;
                        r13_10_9_0 = r5_5_7_0;
                        r13_0_0 = r5_0_0;
                        r13_6_0 = 0;
                        break;
                    }
                    case 11: {
                        struct ptr_i64 r22_3 = dfuse_host_plan_Plan_read_bytes(r31, r1);
                        r23_2 = r22_3.a;
                        if ((uint64_t)r3_16_8_0 != r22_3.b) {
                            r13_10_3_0 = 0;
                            r13_10_8_0 = 0;
                            r13_10_9_0 = 0;
                            r13_0_0 = 5;
                            r13_6_0 = 0;
                        }
                        else {
                            store_size(r5, r3_16_0_0);
                            store_size(r5 + 16, (size_t)(uintptr_t)r23_2);
                            if (r3_16_8_0 < 4) {
                                uint8_t r60 = core_slice_scan_any_by_one(r5, r3_16_8_0);
                                common_ret_op_2 = !r60;
                            }
                            else {
                                uint8_t r70 = core_slice_scan_any_in_run(r5, 0, 4);
                                if (r70) common_ret_op_2 = 0;
                                else {
                                    uint8_t r83 = core_cmp_slices_groups_equal_i8_core_cmp_numbers_U8PartialEq(r23, r3_16_8_0, r23_2);
                                    common_ret_op_2 = r83;
                                }
                            }
                            r13_10_3_0 = 0;
                            r13_10_8_0 = 0;
                            r13_10_9_0 = 0;
                            r13_0_0 = 3;
                            r13_6_0 = common_ret_op_2;
                        }
                        break;
                    }
                    case 0:
                    case 3:
                    case 4:
                    case 5:
                    case 8:
                    case 9:
                    case 10:
                    case 12:
                        r13_10_3_0 = 0;
                        r13_10_8_0 = 0;
                        r13_10_9_0 = 0;
                        r13_0_0 = 5;
                        r13_6_0 = 0;
                        break;
                    default: never();
                    }
                    r17_10_3_0 = r13_10_3_0;
                    r17_10_6_0 = r13_10_8_0;
                    r17_10_7_0 = r13_10_9_0;
                    r17_0_0 = r13_0_0;
                    r17_8_0 = r13_6_0;
                    break;
                case 2:
                    r17_10_3_0 = 0;
                    r17_10_6_0 = 0;
                    r17_10_7_0 = 0;
                    r17_0_0 = 4;
                    r17_8_0 = 0;
                    break;
                case 3:
                    r17_10_3_0 = 0;
                    r17_10_6_0 = 0;
                    r17_10_7_0 = 0;
                    r17_0_0 = 5;
                    r17_8_0 = 0;
                    break;
                case 4:
                    r17_10_3_0 = 0;
                    r17_10_6_0 = 0;
                    r17_10_7_0 = 0;
                    r17_0_0 = 6;
                    r17_8_0 = 0;
                    break;
                case 5:
                    r8_3_0_copyload = load16(r11 + 108);
                    r8_5_0_copyload = load16(r11 + 110);
                    *r2 = r5_0_0_copyload;
                    store64(r2 + 8, r5_6_0_copyload);
                    store64(r2 + 16, r5_8_0_copyload);
                    r2[24] = r5_10_0_copyload;
                    store64(r2 + 32, r5_13_0_copyload);
                    r2[40] = r5_14_0_copyload;
                    if (r5_0_0_copyload != 6) {
                        memcpy(r5_2, r31, 100);
                        store16(r5_2 + 100, r8_3_0_copyload);
                        store16(r5_2 + 102, r8_5_0_copyload);
                        dfuse_host_session_Session_take_restart(r3, r5_2, r2);
                    }
                    else {
                        *r2_2 = 6;
                        store64(r2_2 + 8, r5_6_0_copyload);
                        store64(r2_2 + 16, r5_8_0_copyload);
                        r2_2[24] = r5_10_0_copyload;
                        store64(r2_2 + 32, r5_13_0_copyload);
                        r2_2[40] = r5_14_0_copyload;
                        memset(r7_2, 0, 56);
                        if ((uint8_t)(r5_14_0_copyload + 244) < 3) {
                            memcpy(r4_2, r31, 100);
                            *r7_2 = 1;
                            r7_2[2] = 2;
                            dfuse_host_session_Session_spend_action(r3, r4_2, r7_2, r8_3_0_copyload);
                        }
                        else {
                            memcpy(r9_2, r31, 100);
                            store16(r9_2 + 100, r8_3_0_copyload);
                            store16(r9_2 + 102, r8_5_0_copyload);
                            dfuse_host_session_Session_take_restart(r3, r9_2, r2_2);
                        }
                    }
                    goto dfuse_host_session_Session_after_exit;
                default: never();
                }
                r8_3_0_copyload8 = load16(r11 + 108);
                memcpy(r12, r31, 104);
                switch (r5_14_0_copyload) {
                case 0:
                    switch (r17_0_0) {
                    case 0:
                    case 4:
                        r17_0_0_2 = 0;
                        r17_16_0 = 0;
                        r17_31_0 = 0;
                        r17_46228_0 = r18;
                        r17_61_0 = r5_6_0_copyload;
                        r17_72_0 = r5_8_0_copyload;
                        r17_83_0 = 0;
                        r17_94_0 = 0;
                        r17_101_0 = 1;
                        r17_111_0 = 0;
                        break;
                    case 1:
                    case 2:
                    case 3:
                    case 5:
                    case 6:
                        r17_0_0_2 = 0;
                        r17_16_0 = 0;
                        r17_31_0 = 0;
                        r17_46228_0 = r18;
                        r17_61_0 = r5_6_0_copyload;
                        r17_72_0 = r5_8_0_copyload;
                        r17_83_0 = 0;
                        r17_94_0 = 0;
                        r17_101_0 = 0;
                        r17_111_0 = 0;
                        break;
                    default: never();
                    }
                    break;
                case 1:
                    switch (r17_0_0) {
                    case 2:
                        store_size(r1_2, r18);
                        store64(r1_2 + 8, r5_6_0_copyload);
                        store64(r1_2 + 16, r5_8_0_copyload);
                        switch (r17_8_0) {
                        case 0:
                        case 1:
                            r9_27_8_copyload28 = 0;
                            r9_25_8_copyload27 = 0;
                            r9_23_8_copyload26 = 0;
                            r9_21_8_copyload25 = 0;
                            r9_19_8_copyload24 = 0;
                            r9_17_8_copyload23 = 0;
                            r9_1321_8_copyload22 = 0;
                            v6 = 0;
                            v7 = 6;
                            v8 = 1;
                            break;
                        case 2: {
                            dfuse_host_plan_Plan_settle(r9_3, r31, r1_2, 0, 0);
                            uint8_t pre = *r9_3;
                            uint8_t pre9 = r9_3[1];
                            uint8_t pre10 = r9_3[2];
                            size_t r9_1321_8_copyload22_pre = load_size(r9_3 + 8);
                            uint64_t r9_17_8_copyload23_pre = load64(r9_3 + 16);
                            uint64_t r9_19_8_copyload24_pre = load64(r9_3 + 24);
                            size_t r9_21_8_copyload25_pre = load_size(r9_3 + 32);
                            uint64_t r9_23_8_copyload26_pre = load64(r9_3 + 40);
                            uint32_t r9_25_8_copyload27_pre = load32(r9_3 + 48);
                            uint32_t r9_27_8_copyload28_pre = load32(r9_3 + 52);
                            r9_27_8_copyload28 = r9_27_8_copyload28_pre;
                            r9_25_8_copyload27 = r9_25_8_copyload27_pre;
                            r9_23_8_copyload26 = r9_23_8_copyload26_pre;
                            r9_21_8_copyload25 = r9_21_8_copyload25_pre;
                            r9_19_8_copyload24 = r9_19_8_copyload24_pre;
                            r9_17_8_copyload23 = r9_17_8_copyload23_pre;
                            r9_1321_8_copyload22 = r9_1321_8_copyload22_pre;
                            v6 = pre10;
                            v7 = pre9;
                            v8 = pre;
                            break;
                        }
                        case 3:
                        case 5:
                        case 6:
                        case 9:
                            r9_27_8_copyload28 = 0;
                            r9_25_8_copyload27 = 0;
                            r9_23_8_copyload26 = 0;
                            r9_21_8_copyload25 = 0;
                            r9_19_8_copyload24 = r5_8_0_copyload;
                            r9_17_8_copyload23 = r5_6_0_copyload;
                            r9_1321_8_copyload22 = r18;
                            v6 = 0;
                            v7 = 0;
                            v8 = 0;
                            break;
                        case 4:
                        case 7:
                        case 8:
                        case 10:
                            r9_27_8_copyload28 = 0;
                            r9_25_8_copyload27 = 2;
                            r9_23_8_copyload26 = 0;
                            r9_21_8_copyload25 = 0;
                            r9_19_8_copyload24 = r5_8_0_copyload;
                            r9_17_8_copyload23 = r5_6_0_copyload;
                            r9_1321_8_copyload22 = r18;
                            v6 = 0;
                            v7 = 0;
                            v8 = 0;
                            break;
                        default: never();
                        }
                        r17_0_0_2 = v8;
                        r17_16_0 = v7;
                        r17_31_0 = v6;
                        r17_46228_0 = r9_1321_8_copyload22;
                        r17_61_0 = r9_17_8_copyload23;
                        r17_72_0 = r9_19_8_copyload24;
                        r17_83_0 = r9_21_8_copyload25;
                        r17_94_0 = r9_23_8_copyload26;
                        r17_101_0 = r9_25_8_copyload27;
                        r17_111_0 = r9_27_8_copyload28;
                        break;
                    case 4:
                        r17_0_0_2 = 0;
                        r17_16_0 = 0;
                        r17_31_0 = 0;
                        r17_46228_0 = r18;
                        r17_61_0 = r5_6_0_copyload;
                        r17_72_0 = r5_8_0_copyload;
                        r17_83_0 = 0;
                        r17_94_0 = 0;
                        r17_101_0 = 2;
                        r17_111_0 = 0;
                        break;
                    case 0:
                    case 1:
                    case 3:
                    case 5:
                    case 6:
                        r17_0_0_2 = 0;
                        r17_16_0 = 0;
                        r17_31_0 = 0;
                        r17_46228_0 = r18;
                        r17_61_0 = r5_6_0_copyload;
                        r17_72_0 = r5_8_0_copyload;
                        r17_83_0 = 0;
                        r17_94_0 = 0;
                        r17_101_0 = 1;
                        r17_111_0 = 0;
                        break;
                    default: never();
                    }
                    break;
                case 2:
                    switch (r17_0_0) {
                    case 1:
                        switch (r17_10_7_0) {
                        case 0:
                        case 1:
                            r9_0_0 = 1;
                            r9_5_0 = 6;
                            r9_9_0 = 0;
                            r9_1319_0_in = 0;
                            r9_17_0 = 0;
                            r9_20_0 = 0;
                            r9_28_0 = 0;
                            r9_31_0 = 0;
                            break;
                        case 2:
                            r9_0_0 = 0;
                            r9_5_0 = 0;
                            r9_9_0 = 0;
                            r9_1319_0_in = r5_0_0_copyload;
                            r9_17_0 = r5_6_0_copyload;
                            r9_20_0 = r5_8_0_copyload;
                            r9_28_0 = 1;
                            r9_31_0 = 0;
                            break;
                        case 5:
                        case 9:
                            r9_0_0 = 0;
                            r9_5_0 = 0;
                            r9_9_0 = 0;
                            r9_1319_0_in = r5_0_0_copyload;
                            r9_17_0 = r5_6_0_copyload;
                            r9_20_0 = r5_8_0_copyload;
                            r9_28_0 = 0;
                            r9_31_0 = 0;
                            break;
                        case 10:
                            switch (r5_0_0_copyload) {
                            case 0:
                                r9_0_0 = r5_0_0_copyload;
                                r9_5_0 = r5_0_0_copyload;
                                r9_9_0 = r5_0_0_copyload;
                                r9_1319_0_in = r5_0_0_copyload;
                                r9_17_0 = r5_6_0_copyload;
                                r9_20_0 = r5_8_0_copyload;
                                r9_28_0 = 4;
                                r9_31_0 = 0;
                                goto dfuse_host_clearing_on_ask_status_exit;
                            case 3:
                            case 5:
                                switch (r17_10_3_0) {
                                case 11: break;
                                case 15:
                                    r9_0_0 = 0;
                                    r9_5_0 = 0;
                                    r9_9_0 = 0;
                                    r9_1319_0_in = r5_0_0_copyload;
                                    r9_17_0 = r5_6_0_copyload;
                                    r9_20_0 = r5_8_0_copyload;
                                    r9_28_0 = 4;
                                    r9_31_0 = 0;
                                    goto dfuse_host_clearing_on_ask_status_exit;
                                default:
                                    r9_0_0 = 1;
                                    r9_5_0 = 2;
                                    r9_9_0 = r17_10_3_0;
                                    r9_1319_0_in = 0;
                                    r9_17_0 = 0;
                                    r9_20_0 = 0;
                                    r9_28_0 = 0;
                                    r9_31_0 = 0;
                                    goto dfuse_host_clearing_on_ask_status_exit;
                                }
                                break;
                            case 1:
                            case 2:
                            case 4:
                            case 6:
                                if (r17_10_3_0 != 11) {
                                    r9_0_0 = 0;
                                    r9_5_0 = 0;
                                    r9_9_0 = 0;
                                    r9_1319_0_in = r5_0_0_copyload;
                                    r9_17_0 = r5_6_0_copyload;
                                    r9_20_0 = r5_8_0_copyload;
                                    r9_28_0 = 4;
                                    r9_31_0 = 0;
                                    goto dfuse_host_clearing_on_ask_status_exit;
                                }
                                break;
                            default: never();
                            }
                            r9_0_0 = 1;
                            r9_5_0 = 3;
                            r9_9_0 = 0;
                            r9_1319_0_in = 0;
                            r9_17_0 = 0;
                            r9_20_0 = 0;
                            r9_28_0 = 0;
                            r9_31_0 = 0;
                            break;
                        case 3:
                        case 4:
                        case 6:
                        case 7:
                        case 8:
                            r9_0_0 = 0;
                            r9_5_0 = 0;
                            r9_9_0 = 0;
                            r9_1319_0_in = r5_0_0_copyload;
                            r9_17_0 = r5_6_0_copyload;
                            r9_20_0 = r5_8_0_copyload;
                            r9_28_0 = 3;
                            r9_31_0 = r17_10_6_0;
                            break;
                        default: never();
                        }
                        break;
                    case 4:
                        r9_0_0 = 0;
                        r9_5_0 = 0;
                        r9_9_0 = 0;
                        r9_1319_0_in = r5_0_0_copyload;
                        r9_17_0 = r5_6_0_copyload;
                        r9_20_0 = r5_8_0_copyload;
                        r9_28_0 = 3;
                        r9_31_0 = 100;
                        break;
                    case 0:
                    case 2:
                    case 3:
                    case 5:
                    case 6:
                        r9_0_0 = 0;
                        r9_5_0 = 0;
                        r9_9_0 = 0;
                        r9_1319_0_in = r5_0_0_copyload;
                        r9_17_0 = r5_6_0_copyload;
                        r9_20_0 = r5_8_0_copyload;
                        r9_28_0 = 2;
                        r9_31_0 = 0;
                        break;
                    default: never();
                    }
dfuse_host_clearing_on_ask_status_exit:
                    r17_0_0_2 = r9_0_0;
                    r17_16_0 = r9_5_0;
                    r17_31_0 = r9_9_0;
                    r17_46228_0 = (size_t)r9_1319_0_in;
                    r17_61_0 = r9_17_0;
                    r17_72_0 = r9_20_0;
                    r17_83_0 = 0;
                    r17_94_0 = 0;
                    r17_101_0 = r9_28_0;
                    r17_111_0 = r9_31_0;
                    break;
                case 3: {
                    uint8_t v10 = r17_0_0 == 6;
                    r17_0_0_2 = 0;
                    r17_16_0 = 0;
                    r17_31_0 = 0;
                    r17_46228_0 = r18;
                    r17_61_0 = r5_6_0_copyload;
                    r17_72_0 = r5_8_0_copyload;
                    r17_83_0 = 0;
                    r17_94_0 = 0;
                    r17_101_0 = (uint32_t)(v10 ? 1 : 3);
                    r17_111_0 = (uint32_t)(v10 ? 0 : r5_18_0_copyload);
                    break;
                }
                case 4:
                    r17_0_0_2 = 0;
                    r17_16_0 = 0;
                    r17_31_0 = 0;
                    r17_46228_0 = r18;
                    r17_61_0 = r5_6_0_copyload;
                    r17_72_0 = r5_8_0_copyload;
                    r17_83_0 = 0;
                    r17_94_0 = 0;
                    r17_101_0 = 0;
                    r17_111_0 = 0;
                    break;
                case 5:
                    r17_0_0_2 = 0;
                    r17_16_0 = 0;
                    r17_31_0 = 0;
                    r17_46228_0 = r18;
                    r17_61_0 = r5_6_0_copyload;
                    r17_72_0 = r5_8_0_copyload;
                    r17_83_0 = (size_t)r5_10_0_copyload;
                    r17_94_0 = r5_13_0_copyload;
                    r17_101_0 = (uint32_t)((r17_0_0 == 0) ? 7 : 6);
                    r17_111_0 = 0;
                    break;
                case 6: {
                    store_size(r1_3, r18);
                    store64(r1_3 + 8, r5_6_0_copyload);
                    store64(r1_3 + 16, r5_8_0_copyload);
                    memset(r12_2, 0, 56);
                    switch (r17_0_0) {
                    case 2:
                        store_size(r1_4, r18);
                        store64(r1_4 + 8, r5_6_0_copyload);
                        store64(r1_4 + 16, r5_8_0_copyload);
                        memset(r12_3, 0, 56);
                        switch (r17_8_0) {
                        case 3:
                            sink = 7;
                            break;
                        case 2:
                        case 5:
                            sink = 5;
                            break;
                        case 10:
                            store_size(r12_3 + 8, r18);
                            store64(r12_3 + 16, r5_6_0_copyload);
                            store64(r12_3 + 24, r5_8_0_copyload);
                            memset(r12_3 + 32, 0, 24);
                            v12 = 0;
                            v13 = 0;
                            v14 = 0;
                            goto dfuse_host_plan_Plan_probed_exit;
                        case 0:
                        case 1:
                        case 4:
                        case 6:
                        case 7:
                        case 8:
                        case 9: {
                            dfuse_host_plan_Plan_on_unsure_command(r12_3, r31, r1_4, r5_10_0_copyload, r5_13_0_copyload);
                            uint8_t pre_2 = *r12_3;
                            uint8_t pre29 = r12_3[1];
                            uint8_t pre30 = r12_3[2];
                            v12 = pre30;
                            v13 = pre29;
                            v14 = pre_2;
                            goto dfuse_host_plan_Plan_probed_exit;
                        }
                        default: never();
                        }
                        store_size(r12_3 + 8, r18);
                        store64(r12_3 + 16, r5_6_0_copyload);
                        store64(r12_3 + 24, r5_8_0_copyload);
                        store_size(r12_3 + 32, (size_t)r5_10_0_copyload);
                        store64(r12_3 + 40, r5_13_0_copyload);
                        store32(r12_3 + 48, sink);
                        v12 = 0;
                        v13 = 0;
                        v14 = 0;
dfuse_host_plan_Plan_probed_exit:
                        memcpy(r12_2 + 8, r12_3 + 8, 48);
                        v15 = v12;
                        v16 = v13;
                        v17 = v14;
                        break;
                    case 4: {
                        dfuse_host_plan_Plan_on_unsure_command(r12_2, r31, r1_3, r5_10_0_copyload, r5_13_0_copyload);
                        uint8_t pre_3 = *r12_2;
                        uint8_t pre10_2 = r12_2[1];
                        uint8_t pre11 = r12_2[2];
                        v15 = pre11;
                        v16 = pre10_2;
                        v17 = pre_3;
                        break;
                    }
                    case 0:
                    case 1:
                    case 3:
                    case 5:
                    case 6:
                        store_size(r12_2 + 8, r18);
                        store64(r12_2 + 16, r5_6_0_copyload);
                        store64(r12_2 + 24, r5_8_0_copyload);
                        store_size(r12_2 + 32, (size_t)r5_10_0_copyload);
                        store64(r12_2 + 40, r5_13_0_copyload);
                        store32(r12_2 + 48, 6);
                        v15 = 0;
                        v16 = 0;
                        v17 = 0;
                        break;
                    default: never();
                    }
                    size_t r17_46228_8_copyload229 = load_size(r12_2 + 8);
                    uint64_t r17_61_8_copyload232 = load64(r12_2 + 16);
                    uint64_t r17_72_8_copyload235 = load64(r12_2 + 24);
                    size_t r17_83_8_copyload238 = load_size(r12_2 + 32);
                    uint64_t r17_94_8_copyload241 = load64(r12_2 + 40);
                    uint32_t r17_101_8_copyload244 = load32(r12_2 + 48);
                    uint32_t r17_111_8_copyload247 = load32(r12_2 + 52);
                    r17_0_0_2 = v17;
                    r17_16_0 = v16;
                    r17_31_0 = v15;
                    r17_46228_0 = r17_46228_8_copyload229;
                    r17_61_0 = r17_61_8_copyload232;
                    r17_72_0 = r17_72_8_copyload235;
                    r17_83_0 = r17_83_8_copyload238;
                    r17_94_0 = r17_94_8_copyload241;
                    r17_101_0 = r17_101_8_copyload244;
                    r17_111_0 = r17_111_8_copyload247;
                    break;
                }
                case 7:
                    switch (r17_0_0) {
                    case 1: {
                        store_size(r1_5, r18);
                        store64(r1_5 + 8, r5_6_0_copyload);
                        store64(r1_5 + 16, r5_8_0_copyload);
                        switch (r17_10_7_0) {
                        case 3:
                        case 4:
                            store_size(r12_4 + 8, r18);
                            store64(r12_4 + 16, r5_6_0_copyload);
                            store64(r12_4 + 24, r5_8_0_copyload);
                            store_size(r12_4 + 32, (size_t)r5_10_0_copyload);
                            store64(r12_4 + 40, r5_13_0_copyload);
                            store32(r12_4 + 48, 8);
                            store32(r12_4 + 52, r17_10_6_0);
                            v32 = 0;
                            v33 = 0;
                            v34 = 0;
                            break;
                        case 5: {
                            struct i8_i64 r31_2 = dfuse_host_plan_Plan_command_of(r31, r1_5, r5_10_0_copyload, r5_13_0_copyload);
                            r33 = r31_2.b;
                            store_size(r1_6, r18);
                            store64(r1_6 + 8, r5_6_0_copyload);
                            store64(r1_6 + 16, r5_8_0_copyload);
                            switch (r31_2.a) {
                            case 0: {
                                dfuse_host_plan_Plan_settle(r14_2, r31, r1_6, 1, r33);
                                uint8_t pre_4 = *r14_2;
                                uint8_t pre15 = r14_2[1];
                                uint8_t pre16 = r14_2[2];
                                v26 = pre16;
                                v27 = pre15;
                                v28 = pre_4;
                                break;
                            }
                            case 1: {
                                if (r5_0_0_copyload == 1) {
                                    uint64_t r21 = dfuse_host_plan_Plan_front_end(r31);
                                    dfuse_host_plan_Plan_to_write(r10_2, r31, 0, 0, umax64(r21, r5_6_0_copyload), r5_8_0_copyload);
                                }
                                else {
                                    uint64_t r30_2 = dfuse_host_plan_Plan_page_end(r31, r33);
                                    dfuse_host_plan_Plan_to_erase(r10_2, r31, 0, 0, r30_2);
                                }
                                uint8_t v19 = *r10_2;
                                uint8_t v20 = r10_2[1];
                                uint8_t v21 = r10_2[2];
                                memcpy(r14_2 + 8, r10_2 + 8, 48);
                                v26 = v21;
                                v27 = v20;
                                v28 = v19;
                                break;
                            }
                            case 2: {
                                if (r5_0_0_copyload == 2) {
                                    uint64_t r23_3 = dfuse_host_plan_Plan_write_end(r31, r33, r5_8_0_copyload);
                                    dfuse_host_plan_Plan_to_write(r10_3, r31, 0, 0, umax64(r23_3, r5_6_0_copyload), r5_8_0_copyload);
                                }
                                else {
                                    uint64_t r32 = dfuse_host_plan_Plan_front_end(r31);
                                    uint64_t r34 = dfuse_host_plan_Plan_write_end(r31, r33, r32);
                                    dfuse_host_plan_Plan_to_write_front(r10_3, r31, 0, 0, r34);
                                }
                                uint8_t v23 = *r10_3;
                                uint8_t v24 = r10_3[1];
                                uint8_t v25 = r10_3[2];
                                memcpy(r14_2 + 8, r10_3 + 8, 48);
                                v26 = v25;
                                v27 = v24;
                                v28 = v23;
                                break;
                            }
                            default: never();
                            }
                            memcpy(r12_4 + 8, r14_2 + 8, 48);
                            v32 = v26;
                            v33 = v27;
                            v34 = v28;
                            break;
                        }
                        case 10:
                            store_size(r1_7, r18);
                            store64(r1_7 + 8, r5_6_0_copyload);
                            store64(r1_7 + 16, r5_8_0_copyload);
                            memset(r12_5, 0, 56);
                            switch (r17_10_3_0) {
                            case 15: {
                                dfuse_host_plan_Plan_on_unsure_command(r12_5, r31, r1_7, r5_10_0_copyload, r5_13_0_copyload);
                                uint8_t pre_5 = *r12_5;
                                uint8_t pre4 = r12_5[1];
                                uint8_t pre5 = r12_5[2];
                                v29 = pre5;
                                v30 = pre4;
                                v31 = pre_5;
                                break;
                            }
                            case 11:
                                v29 = 0;
                                v30 = 3;
                                v31 = 1;
                                break;
                            case 0:
                            case 1:
                            case 2:
                            case 3:
                            case 4:
                            case 5:
                            case 6:
                            case 7:
                            case 8:
                            case 9:
                            case 10:
                            case 12:
                            case 13:
                            case 14:
                                v29 = r17_10_3_0;
                                v30 = 2;
                                v31 = 1;
                                break;
                            default: never();
                            }
                            memcpy(r12_4 + 8, r12_5 + 8, 48);
                            v32 = v29;
                            v33 = v30;
                            v34 = v31;
                            break;
                        case 0:
                        case 1:
                        case 2:
                        case 6:
                        case 7:
                        case 8:
                        case 9: {
                            dfuse_host_plan_Plan_on_unsure_command(r12_4, r31, r1_5, r5_10_0_copyload, r5_13_0_copyload);
                            uint8_t pre_6 = *r12_4;
                            uint8_t pre30_2 = r12_4[1];
                            uint8_t pre31 = r12_4[2];
                            v32 = pre31;
                            v33 = pre30_2;
                            v34 = pre_6;
                            break;
                        }
                        default: never();
                        }
                        size_t r12_1327_8_copyload28 = load_size(r12_4 + 8);
                        uint64_t r12_17_8_copyload29 = load64(r12_4 + 16);
                        uint64_t r12_19_8_copyload30 = load64(r12_4 + 24);
                        size_t r12_21_8_copyload31 = load_size(r12_4 + 32);
                        uint64_t r12_23_8_copyload32 = load64(r12_4 + 40);
                        uint32_t r12_25_8_copyload33 = load32(r12_4 + 48);
                        uint32_t r12_27_8_copyload34 = load32(r12_4 + 52);
                        r17_0_0_2 = v34;
                        r17_16_0 = v33;
                        r17_31_0 = v32;
                        r17_46228_0 = r12_1327_8_copyload28;
                        r17_61_0 = r12_17_8_copyload29;
                        r17_72_0 = r12_19_8_copyload30;
                        r17_83_0 = r12_21_8_copyload31;
                        r17_94_0 = r12_23_8_copyload32;
                        r17_101_0 = r12_25_8_copyload33;
                        r17_111_0 = r12_27_8_copyload34;
                        break;
                    }
                    case 4:
                        r17_0_0_2 = 0;
                        r17_16_0 = 0;
                        r17_31_0 = 0;
                        r17_46228_0 = r18;
                        r17_61_0 = r5_6_0_copyload;
                        r17_72_0 = r5_8_0_copyload;
                        r17_83_0 = (size_t)r5_10_0_copyload;
                        r17_94_0 = r5_13_0_copyload;
                        r17_101_0 = 8;
                        r17_111_0 = (uint32_t)((r5_18_0_copyload == 0) ? 100 : r5_18_0_copyload);
                        break;
                    case 0:
                    case 2:
                    case 3:
                    case 5:
                    case 6:
                        r17_0_0_2 = 0;
                        r17_16_0 = 0;
                        r17_31_0 = 0;
                        r17_46228_0 = r18;
                        r17_61_0 = r5_6_0_copyload;
                        r17_72_0 = r5_8_0_copyload;
                        r17_83_0 = (size_t)r5_10_0_copyload;
                        r17_94_0 = r5_13_0_copyload;
                        r17_101_0 = 7;
                        r17_111_0 = r5_18_0_copyload;
                        break;
                    default: never();
                    }
                    break;
                case 8:
                    r17_0_0_2 = 0;
                    r17_16_0 = 0;
                    r17_31_0 = 0;
                    r17_46228_0 = r18;
                    r17_61_0 = r5_6_0_copyload;
                    r17_72_0 = r5_8_0_copyload;
                    r17_83_0 = (size_t)r5_10_0_copyload;
                    r17_94_0 = r5_13_0_copyload;
                    r17_101_0 = (uint32_t)((r17_0_0 == 6) ? 7 : 8);
                    r17_111_0 = r5_18_0_copyload;
                    break;
                case 9:
                case 10:
                    store_size(r1_8, r18);
                    store64(r1_8 + 8, r5_6_0_copyload);
                    store64(r1_8 + 16, r5_8_0_copyload);
                    switch (r17_0_0) {
                    case 0: {
                        dfuse_host_plan_Plan_settle(r14_3, r31, r1_8, (uint8_t)((r5_14_0_copyload == 9) ? (uint8_t)((r5_10_0_copyload == 1) ? 2 : r5_10_0_copyload) : (uint8_t)((r5_10_0_copyload == 2) ? 1 : r5_10_0_copyload)), r5_13_0_copyload);
                        uint8_t pre_7 = *r14_3;
                        uint8_t pre13 = r14_3[1];
                        uint8_t pre14 = r14_3[2];
                        size_t r17_46228_8_copyload230_pre = load_size(r14_3 + 8);
                        uint64_t r17_61_8_copyload233_pre = load64(r14_3 + 16);
                        uint64_t r17_72_8_copyload236_pre = load64(r14_3 + 24);
                        size_t r17_83_8_copyload239_pre = load_size(r14_3 + 32);
                        uint64_t r17_94_8_copyload242_pre = load64(r14_3 + 40);
                        uint32_t r17_101_8_copyload245_pre = load32(r14_3 + 48);
                        uint32_t r17_111_8_copyload248_pre = load32(r14_3 + 52);
                        r17_111_8_copyload248 = r17_111_8_copyload248_pre;
                        r17_101_8_copyload245 = r17_101_8_copyload245_pre;
                        r17_94_8_copyload242 = r17_94_8_copyload242_pre;
                        r17_83_8_copyload239 = r17_83_8_copyload239_pre;
                        r17_72_8_copyload236 = r17_72_8_copyload236_pre;
                        r17_61_8_copyload233 = r17_61_8_copyload233_pre;
                        r17_46228_8_copyload230 = r17_46228_8_copyload230_pre;
                        v39 = pre14;
                        v40 = pre13;
                        v41 = pre_7;
                        break;
                    }
                    case 4:
                        r17_111_8_copyload248 = 0;
                        r17_101_8_copyload245 = 0;
                        r17_94_8_copyload242 = 0;
                        r17_83_8_copyload239 = 0;
                        r17_72_8_copyload236 = r5_8_0_copyload;
                        r17_61_8_copyload233 = r5_6_0_copyload;
                        r17_46228_8_copyload230 = r18;
                        v39 = 0;
                        v40 = 0;
                        v41 = 0;
                        break;
                    case 1:
                    case 2:
                    case 3:
                    case 5:
                    case 6:
                        r17_111_8_copyload248 = r5_18_0_copyload;
                        r17_101_8_copyload245 = (uint32_t)r5_14_0_copyload;
                        r17_94_8_copyload242 = r5_13_0_copyload;
                        r17_83_8_copyload239 = (size_t)r5_10_0_copyload;
                        r17_72_8_copyload236 = r5_8_0_copyload;
                        r17_61_8_copyload233 = r5_6_0_copyload;
                        r17_46228_8_copyload230 = r18;
                        v39 = 0;
                        v40 = 0;
                        v41 = 0;
                        break;
                    default: never();
                    }
                    r17_0_0_2 = v41;
                    r17_16_0 = v40;
                    r17_31_0 = v39;
                    r17_46228_0 = r17_46228_8_copyload230;
                    r17_61_0 = r17_61_8_copyload233;
                    r17_72_0 = r17_72_8_copyload236;
                    r17_83_0 = r17_83_8_copyload239;
                    r17_94_0 = r17_94_8_copyload242;
                    r17_101_0 = r17_101_8_copyload245;
                    r17_111_0 = r17_111_8_copyload248;
                    break;
                case 11:
                    switch (r17_0_0) {
                    case 3:
                        if (!(r17_8_0 & 1)) {
                            r17_111_8_copyload249 = 0;
                            r17_101_8_copyload246 = 0;
                            r17_94_8_copyload243 = 0;
                            r17_83_8_copyload240 = 0;
                            r17_72_8_copyload237 = 0;
                            r17_61_8_copyload234 = 0;
                            r17_46228_8_copyload231 = 0;
                            v42 = 0;
                            v43 = 1;
                            v44 = 1;
                        }
                        else {
                            store_size(r1_9, r18);
                            store64(r1_9 + 16, r5_8_0_copyload);
                            r14_4 = dfuse_host_plan_Plan_end_of_work(r31, r1_9);
                            switch (r5_0_0_copyload) {
                            case 3: {
                                uint64_t r20 = dfuse_host_plan_Plan_read_end(r31, r5_6_0_copyload, r14_4);
                                r11_5_0 = r20;
                                r11_9_0 = 0;
                                break;
                            }
                            case 5: {
                                uint64_t r27_2 = dfuse_host_plan_Plan_read_end(r31, r5_6_0_copyload, r14_4);
                                r11_5_0 = r27_2;
                                r11_9_0 = 0;
                                break;
                            }
                            case 0:
                            case 1:
                            case 2:
                            case 4:
                            case 6:
                                r11_5_0 = r5_6_0_copyload;
                                r11_9_0 = r5_8_0_copyload;
                                break;
                            default: never();
                            }
                            store_size(r13, r18);
                            store64(r13 + 8, r11_5_0);
                            store64(r13 + 16, r11_9_0);
                            dfuse_host_plan_Plan_settle(r11_2, r31, r13, r5_10_0_copyload, r5_13_0_copyload);
                            uint8_t pre_8 = *r11_2;
                            uint8_t pre21 = r11_2[1];
                            uint8_t pre22 = r11_2[2];
                            size_t r17_46228_8_copyload231_pre = load_size(r11_2 + 8);
                            uint64_t r17_61_8_copyload234_pre = load64(r11_2 + 16);
                            uint64_t r17_72_8_copyload237_pre = load64(r11_2 + 24);
                            size_t r17_83_8_copyload240_pre = load_size(r11_2 + 32);
                            uint64_t r17_94_8_copyload243_pre = load64(r11_2 + 40);
                            uint32_t r17_101_8_copyload246_pre = load32(r11_2 + 48);
                            uint32_t r17_111_8_copyload249_pre = load32(r11_2 + 52);
                            r17_111_8_copyload249 = r17_111_8_copyload249_pre;
                            r17_101_8_copyload246 = r17_101_8_copyload246_pre;
                            r17_94_8_copyload243 = r17_94_8_copyload243_pre;
                            r17_83_8_copyload240 = r17_83_8_copyload240_pre;
                            r17_72_8_copyload237 = r17_72_8_copyload237_pre;
                            r17_61_8_copyload234 = r17_61_8_copyload234_pre;
                            r17_46228_8_copyload231 = r17_46228_8_copyload231_pre;
                            v42 = pre22;
                            v43 = pre21;
                            v44 = pre_8;
                        }
                        break;
                    case 4:
                        r17_111_8_copyload249 = 0;
                        r17_101_8_copyload246 = 0;
                        r17_94_8_copyload243 = 0;
                        r17_83_8_copyload240 = 0;
                        r17_72_8_copyload237 = r5_8_0_copyload;
                        r17_61_8_copyload234 = r5_6_0_copyload;
                        r17_46228_8_copyload231 = r18;
                        v42 = 0;
                        v43 = 0;
                        v44 = 0;
                        break;
                    case 0:
                    case 1:
                    case 2:
                    case 5:
                    case 6:
                        r17_111_8_copyload249 = 0;
                        r17_101_8_copyload246 = 11;
                        r17_94_8_copyload243 = r5_13_0_copyload;
                        r17_83_8_copyload240 = (size_t)r5_10_0_copyload;
                        r17_72_8_copyload237 = r5_8_0_copyload;
                        r17_61_8_copyload234 = r5_6_0_copyload;
                        r17_46228_8_copyload231 = r18;
                        v42 = 0;
                        v43 = 0;
                        v44 = 0;
                        break;
                    default: never();
                    }
                    r17_0_0_2 = v44;
                    r17_16_0 = v43;
                    r17_31_0 = v42;
                    r17_46228_0 = r17_46228_8_copyload231;
                    r17_61_0 = r17_61_8_copyload234;
                    r17_72_0 = r17_72_8_copyload237;
                    r17_83_0 = r17_83_8_copyload240;
                    r17_94_0 = r17_94_8_copyload243;
                    r17_101_0 = r17_101_8_copyload246;
                    r17_111_0 = r17_111_8_copyload249;
                    break;
                case 12:
                    r17_0_0_2 = 0;
                    r17_16_0 = 0;
                    r17_31_0 = 0;
                    r17_46228_0 = r18;
                    r17_61_0 = r5_6_0_copyload;
                    r17_72_0 = r5_8_0_copyload;
                    r17_83_0 = (size_t)r5_10_0_copyload;
                    r17_94_0 = r5_13_0_copyload;
                    r17_101_0 = (uint32_t)((r17_0_0 == 0) ? 14 : 13);
                    r17_111_0 = 0;
                    break;
                case 13:
                    switch (r17_0_0) {
                    case 2:
                        switch (r17_8_0) {
                        case 2:
                        case 5:
                            r12_23_0_in = r5_10_0_copyload;
                            r12_26_0 = r5_13_0_copyload;
                            r12_29_0 = 12;
                            break;
                        case 10:
                            r12_23_0_in = 0;
                            r12_26_0 = 0;
                            r12_29_0 = 0;
                            break;
                        case 0:
                        case 1:
                        case 3:
                        case 4:
                        case 6:
                        case 7:
                        case 8:
                        case 9:
                            r12_23_0_in = r5_10_0_copyload;
                            r12_26_0 = r5_13_0_copyload;
                            r12_29_0 = 14;
                            break;
                        default: never();
                        }
                        break;
                    case 4:
                        r12_23_0_in = r5_10_0_copyload;
                        r12_26_0 = r5_13_0_copyload;
                        r12_29_0 = 14;
                        break;
                    case 0:
                    case 1:
                    case 3:
                    case 5:
                    case 6:
                        r12_23_0_in = r5_10_0_copyload;
                        r12_26_0 = r5_13_0_copyload;
                        r12_29_0 = 13;
                        break;
                    default: never();
                    }
                    r17_0_0_2 = 0;
                    r17_16_0 = 0;
                    r17_31_0 = 0;
                    r17_46228_0 = r18;
                    r17_61_0 = r5_6_0_copyload;
                    r17_72_0 = r5_8_0_copyload;
                    r17_83_0 = (size_t)r12_23_0_in;
                    r17_94_0 = r12_26_0;
                    r17_101_0 = r12_29_0;
                    r17_111_0 = 0;
                    break;
                case 14:
                    if (r17_0_0 != 1) {
                        r12_0_0 = 0;
                        r12_108_0_in = r5_0_0_copyload;
                        r12_13_0 = r5_6_0_copyload;
                        r12_15_0 = r5_8_0_copyload;
                        r12_17_0_in = r5_10_0_copyload;
                        r12_19_0 = r5_13_0_copyload;
                        r12_21_0 = 14;
                    }
                    else {
                        switch (r17_10_7_0) {
                        case 2:
                        case 5:
                            r12_0_0 = 0;
                            r12_108_0_in = r5_0_0_copyload;
                            r12_13_0 = r5_6_0_copyload;
                            r12_15_0 = r5_8_0_copyload;
                            r12_17_0_in = r5_10_0_copyload;
                            r12_19_0 = r5_13_0_copyload;
                            r12_21_0 = 12;
                            goto dfuse_host_closing_on_close_poll_exit;
                        case 10:
                            r12_0_0 = 0;
                            r12_108_0_in = r5_0_0_copyload;
                            r12_13_0 = r5_6_0_copyload;
                            r12_15_0 = r5_8_0_copyload;
                            r12_17_0_in = 0;
                            r12_19_0 = 0;
                            r12_21_0 = 0;
                            goto dfuse_host_closing_on_close_poll_exit;
                        case 7:
                        case 8:
                            if (r17_10_3_0 == 0) {
                                r12_0_0 = 1;
                                r12_108_0_in = 0;
                                r12_13_0 = 0;
                                r12_15_0 = 0;
                                r12_17_0_in = 0;
                                r12_19_0 = 0;
                                r12_21_0 = 0;
                                goto dfuse_host_closing_on_close_poll_exit;
                            }
                            break;
                        case 0:
                        case 1:
                        case 3:
                        case 4:
                        case 6:
                        case 9: break;
                        default: never();
                        }
                        r12_0_0 = 0;
                        r12_108_0_in = r5_0_0_copyload;
                        r12_13_0 = r5_6_0_copyload;
                        r12_15_0 = r5_8_0_copyload;
                        r12_17_0_in = r5_10_0_copyload;
                        r12_19_0 = r5_13_0_copyload;
                        r12_21_0 = 14;
                    }
dfuse_host_closing_on_close_poll_exit:
                    r17_0_0_2 = r12_0_0;
                    r17_16_0 = 0;
                    r17_31_0 = r12_0_0;
                    r17_46228_0 = (size_t)r12_108_0_in;
                    r17_61_0 = r12_13_0;
                    r17_72_0 = r12_15_0;
                    r17_83_0 = (size_t)r12_17_0_in;
                    r17_94_0 = r12_19_0;
                    r17_101_0 = r12_21_0;
                    r17_111_0 = 0;
                    break;
                default: never();
                }
                *r13_2 = r17_0_0_2;
                r13_2[1] = r17_16_0;
                r13_2[2] = r17_31_0;
                store_size(r13_2 + 8, r17_46228_0);
                store64(r13_2 + 16, r17_61_0);
                store64(r13_2 + 24, r17_72_0);
                store_size(r13_2 + 32, r17_83_0);
                store64(r13_2 + 40, r17_94_0);
                store32(r13_2 + 48, r17_101_0);
                store32(r13_2 + 52, r17_111_0);
                dfuse_host_session_Session_spend_action(r3, r12, r13_2, r8_3_0_copyload8);
dfuse_host_session_Session_after_exit:
                memcpy(r8, r3, 104);
            }
            dfu_host_c_dfuse_holding_record_of(r17, r8);
            memcpy(a0, r17, 64);
            common_ret_op = 0;
        }
    }
dfu_host_c_dfuse_steps_dfuse_take_exit:
    return signed32(common_ret_op);
}

/* Checks the layout that belongs to a DFU_VERSION: the size of each struct of the headers, and the offset of each field. A program and a
 * library with the same version must agree on the layout. So a change here needs a new version, and with a new version this list must be
 * reviewed. */
#include "dfu_device.h"
#include "dfu_host.h"
#include "dfuse_watch.h"
#include "dfuse_file.h"
#include "dfu_home.h"
#include "dfu_image_take.h"
#include "dfu_install.h"
#include "dfu_places.h"
#include "dfu_trial.h"
#include "dfu_runtime.h"

#if DFU_VERSION != 300
#error "another version: write down its layout here"
#endif
#ifndef __cplusplus
#define static_assert _Static_assert
#endif
#define SIZE(type, bytes) static_assert(sizeof(struct type) == (bytes), "the size of " #type)
#define AT(type, field, byte) static_assert(offsetof(struct type, field) == (byte), #type "." #field)

SIZE(dfu_config, 40);
AT(dfu_config, version, 0);
AT(dfu_config, device, 4);
AT(dfu_config, product, 6);
AT(dfu_config, vendor, 8);
AT(dfu_config, detach_ms, 10);
AT(dfu_config, transfer, 12);
AT(dfu_config, attributes, 14);
AT(dfu_config, interface_number, 15);
AT(dfu_config, busy_ms, 16);
AT(dfu_config, manifest_ms, 20);
AT(dfu_config, least, 24);
AT(dfu_config, unit, 28);
AT(dfu_config, sector, 32);
AT(dfu_config, erase_ms, 36);
AT(dfu_config, program_ms, 38);

SIZE(dfu_record, 68);
AT(dfu_record, version, 0);
AT(dfu_record, mode, 4);
AT(dfu_record, first, 8);
AT(dfu_record, second, 12);
AT(dfu_record, put_end, 16);
AT(dfu_record, slot, 20);
AT(dfu_record, number, 24);
AT(dfu_record, length, 26);
AT(dfu_record, header, 28);
AT(dfu_record, work, 44);
AT(dfu_record, spare, 48);
AT(dfu_record, sum, 52);
AT(dfu_record, done, 56);
AT(dfu_record, asked, 60);
AT(dfu_record, generation, 64);
AT(dfu_record, close, 65);
AT(dfu_record, held_length, 66);

SIZE(dfu_ask, 268);
AT(dfu_ask, kind, 0);
AT(dfu_ask, at, 4);
AT(dfu_ask, length, 8);
AT(dfu_ask, bytes, 12);

SIZE(dfu_place, 8);
AT(dfu_place, at, 0);
AT(dfu_place, length, 4);

/* The struct contains pointers. With pointers of 32 bits it has the size that dfu_device.h states. */
SIZE(dfu_device, sizeof(void *) == 4 ? 96 : 120);
AT(dfu_device, config, 0);
AT(dfu_device, flash, sizeof(void *));
AT(dfu_device, size, 2 * sizeof(void *));
AT(dfu_device, block, 3 * sizeof(void *));
AT(dfu_device, most, 4 * sizeof(void *));
AT(dfu_device, driver, 5 * sizeof(void *));
AT(dfu_device, record, 6 * sizeof(void *));
AT(dfu_device, unused, 6 * sizeof(void *) + 68);

SIZE(dfu_driver, 3 * sizeof(void *));
AT(dfu_driver, own, 0);
AT(dfu_driver, erase, sizeof(void *));
AT(dfu_driver, program, 2 * sizeof(void *));

SIZE(dfu_run_area, 8);
AT(dfu_run_area, sector, 0);
AT(dfu_run_area, last, 4);

SIZE(dfu_install, 3 * sizeof(void *) + 8);
AT(dfu_install, run, 0);
AT(dfu_install, size, sizeof(void *));
AT(dfu_install, area, 2 * sizeof(void *));
AT(dfu_install, driver, 2 * sizeof(void *) + 8);

SIZE(dfu_home_record, 8);
AT(dfu_home_record, last, 0);
AT(dfu_home_record, count, 4);

SIZE(dfu_span, 8);
AT(dfu_span, at, 0);
AT(dfu_span, length, 4);

SIZE(dfu_placement, 56);
AT(dfu_placement, sector, 0);
AT(dfu_placement, capacity, 4);
AT(dfu_placement, things, 8);

SIZE(dfu_places, 2 * sizeof(void *));
AT(dfu_places, placement, 0);
AT(dfu_places, part, sizeof(void *));

SIZE(dfu_spot, 8);
AT(dfu_spot, thing, 0);
AT(dfu_spot, offset, 4);

SIZE(dfu_tries, 12);
AT(dfu_tries, unit, 0);
AT(dfu_tries, sector, 4);
AT(dfu_tries, tries, 8);

SIZE(dfu_standing, 28);
AT(dfu_standing, active, 0);
AT(dfu_standing, base, 8);
AT(dfu_standing, on_trial, 16);
AT(dfu_standing, left, 20);
AT(dfu_standing, is_confirmed, 24);

SIZE(dfu_starting, 16);
AT(dfu_starting, run, 0);
AT(dfu_starting, otherwise, 8);

SIZE(dfu_trial, 3 * sizeof(void *) + 16);
AT(dfu_trial, flash, 0);
AT(dfu_trial, size, sizeof(void *));
AT(dfu_trial, driver, 2 * sizeof(void *));
AT(dfu_trial, tries, 3 * sizeof(void *));
AT(dfu_trial, unused, 3 * sizeof(void *) + 12);

SIZE(dfu_runtime, 12);
AT(dfu_runtime, detach_ms, 0);
AT(dfu_runtime, interface_number, 2);
AT(dfu_runtime, attributes, 3);
AT(dfu_runtime, state, 4);
AT(dfu_runtime, left, 8);

SIZE(dfu_ids, 6);
AT(dfu_ids, device, 0);
AT(dfu_ids, product, 2);
AT(dfu_ids, vendor, 4);

SIZE(dfu_file, 24);
AT(dfu_file, payload, 0);
AT(dfu_file, suffix, 8);
AT(dfu_file, crc, 12);
AT(dfu_file, device, 16);
AT(dfu_file, product, 18);
AT(dfu_file, vendor, 20);
AT(dfu_file, dfu, 22);

SIZE(dfu_session, 48);
AT(dfu_session, version, 0);
AT(dfu_session, goal, 4);
AT(dfu_session, number, 8);
AT(dfu_session, kept, 16);
AT(dfu_session, phase, 24);
AT(dfu_session, more, 28);
AT(dfu_session, actions, 32);
AT(dfu_session, restarts, 36);
AT(dfu_session, transfer, 38);
AT(dfu_session, detach_ms, 40);
AT(dfu_session, tolerant, 42);
AT(dfu_session, will_detach, 43);

SIZE(dfu_action, 40);
AT(dfu_action, what, 0);
AT(dfu_action, value, 4);
AT(dfu_action, from, 8);
AT(dfu_action, length, 16);
AT(dfu_action, code, 24);
AT(dfu_action, setup, 28);

SIZE(dfu_watch, 12);
AT(dfu_watch, silent, 0);
AT(dfu_watch, resets, 4);
AT(dfu_watch, stalled, 8);
AT(dfu_watch, sent, 9);
AT(dfu_watch, anew, 10);

SIZE(dfu_facts, 8);
AT(dfu_facts, reached, 0);
AT(dfu_facts, gone, 1);
AT(dfu_facts, many, 2);
AT(dfu_facts, stopped, 3);
AT(dfu_facts, open, 4);
AT(dfu_facts, upgrade, 5);
AT(dfu_facts, again, 6);
AT(dfu_facts, same, 7);

SIZE(dfuse_watch, 12);
AT(dfuse_watch, silent, 0);
AT(dfuse_watch, waits, 4);
AT(dfuse_watch, sent, 8);

SIZE(dfuse_map, 16);
AT(dfuse_map, name, 0);
AT(dfuse_map, ranges, 8);

SIZE(dfuse_range, 24);
AT(dfuse_range, start, 0);
AT(dfuse_range, size, 8);
AT(dfuse_range, count, 16);
AT(dfuse_range, access, 20);

SIZE(dfuse_element, 24);
AT(dfuse_element, address, 0);
AT(dfuse_element, bytes, 8);
AT(dfuse_element, length, 16);
#if UINTPTR_MAX <= 0xffffffffu
AT(dfuse_element, bytes_high, 12);
AT(dfuse_element, length_high, 20);
#endif

SIZE(dfu_look, 24);
AT(dfu_look, looks, 0);
AT(dfu_look, named, 4);
AT(dfu_look, line, 8);
AT(dfu_look, column, 16);

SIZE(dfu_taken, 32);
AT(dfu_taken, length, 0);
AT(dfu_taken, from, 8);
AT(dfu_taken, to, 16);
AT(dfu_taken, address, 24);

SIZE(dfuse_file, 16);
AT(dfuse_file, targets, 0);
AT(dfuse_file, setting, 4);
AT(dfuse_file, device, 8);
AT(dfuse_file, product, 10);
AT(dfuse_file, vendor, 12);

SIZE(dfuse_plan, 16);
AT(dfuse_plan, start, 0);
AT(dfuse_plan, actions, 4);
AT(dfuse_plan, restarts, 8);
AT(dfuse_plan, transfer, 10);
AT(dfuse_plan, front, 12);
AT(dfuse_plan, leaves, 14);

SIZE(dfuse_session, 64);
AT(dfuse_session, version, 0);
AT(dfuse_session, work, 4);
AT(dfuse_session, at, 8);
AT(dfuse_session, end, 16);
AT(dfuse_session, pointer, 24);
AT(dfuse_session, place, 32);
AT(dfuse_session, step, 36);
AT(dfuse_session, more, 40);
AT(dfuse_session, report, 44);
AT(dfuse_session, start, 48);
AT(dfuse_session, actions, 52);
AT(dfuse_session, restarts, 56);
AT(dfuse_session, transfer, 58);
AT(dfuse_session, front, 60);
AT(dfuse_session, leaves, 62);

SIZE(dfuse_action, 32);
AT(dfuse_action, length, 0);
AT(dfuse_action, what, 8);
AT(dfuse_action, value, 12);
AT(dfuse_action, more, 16);
AT(dfuse_action, setup, 20);

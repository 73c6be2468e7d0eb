// SPDX-License-Identifier: MIT OR Apache-2.0
// Records of the C headers in the libraries' memory: their fields in order with their types, a pointer as u64. Offsets follow the rules of
// C: a number is aligned to its size, and a record to its largest number. tests/lib/headers/layout compares them with a compiler's, and
// tests/apps/web the fields with the headers.
export const RECORDS = {
  dfu_ids: 'u16 device, u16 product, u16 vendor',
  dfu_look: 'u32 looks, u32 named, u64 line, u64 column',
  dfu_taken: 'u64 length, u64 from, u64 to, u32 address',
  dfu_file: 'u64 payload, u32 suffix, u32 crc, u16 device, u16 product, u16 vendor, u16 dfu',
  dfu_session:
    'u32 version, u32 goal, u64 number, u64 kept, u32 phase, u32 more, u32 actions, u16 restarts, u16 transfer, u16 detach_ms, ' +
    'u8 tolerant, u8 will_detach',
  dfu_action: 'u32 what, u32 value, u64 from, u64 length, u32 code, u8[8] setup',
  dfu_watch: 'u32 silent, u32 resets, u8 stalled, u8 sent, u8 anew',
  dfu_facts: 'u8 reached, u8 gone, u8 many, u8 stopped, u8 open, u8 upgrade, u8 again, u8 same',
  dfuse_map: 'u64 name, u64 ranges',
  dfuse_range: 'u64 start, u64 size, u32 count, u32 access',
  dfuse_element: 'u32 address, u64 bytes, u64 length',
  dfuse_plan: 'u32 start, u32 actions, u16 restarts, u16 transfer, u16 front, u16 leaves',
  dfuse_session:
    'u32 version, u32 work, u64 at, u64 end, u64 pointer, u32 place, u32 step, u32 more, u32 report, u32 start, u32 actions, ' +
    'u16 restarts, u16 transfer, u16 front, u16 leaves',
  dfuse_watch: 'u32 silent, u32 waits, u8 sent',
  dfuse_action: 'u64 length, u32 what, u32 value, u32 more, u8[8] setup',
  dfuse_file: 'u32 targets, u32 setting, u16 device, u16 product, u16 vendor',
  dfu_config:
    'u32 version, u16 device, u16 product, u16 vendor, u16 detach_ms, u16 transfer, u8 attributes, u8 interface_number, u32 busy_ms, ' +
    'u32 manifest_ms, u32 least, u32 unit, u32 sector, u16 erase_ms, u16 program_ms',
  dfu_record:
    'u32 version, u32 mode, u32 first, u32 second, u32 put_end, u32 slot, u16 number, u16 length, u8[16] header, u32 work, ' +
    'u32 spare, u32 sum, u32 done, u32 asked, u8 generation, u8 close, u16 held_length',
  dfu_ask: 'u32 kind, u32 at, u32 length, u8[256] bytes',
  dfu_place: 'u32 at, u32 length',
}

const SIZES = { u8: 1, u16: 2, u32: 4, u64: 8 }

function placed(text) {
  const fields = {}
  let at = 0
  let widest = 1
  for (const field of text.split(', ')) {
    const [, type, count, name] = /^(u\d+)(?:\[(\d+)\])? (\w+)$/.exec(field)
    const size = SIZES[type]
    at = Math.ceil(at / size) * size
    fields[name] = { at, size, count: count === undefined ? 0 : Number(count) }
    at += size * (count === undefined ? 1 : Number(count))
    widest = Math.max(widest, size)
  }
  return { fields, size: Math.ceil(at / widest) * widest }
}

// For each record its size, and for each field its offset, the size of a number in bytes, and the count of an array, or 0.
export const LAYOUT = Object.fromEntries(Object.entries(RECORDS).map(([name, text]) => [name, placed(text)]))

// Writes these fields of an existing record. Fields that the record lacks are skipped.
export function writeRecord(view, name, record, values) {
  for (const [field, value] of Object.entries(values)) {
    const place = LAYOUT[name].fields[field]
    if (place === undefined) continue
    const at = record + place.at
    if (place.size === 1) view.setUint8(at, value)
    else if (place.size === 2) view.setUint16(at, value, true)
    else if (place.size === 4) view.setUint32(at, value, true)
    else view.setBigUint64(at, BigInt(value), true)
  }
}

// Reads the fields that are one number. 8-byte numbers are sizes and addresses far below 2^53.
export function readRecord(view, name, record) {
  const values = {}
  for (const [field, { at, size, count }] of Object.entries(LAYOUT[name].fields)) {
    if (count > 0) continue
    if (size === 1) values[field] = view.getUint8(record + at)
    else if (size === 2) values[field] = view.getUint16(record + at, true)
    else if (size === 4) values[field] = view.getUint32(record + at, true)
    else values[field] = Number(view.getBigUint64(record + at, true))
  }
  return values
}

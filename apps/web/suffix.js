// SPDX-License-Identifier: MIT OR Apache-2.0
// Makes a DFU file (USB DFU 1.1, appendix B) by appending a suffix with its CRC to a payload, like `dfu add`.
const BYTES = 16
const TABLE = Uint32Array.from({ length: 256 }, (_, byte) => {
  for (let bit = 0; bit < 8; bit++) byte = byte & 1 ? (byte >>> 1) ^ 0xedb88320 : byte >>> 1
  return byte
})

function crcOf(bytes) {
  let crc = 0xffffffff
  for (const byte of bytes) crc = (crc >>> 8) ^ TABLE[(crc ^ byte) & 0xff]
  return crc >>> 0
}

// Makes a file for a device with these identifiers; FFFFh matches any.
export function fileOf(payload, { device, product, vendor }) {
  const file = new Uint8Array(payload.length + BYTES)
  const view = new DataView(file.buffer, payload.length)
  file.set(payload)
  for (const [at, number] of [device, product, vendor, 0x0100].entries()) view.setUint16(2 * at, number, true)
  file.set([0x55, 0x46, 0x44, BYTES], payload.length + 8)
  view.setUint32(12, crcOf(file.subarray(0, -4)), true)
  return file
}

// SPDX-License-Identifier: MIT OR Apache-2.0
// Begins a session with a DfuSe device: early refusals, the elements of the file, and the limits, like apps/flash/dfuse_begin.c.
import { canUpload } from './begin.js'
import { FILE } from './dfuse_host.js'
import { pagesOf } from './dfuse_map.js'
import { Host, LOOKS, REFUSAL } from './host.js'
import { ATTRIBUTE, FUNCTIONAL, hasAttribute, transferOf } from './names.js'
import { fileOf } from './suffix.js'

// Linux carries at most 4,096 bytes in a control transfer, and DfuSe blocks can't be smaller than the device's. The first 32 bytes of the
// image are written last, because without them no application starts.
const MAX_BYTES = 4096
const FRONT_BYTES = 32
const PAGE_POLLS = 1000  // GETSTATUS requests for an erase if the device reports no times
const BLOCK_ACTIONS = 60 // actions per block with a device that needs many polls
const RESTARTS = 3
const MAX_ACTIONS = 0xffffffff
const ANY_ID = 0xffff
// A descriptor that fits any device, so that the host for DFU 1.1 only checks the file.
const ANY_DESCRIPTOR = new Uint8Array([FUNCTIONAL.BYTES, FUNCTIONAL.TYPE, ATTRIBUTE.CAN_DOWNLOAD, 0, 0, 64, 0,
  FUNCTIONAL.VERSION_1_1 & 0xff, FUNCTIONAL.VERSION_1_1 >> 8])

const goesWith = (ofFile, ofDevice) => ofFile === ANY_ID || ofFile === ofDevice
export const totalOf = elements => elements.reduce((sum, { length }) => sum + length, 0)

// Returns the refusal of inputs that don't fit together, or null. The setting must be chosen or named by the file.
export function wordsRefusal({ file, address, isChosen }) {
  if (!file.isDfuse) return address !== null && file.look.looks === LOOKS.DFUSE ? 'OwnAddress' : null
  return file.said.setting === FILE.SEVERAL && !isChosen ? 'Mixed' : null
}

// Returns the refusal of an unusable device, or null.
export function deviceRefusal({ descriptor }) {
  if (!hasAttribute(descriptor, ATTRIBUTE.CAN_DOWNLOAD)) return REFUSAL.CANNOT_DOWNLOAD
  if (!canUpload({ descriptor })) return REFUSAL.CANNOT_UPLOAD
  return transferOf(descriptor) > MAX_BYTES ? 'LargeBlocks' : null
}

// Returns the elements of a DfuSe file for the setting, sorted by address, or { refusal }.
function ofDfuse(host, { said }, ids, setting) {
  if (!goesWith(said.vendor, ids.vendor) || !goesWith(said.product, ids.product)) return { refusal: REFUSAL.WRONG_TARGET }
  const { refusal, elements } = host.readElements(setting)
  return refusal === undefined ? { elements: elements.sort((one, other) => one.address - other.address) } : { refusal }
}

// Returns a file's payload as one element, or { refusal }. A raw image gets a suffix for any device, so that the host can read it.
function ofPayload(host, module, { bytes, isRaw }, ids, address) {
  const suffixed = isRaw ? fileOf(bytes, { device: ANY_ID, product: ANY_ID, vendor: ANY_ID }) : bytes
  const reader = new Host(module, suffixed)
  const refusal = reader.readFile().refusal ?? reader.begin('download', ANY_DESCRIPTOR, ids, 1, 0)
  return refusal === 0 ? { elements: host.whole(address, reader.payload) } : { refusal }
}

// Returns the elements with their addresses, or { refusal }. ids: the identifiers that the file must match.
export const imageOf = (host, module, file, ids, { setting, address }) =>
  (file.isDfuse ? ofDfuse(host, file, ids, setting) : ofPayload(host, module, file, ids, address))

// Allows many times the actions of a clean session, for losses, restarts and frequent polls. A page with parts of two elements counts
// twice.
export function limitsOf(ranges, elements, transfer) {
  if (transfer === 0) return { actions: 0, restarts: 0 }
  const pages = elements.reduce((sum, { address, length }) => sum + pagesOf(ranges, address, address + length), 0)
  const blocks = Math.floor(totalOf(elements) / transfer) + elements.length + pages + 3
  return { actions: Math.min((PAGE_POLLS * pages + BLOCK_ACTIONS * blocks) * (RESTARTS + 1) + 300, MAX_ACTIONS), restarts: RESTARTS }
}

// The session starts at the lowest address, whose first bytes are written last.
export const planOf = (elements, { actions, restarts }, transfer, leaves) =>
  ({ start: elements[0]?.address ?? 0, actions, restarts, transfer, front: FRONT_BYTES, leaves: leaves ? 1 : 0 })

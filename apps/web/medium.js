// SPDX-License-Identifier: MIT OR Apache-2.0
// Shows the proved device's medium as bytes: two slots, each with a gate, a header and data (docs/PROFILE.md, "The slot medium").
import { make } from './elements.js'
import { digits } from './names.js'

const OPEN = 0xa5
const HEAD = 16 // used bytes of a gate and of a header
const MAX_SHOWN = 256 // bytes of data for one slot, a multiple of 16
const ACROSS = 8 // bytes of a row; style.css puts two side by side if there is room

const number4 = (bytes, at) => new DataView(bytes.buffer, bytes.byteOffset).getUint32(at, true)

// Describes a slot, whose gate and header have `gate` bytes each.
function wordsOf(bytes, gate, isActive) {
  const header = bytes.subarray(gate)
  const isOpen = bytes[0] === OPEN ? 'gate open' : 'gate closed'
  const content = header[1] === 2
    ? `generation ${header[0]}, length ${number4(header, 4)}, register ${digits(number4(header, 8), 8)}` : 'no header'
  return `${isActive ? 'active, ' : ''}${isOpen}, ${content}`
}

// Makes a row of bytes, with a class for each part of the slot, and changed bytes marked.
function rowOf(bytes, before, gate, from) {
  const row = make('div', {}, make('span', { className: 'at' }, digits(from, 4)))
  for (let at = from; at < Math.min(from + ACROSS, bytes.length); at++) {
    const part = at === 0 ? 'gate' : at < gate ? 'fill' : at < 2 * gate ? 'header' : 'data'
    const isNew = before !== null && before[at] !== bytes[at]
    row.append(' ', make(isNew ? 'mark' : 'span', { className: part }, digits(bytes[at], 2)))
  }
  return row
}

// Makes a slot's figure, without the unused rest of the gate and of the header.
function slotOf(name, bytes, before, gate, isActive) {
  const end = Math.min(2 * gate + MAX_SHOWN, bytes.length)
  const rows = []
  for (const [first, behind] of [[0, HEAD], [gate, gate + HEAD], [2 * gate, end]])
    for (let from = first; from < behind; from += ACROSS) rows.push(rowOf(bytes, before, gate, from))
  if (end < bytes.length) rows.push(make('div', {}, `.. ${bytes.length - end} bytes more`))
  return make('figure', { className: isActive ? 'slot active' : 'slot' },
    make('figcaption', {}, `${name}: ${wordsOf(bytes, gate, isActive)}`), make('div', { className: 'bytes' }, ...rows))
}

// Shows the medium in `place`. `before` has the bytes that were shown last, or null.
export function showMedium(place, device, before) {
  const half = device.size / 2
  const bytes = device.mediumBytes().slice()
  const isFirst = device.imagePlace().at < half
  const partOf = (whole, from) => (whole === null ? null : whole.slice(from, from + half))
  place.replaceChildren(slotOf('First slot', partOf(bytes, 0), partOf(before, 0), device.gate, isFirst),
    slotOf('Second slot', partOf(bytes, half), partOf(before, half), device.gate, !isFirst))
  return bytes
}

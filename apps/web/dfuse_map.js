// SPDX-License-Identifier: MIT OR Apache-2.0
// Memory maps: prints a range like dfu-flash --list, and counts pages, like apps/flash/dfuse_map.c.
import { ACCESS } from './dfuse_host.js'
import { digits } from './names.js'

const LETTERS = [['r', ACCESS.READABLE], ['e', ACCESS.ERASABLE], ['w', ACCESS.WRITABLE]]

const endOf = ({ start, size, count }) => start + size * count
const counted = (count, what) => `${count} ${what}${count === 1 ? '' : 's'}`

// Writes a range, such as 08000000..0800ffff 4 pages of 16384 bytes rew.
export function rangeText(range) {
  const letters = LETTERS.map(([letter, bit]) => ((range.access & bit) !== 0 ? letter : '-')).join('')
  const place = `${digits(range.start, 8)}..${digits(endOf(range) - 1, 8)}`
  return `${place} ${counted(range.count, 'page')} of ${counted(range.size, 'byte')} ${letters}`
}

// Writes an element as its address and length, such as `08000000 4 bytes`.
export const elementText = ({ address, length }) => `${digits(address, 8)} ${counted(length, 'byte')}`

// Counts the pages that a range of addresses overlaps, up to the first address outside the map.
export function pagesOf(ranges, start, end) {
  let pages = 0
  for (let at = start; at < end;) {
    const from = at
    const range = ranges.find(one => one.start <= from && from < endOf(one))
    if (range === undefined) return pages
    const last = Math.min(end, endOf(range)) - 1
    pages += Math.floor((last - range.start) / range.size) - Math.floor((at - range.start) / range.size) + 1
    at = endOf(range)
  }
  return pages
}

// Counts the bytes of the elements whose address is below `address`.
export const bytesBelow = (elements, address) =>
  elements.reduce((sum, one) => sum + Math.max(0, Math.min(one.length, address - one.address)), 0)

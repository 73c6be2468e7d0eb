// SPDX-License-Identifier: MIT OR Apache-2.0
// Extracts the image of an Intel HEX, S-record, UF2 or ELF file by the proved readers of `dfu add --format`, with that command's refusals.
import { LOOKS } from './host.js'
import { Library } from './library.js'
import { digits } from './names.js'

export const FORMATS = { [LOOKS.IHEX]: 'Intel HEX', [LOOKS.SREC]: 'Motorola S-records', [LOOKS.UF2]: 'UF2', [LOOKS.ELF]: 'ELF' }
// Numbers of dfu_image_take.h that this page names.
export const TAKE = { NO_MEMORY: -103, NO_MARK: -104, TOO_LARGE: -123, TOO_MANY_ELEMENTS: -124, OVERLAPS: -125, NO_DATA: -126, GAP: -127,
  TOO_LARGE_FILLED: -128 }
export const FILL_NONE = 256
export const FILL = 0xff

const MAX_IMAGE_BYTES = 16777216
// Working memory in bytes: more than a file with the largest image needs.
const MEMORY = 4 * MAX_IMAGE_BYTES + 200000
const ANEW = 'Build it anew.'

// From NO_MARK on: the name of an error, the unit of its position, and its words.
const FAULTS = [
  ['NoMark', 'line', 'no record begins so'],
  ['BadDigit', 'line', 'not all is pairs of hexadecimal digits'],
  ['BadLength', 'line', 'the record has a wrong length'],
  ['BadChecksum', 'line', 'the checksum is wrong'],
  ['BadType', 'line', 'the record has an unknown type'],
  ['BadCount', 'line', 'the count of records is wrong'],
  ['PastSegment', 'line', 'the data ends behind its segment, or behind the last address'],
  ['Trailing', 'line', 'something stands behind the end record'],
  ['NoEnd', '', 'the end record is missing'],
  ['BadSize', '', "the file isn't blocks of 512 bytes"],
  ['BadMagic', 'block', 'no block begins and ends so'],
  ['BadBlock', 'block', "it can't have so much data"],
  ['BadNumber', 'block', 'it has another number, or another count'],
  ['FileContainer', 'block', 'it is for a file, and not for flash'],
  ['OtherFamily', 'block', 'it is for another family of boards than the first'],
  ['NotElf', '', "the file isn't an ELF file of 32 bits, little endian"],
  ['CutHeader', '', 'the program headers are cut off, or have another size'],
  ['CutSegment', 'segment', 'it is cut off'],
  ['PastTheEnd', 'at', 'the data ends behind address FFFFFFFF'],
  ['TooLarge', 'at', 'the image has over 16,777,216 bytes'],
  ['TooManyElements', 'at', 'the image has over 1,024 parts'],
]
const ADVICE = {
  [TAKE.NO_MEMORY]: 'Close other pages.',
  [TAKE.OVERLAPS]: 'Build it so that each byte is there once.',
  [TAKE.TOO_MANY_ELEMENTS]: "A part is a run in the file's order: build it with rising addresses, or with fewer gaps.",
  [TAKE.NO_DATA]: 'Look at what the build puts into it.',
  [TAKE.GAP]: 'Tick the box to fill gaps with the byte ff.',
  [TAKE.TOO_LARGE_FILLED]: 'Take a file for one part of the memory.',
}

// Returns true if the file has one of FORMATS.
export const isFormat = ({ looks }) => FORMATS[looks] !== undefined

// Returns { format, fill, address, bytes }, or { format, refusal, from, to }. fill is a byte or FILL_NONE.
export function takeImage(module, file, format, fill) {
  const library = new Library(module)
  const [at, taken, room] = [library.put(file), library.record('dfu_taken'), library.reserve(MAX_IMAGE_BYTES)]
  const memory = library.reserve(MEMORY)
  const [ofFile, ofRest] = [[at, file.length], [room, MAX_IMAGE_BYTES, taken, memory, MEMORY / 8]].map(words => words.map(BigInt))
  const result = library.calls.dfu_image_take(...ofFile, format, fill, ...ofRest)
  const { length, address, from, to } = library.read('dfu_taken', taken)
  return result === 0 ? { format, fill, address, bytes: library.copy(room, length) } : { format, refusal: result, from, to }
}

// Returns the name of a refusal with its position, as in `dfu add`, and its words.
function wordsOf({ refusal, from, to }) {
  const [first, behind] = [digits(from, 8), digits(to, 8)]
  if (refusal === TAKE.GAP) return [`Gap ${first} ${behind}`, `nothing is at ${first} to before ${behind}, and no filling is given`]
  if (refusal === TAKE.OVERLAPS) return [`Overlaps ${first}`, `two records have a byte at address ${first}`]
  if (refusal === TAKE.NO_DATA) return ['NoData', 'it has no bytes for an image']
  if (refusal === TAKE.TOO_LARGE_FILLED) return ['TooLarge', 'from the lowest to the highest address there are over 16,777,216 bytes']
  if (refusal === TAKE.NO_MEMORY) return ['NoMemory', 'an allocation was refused']
  const [name, counted, words] = FAULTS[TAKE.NO_MARK - refusal]
  return counted === '' ? [name, words] : [`${name} ${from}`, `${counted} ${from}: ${words}`]
}

// Returns { name, words, advice } for a file without an image.
export function takingRefusal(taken) {
  const [name, words] = wordsOf(taken)
  return { name, words, advice: ADVICE[taken.refusal] ?? ANEW }
}

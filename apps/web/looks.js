// SPDX-License-Identifier: MIT OR Apache-2.0
// Texts for files that aren't images and would otherwise be sent as they are, like apps/flash/looks.c. The library detects the format; the
// words are those of apps/flash/refusals.c.
import { LOOKS, NAMED } from './host.js'
import { digits } from './names.js'

export const WORDS = {
  ARCHIVE: 'the file is a zip or gzip archive; unpack it first',
  TEXT: 'the file is text and no image; give the file that the build made',
  NAMED: "the file isn't of the format that its name says: it was cut short or changed; build it anew",
  CUT: "the file's name ends in .dfu, and it has no DFU suffix: it was cut short or changed; get it anew",
}

const OTHERS = {
  [LOOKS.ZIP]: ['ARCHIVE', 'a zip archive', 'Unpack it first.'],
  [LOOKS.GZIP]: ['ARCHIVE', 'a gzip archive', 'Unpack it first.'],
  [LOOKS.TEXT]: ['TEXT', 'text', 'A page of a server may have come in place of the file.'],
}
const MARK = [0xef, 0xbb, 0xbf]
const LINE_FEED = 10

// Returns the byte at a line and a column, both from 1, as text. A byte order mark is skipped.
function byteAt(bytes, line, column) {
  let at = MARK.every((byte, place) => bytes[place] === byte) ? MARK.length : 0
  for (let number = 1; number < line; number++) at = bytes.indexOf(LINE_FEED, at) + 1
  const byte = bytes[at + column - 1]
  return byte > 0x20 && byte < 0x7f ? `'${String.fromCharCode(byte)}'` : `the byte ${digits(byte, 2)}`
}

// Returns true if the name is a DFU file's but the suffix is missing, because the file was cut or changed.
export const isCut = ({ looks, named }) => looks === LOOKS.NAMED && named === NAMED.DFU

// Returns { words, advice } for a file that is neither raw nor in a known format.
export function otherThanRaw(look) {
  if (isCut(look)) return { words: WORDS.CUT, advice: 'Download the file again.' }
  if (OTHERS[look.looks] === undefined) return { words: WORDS.NAMED, advice: 'Its name says one of HEX, S-records, UF2 and ELF.' }
  const [words, name, advice] = OTHERS[look.looks]
  return { words: WORDS[words], advice: `It looks like ${name}. ${advice}` }
}

// Returns a sentence about the first invalid byte, or ''.
export const badByte = ({ line, column }, bytes) =>
  (line === 0 ? '' : `The first wrong character is at line ${line}, column ${column}: ${byteAt(bytes, line, column)}.`)

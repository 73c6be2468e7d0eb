// SPDX-License-Identifier: MIT OR Apache-2.0
// Parses a line of a script (docs/SCRIPT.md). Returns null if it is invalid, or { what: 'blank' } for an empty line or a comment.

const MAX_LINE = 65536
const DIGITS = /^[0-9]{1,10}$/
const FOUR = /^[0-9a-f]{4}$/i
const UNITS = [1, 16, 64, 256]
const FATES = { lostout: 'lost out', lostback: 'lost back', twice: 'twice', twicelostback: 'twice, lost back' }
const HARMS = ['cut', 'fail', 'lie']
const OBJECTIONS = { errTARGET: 1, errFILE: 2 }

// Parses a number from `least` to `most`. Returns undefined if the word is invalid.
function number(word, most = 4294967295, least = 0) {
  if (word === undefined || !DIGITS.test(word)) return undefined
  const value = Number(word)
  return value <= most && value >= least ? value : undefined
}

export function bytesOf(word) {
  if (word === '-') return new Uint8Array(0)
  if (word === undefined || word.length % 2 !== 0 || !/^([0-9a-f]{2})+$/i.test(word)) return undefined
  return Uint8Array.from(word.match(/../g), pair => parseInt(pair, 16))
}

const four = word => (word !== undefined && FOUR.test(word) ? parseInt(word, 16) : undefined)

// Returns the line, or null if a value is undefined.
const whole = line => (Object.values(line).includes(undefined) ? null : line)

// By first word: the number of words after it, and their parser.
const FORMS = {
  ids: [3, (vendor, product, device) => ({ what: 'ids', vendor: four(vendor), product: four(product), device: four(device) })],
  device: [6, (flags, detach, transfer, least, busy, manifest) => ({
    what: 'device',
    attributes: /^0[0-9a-f]$/i.test(flags) ? parseInt(flags, 16) : undefined,
    detach_ms: number(detach, 65535), transfer: number(transfer, 65535), least: number(least), busy_ms: number(busy),
    manifest_ms: number(manifest),
  })],
  unit: [1, word => ({ what: 'unit', unit: UNITS.includes(number(word)) ? number(word) : undefined })],
  erase: [1, word => ({ what: 'erase', sector: number(word, 131072) % 256 === 0 ? number(word) : undefined })],
  pace: [2, (erase, program) => ({ what: 'pace', erase_ms: number(erase, 65535), program_ms: number(program, 65535) })],
  capacity: [1, word => ({ what: 'capacity', capacity: number(word, 1048576, 1) })],
  image: [1, word => ({ what: 'image', image: bytesOf(word) })],
  check: [1, word => ({ what: 'check', check: bytesOf(word) })],
  limits: [2, (actions, restarts) => ({ what: 'limits', actions: number(actions), restarts: number(restarts, 65535) })],
  offer: [1, word => ({ what: 'offer', goal: 'download', file: bytesOf(word) })],
  verify: [1, word => ({ what: 'offer', goal: 'verified', file: bytesOf(word) })],
  upload: [0, () => ({ what: 'upload' })],
  abort: [0, () => ({ what: 'abort' })],
  time: [1, word => ({ what: 'time', ms: number(word) })],
  reset: [0, () => ({ what: 'reset' })],
  cut: [0, () => ({ what: 'cut' })],
  refuse: [1, word => ({ what: 'refuse', objection: Object.hasOwn(OBJECTIONS, word) ? OBJECTIONS[word] : undefined })],
  show: [0, () => ({ what: 'show' })],
}

function go([fate, ...rest]) {
  if (fate === 'pass') return rest.length === 1 ? whole({ what: 'go', fate, times: number(rest[0], 1000000, 1) }) : null
  if (fate === 'until') return rest.length === 1 && rest[0] === 'report' ? { what: 'until' } : null
  if (fate === 'slip') return rest.length === 1 ? whole({ what: 'go', fate, ms: number(rest[0]), times: 1 }) : null
  if (HARMS.includes(fate))
    return rest.length === 2 ? whole({ what: 'go', fate, writes: number(rest[0]), tear: bytesOf(rest[1]), times: 1 }) : null
  return fate in FATES && rest.length === 0 ? { what: 'go', fate, times: 1 } : null
}

export function lineOf(text) {
  if (new TextEncoder().encode(text).length > MAX_LINE) return null
  const [first, ...rest] = text.split(' ').filter(word => word !== '')
  if (first === undefined || first.startsWith('#')) return { what: 'blank' }
  if (first === 'go') return go(rest)
  if (!Object.hasOwn(FORMS, first)) return null
  const [count, read] = FORMS[first]
  return rest.length === count ? whole(read(...rest)) : null
}

// Splits a text into lines. The last line feed may be missing.
export const linesOf = text => (text.endsWith('\n') ? text.slice(0, -1) : text).split('\n')

// SPDX-License-Identifier: MIT OR Apache-2.0
// Describes a host's action as text: the request, its fate, and the answer that the host gets.
import { SEEN, WHAT } from './host.js'
import { CODES, REQUEST, REQUESTS, STATES, hexOf, partsOf, pollOf, stateOf } from './names.js'

const HEARS = ['it is acknowledged', '', 'a stall', 'nothing', 'the time has passed', 'the bus was reset', 'the device restarted']
const FATES = { pass: 'it goes well', lostout: 'the request is lost', lostback: 'the answer is lost', twice: 'it comes twice',
  twicelostback: 'it comes twice, the answer is lost' }
const MAX_SHOWN = 16 // bytes of an answer that are shown

export function fateOf({ fate, ms, writes, tear }) {
  if (fate === 'slip') return `${ms} ms pass`
  if (writes === undefined) return FATES[fate]
  const what = { cut: 'the power is cut', fail: 'it fails', lie: 'it lies' }[fate]
  return `${what} in write ${writes}${tear.length > 0 ? `, which leaves ${hexOf(tear)}` : ''}`
}

export function actionOf({ what, value, setup }) {
  if (what !== WHAT.SEND) return what === WHAT.WAIT ? `wait ${value} ms` : 'reset the bus'
  const parts = partsOf(setup)
  const name = REQUESTS[parts.request]
  if (parts.request === REQUEST.DNLOAD || parts.request === REQUEST.UPLOAD) return `${name} ${parts.value}, ${parts.length} bytes`
  return parts.request === REQUEST.DETACH ? `${name}, within ${parts.value} ms` : name
}

// Returns the meaning of an answer: code, state and poll time of a status, or a state, or ''.
function meaningOf({ setup }, bytes) {
  const { request } = partsOf(setup)
  const state = stateOf(request, bytes)
  if (state === undefined) return ''
  const name = STATES[state] ?? '?'
  if (request === REQUEST.GETSTATE) return name
  return `${CODES[bytes[0]] ?? '?'}, ${name}${pollOf(bytes) > 0 ? `, wait ${pollOf(bytes)} ms` : ''}`
}

// Returns a text for the answer that the host gets, and the answer's bytes.
export function hearsOf({ action, seen, bytes }) {
  if (seen !== SEEN.BYTES) return [HEARS[seen], '']
  if (bytes.length === 0) return ['no bytes', '']
  return [meaningOf(action, bytes), `${hexOf(bytes.slice(0, MAX_SHOWN))}${bytes.length > MAX_SHOWN ? ' ..' : ''}`]
}

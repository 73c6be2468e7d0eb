// SPDX-License-Identifier: MIT OR Apache-2.0
// The log of a session in the format of `dfu-flash --verbose=FILE` (its manual, TRACE; apps/flash/log.h), also for `dfu judge`. WebUSB has
// no path, so the path is 0, a bus without ports.
import { SEEN } from './host.js'
import { REQUESTS, STATES, digits, hexOf, partsOf, stateOf } from './names.js'

const SHORT_BYTES = 8 // longest answer whose bytes are shown
const TOLD = ['ack', '', 'stall', 'nothing', 'waited', 'reset', 'restarted', 'left']

function answerWord({ seen, bytes, isGone, error }) {
  if (isGone) return 'gone'
  if (seen === SEEN.BYTES) return bytes.length === 0 || bytes.length > SHORT_BYTES ? `${bytes.length}-bytes` : hexOf(bytes)
  return seen === SEEN.NOTHING && error !== '' ? `nothing:${error}` : TOLD[seen]
}

// Returns the state in an answer to GETSTATUS or GETSTATE (USB DFU 1.1, sections 6.1.2 and 6.1.5), or '-'.
export function stateIn(request, { seen, bytes }) {
  const state = seen === SEEN.BYTES ? stateOf(request, bytes) : undefined
  return state === undefined ? '-' : STATES[state] ?? '?'
}

export class Trace {
  constructor() {
    Object.assign(this, { lines: [], number: 0, isOwn: false, returns: 0 })
  }

  say(text) {
    this.lines.push(`# ${text}`)
  }

  // The first word is the number of the action, or `own:` if it isn't the host's.
  add(what, value, length, answer, state, ms) {
    const front = this.isOwn ? 'own:' : ++this.number
    this.say(`${front} ${what} ${value} ${length} ${answerWord(answer)} ${state} ${Math.round(ms)}`)
  }

  request(setup, answer, ms) {
    const { request, value, length } = partsOf(setup)
    this.add(REQUESTS[request], value, length, answer, stateIn(request, answer), ms)
  }

  // Adds a line for `dfu judge`: a request and its answer.
  exchange(setup, index, body, { seen, bytes }) {
    const sent = hexOf([...setup.slice(0, 4), index, 0, ...setup.slice(6)])
    this.lines.push(`${sent} ${hexOf(body) || '-'} ${['ack', hexOf(bytes) || 'ack', 'stall'][seen] ?? 'nothing'}`)
  }

  // Adds a reset before a request if the device has left and returned since the last one.
  returned(returns) {
    if (returns > this.returns) this.lines.push('reset')
    this.returns = returns
  }

  wait(asked, answer, ms) {
    this.add('WAIT', asked, 0, answer, '-', ms)
  }

  reset(answer, ms, isOpen) {
    this.add('RESET', 0, 0, answer, '-', ms)
    if (answer.seen === SEEN.RESET && isOpen) this.lines.push('reset')
  }

  begin(goal, info, { transfer, actions, restarts }) {
    const ids = [info.vendor, info.product, info.device ?? info.release].map(number => digits(number, 4)).join(':')
    const mode = info.isUpgrade ? 'DFU' : 'run-time'
    const descriptor = info.descriptor.length === 0 ? '-' : hexOf(info.descriptor)
    this.say(`begin ${goal} ${ids} 0 ${info.interface} ${info.alternate} ${mode} ${descriptor} ${transfer} ${actions} ${restarts}`)
  }

  abort() {
    this.say('abort')
  }
}

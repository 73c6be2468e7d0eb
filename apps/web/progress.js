// SPDX-License-Identifier: MIT OR Apache-2.0
// The progress of a session: its phase, the bytes of the phase, and the remaining time.
import { SEEN, WHAT } from './host.js'
import { isDetach, isDownload, isUpload, partsOf } from './names.js'

const LONG_MS = 3000 // longer waits are reported
const SOON_MS = 1500 // before this time the rate is unreliable

const PHASES = { ask: 'Asking the device for its state', detach: 'Bringing the device to DFU mode', reset: 'Resetting the device',
  erase: 'Erasing the pages of the image', send: 'Sending the image', compare: 'Reading the image back, and comparing it' }
const MEASURED = ['erase', 'send', 'compare']

export class Progress {
  // show({ phase, part, left }): a text, a number from 0 to 1 or null, and a text.
  constructor(total, now, show) {
    Object.assign(this, { total, now, show, phase: 'ask', bytes: 0, began: 0 })
  }

  // Called before an action, with answer null, and after it.
  step(action, answer) {
    const phase = this.phaseOf(action) ?? this.phase
    if (phase !== this.phase) Object.assign(this, { phase, bytes: 0, began: this.now() })
    if (answer !== null) this.bytes = this.bytesOf(action, answer) ?? this.bytes
    this.tell(answer === null && action.what === WHAT.WAIT && action.value > LONG_MS ? action.value : 0)
  }

  phaseOf({ what, setup }) {
    if (what === WHAT.RESET) return 'reset'
    if (what !== WHAT.SEND) return null
    return isDownload(setup) ? 'send' : isUpload(setup) ? 'compare' : isDetach(setup) ? 'detach' : null
  }

  bytesOf(action, { seen, bytes }) {
    if (action.what !== WHAT.SEND) return null
    const { value, length } = partsOf(action.setup)
    if (seen === SEEN.ACK && isDownload(action.setup) && action.length > 0) return action.from + action.length
    return seen === SEEN.BYTES && isUpload(action.setup) ? Math.min(value * length + bytes.length, this.total) : null
  }

  tell(wait) {
    const isMeasured = MEASURED.includes(this.phase)
    const part = isMeasured && this.total > 0 ? this.bytes / this.total : null
    const ofBytes = isMeasured ? `: ${this.bytes} of ${this.total} bytes` : ''
    const waits = wait > 0 ? ` (the device asks for ${Math.round(wait / 1000)} s)` : ''
    this.show({ phase: `${PHASES[this.phase]}${ofBytes}${waits}`, part, left: this.left(part) })
  }

  // Estimates the remaining time of this phase from its rate so far, without later phases.
  left(part) {
    const passed = this.now() - this.began
    if (part === null || part === 0 || part === 1 || passed < SOON_MS) return ''
    const seconds = Math.ceil(passed * (1 - part) / part / 1000)
    return seconds >= 90 ? `, about ${Math.round(seconds / 60)} minutes left` : `, about ${seconds} s left`
  }
}

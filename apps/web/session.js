// SPDX-License-Identifier: MIT OR Apache-2.0
// The loop of a session: carries out the host's actions and reports their results, like apps/flash/session.c. Only the DETACH of stalls.js
// is sent in addition. dfuse_session.js has the loop for DfuSe.
import { cut, goalOf, isDfuse, limitsOf, standIn } from './begin.js'
import { SEEN, WHAT } from './host.js'
import { isDownload } from './names.js'
import { Stalls } from './stalls.js'
import { COURSE, Watch, endOf } from './watch.js'

const NONE = new Uint8Array(0)

export const nothing = () => ({ seen: SEEN.NOTHING, bytes: NONE, isGone: false, error: '' })
const sameText = (first, now) => first === '' || now === '' || first === now
const modeOf = info => (info.isUpgrade ? 'dfu' : 'app')
export const sameBytes = (first, now) => first.length === now.length && first.every((byte, at) => byte === now[at])

// Returns true if two descriptions of a device in one mode match.
export const isAgain = (first, now) => first.vendor === now.vendor && first.product === now.product && first.interface === now.interface
  && first.alternate === now.alternate && sameText(first.serial, now.serial) && sameText(first.name, now.name)

export class Session {
  // ids: the identifiers that the file must match. limits: { actions, restarts }, or null for the default by the file's size. onStep is
  // called before each action and with its answer.
  constructor(host, wire, { wantsVerified, ids, limits = null, onStep = () => {} }) {
    Object.assign(this, { host, wire, board: wire.board, clock: wire.clock, trace: wire.trace, wantsVerified, ids, limits, onStep })
    this.watch = new Watch(host)
    Object.assign(this, { first: {}, stalls: new Stalls(this.watch, wire), runtimeRefusal: 0 })
    Object.assign(this, { isWhole: false, isAborted: false, taken: 0, restarted: 0 })
  }

  // Returns 0, a refusal of dfu_host.h, or 'DfuSeDevice'. Sends nothing.
  begin() {
    const { info } = this.board
    this.goal = goalOf(info, this.wantsVerified)
    this.runtimeRefusal = 0
    this.note()
    if (isDfuse(info)) return 'DfuSeDevice'
    this.beginDescriptor = info.descriptor
    const refusal = this.beginBy(cut(info.descriptor))
    const substitute = refusal === 0 ? null : standIn(info, refusal)
    if (substitute === null) return refusal
    this.runtimeRefusal = refusal
    return this.beginBy(substitute)
  }

  beginBy(descriptor) {
    const { actions, restarts } = this.limits ?? limitsOf(this.host.payload, descriptor)
    this.hostDescriptor = descriptor
    return this.host.begin(this.goal, descriptor, this.ids, actions, restarts)
  }

  traceBegin() {
    const descriptor = this.runtimeRefusal === 0 ? this.board.info.descriptor : this.hostDescriptor
    this.trace.begin(this.goal, { ...this.board.info, ...this.ids, descriptor }, this.host.state())
  }

  get hasSent() {
    return this.watch.hasSent()
  }

  // After a block was sent, a device in run-time mode may run another image, so its description isn't stored.
  note() {
    const { info } = this.board
    if (info.isUpgrade || !this.watch.hasSent()) this.first[modeOf(info)] ??= info
  }

  // Returns the facts about the device after an action, for dfu_watch.h.
  facts(isReached, isGone) {
    const { info } = this.board
    return { reached: isReached, gone: isGone, many: this.board.isMany, stopped: this.clock.isStopped, open: this.board.isOpen(),
      upgrade: info.isUpgrade, again: isAgain(this.first[modeOf(info)] ?? info, info),
      same: sameBytes(info.descriptor, this.beginDescriptor) }
  }

  // Finds the device again if it left before a request, but sends nothing to another one. An aborted session doesn't wait for a device that
  // is away.
  async send(action) {
    if (!this.wire.isReady()) {
      if (this.isAborted) return nothing()
      if (!await this.board.reopen()) return { ...nothing(), isGone: true }
      if (this.watch.isOther(this.facts(false, false))) return nothing()
    }
    const answer = await this.wire.send(action.setup, action.body)
    if (isDownload(action.setup)) this.isWhole = action.length === 0 && answer.seen === SEEN.ACK
    return { ...answer, isReached: true }
  }

  async perform(action) {
    if (action.what === WHAT.WAIT) return this.wire.wait(action.value)
    return action.what === WHAT.RESET ? this.stalls.reset() : this.send(action)
  }

  // Carries out one action. Returns null, or the end of the session.
  async step(action) {
    const before = this.watch.before(this.runtimeRefusal !== 0)
    if (before !== COURSE.GOES_ON) return { ...endOf(before), refusal: this.runtimeRefusal }
    this.onStep(action, null)
    const answer = await this.perform(action)
    this.onStep(action, answer)
    const course = this.watch.after(answer.seen, this.facts(answer.isReached === true, answer.isGone === true))
    if (this.board.isOpen()) this.note()
    if (answer.isGone) answer.seen = SEEN.NOTHING
    if (course === COURSE.GOES_ON) return this.tell(answer)
    return course === COURSE.BEGINS_ANEW ? this.beginAnew() : endOf(course)
  }

  tell(answer) {
    this.taken++
    if (answer.seen === SEEN.RESTART) this.restarted++
    return this.host.take(answer.seen, answer.bytes) ? null : { end: 'broken' }
  }

  // A device may have another functional descriptor in DFU mode than in run-time mode. The session that brought it to DFU mode has sent no
  // block, so that session is dropped, and a new one begins.
  beginAnew() {
    const refusal = this.begin()
    if (refusal !== 0) return { end: 'refusal', refusal }
    this.traceBegin()
    return null
  }

  // On the first stop, aborts the host's session. Returns false if the library refuses that.
  isStoppedWell() {
    if (!this.clock.isStopped || this.isAborted) return true
    this.isAborted = true
    this.trace.abort()
    return this.host.abort()
  }

  // Returns { end: 'report', report, name, code }, or an end without a report.
  async run() {
    this.traceBegin()
    for (;;) {
      const action = this.isStoppedWell() ? this.host.next() : null
      if (action === null) return { end: 'broken' }
      if (action.what === WHAT.DONE)
        return { end: 'report', report: action.value, name: this.host.name(action.value), code: action.code }
      const ended = await this.step(action)
      if (ended !== null) return ended
    }
  }
}

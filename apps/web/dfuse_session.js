// SPDX-License-Identifier: MIT OR Apache-2.0
// A DfuSe download: carries out the host's actions and reports their results, like apps/flash/dfuse_begin.c and dfuse_session.c. The host
// decides what is erased, written and compared, and when the device leaves.
import { deviceRefusal, imageOf, limitsOf, planOf, totalOf, wordsRefusal } from './dfuse_begin.js'
import { LEAVING, OUTCOME, WORK } from './dfuse_host.js'
import { COURSES, DfuseWatch } from './dfuse_watch.js'
import { nameAt } from './descriptors.js'
import { SEEN, WHAT } from './host.js'
import { KIND, REQUEST, REQUESTS, STATES, isStatus, stateOf, transferOf } from './names.js'
import { isAgain, nothing, sameBytes } from './session.js'
import { COURSE, endOf } from './watch.js'

const STRING_AT = 5 // offset of iString in a status
const NONE = new Uint8Array(0)
const ABORT = new Uint8Array([KIND.OUT, REQUESTS.indexOf('ABORT'), 0, 0, 0, 0, 0, 0])

export class DfuseSession {
  // file: { bytes, isDfuse, isRaw, said, look }. ids: the identifiers that the file must match. address: that of the first byte, or null.
  // isChosen: a person chose the setting. leaves: the device starts its application. limits and onStep: as in Session.
  constructor(host, module, wire, file, { ids, address = null, isChosen = false, leaves = true, limits = null, onStep = () => {} }) {
    Object.assign(this, { host, module, wire, board: wire.board, clock: wire.clock, trace: wire.trace, file })
    Object.assign(this, { ids, address, isChosen, leaves, limits, onStep, goal: 'verified', total: 0, elements: [] })
    Object.assign(this, { watch: new DfuseWatch(host), string: 0, taken: 0, restarted: 0 })
  }

  get hasSent() {
    return this.watch.hasSent()
  }

  // Returns 0, a refusal of dfuse_host.h, dfuse_file.h or dfu_host.h, or the name of a refusal of dfu-flash. Sends nothing.
  begin() {
    const { info } = this.board
    this.first = info
    const early = wordsRefusal(this) ?? (info.isUpgrade ? null : 'RunTimeMode')
      ?? (this.address === null && !this.file.isDfuse ? 'NoAddress' : null)
    if (early !== null) return early
    const { refusal, elements } = imageOf(this.host, this.module, this.file, this.ids, { setting: info.alternate, address: this.address })
    return refusal ?? deviceRefusal(info) ?? this.beginWith(elements)
  }

  beginWith(elements) {
    const { name, descriptor } = this.board.info
    this.transfer = transferOf(descriptor)
    Object.assign(this, { elements, total: totalOf(elements) })
    this.limits ??= limitsOf(this.host.readMap(name).ranges ?? [], elements, this.transfer)
    return this.host.begin(name, elements, planOf(elements, this.limits, this.transfer, this.leaves))
  }

  // Returns true if the open device, its setting and its map are those with which the session began.
  isSame() {
    const { info } = this.board
    return info.isUpgrade && isAgain(this.first, info) && info.name === this.first.name && sameBytes(this.first.descriptor, info.descriptor)
  }

  // Stores the index of the string in which a device may explain dfuERROR.
  noteString(setup, { seen, bytes }) {
    if (!isStatus(setup) || seen !== SEEN.BYTES || bytes.length <= STRING_AT) return
    this.string = STATES[stateOf(REQUEST.GETSTATUS, bytes)] === 'dfuERROR' ? bytes[STRING_AT] : 0
  }

  async send(setup, body) {
    if (!this.wire.isReady() && !await this.board.reopen()) return { ...nothing(), isGone: true }
    if (this.board.isOpen() && !this.isSame()) return nothing()
    const answer = await this.wire.send(setup, body)
    this.noteString(setup, answer)
    return { ...answer, isReached: true }
  }

  // A device that is about to leave may disappear at any request.
  async perform(action) {
    if (action.what === WHAT.WAIT) return this.wire.wait(this.watch.wait(action.value))
    this.wire.isManifesting = this.watch.closes()
    const answer = await this.send(action.setup, action.body)
    this.wire.isManifesting = false
    return answer
  }

  // Returns the course of the session after an action, by dfuse_watch.h.
  course({ body }, { seen, isReached = false, isGone = false }) {
    const { board, clock } = this
    const facts = { reached: isReached, gone: isGone, many: board.isMany, stopped: clock.isStopped, open: board.isOpen(),
      again: this.isSame() }
    return this.watch.after(body.length > 0 ? body[0] : 0, seen, facts)
  }

  tell({ seen, bytes }) {
    this.taken++
    if (seen === SEEN.RESTART) this.restarted++
    return this.host.take(seen, bytes) ? null : { end: 'broken' }
  }

  // Carries out one action. Returns null, or the end of the session.
  async step(action) {
    this.onStep(action, null)
    const answer = await this.perform(action)
    const course = this.course(action, answer)
    if (course === COURSES.GOES_TO_STOP) return null
    if (course === COURSES.GOES_RESTARTED) Object.assign(answer, { seen: SEEN.RESTART, bytes: NONE, isGone: false })
    else if (course !== COURSE.GOES_ON) return endOf(course)
    const ended = this.tell(answer)
    this.onStep(action, answer)
    return ended
  }

  // Ends the session after a stop. ABORT discards a command that was sent but not started. If all bytes were compared before, the session
  // reports success.
  async stop() {
    if (this.host.state().work === WORK.LEAVE)
      return { end: 'report', report: OUTCOME.VERIFIED, more: this.watch.closes() ? LEAVING.UNKNOWN : LEAVING.STAYED, deviceText: '' }
    this.trace.abort()
    if (this.board.isOpen()) await this.send(ABORT, NONE)
    return { end: 'aborted' }
  }

  // Returns the device's own text for its refusal.
  async deviceTextOf(report) {
    if (report !== OUTCOME.REFUSED || this.string === 0 || !this.board.isOpen()) return ''
    return nameAt(this.board.handle, this.clock, this.string).catch(() => '')
  }

  // Returns { end: 'report', report, more, deviceText }, or an end without a report.
  async run() {
    this.trace.begin(this.goal, { ...this.board.info, ...this.ids }, { transfer: this.transfer, ...this.limits })
    for (;;) {
      if (this.clock.isStopped && this.host.state().work !== WORK.OVER) return this.stop()
      const action = this.host.next()
      if (action === null) return { end: 'broken' }
      if (action.what === WHAT.DONE)
        return { end: 'report', report: action.value, more: action.more, deviceText: await this.deviceTextOf(action.value) }
      const ended = await this.step(action)
      if (ended !== null) return ended
    }
  }
}

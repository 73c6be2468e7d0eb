// SPDX-License-Identifier: MIT OR Apache-2.0
// Translates WebUSB's results into reports to the host, like apps/flash/answer.c. The proof of Installed and Verified depends on this file:
// a transfer that is reported as acknowledged or answered was really made, and if the device lost its state, a restart is reported before
// any later answer.
//
// Results of a transfer:
//   ok, all bytes of the body sent       Ack       the transfer was made and acknowledged
//   ok, with bytes in                    Bytes     the answer, unchanged
//   stall                                Stall     the device refused the request
//   the device left before, during or    Left      after the end of a download, as below
//   within a second of an error          Restart   else: reported after the device is back and open
//   no answer for 5 s                    Nothing   after closing and reopening the device: a WebUSB transfer has
//                                                  no timeout, and may still be made until then
//                                        Restart   if the device may have noticed that (board.js, renew)
//   any other                            Nothing   the host asks if the device handled it
//
// Results of a reset:
//   it is made                           Reset     after the interface is in its setting again, if that isn't 0
//   the device leaves with it            Reset     at once: its new enumeration is a reset
//   a person pulls the plug instead      Reset     only when the device has left. In run-time mode Restart: in
//                                                  appDETACH a power cut doesn't lead to DFU mode, but a reset does
//   the device left before               Left or Restart, as for a transfer
//   any other                            Nothing   the host requests it again
// After a reset the host is done or requests the state, as after a restart. Reset is right even if the device lost power.
//
// Results of a wait: Wait when the time is over, or Nothing after a stop.
//
// Left is reported if the device acknowledged the DNLOAD without data, then answered a GETSTATUS with dfuMANIFEST-SYNC or dfuMANIFEST,
// received nothing but GETSTATUS since, and is gone. It is reported at once, and only once. The host treats it as the last reset, and never
// reports Installed after it.
//
// A device that leaves after an acknowledged DETACH obeys the request, so this isn't a restart.
import { LATE } from './clock.js'
import { SEEN } from './host.js'
import { KIND, REQUEST, STATE, isDetach, isDownload, isStatus, partsOf, stateOf } from './names.js'

const TRANSFER_MS = 5000
const STOPPED_MS = 1000 // replaces TRANSFER_MS after a stop
const LEAVE_MS = 1000   // time from a failed transfer or reset to the disconnect event
const GRACE_MS = 100    // time from a successful reset to the disconnect event
const DETACH_MS = 3000  // time from the end of the detach timeout to the event
const LOOK_MS = 20
const NONE = new Uint8Array(0)
const PULLED = 'PULLED'  // a person pulled the plug in run-time mode
// Names of libusb's errors, for the trace.
const ERRORS = { NotFoundError: 'NO_DEVICE', NetworkError: 'IO', TimeoutError: 'TIMEOUT', SecurityError: 'ACCESS',
  AbortError: 'INTERRUPTED' }

const answerOf = (seen, more = {}) => ({ seen, bytes: NONE, isGone: false, error: '', ...more })

export class Wire {
  constructor(board, clock, ask, trace) {
    Object.assign(this, { board, clock, ask, trace, transfers: 0, isLeaving: false, isClosed: false, isManifesting: false })
  }

  // Returns true if the device is open, or has left and this isn't reported yet.
  isReady() {
    return this.board.isOpen() || (this.board.hasLeft && !this.isLeaving)
  }

  forgetEnd() {
    this.isClosed = this.isManifesting = false
  }

  async restarted() {
    this.forgetEnd()
    return answerOf(SEEN.RESTART, { isGone: !await this.board.reopen() })
  }

  async left() {
    if (!this.isManifesting) return this.restarted()
    this.forgetEnd()
    await this.board.close()
    return answerOf(SEEN.LEFT)
  }

  // Records the end of a download: its last request, and the state that the device reports after it.
  noteEnd(setup, length, answer) {
    if (!isStatus(setup)) {
      this.isClosed = isDownload(setup) && length === 0 && answer.seen === SEEN.ACK
      this.isManifesting = false
    } else if (answer.seen === SEEN.BYTES && [STATE.MANIFEST_SYNC, STATE.MANIFEST].includes(stateOf(REQUEST.GETSTATUS, answer.bytes)))
      this.isManifesting = this.isClosed
  }

  async send(setup, body) {
    const began = this.clock.now()
    const { transfers } = this
    const answer = await this.sent(setup, body)
    this.trace.request(setup, answer, this.clock.now() - began)
    if (this.transfers > transfers) this.trace.exchange(setup, this.board.info.interface, body, answer)
    return answer
  }

  async sent(setup, body) {
    const { board } = this
    if (board.hasLeft && !this.isLeaving) {
      this.transfers++ // counts as a transfer that failed
      return this.left()
    }
    if (!board.isOpen() && !await board.reopen()) return answerOf(SEEN.NOTHING, { isGone: true })
    this.isLeaving = false
    this.trace.returned(board.returns)
    const answer = await this.answered(setup, body)
    this.isLeaving = answer.seen === SEEN.ACK && isDetach(setup)
    this.noteEnd(setup, body.length, answer)
    return answer
  }

  // The host's setup packets have wIndex 0, but USB requires the interface number there. No other field is changed.
  transfer(setup, body) {
    const { kind, request, value, length } = partsOf(setup)
    const { handle, info } = this.board
    const fields = { requestType: 'class', recipient: 'interface', request, value, index: info.interface }
    this.transfers++
    return (kind & KIND.IS_IN) !== 0 ? handle.controlTransferIn(fields, length) : handle.controlTransferOut(fields, body)
  }

  async answered(setup, body) {
    let result
    try {
      result = await this.clock.limit(this.transfer(setup, body), this.clock.isStopped ? STOPPED_MS : TRANSFER_MS)
    } catch (error) {
      if (error.name === 'NotFoundError' || await this.hasLeft(LEAVE_MS)) return this.left()
      return answerOf(SEEN.NOTHING, { error: ERRORS[error.name] ?? 'OTHER' })
    }
    if (result === LATE) return this.late()
    return this.answerOf(setup, body, result)
  }

  answerOf(setup, body, { status, data, bytesWritten }) {
    const { kind, length } = partsOf(setup)
    if (status === 'stall') return answerOf(SEEN.STALL)
    if (status !== 'ok') return answerOf(SEEN.NOTHING, { error: 'OVERFLOW' })
    if ((kind & KIND.IS_IN) === 0) return answerOf(bytesWritten === body.length ? SEEN.ACK : SEEN.NOTHING)
    const bytes = data === undefined ? NONE : new Uint8Array(data.buffer, data.byteOffset, data.byteLength)
    return bytes.length <= length ? answerOf(SEEN.BYTES, { bytes: bytes.slice() }) : answerOf(SEEN.NOTHING, { error: 'OVERFLOW' })
  }

  // Ends the pending transfer before the host sends another request.
  async late() {
    if (!this.board.isOpen()) return this.left()
    const how = await this.board.renew()
    if (how === 'same') return answerOf(SEEN.NOTHING, { error: 'TIMEOUT' })
    if (how === 'stuck') return answerOf(SEEN.NOTHING, { isGone: true })
    if (how === 'left') return this.left()
    this.forgetEnd()
    return answerOf(SEEN.RESTART)
  }

  async wait(ms) {
    const began = this.clock.now()
    const answer = answerOf(await this.clock.wait(ms) ? SEEN.WAIT : SEEN.NOTHING)
    // A device with bitWillDetach leaves by itself; transfers fail before the disconnect event.
    if (this.isLeaving) await this.hasLeft(DETACH_MS)
    this.trace.wait(ms, answer, this.clock.now() - began)
    return answer
  }

  async reset() {
    const began = this.clock.now()
    const answer = await this.wasReset()
    this.trace.reset(answer, this.clock.now() - began, this.board.isOpen())
    return answer
  }

  async wasReset() {
    const { board } = this
    if (!board.isOpen()) {
      if (!this.isLeaving) return board.hasLeft ? this.left() : this.restarted()
      board.letGo()
      return answerOf(SEEN.RESET)
    }
    const error = await this.resetBus(board.handle)
    if (error === PULLED) return this.restarted()
    if (error !== null) return answerOf(SEEN.NOTHING, { error })
    if (!board.isOpen()) board.letGo()
    this.forgetEnd()
    return answerOf(SEEN.RESET)
  }

  // Returns null if the bus was reset, else the name of an error or PULLED. A device that left is no longer open.
  async resetBus(device) {
    const { board } = this
    try {
      if (await this.clock.limit(device.reset(), TRANSFER_MS) === LATE) return await this.lateReset()
      if (!await this.hasLeft(GRACE_MS) && board.info.alternate !== 0) await board.set(device, board.info)
      return null
    } catch (error) {
      if (error.name === 'NotFoundError') board.letGo()
      if (await this.hasLeft(LEAVE_MS)) return null
      if (await this.ask.replug(() => !board.isOpen())) return board.info.isUpgrade ? null : PULLED
      return ERRORS[error.name] ?? 'OTHER'
    }
  }

  // Closing the device ends an unanswered reset, which may or may not have been made.
  async lateReset() {
    const how = await this.board.renew()
    return how === 'left' ? null : 'TIMEOUT'
  }

  // Waits up to `ms` milliseconds for the device to leave. Returns true if it left.
  async hasLeft(ms) {
    const end = this.clock.now() + ms
    while (this.board.isOpen() && !this.clock.isStopped && this.clock.now() < end) await this.clock.wait(LOOK_MS)
    return !this.board.isOpen()
  }
}

// SPDX-License-Identifier: MIT OR Apache-2.0
// A device in run-time mode may stall GETSTATUS, though the standard requires an answer in appIDLE (USB DFU 1.1, appendix A.2.1). After two
// stalls the host resets the bus and requests the status again. Before the first of these resets the page sends its own DETACH, so that the
// reset leads to DFU mode. dfu_watch.h decides when, and when to give up.
import { SEEN } from './host.js'
import { ATTRIBUTE, FUNCTIONAL, KIND, REQUEST, detachTimeOf, hasAttribute } from './names.js'

const NO_DESCRIPTOR_MS = 1000 // wDetachTimeOut without a functional descriptor
const ARRIVAL_MS = 5000       // time to leave run-time mode after a reset
const LOOK_MS = 200
const NONE = new Uint8Array(0)

// Returns wDetachTimeOut, or NO_DESCRIPTOR_MS if it is unknown.
const detachTime = ({ descriptor }) => (descriptor.length < FUNCTIONAL.BYTES_1_0 ? NO_DESCRIPTOR_MS : detachTimeOf(descriptor))

// Returns true if the device detaches by itself within wDetachTimeOut (bitWillDetach).
export const willDetach = ({ descriptor }) => hasAttribute(descriptor, ATTRIBUTE.WILL_DETACH)

export class Stalls {
  constructor(watch, wire) {
    Object.assign(this, { watch, wire })
  }

  async detach() {
    const { wire } = this
    const ms = detachTime(wire.board.info)
    wire.trace.isOwn = true
    const answer = await wire.send(new Uint8Array([KIND.OUT, REQUEST.DETACH, ms & 0xff, ms >> 8, 0, 0, 0, 0]), NONE)
    if (answer.seen === SEEN.ACK && willDetach(wire.board.info)) await wire.wait(Math.max(ms, 1))
    wire.trace.isOwn = false
    return answer
  }

  // Waits up to 5 s until the device is in DFU mode.
  async arrival() {
    const { board, clock } = this.wire
    const end = clock.now() + ARRIVAL_MS
    while (board.isOpen() || await board.reopen()) {
      if (board.info.isUpgrade || clock.isStopped || clock.now() >= end) return
      await clock.wait(LOOK_MS)
    }
  }

  // Resets the bus, the first time after a DETACH. A device that left then counts as reset.
  async reset() {
    const { wire } = this
    const isFirst = this.watch.detaches() && wire.board.info.saysRuntime
    const own = isFirst ? await this.detach() : null
    if (own !== null && (own.isGone || own.seen === SEEN.RESTART)) {
      wire.trace.reset(own, 0)
      return own
    }
    const answer = await wire.reset()
    if (own !== null && own.seen === SEEN.ACK) await this.arrival()
    return answer
  }
}

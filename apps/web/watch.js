// SPDX-License-Identifier: MIT OR Apache-2.0
// The proved library decides when a session gives up, because the device stalls GETSTATUS, doesn't answer, leaves, or is another one
// (dfu_watch.h), as in dfu-flash.
import { writeRecord } from './records.js'

// Numbers of dfu_watch.h: two ways to continue, and the ends by name.
export const COURSE = { GOES_ON: 0, BEGINS_ANEW: 1, ENDS_GONE: 2, ENDS_MANY: 3, ENDS_SILENT: 4, ENDS_OTHER: 5, ENDS_STALLED: 6,
  ENDS_REFUSED: 7 }
const NAMES = ['', '', 'gone', 'many', 'silent', 'other', 'stalled', 'refusal']

export const endOf = course => ({ end: NAMES[course] })

export class Watch {
  // host: the session's host, whose current action `before` and `after` evaluate.
  constructor(host) {
    Object.assign(this, { host, calls: host.calls, record: host.record('dfu_watch'), facts: host.record('dfu_facts') })
  }

  // Returns the course before the next action.
  before(isByAnother) {
    return this.calls.dfu_watch_before(BigInt(this.record), BigInt(this.host.action), isByAnother ? 1 : 0)
  }

  // Returns true if a DETACH must precede the reset that the host requests.
  detaches() {
    return this.calls.dfu_watch_detaches(BigInt(this.record)) === 1
  }

  // Returns true if the open device isn't the session's.
  isOther(facts) {
    return this.calls.dfu_watch_is_other(BigInt(this.record), this.put(facts)) === 1
  }

  // Returns the course after the action.
  after(seen, facts) {
    return this.calls.dfu_watch_after(BigInt(this.record), BigInt(this.host.action), seen, this.put(facts))
  }

  hasSent() {
    return this.host.read('dfu_watch', this.record).sent === 1
  }

  put(facts) {
    writeRecord(this.host.view(), 'dfu_facts', this.facts, facts)
    return BigInt(this.facts)
  }
}

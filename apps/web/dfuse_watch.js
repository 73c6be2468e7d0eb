// SPDX-License-Identifier: MIT OR Apache-2.0
// The proved library decides when a DfuSe session gives up (dfuse_watch.h), as in dfu-flash.
import { writeRecord } from './records.js'

// Numbers of dfuse_watch.h that dfu_watch.h lacks.
export const COURSES = { GOES_RESTARTED: 8, GOES_TO_STOP: 9 }

export class DfuseWatch {
  // host: the session's host, whose current action `after` evaluates.
  constructor(host) {
    Object.assign(this, { host, calls: host.calls, record: host.record('dfuse_watch'), facts: host.record('dfu_facts') })
  }

  // Returns true after the command to leave, because the device may disappear at any request then.
  closes() {
    return this.calls.dfuse_watch_closes(BigInt(this.host.session)) === 1
  }

  // Returns the milliseconds to wait for the host's `ms`: the same, but 5 from the fourth wait of 0 ms in a row.
  wait(ms) {
    return this.calls.dfuse_watch_wait(BigInt(this.record), ms) >>> 0
  }

  // Returns the course after the action, whose body begins with `command`.
  after(command, seen, facts) {
    writeRecord(this.host.view(), 'dfu_facts', this.facts, facts)
    return this.calls.dfuse_watch_after(BigInt(this.record), BigInt(this.host.session), BigInt(this.host.action), command, seen,
      BigInt(this.facts))
  }

  hasSent() {
    return this.host.read('dfuse_watch', this.record).sent === 1
  }
}

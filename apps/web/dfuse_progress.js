// SPDX-License-Identifier: MIT OR Apache-2.0
// Progress of a DfuSe session by the address at which the host works, like apps/flash/dfuse_session.c.
import { OUTCOME, WORK } from './dfuse_host.js'
import { bytesBelow } from './dfuse_map.js'
import { Progress } from './progress.js'

const PHASES = { [WORK.ERASE]: 'erase', [WORK.WRITE]: 'send', [WORK.COMPARE]: 'compare', [WORK.LEAVE]: 'compare' }

export class DfuseProgress extends Progress {
  constructor(session, now, show) {
    super(session.total, now, show)
    this.session = session
  }

  phaseOf() {
    return PHASES[this.session.host.state().work] ?? null
  }

  // The progress stays the same while the front of the image is written, because it is only a few bytes.
  bytesOf() {
    const { work, at, report } = this.session.host.state()
    if (work === WORK.LEAVE || report === OUTCOME.VERIFIED) return this.total
    return work in PHASES ? bytesBelow(this.session.elements, at) : null
  }
}

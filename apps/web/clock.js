// SPDX-License-Identifier: MIT OR Apache-2.0
// Time, and waits that a stop ends.
export const LATE = Symbol('late')

export class Clock {
  constructor() {
    this.isStopped = false
    this.stopped = new Promise(done => { this.tellStopped = done })
  }

  now() {
    return performance.now()
  }

  // Makes all waits end at once.
  stop() {
    this.isStopped = true
    this.tellStopped()
  }

  // Waits `ms` milliseconds by the clock, because a timer may end early. Returns false after a stop.
  async wait(ms) {
    const end = this.now() + ms
    while (!this.isStopped && this.now() < end) {
      let timer
      const passed = new Promise(done => { timer = setTimeout(done, Math.ceil(end - this.now())) })
      await Promise.race([passed, this.stopped])
      clearTimeout(timer)
    }
    return !this.isStopped
  }

  // Returns the promise's value, or LATE after `ms` milliseconds. A later rejection is ignored.
  async limit(promise, ms) {
    let timer
    const late = new Promise(done => { timer = setTimeout(done, ms, LATE) })
    promise.catch(() => {})
    try {
      return await Promise.race([promise, late])
    } finally {
      clearTimeout(timer)
    }
  }
}

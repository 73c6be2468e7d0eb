// SPDX-License-Identifier: MIT OR Apache-2.0
// Prepares a session with the host for DFU 1.1 or the one for DfuSe, depending on the open device.
import { isDfuse } from './begin.js'
import { DfuseHost } from './dfuse_host.js'
import { DfuseProgress } from './dfuse_progress.js'
import { dfuseVerdictOf } from './dfuse_reports.js'
import { DfuseSession } from './dfuse_session.js'
import { Host } from './host.js'
import { Progress } from './progress.js'
import { verdictOf } from './reports.js'
import { Session } from './session.js'

function prepareDfuse(module, wire, file, words) {
  const session = new DfuseSession(new DfuseHost(module, file.bytes), module, wire, file, words)
  const progressOf = (...how) => new DfuseProgress(session, ...how)
  return { session, refusal: session.begin(), progressOf, verdictOf: dfuseVerdictOf }
}

// Returns the session, its refusal or 0, and functions for its progress and its verdict. Sends nothing. file: { bytes, isDfuse, isRaw,
// said, look }. words: options of both kinds of session.
export function prepare(module, wire, file, words) {
  if (isDfuse(wire.board.info)) return prepareDfuse(module, wire, file, words)
  if (file.isDfuse) return { session: null, refusal: 'NotDfuSe' }
  const host = new Host(module, file.bytes)
  host.readFile()
  const session = new Session(host, wire, words)
  return { session, refusal: session.begin(), progressOf: (...how) => new Progress(host.payload, ...how), verdictOf }
}

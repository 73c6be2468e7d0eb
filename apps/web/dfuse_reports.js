// SPDX-License-Identifier: MIT OR Apache-2.0
// Reports of a DfuSe session: words and status of dfu-flash (apps/flash/dfuse_verdict.c), and an explanation. The other ends are in
// reports.js.
import { LEAVING, OUTCOME } from './dfuse_host.js'
import { CODES } from './names.js'
import { AGAIN, MAYBE, rowOf, verdictOf } from './reports.js'

const PROTECTION = 'To take the protection away erases all of the memory, and is nothing that this page does.'

// By report number: name, status, words, title, meaning, and what isn't certain.
const REPORTS = {
  [OUTCOME.VERIFIED]: ['verified', 0, "each byte was read back from the device's memory, and is the file's", 'Verified',
    'Each byte of the image was read back from the device\'s memory, and is the file\'s.',
    'It doesn\'t mean that the new firmware runs, or that the file is the right one for this board. And a device that reports ' +
    'something false ' +
    'can give back what was sent.'],
  [OUTCOME.DIFFERENT]: ['different', 9, "a byte that was read back from the device's memory isn't the file's", 'Not the same bytes',
    'A byte that was read back from the device\'s memory isn\'t the file\'s.',
    'The device was not asked to start its application. Its memory may not be as its map says. ' + AGAIN],
  [OUTCOME.REFUSED]: ['refused', 6, ['the device refused a command', 'the device'],
    'Refused by the device', 'The device refused a command.', MAYBE],
  [OUTCOME.READ_PROTECTED]: ['read-protected', 6,
    ["the device's memory is protected", 'the device'], 'Protected',
    'The device\'s memory is protected from being read. ' + PROTECTION, MAYBE],
  [OUTCOME.GAVE_UP]: ['gave-up', 7, ['the limit of actions is spent', 'the device'],
    'Given up', 'It took far more requests than it should, and came to no end.', MAYBE],
  [OUTCOME.RESTARTS_SPENT]: ['restarts-spent', 7,
    ['the device restarted too often', 'the device'], 'The device restarts',
    'The device restarted too often, or its cable has a bad contact.', MAYBE],
  [OUTCOME.NOT_DFU]: ['not-dfu', 10, ['the device is in its application', 'the device'],
    'In its application', 'The device is in its application, and no longer in DFU mode.', MAYBE],
}

// Texts for how the device left, which follow those for Verified: for dfu-flash's line, and for a person.
const LEAVINGS = {
  [LEAVING.STAYED]: ['; the device stays in DFU mode', ' The device stays in DFU mode.'],
  [LEAVING.LEFT]: ['; the device starts its application', ' The device starts its application.'],
  [LEAVING.UNKNOWN]: ["; whether it starts its application isn't known", ' Whether it starts its application isn\'t known.'],
}

// ended: the result of DfuseSession.run, unless it is a refusal.
export function dfuseVerdictOf(ended, session) {
  if (ended.end !== 'report') return { ...verdictOf(ended, session), deviceText: '' }
  const [name, ...row] = REPORTS[ended.report]
  const [status, words, title, means, not] = rowOf(row, session.hasSent)
  const [leaving, meant] = ended.report === OUTCOME.VERIFIED ? LEAVINGS[ended.more] : ['', '']
  const code = ended.report === OUTCOME.REFUSED && ended.more !== 0 ? CODES[ended.more] : ''
  return { name, status, words: words + leaving, title, means: means + meant, not, code, deviceText: ended.deviceText }
}

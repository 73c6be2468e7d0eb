// SPDX-License-Identifier: MIT OR Apache-2.0
// Reports of a session: words and status of dfu-flash (apps/flash/verdict.c), meaning, and what isn't certain.
import { CODES } from './names.js'

export const MAYBE = 'The device may have the old image, the new one or neither. Connect it again, and flash it again.'
const UNTOUCHED = 'No block was sent: the device has the image that it had.'
export const AGAIN = 'Connect it again, and flash it again.'

// By name: status, words, title, meaning, and what isn't certain, or ''. If the words are a pair, the second names the device for rowOf.
const REPORTS = {
  'installed': [0, 'the device took the whole image, reported that it is in place, and was reset', 'Installed',
    'The device took the whole image, said itself that it is in place, and was reset.',
    'The image was not read back: that it is in place is what the device says. And it doesn\'t mean that the new firmware runs.'],
  'verified': [0, "after a reset the device gave the image back, and it is the file's", 'Verified',
    'After a reset the device gave back the image that it has, and each byte is the file\'s.',
    'It doesn\'t mean that the new firmware runs, or that the file is the right one for this board. And a device that reports ' +
    'something false ' +
    'can give back what was sent.'],
  'unconfirmed': [8, "the device took the whole image and was reset; it can't tell whether it is in place", 'Sent, not confirmed',
    'The device took the whole image and started anew, and nothing more is known.',
    'It doesn\'t mean that the image is in place. Look at what the board does, or at the version that it shows.'],
  'different': [9, "after a reset the device gave back another image than the file's", 'Not the same image',
    'After a reset the device gave back other bytes than the file has.',
    'It need not be broken: some devices give back more than the image, as a whole part of their memory. ' + AGAIN],
  'refused': [6, ['the device refused it', 'it'], 'Refused by the device',
    'The device stopped with an error of its own.', MAYBE],
  'aborted': [11, ['given up by Ctrl-C or a signal', 'the device'], 'Given up',
    'You gave it up. A device that still answers was sent an ABORT.', MAYBE],
  'gave-up': [7, ['the limit of actions is spent', 'the device'], 'Given up',
    'It took far more requests than it should, and came to no end.', MAYBE],
  'restarts-spent': [7, ['the device restarted too often', 'it'], 'The device restarts',
    'The device restarted too often, or its cable has a bad contact.', MAYBE],
  'too-many-blocks': [7, 'the image has 65535 full blocks or more: too many for an upload, or to compare it', 'Too large to compare',
    'The image has too many blocks to be read back.', 'Flash it without comparing.'],
  'no-memory': [7, 'there was no memory for the image', 'Out of memory', 'There was no memory for the image.', ''],
  // The page's own ends, which aren't reports of the host.
  'gone': [10, ['the device left and did not come back', 'it'], 'The device is gone',
    'The device left, and did not come back.', MAYBE],
  'silent': [10, ['the device answers no more', 'it'], 'No answer',
    'The device answers no more.', MAYBE],
  'many': [12, 'the device came back with more than one setting: choose by --interface or --alt', 'Which one?',
    'The device came back with several alternate settings, or there are two that may be it.',
    'Connect it again, now in DFU mode, and choose the setting.'],
  'other': [13, ['another device came back', 'the one of before'], 'Another device',
    'Another device came back in its place. Nothing was sent to it.', MAYBE],
  'stalled': [15, 'in run-time mode it stalls GETSTATUS: bring it to DFU mode by hand, as by its button, and run this again',
    'It stays in run-time mode', 'The device doesn\'t come to DFU mode by itself.',
    'Bring it to DFU mode by hand, as by its button, and connect it again.'],
  'broken': [14, 'the host refused its own record, which is a mistake of this program', 'A mistake of this page',
    'The page lost track of the session.', MAYBE],
}

// Texts for ends without a report if the device took the whole image and only the comparison is missing.
const UNCOMPARED = {
  'gone': [10, 'the device took the whole image, left, and did not come back to be compared; see --no-verify and --wait',
    'Sent, not compared', 'The device took the whole image, left, and did not come back to be compared.',
    'It may be in place: a device that starts its new firmware need not come back. For such a one, flash without comparing.'],
  'stalled': [15, 'the device took the whole image, and stalls GETSTATUS in run-time mode: it was not compared; see --no-verify',
    'Sent, not compared', 'The device took the whole image, and stays in run-time mode, where it can\'t be compared.',
    'It may be in place. For such a device, flash without comparing.'],
}

// Completes a row: which image the device may have depends on whether a block was sent.
export function rowOf([status, words, title, means, not], hasSent) {
  if (typeof words === 'string') return [status, words, title, means, not]
  const [said, device] = words
  if (!hasSent) return [status, `${said}; no block was sent`, title, means, UNTOUCHED]
  return [status, `${said}; ${device} may have the old image, the new one or neither`, title, means, not]
}

// ended: the result of Session.run, unless it is a refusal.
export function verdictOf(ended, { hasSent, isWhole, goal }) {
  const name = ended.end === 'report' ? ended.name : ended.end
  const isUncompared = ended.end !== 'report' && goal === 'verified' && isWhole && name in UNCOMPARED
  const row = isUncompared ? UNCOMPARED[name] : REPORTS[name]
  const [status, words, title, means, not] = rowOf(row, hasSent)
  return { name, status, words, title, means, not, code: name === 'refused' ? CODES[ended.code] : '' }
}

// Writes a report like dfu-flash: `refused CODE: words`, or `name: words`.
export const lineOf = ({ name, code, words }) => `${name}${code === '' ? '' : ` ${code}`}: ${words}`

// SPDX-License-Identifier: MIT OR Apache-2.0
// Decides the goal, the functional descriptor and the limits of a session, like apps/flash/begin.c.
import { REFUSAL } from './host.js'
import { ATTRIBUTE, FUNCTIONAL, hasAttribute, speaksDfuse, transferOf } from './names.js'
import { willDetach } from './stalls.js'
import { canReset } from './system.js'

// Linux carries at most 4,096 bytes in a control transfer. A host may send smaller blocks than wTransferSize (USB DFU 1.1, section 4.1.3).
const MAX_BYTES = 4096
const RESTARTS = 3
const MAX_ACTIONS = 0xffffffff

export const canUpload = ({ descriptor }) => hasAttribute(descriptor, ATTRIBUTE.CAN_UPLOAD)

// A DfuSe device would interpret the blocks as commands, so it needs dfuse_session.js.
export const isDfuse = ({ descriptor }) => speaksDfuse(descriptor)

// Returns true if a device in run-time mode neither detaches by itself nor can be reset on this system.
export const cannotDetach = info => !info.isUpgrade && !canReset() && !willDetach(info)

// For the comparison the device must reach DFU mode again after its last reset.
export const canCompare = info => canUpload(info) && (canReset() || willDetach(info))

export const goalOf = (info, wantsVerified) => (wantsVerified && canCompare(info) ? 'verified' : 'download')

// Limits the block size in the descriptor to MAX_BYTES.
export function cut(descriptor) {
  const bytes = descriptor.slice()
  if (bytes.length < FUNCTIONAL.BYTES_1_0 || transferOf(bytes) <= MAX_BYTES) return bytes
  bytes[5] = MAX_BYTES & 0xff
  bytes[6] = MAX_BYTES >> 8
  return bytes
}

// A clean session takes up to 4 actions per block, one more if it is compared, and some 20 others. The limit allows twice as many per block
// for losses and polls, the same again for each restart, and 300 for a device left in the middle of an operation.
export function limitsOf(payload, descriptor) {
  const transfer = transferOf(descriptor)
  const blocks = transfer > 0 ? Math.floor(payload / transfer) + 1 : 65536
  return { actions: Math.min(10 * blocks * (RESTARTS + 1) + 300, MAX_ACTIONS), restarts: RESTARTS }
}

// The host's refusals of a functional descriptor that is missing or unusable.
const ODD = [REFUSAL.BAD_DESCRIPTOR, REFUSAL.SHORT, REFUSAL.LONG, REFUSAL.WRONG_LENGTH, REFUSAL.WRONG_TYPE]
const isOdd = refusal => ODD.includes(refusal)

// In run-time mode the functional descriptor is used only to reach DFU mode, where the valid one is read (by USB DFU 1.1, section 4.2.4,
// both are the same). Returns a substitute for an unusable one, with which session.js sends no block, or else null.
export function standIn(info, refusal) {
  if (!info.saysRuntime || !isOdd(refusal)) return null
  const substitute = new Uint8Array([FUNCTIONAL.BYTES, FUNCTIONAL.TYPE, ATTRIBUTE.CAN_DOWNLOAD | ATTRIBUTE.CAN_UPLOAD,
    1000 & 0xff, 1000 >> 8, 64, 0, FUNCTIONAL.VERSION_1_1 & 0xff, FUNCTIONAL.VERSION_1_1 >> 8])
  // If only wTransferSize is 0, bmAttributes and wDetachTimeOut are still used.
  if (refusal === REFUSAL.BAD_DESCRIPTOR) substitute.set(info.descriptor.slice(2, 5), 2)
  return substitute
}

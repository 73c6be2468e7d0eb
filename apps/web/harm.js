// SPDX-License-Identifier: MIT OR Apache-2.0
// Harms one write of the medium by a power cut, a failure or a false success, as in docs/PROFILE.md ("The slot medium"). The library splits
// a write into operations of at most 256 bytes, so the call is made twice: to find each write's operations, and again, after a restore,
// with that write harmed. tests/apps/web compares the results with `dfu run`.

const MAX_OPERATION = 256

class Cut extends Error {}

// Makes the call with this driver instead of the device's own.
function callWith(device, driver, call) {
  const own = device.driver
  device.driver = driver
  try {
    call()
  } finally {
    device.driver = own
  }
}

// Returns the writes of a call in order, each with its offset, its length, and the numbers of its first and last operation.
function writesOf(device, call) {
  const memory = device.bytes(0, device.end).slice()
  const { first, held_length: held } = device.read('dfu_record', device.kept)
  const writes = []
  let count = 0
  let before = null
  callWith(device, operation => {
    const { isErase, at, bytes } = operation
    const isWhole = before === null || isErase || before.isErase || before.bytes.length < MAX_OPERATION ||
      before.at + MAX_OPERATION !== at || (first > 0 && held > 0 && writes.filter(one => !one.isErase).length === 1)
    if (isWhole) writes.push({ isErase, at, length: 0, first: count })
    Object.assign(writes.at(-1), { length: at + bytes.length - writes.at(-1).at, last: count++ })
    before = operation
    return device.carryOut(operation)
  }, call)
  device.bytes(0, memory.length).set(memory)
  return writes
}

// Makes a call to the device, in which write `number`, if there is one, is harmed by `kind`: 'cut', 'fail' or 'lie'. The harmed write
// leaves the bytes of `tear` at the start of its range.
export function harm(device, kind, number, tear, call) {
  const write = writesOf(device, call)[number] ?? { first: Infinity, last: Infinity }
  let count = 0
  const driver = operation => {
    const index = count++
    if (index < write.first || index > write.last) return device.carryOut(operation)
    if (index === write.first) device.carryOut({ at: write.at, bytes: tear.slice(0, write.length) })
    if (kind === 'cut') throw new Cut()
    return kind === 'lie'
  }
  try {
    callWith(device, driver, call)
  } catch (error) {
    if (!(error instanceof Cut)) throw error
  }
}

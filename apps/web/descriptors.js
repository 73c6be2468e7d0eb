// SPDX-License-Identifier: MIT OR Apache-2.0
// Reads the descriptors of a DFU interface (USB DFU 1.1, sections 4.1.2, 4.1.3 and 4.2.3).
import { LATE } from './clock.js'
import { FUNCTIONAL, INTERFACE as DFU, speaksDfuse } from './names.js'

const CONFIGURATION = 2
const STRING = 3
const INTERFACE = 4
const INTERFACE_BYTES = 9
const STRING_BYTES = 255
const GET_DESCRIPTOR = 6
const DESCRIPTOR_MS = 5000

// Returns each alternate setting with DFU. Protocol 2 is DFU mode, any other counts as run-time mode.
export function settingsOf(device) {
  const found = []
  const { interfaces = [] } = device.configuration ?? device.configurations?.[0] ?? {}
  for (const { interfaceNumber, alternates } of interfaces)
    for (const one of alternates)
      if (one.interfaceClass === DFU.CLASS && one.interfaceSubclass === DFU.SUBCLASS)
        found.push({
          interface: interfaceNumber,
          alternate: one.alternateSetting,
          name: one.interfaceName ?? '',
          isUpgrade: one.interfaceProtocol === DFU.DFU_MODE,
          saysRuntime: one.interfaceProtocol === DFU.RUNTIME,
        })
  return found
}

// Returns bcdDevice, which WebUSB splits into three parts.
export const releaseOf = device =>
  (device.deviceVersionMajor << 8) | (device.deviceVersionMinor << 4) | device.deviceVersionSubminor

// Finds the functional descriptor of a setting in a configuration: after that setting, else after another one of its interface, else before
// all interfaces. It has 9 bytes, or 7 in DFU 1.0. Returns no bytes if there is none.
export function functionalIn(bytes, number, alternate) {
  const found = { own: null, other: null, before: null }
  let place = 'before'
  for (let at = 0; at + 2 <= bytes.length && bytes[at] >= 2; at += bytes[at]) {
    const size = bytes[at]
    if (bytes[at + 1] === INTERFACE && at + 4 <= bytes.length)
      place = bytes[at + 2] !== number ? 'elsewhere' : bytes[at + 3] === alternate ? 'own' : 'other'
    if (bytes[at + 1] === FUNCTIONAL.TYPE && (size === FUNCTIONAL.BYTES_1_0 || size === FUNCTIONAL.BYTES) && at + size <= bytes.length)
      found[place] ??= bytes.slice(at, at + size)
  }
  return found.own ?? found.other ?? found.before ?? new Uint8Array(0)
}

// Returns iInterface of a setting in a configuration, the index of its name, or 0.
function nameIndexIn(bytes, number, alternate) {
  for (let at = 0; at + INTERFACE_BYTES <= bytes.length && bytes[at] >= 2; at += bytes[at])
    if (bytes[at + 1] === INTERFACE && bytes[at] === INTERFACE_BYTES && bytes[at + 2] === number && bytes[at + 3] === alternate)
      return bytes[at + 8]
  return 0
}

async function descriptor(device, clock, kind, index, length, language = 0) {
  const setup = { requestType: 'standard', recipient: 'device', request: GET_DESCRIPTOR, value: (kind << 8) | index, index: language }
  const result = await clock.limit(device.controlTransferIn(setup, length), DESCRIPTOR_MS)
  if (result === LATE) throw new DOMException('The device does not answer.', 'TimeoutError')
  if (result.status !== 'ok') return new Uint8Array(0)
  return new Uint8Array(result.data.buffer, result.data.byteOffset, result.data.byteLength)
}

// Reads the active configuration as bytes, because WebUSB shows only a part of it.
async function configurationBytes(device, clock) {
  for (let index = 0; index < device.configurations.length; index++) {
    const head = await descriptor(device, clock, CONFIGURATION, index, 9)
    if (head.length === 9 && head[5] === device.configuration.configurationValue)
      return descriptor(device, clock, CONFIGURATION, index, head[2] | (head[3] << 8))
  }
  return new Uint8Array(0)
}

// Reads a string descriptor in the device's first language, or returns '' if there is none.
export async function nameAt(device, clock, index) {
  const languages = index === 0 ? [] : await descriptor(device, clock, STRING, 0, STRING_BYTES)
  if (languages.length < 4) return ''
  const bytes = await descriptor(device, clock, STRING, index, STRING_BYTES, languages[2] | (languages[3] << 8))
  const end = Math.min(bytes.length, bytes[0] ?? 0)
  const units = Array.from({ length: Math.max(0, (end - 2) >> 1) }, (_, at) => bytes[2 * at + 2] | (bytes[2 * at + 3] << 8))
  return String.fromCharCode(...units).split('\0')[0]
}

// Reads the functional descriptor and the name of a setting. With DfuSe the name is a memory map, which a browser may hide.
export async function saidOf(device, clock, setting) {
  const bytes = await configurationBytes(device, clock)
  const found = functionalIn(bytes, setting.interface, setting.alternate)
  const said = found.length > 0 ? found : functionalIn(await descriptor(device, clock, FUNCTIONAL.TYPE, 0, 9), 0, 0)
  if (!setting.isUpgrade || !speaksDfuse(said)) return { name: setting.name, descriptor: said }
  const name = await nameAt(device, clock, nameIndexIn(bytes, setting.interface, setting.alternate))
  return { name: name || setting.name, descriptor: said }
}

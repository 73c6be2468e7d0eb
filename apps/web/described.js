// SPDX-License-Identifier: MIT OR Apache-2.0
// Describes a connected device: its identifiers, mode, interface and setting, and why its image can't be compared.
import { canCompare, canUpload, isDfuse } from './begin.js'
import { by, plain, say } from './elements.js'
import { FUNCTIONAL, digits, transferOf } from './names.js'

const idsOf = ({ vendor, product }) => `${digits(vendor, 4)}:${digits(product, 4)}`

export function describe(info) {
  const serial = info.serial === '' ? '' : `serial number ${info.serial}`
  const mode = info.isUpgrade ? 'in DFU mode' : 'in run-time mode'
  const words = [info.title, idsOf(info), serial, mode, isDfuse(info) ? 'DfuSe' : '']
  by('device').textContent = words.filter(word => word !== '').map(plain).join(', ')
  const transfer = info.descriptor.length >= FUNCTIONAL.BYTES_1_0 ? `, in blocks of ${transferOf(info.descriptor)} bytes` : ''
  by('device').title = `interface ${info.interface}, setting ${info.alternate}${transfer}`
  say('no-verify', canCompare(info) || isDfuse(info) ? '' : canUpload(info)
    ? 'On this system the image of this device can\'t be read back: that takes a reset of the bus.'
    : 'This device can\'t give its image back, so it can\'t be compared.')
}

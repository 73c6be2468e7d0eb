// SPDX-License-Identifier: MIT OR Apache-2.0
// Inputs for a DfuSe session, like --address and --no-leave of dfu-flash: the address of an image that has none, and if the device starts
// its application.
import { by, say } from './elements.js'

const IS_ADDRESS = /^0x[0-9a-f]{1,8}$/i
const WRONG = 'An address has 0x and one to eight hexadecimal digits, as 0x08000000.'

export class DfuseWords {
  constructor(onChange) {
    by('address').oninput = onChange
  }

  text() {
    return by('address').value.trim()
  }

  // Returns the address, or null.
  address() {
    return IS_ADDRESS.test(this.text()) ? parseInt(this.text(), 16) : null
  }

  leaves() {
    return by('leave').checked
  }

  // isDfuse: the device speaks DfuSe. An image with an address is always compared.
  show(isDfuse, needsAddress) {
    by('verify-row').hidden = isDfuse
    by('leave-row').hidden = !isDfuse
    by('address-row').hidden = !needsAddress
    say('address-wrong', needsAddress && this.text() !== '' && this.address() === null ? WRONG : '')
  }

  lock(isLocked) {
    for (const id of ['address', 'leave']) by(id).disabled = isLocked
  }
}

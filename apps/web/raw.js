// SPDX-License-Identifier: MIT OR Apache-2.0
// Adds a suffix to a raw image for the device that a person names. If the file looks like another format, the person must first confirm
// that its bytes are sent unchanged.
import { by, say } from './elements.js'
import { digits } from './names.js'
import { fileOf } from './suffix.js'

const FIELDS = ['vendor', 'product', 'device']
const IS_FOUR = /^[0-9a-f]{4}$/i

export class RawImage {
  // onFile gets the DFU file. ids returns the identifiers of the connected device, or null.
  constructor(onFile, ids) {
    Object.assign(this, { onFile, ids, bytes: null, isOther: false, isGoing: false })
    by('raw-add').onclick = () => this.add()
    by('raw-anyway').onchange = () => this.refresh(this.isGoing)
    by('raw-same').onclick = () => this.fill(this.ids())
    for (const field of FIELDS) by(`raw-${field}`).onkeydown = event => { if (event.key === 'Enter') this.add() }
  }

  // Asks which device the image is for. isOther: it looks like another format. isTaken: the page extracted it from a file.
  ask(bytes, isOther, isTaken = false) {
    Object.assign(this, { bytes, isOther })
    say('raw-legend', isTaken ? 'Which device is the image for?' : 'Is it a raw image? Then say which device it is for.')
    say('raw-wrong', '')
    by('raw-anyway').checked = false
    by('raw-anyway-row').hidden = !isOther
    by('raw').hidden = false
    this.refresh(this.isGoing)
  }

  hide() {
    by('raw').hidden = true
    this.bytes = null
  }

  refresh(isGoing) {
    const isShut = isGoing || (this.isOther && !by('raw-anyway').checked)
    this.isGoing = isGoing
    for (const one of by('raw').querySelectorAll('input, button')) one.disabled = isShut
    by('raw-anyway').disabled = isGoing
    by('raw-same').disabled = isShut || this.ids() === null
  }

  // Doesn't fill in the version, because the image may be for another version of the device.
  fill({ vendor, product }) {
    by('raw-vendor').value = digits(vendor, 4)
    by('raw-product').value = digits(product, 4)
    say('raw-wrong', '')
  }

  add() {
    const texts = FIELDS.map(field => by(`raw-${field}`).value.trim())
    const wrong = FIELDS.find((_, at) => !IS_FOUR.test(texts[at]))
    if (wrong !== undefined) {
      say('raw-wrong', `The ${wrong === 'device' ? 'version' : wrong} has to be four hexadecimal digits, as 1209, or ffff for any.`)
      return by(`raw-${wrong}`).focus()
    }
    const [vendor, product, device] = texts.map(text => parseInt(text, 16))
    return this.onFile(fileOf(this.bytes, { vendor, product, device }))
  }
}

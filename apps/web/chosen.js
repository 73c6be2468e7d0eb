// SPDX-License-Identifier: MIT OR Apache-2.0
// The file to flash: it is chosen or dropped, checked by the proved host, and displayed. The image of a build's HEX, S-record, UF2 or ELF
// file is extracted. A raw image gets its suffix here, except for a DfuSe device.
import { DfuseHost, FILE } from './dfuse_host.js'
import { elementText } from './dfuse_map.js'
import { by, download, listOf, plain, say, showFields } from './elements.js'
import { lacksSuffix, mayBeRaw, readFile } from './files.js'
import { LOOKS, NAMED, REFUSAL } from './host.js'
import { badByte, isCut, otherThanRaw } from './looks.js'
import { digits } from './names.js'
import { RawImage } from './raw.js'
import { refusalOf } from './refusals.js'
import { FILL, FILL_NONE, FORMATS, isFormat, takeImage, takingRefusal, TAKE } from './taking.js'

const MAX_FILE = 16777216
const MAX_SHOWN = 8 // number of elements that are shown
const ANY = 0xffff

const orAny = number => (number === ANY ? 'any' : digits(number, 4))
const target = ({ vendor, product, device }) => `${orAny(vendor)}:${orAny(product)}, version ${orAny(device)}`

export class ChosenFile {
  // onChange is called for a new file. ids returns the identifiers of the connected device, or null.
  constructor({ host, image }, onChange, ids) {
    Object.assign(this, { module: host, reader: image, own: null, taken: null, address: '' })
    Object.assign(this, { onChange, bytes: null, said: null, look: null, isDfuse: false, isAdded: false, name: '' })
    Object.assign(this, { choices: 0, shown: null, isLocked: false, isForDfuse: false, setting: null })
    this.raw = new RawImage(bytes => this.take(bytes, this.name, true), ids)
    // A file may be chosen a second time, because it may have been rebuilt.
    by('file').onclick = event => { event.target.value = '' }
    by('file').oncancel = event => { if (this.shown !== null) event.target.files = listOf(this.shown) }
    by('file').onchange = event => event.target.files[0] && this.read(event.target.files[0])
    by('fill').onchange = () => { this.convert(by('fill').checked ? FILL : FILL_NONE); this.render(); this.onChange() }
    by('save').onclick = () => download(`${this.name.replace(/\.[^.]*$/, '')}.dfu`, this.bytes, 'application/octet-stream')
    this.listenToDrops(by('drop'))
  }

  listenToDrops(drop) {
    drop.ondragover = event => { event.preventDefault(); drop.className = 'over' }
    drop.ondragleave = () => { drop.className = '' }
    drop.ondrop = event => {
      event.preventDefault()
      drop.className = ''
      if (event.dataTransfer.files[0]) this.read(event.dataTransfer.files[0])
    }
  }

  // Returns true for a valid file, or a raw image for a DfuSe device.
  isGood() {
    return this.said !== null && (this.said.refusal === undefined || this.isRaw())
  }

  // Returns true if the whole file is a raw image for a DfuSe device.
  isRaw() {
    return this.isForDfuse && mayBeRaw(this, this.bytes)
  }

  // Returns the properties of the file that a session needs.
  forSession() {
    const { bytes, isDfuse, said, look } = this
    return { bytes, isDfuse, isRaw: this.isRaw(), said, look }
  }

  // Disables the inputs of the file while a session runs, or enables them again.
  lock(isLocked) {
    this.isLocked = by('file').disabled = isLocked
    this.raw.refresh(isLocked)
  }

  // Sets the device for which the file is shown: true for DfuSe, and the setting that a person chose, or null.
  fit(isForDfuse, setting) {
    if (isForDfuse === this.isForDfuse && setting === this.setting) return
    Object.assign(this, { isForDfuse, setting })
    if (this.bytes !== null && (this.isDfuse || lacksSuffix(this, this.bytes))) this.render()
  }

  // Reads one byte more than the limit, so that the host detects a file that is too large. If two files are being read, the last one chosen
  // counts.
  async read(file) {
    const choice = ++this.choices
    const failed = error => say('file-refused', `The file can't be read: ${error.message}`)
    const buffer = await file.slice(0, MAX_FILE + 1).arrayBuffer().catch(failed)
    if (this.isLocked || buffer === undefined || choice !== this.choices) return
    this.shown = file
    by('file').files = listOf(file)
    this.take(new Uint8Array(buffer), file.name)
  }

  // isAdded: the page added the suffix.
  take(bytes, name, isAdded = false) {
    Object.assign(this, { bytes, name, isAdded, ...readFile(this.module, bytes, name) })
    if (!isAdded) this.begin(bytes)
    this.render()
    if (isAdded && this.isGood()) by('save').focus()
    this.onChange()
  }

  // Begins with a file that a person chose, and extracts its image if it has one of FORMATS.
  begin(bytes) {
    by('fill').checked = false
    Object.assign(this, { own: { bytes, look: this.look }, taken: null })
    if (isFormat(this.look) && lacksSuffix(this, bytes)) this.convert(FILL_NONE)
    this.sayAddress()
  }

  convert(fill) {
    const { bytes, look } = this.own
    this.taken = takeImage(this.reader, bytes, look.looks, fill)
    if (this.isTaken()) Object.assign(this, { bytes: this.taken.bytes, look: { ...look, looks: LOOKS.RAW, named: NAMED.NONE } })
    else Object.assign(this, { bytes, look })
    this.sayAddress()
  }

  // Returns true if the image was extracted from the file.
  isTaken() {
    return this.taken !== null && this.taken.refusal === undefined
  }

  // Fills in the image's address. If it has none, clears the field, unless a person typed an address.
  sayAddress() {
    const address = this.isTaken() ? `0x${digits(this.taken.address, 8)}` : ''
    if (address !== '' || by('address').value === this.address) by('address').value = address
    this.address = address
  }

  render() {
    by('fields').hidden = true
    by('fill-row').hidden = this.taken === null || !(this.taken.refusal === TAKE.GAP || this.taken.fill === FILL)
    by('save-row').hidden = !this.isAdded || !this.isGood()
    say('file-refused', '')
    this.raw.hide()
    const fields = () => [['Name', plain(this.name)], ...this.takenFields(), ...this.fields()]
    if (this.isGood() || this.isTaken()) showFields('fields', fields())
    if (this.isGood()) return
    if (this.isTaken()) this.raw.ask(this.bytes, false, true)
    else if (this.taken === null) this.refuse()
    else this.refuseFormat()
  }

  // Returns the format and the addresses of an extracted image.
  takenFields() {
    if (!this.isTaken()) return []
    const { format, fill, address, bytes } = this.taken
    return [['Format', `${FORMATS[format]}${fill === FILL ? ', its gaps filled with the byte ff' : ''}`],
      ['Addresses', `${digits(address, 8)} to ${digits(address + bytes.length - 1, 8)}`]]
  }

  fields() {
    if (!this.isGood()) return [['Image', `${this.bytes.length} bytes`]]
    if (this.isDfuse) return this.dfuseFields()
    const whole = this.isTaken() ? '' : ', all of them: it has no suffix'
    if (this.isRaw()) return [['Image', `${this.bytes.length} bytes${whole}`], ['For the device', 'any']]
    const { payload, crc } = this.said
    return [['Image', `${payload} bytes`], ['For the device', `${target(this.said)}${this.isAdded ? ', as you say' : ''}`],
      ['Check sum', `${digits(crc, 8)}${this.isAdded ? ', added by this page' : ', and it is right'}`]]
  }

  // Returns the fields of a DfuSe file, with its setting's elements or, if it has several settings, those of the chosen one.
  dfuseFields() {
    const isOfSeveral = this.said.setting === FILE.SEVERAL
    const setting = isOfSeveral ? this.setting : this.said.setting
    const { elements = [] } = setting === null ? {} : new DfuseHost(this.module, this.bytes).readElements(setting)
    const lines = elements.slice(0, MAX_SHOWN).map(elementText)
    if (elements.length > MAX_SHOWN) lines.push(`and ${elements.length - MAX_SHOWN} more`)
    return [['Format', 'DfuSe, and its check sum is right'], ['For the device', target(this.said)],
      ['For the memory', isOfSeveral ? 'several alternate settings' : `alternate setting ${setting}`],
      ...(lines.length > 0 ? [['Elements', lines.join('\n')]] : [])]
  }

  // A file without a suffix may be a raw image, but not if it is a DFU file that was cut.
  refuse() {
    const isSuffixed = !lacksSuffix(this, this.bytes)
    const isOther = !isSuffixed && !mayBeRaw(this, this.bytes)
    const { name, shown: words, advice } = refusalOf(isOther ? REFUSAL.FILE_NO_SIGNATURE : this.said.refusal)
    const said = isOther ? otherThanRaw(this.look) : { words, advice }
    say('file-refused', `${name}: ${said.words}. ${said.advice}`)
    if (!isSuffixed && !isCut(this.look)) this.raw.ask(this.bytes, isOther)
  }

  // Refuses a file from which no image can be extracted. A person may still send the file unchanged.
  refuseFormat() {
    const { name, words, advice } = takingRefusal(this.taken)
    const seen = `It looks like ${FORMATS[this.taken.format]}.`
    say('file-refused', [`${name}: ${words}.`, seen, badByte(this.look, this.bytes), advice].filter(text => text !== '').join(' '))
    this.raw.ask(this.bytes, true)
  }
}

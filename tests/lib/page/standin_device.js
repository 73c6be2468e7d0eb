// A stand-in for USBDevice: a device as it was enumerated, with its descriptors, and the calls of WebUSB that DFU needs. standin.js
// implements its bus.

const NAMES = ['Flash', 'EEPROM', 'RAM']
const ENGLISH = [4, 3, 9, 4]
const FIRST_NAME = 4 // index of the string with the first setting's name, for the memories of a DfuSe device
const WORDS = 99     // index of the string in which such a device explains a refusal

export const failure = (name, text) => new DOMException(text, name)
export const viewOf = bytes => new DataView(bytes.buffer, bytes.byteOffset, bytes.byteLength)

export class StandInDevice {
  constructor(usb, { isOther = false, isSwapped = false } = {}) {
    const { settings } = usb
    const { config } = settings
    const isApp = !isOther && !isSwapped && usb.isApp()
    const ids = isApp || settings.dfuIds === null ? config : { ...config, ...settings.dfuIds }
    Object.assign(this, { usb, isOther, isSwapped, isApp, opened: false, claimed: false, setting: 0, pending: [] })
    this.vendorId = config.vendor
    this.productId = isSwapped ? 0x0bad : ids.product
    this.serialNumber = isOther ? '' : isApp ? settings.serial : settings.dfuSerial ?? settings.serial
    this.productName = isOther ? 'another board' : settings.title
    this.deviceVersionMajor = ids.device >> 8
    this.deviceVersionMinor = (ids.device >> 4) & 15
    this.deviceVersionSubminor = ids.device & 15
    const dfu = { interfaceClass: 0xfe, interfaceSubclass: 1, interfaceProtocol: isApp ? 1 : 2 }
    const alternates = Array.from({ length: isApp ? 1 : settings.alternates },
      (_, at) => ({ alternateSetting: at, interfaceName: this.nameOf(at), ...dfu }))
    this.configuration = { configurationValue: 1, interfaces: [{ interfaceNumber: settings.interface, alternates }] }
    this.configurations = [this.configuration]
    this.bytes = this.describe(alternates)
  }

  // Returns a setting's name. Chromium may leave out these names.
  nameOf(at) {
    const { maps, tellsNames } = this.usb.settings
    return maps === undefined ? NAMES[at] : tellsNames ? maps[at] : null
  }

  // Returns the bytes of a string descriptor, or of the list of languages.
  string(index) {
    const { maps, refusalText } = this.usb.settings
    if (maps === undefined) return { status: 'stall' }
    const text = index === WORDS ? refusalText : maps[index - FIRST_NAME] ?? ''
    const units = Array.from(text, (_, at) => text.charCodeAt(at)).flatMap(unit => [unit & 255, unit >> 8])
    if (units.length > 252) return { status: 'stall' }
    return { status: 'ok', data: viewOf(new Uint8Array(index === 0 ? ENGLISH : [2 + units.length, 3, ...units])) }
  }

  standard({ value }, length) {
    if (value >> 8 === 3) return this.string(value & 255)
    return value === 0x0200 ? { status: 'ok', data: viewOf(this.bytes.slice(0, length)) } : { status: 'stall' }
  }

  describe(alternates) {
    const { config, interface: number, descriptor, appDescriptor, version, maps } = this.usb.settings
    const size = this.isApp ? appDescriptor ?? descriptor : descriptor
    const nameAt = at => (maps === undefined ? 0 : FIRST_NAME + at)
    const settings = alternates.flatMap(({ alternateSetting: at, interfaceProtocol: protocol }) =>
      [9, 4, number, at, 0, 0xfe, 1, protocol, nameAt(at)])
    const two = number => [number & 255, number >> 8]
    const whole = [size, 0x21, config.attributes, ...two(config.detach_ms), ...two(config.transfer), ...two(version)]
    const body = [...settings, ...whole.slice(0, size)]
    return new Uint8Array([9, 2, (9 + body.length) & 255, (9 + body.length) >> 8, 1, 1, 0, 0x80, 50, ...body])
  }

  isThere() {
    return this.isOther || (this.usb.current === this && this.usb.isHere())
  }

  held() {
    this.usb.catchUp()
    if (this.usb.untold?.device === this) throw failure('NetworkError', 'A transfer error has occurred.')
    if (!this.isThere()) throw failure('NotFoundError', 'The device was disconnected.')
    if (!this.opened) throw failure('InvalidStateError', 'The device must be opened first.')
    if (this.isOther) throw failure('NetworkError', 'This stand-in has nothing behind the other board.')
  }

  async open() {
    this.usb.catchUp()
    if (!this.isThere()) throw failure('NotFoundError', 'The device was disconnected.')
    this.opened = true
    if (this.wasClosed && this.usb.settings.closing === 'resets') this.usb.loseState()
  }

  async close() {
    Object.assign(this, { opened: false, claimed: false, wasClosed: true, setting: 0 })
    this.cancel('AbortError', 'The transfer was cancelled.')
  }

  cancel(name, text) {
    for (const { reject } of this.pending.splice(0)) reject(failure(name, text))
  }

  async selectConfiguration() { this.held() }

  async claimInterface(number) {
    this.held()
    if (number !== this.usb.settings.interface)
      throw failure('NotFoundError', 'The interface number provided is not supported by the device in its current configuration.')
    this.claimed = true
  }

  async selectAlternateInterface(number, setting) {
    this.held()
    if (this.usb.settings.stallsSet) throw failure('NetworkError', 'Unable to set device interface.')
    this.setting = setting
  }

  async reset() {
    this.held()
    return this.usb.resetBus()
  }

  async controlTransferIn(fields, length) {
    this.held()
    if (fields.requestType === 'standard') return this.standard(fields, length)
    return this.usb.transfer(this, this.setupOf(0xa1, fields, length), new Uint8Array(0))
  }

  async controlTransferOut(fields, data = new Uint8Array(0)) {
    this.held()
    return this.usb.transfer(this, this.setupOf(0x21, fields, data.length), data.slice())
  }

  setupOf(kind, { requestType, recipient, request, value, index }, length) {
    const { interface: number, setting } = this.usb.settings
    if (requestType !== 'class' || recipient !== 'interface' || index !== number || !this.claimed)
      throw failure('InvalidStateError', 'The specified interface has not been claimed.')
    if (!this.isApp && this.setting !== setting) this.usb.faults.push(`a request is made in the setting ${this.setting}`)
    if (this.isSwapped) this.usb.faults.push('a request goes to another board')
    return new Uint8Array([kind, request, value & 255, value >> 8, index & 255, index >> 8, length & 255, length >> 8])
  }
}

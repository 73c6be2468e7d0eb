// SPDX-License-Identifier: MIT OR Apache-2.0
// A simulated board: the proved device behind the WebUSB calls that the page makes. It is as slow as a small board, and has its own serial
// number.
import { Device } from './device.js'
import { INTERFACE, KIND, REQUEST } from './names.js'
import { fileOf } from './suffix.js'

const IDS = { vendor: 0x1209, product: 0x0001, device: 0x0100 }
const CONFIG = { ...IDS, detach_ms: 1000, transfer: 64, attributes: 0x0f, busy_ms: 12, manifest_ms: 60, least: 1 }
const CAPACITY = 1048576
const BYTES = 3000
const OLD = new TextEncoder().encode('the image that the board came with')
const NONE = new Uint8Array(0)
const DETACH = new Uint8Array([KIND.OUT, REQUEST.DETACH, 0, 0, 0, 0, 0, 0])
const DETACH_LEAVE_MS = 30 // after a DETACH the board leaves the bus by itself, without a reset

const viewOf = bytes => new DataView(bytes.buffer, bytes.byteOffset, bytes.byteLength)

// Returns an example file for the board.
export const exampleFile = () =>
  fileOf(Uint8Array.from({ length: BYTES }, (_, at) => (at * 31 + (at >> 3)) & 255), { ...IDS, device: 0xffff })

// One enumeration of the board. A DETACH or a reset that changes the mode replaces it by a new one.
class SimulatedDevice {
  constructor(usb) {
    const isApp = usb.device.state() <= 1
    const number = { alternateSetting: 0, interfaceClass: INTERFACE.CLASS, interfaceSubclass: INTERFACE.SUBCLASS,
      interfaceProtocol: isApp ? INTERFACE.RUNTIME : INTERFACE.DFU_MODE }
    Object.assign(this, { usb, isApp, vendorId: IDS.vendor, productId: IDS.product, serialNumber: usb.serial,
      productName: 'a simulated board', deviceVersionMajor: 1, deviceVersionMinor: 0, deviceVersionSubminor: 0 })
    this.configuration = { configurationValue: 1, interfaces: [{ interfaceNumber: 0, alternates: [number] }] }
    this.configurations = [this.configuration]
    const said = [9, 4, 0, 0, 0, INTERFACE.CLASS, INTERFACE.SUBCLASS, number.interfaceProtocol, 0, ...usb.device.functional()]
    this.bytes = new Uint8Array([9, 2, 9 + said.length, 0, 1, 1, 0, 0x80, 50, ...said])
  }

  async open() { this.usb.catchUp() }
  async close() { this.usb.catchUp() }
  async selectConfiguration() {}
  async claimInterface() {}
  async selectAlternateInterface() {}

  // Throws, so that the transfer fails, if the board left or returned as a new one.
  isHere() {
    this.usb.catchUp()
    if (this.usb.current !== this) throw new DOMException('The device was disconnected.', 'NotFoundError')
  }

  async controlTransferIn(fields, length) {
    this.isHere()
    if (fields.requestType === 'standard') return this.describe(fields, length)
    const bytes = this.usb.handle(KIND.IN, fields, length, NONE)
    return bytes === null ? { status: 'stall' } : { status: 'ok', data: viewOf(bytes) }
  }

  // Answers only the request for the configuration descriptor, and stalls all other standard requests, such as strings.
  describe({ value }, length) {
    return value === 0x0200 ? { status: 'ok', data: viewOf(this.bytes.slice(0, length)) } : { status: 'stall' }
  }

  async controlTransferOut(fields, data = NONE) {
    this.isHere()
    const bytes = this.usb.handle(KIND.OUT, fields, data.length, data)
    return bytes === null ? { status: 'stall', bytesWritten: 0 } : { status: 'ok', bytesWritten: data.length }
  }

  async reset() {
    this.isHere()
    this.usb.reset()
  }
}

export class SimulatedUsb extends EventTarget {
  constructor(module, number) {
    super()
    Object.assign(this, { serial: `SIMULATED-${number}`, lastTick: performance.now(), device: new Device(module, CONFIG, CAPACITY, OLD) })
    this.device.handle(DETACH)
    this.device.elapse(1)
    this.current = new SimulatedDevice(this)
  }

  async requestDevice() { return this.current }
  async getDevices() { return [this.current] }

  // Passes the elapsed time to the device.
  catchUp() {
    const ms = Math.floor(performance.now() - this.lastTick)
    if (ms <= 0) return
    this.lastTick += ms
    this.device.elapse(ms)
    this.look()
  }

  handle(kind, { request, value, index }, length, body) {
    const two = number => [number & 255, number >> 8]
    const bytes = this.device.handle(new Uint8Array([kind, request, ...two(value), ...two(index), ...two(length)]), body.slice())
    this.look()
    if (request === REQUEST.DETACH) setTimeout(() => this.catchUp(), DETACH_LEAVE_MS)
    return bytes
  }

  reset() {
    this.device.reset()
    this.look()
  }

  // Enumerates the board again if its mode has changed.
  look() {
    const before = this.current
    if (before.isApp === (this.device.state() <= 1)) return
    this.current = new SimulatedDevice(this)
    for (const [what, device] of [['disconnect', before], ['connect', this.current]])
      this.dispatchEvent(Object.assign(new Event(what), { device }))
  }
}

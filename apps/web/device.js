// SPDX-License-Identifier: MIT OR Apache-2.0
// The proved device. The library requests each flash operation, and this driver carries it out in the library's memory.
import { LAYOUT } from './records.js'
import { Library } from './library.js'

const STALL = -1
const ASKS = -11
const NO_CLOSE = -13
const NO_CANDIDATE = -20
const ERR_FILE = 2
const ERASE = 1
const ERASED = 0xff
const MAX_BODY = 65536
const MAX_ANSWER = 4096
const MAX_BLOCK = 4096 + 256 // bytes of a block and of a unit

// A refusal by the device; `number` is an error of dfu_core.h.
export class Refused extends Error {
  constructor(number) {
    super(`the proved device refuses: ${number}`)
    this.number = number
  }
}

function taken(number) {
  if (number < 0) throw new Refused(number)
  return number
}

export class Device extends Library {
  // config: the fields of struct dfu_config. The medium has room for images of `capacity` bytes, and is erased except for `image`.
  constructor(module, config, capacity, image) {
    super(module)
    const whole = { unit: 1, sector: 0, erase_ms: 0, program_ms: 0, ...config }
    this.config = this.record('dfu_config', whole)
    this.kept = this.record('dfu_record')
    this.ask = this.record('dfu_ask')
    this.block = this.reserve(MAX_BLOCK)
    this.transfer = whole.transfer
    this.gate = Math.max(16, whole.unit, whole.sector) // size of a gate, and of a header
    this.size = 2 * (2 * this.gate + capacity)
    this.medium = this.reserve(this.size)
    this.mediumBytes().fill(ERASED)
    this.setup = this.reserve(8)
    this.body = this.reserve(MAX_BODY)
    this.out = this.reserve(MAX_ANSWER)
    this.place = this.record('dfu_place')
    this.driver = operation => this.carryOut(operation)
    this.format(image)
    this.power()
  }

  // Carries out an operation by writing its bytes. Returns true on success.
  carryOut({ at, bytes }) {
    this.mediumBytes().set(bytes, at)
    return true
  }

  // Returns the operation that the library requests.
  asked() {
    const { kind, at, length } = this.read('dfu_ask', this.ask)
    const isErase = kind === ERASE
    const bytes = isErase ? new Uint8Array(length).fill(ERASED) : this.copy(this.ask + LAYOUT.dfu_ask.fields.bytes.at, length)
    return { isErase, at, bytes }
  }

  // Carries out all operations that a call requests. Returns the call's answer.
  settle(number, next, took) {
    let answer = number
    while (answer === ASKS) {
      taken(next())
      answer = took(this.driver(this.asked()) ? 0 : 1)
    }
    return answer
  }

  words() {
    return [this.config, this.kept, this.block, MAX_BLOCK, this.medium, this.size].map(BigInt)
  }

  work(number) {
    const { dfu_core_next: next, dfu_core_took: took } = this.calls
    return this.settle(number, () => next(...this.words(), BigInt(this.ask)),
      failed => took(...this.words(), failed, BigInt(this.out), BigInt(MAX_ANSWER)))
  }

  format(image) {
    const { dfu_core_format_start: start, dfu_core_format_next: next, dfu_core_format_took: took } = this.calls
    const words = [this.config, this.kept, this.medium, this.size, this.put(image), image.length].map(BigInt)
    taken(this.settle(start(...words), () => next(...words, BigInt(this.ask)), failed => took(...words, failed)))
  }

  // Powers the device on, also after a power cut.
  power() {
    taken(this.calls.dfu_core_power_on(...[this.config, this.kept, this.medium, this.size].map(BigInt)))
  }

  // Returns the bytes of the answer, none for an acknowledgement, or null for a stall.
  handle(setup, body = new Uint8Array(0)) {
    this.bytes(this.setup, 8).set(setup)
    this.bytes(this.body, body.length).set(body)
    const rest = [this.setup, this.body, body.length, this.out, MAX_ANSWER].map(BigInt)
    const count = this.work(this.calls.dfu_core_handle(...this.words(), ...rest))
    return count === STALL ? null : this.copy(this.out, taken(count))
  }

  // Returns the bytes of a received image, on the medium and in memory, or null if none can be refused.
  candidate() {
    const words = [this.config, this.kept, this.medium, this.size, this.place].map(BigInt)
    const number = this.calls.dfu_core_candidate(...words)
    if (number === NO_CANDIDATE) return null
    taken(number)
    const { at, length } = this.read('dfu_place', this.place)
    const { held_length: count } = this.read('dfu_record', this.kept)
    return [...this.copy(this.medium + at, length), ...this.copy(this.block + this.transfer, count)]
  }

  // Simulates a program that accepts only images with this prefix. Returns true if it refuses the one that this setup packet closes.
  refuses(setup, front) {
    const image = this.candidate()
    if (image === null || front.every((byte, at) => image[at] === byte)) return false
    this.bytes(this.setup, 8).set(setup)
    const number = this.calls.dfu_core_refuse_close(...[this.config, this.kept, this.setup].map(BigInt), ERR_FILE)
    return number === STALL || (number !== NO_CLOSE && taken(number) !== 0)
  }

  // Refuses the image of a closed download.
  refuse(objection) {
    taken(this.calls.dfu_core_refuse(...[this.config, this.kept].map(BigInt), objection))
  }

  elapse(ms) {
    taken(this.work(this.calls.dfu_core_elapse(...this.words(), ms)))
  }

  reset() {
    taken(this.calls.dfu_core_usb_reset(...this.words()))
  }

  functional() {
    const at = this.reserve(9)
    taken(this.calls.dfu_core_functional(BigInt(this.config), BigInt(at)))
    return this.copy(at, 9)
  }

  state() {
    return taken(this.calls.dfu_core_state(BigInt(this.kept)))
  }

  code() {
    return taken(this.calls.dfu_core_code(BigInt(this.kept)))
  }

  // Returns the offset and length of the active image.
  imagePlace() {
    taken(this.calls.dfu_core_image(...[this.config, this.medium, this.size, this.place].map(BigInt)))
    return this.read('dfu_place', this.place)
  }

  image() {
    const { at, length } = this.imagePlace()
    return this.copy(this.medium + at, length)
  }

  // Returns a view of the medium, valid until the memory grows.
  mediumBytes() {
    return this.bytes(this.medium, this.size)
  }
}

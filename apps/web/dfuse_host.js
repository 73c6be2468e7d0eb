// SPDX-License-Identifier: MIT OR Apache-2.0
// The proved host for DfuSe: a file, memory maps, and one session per instance.
import { Library } from './library.js'
import { LAYOUT, writeRecord } from './records.js'

// Numbers of dfuse_host.h that host.js lacks: the work of a session, its reports, how a device left, access rights of a page, and the
// setting of a file that has several.
export const WORK = { ERASE: 0, WRITE: 2, COMPARE: 3, LEAVE: 6, OVER: 7 }
export const OUTCOME = { VERIFIED: 1, DIFFERENT: 2, REFUSED: 3, READ_PROTECTED: 4, GAVE_UP: 5, RESTARTS_SPENT: 6, NOT_DFU: 7 }
export const LEAVING = { STAYED: 0, LEFT: 1, UNKNOWN: 2 }
export const ACCESS = { READABLE: 1, ERASABLE: 2, WRITABLE: 4 }
export const FILE = { SEVERAL: 256 }

const MAX_ELEMENTS = 256
const MAX_BODY = 65536
const MAX_ANSWER = 65536

export class DfuseHost extends Library {
  constructor(module, file = new Uint8Array(0)) {
    super(module)
    this.file = this.put(file)
    this.fileWords = [BigInt(this.file), BigInt(file.length)]
    this.session = this.record('dfuse_session')
    this.action = this.record('dfuse_action')
    this.body = this.reserve(MAX_BODY)
    this.answer = this.reserve(MAX_ANSWER)
  }

  // Returns the fields of a DfuSe file, or { refusal }, a negative number.
  readFile() {
    const at = this.record('dfuse_file')
    const refusal = this.calls.dfuse_read_file(...this.fileWords, BigInt(at))
    return refusal === 0 ? this.read('dfuse_file', at) : { refusal }
  }

  // Writes the elements as an array, and returns its address.
  putElements(elements) {
    const { size } = LAYOUT.dfuse_element
    const at = this.reserve(elements.length * size)
    for (const [number, element] of elements.entries()) writeRecord(this.view(), 'dfuse_element', at + number * size, element)
    return at
  }

  // Returns the elements of a DfuSe file for a setting, in file order, or { refusal }.
  readElements(setting) {
    const places = this.putElements(Array.from({ length: MAX_ELEMENTS }, () => ({ address: 0, bytes: this.file, length: 0 })))
    const count = this.reserve(8)
    const refusal = this.calls.dfuse_file_image(...this.fileWords, setting, BigInt(places), BigInt(MAX_ELEMENTS), BigInt(count))
    if (refusal !== 0) return { refusal }
    const found = Number(this.view().getBigUint64(count, true))
    const { size } = LAYOUT.dfuse_element
    return { elements: Array.from({ length: found }, (_, number) => this.read('dfuse_element', places + number * size)) }
  }

  // Makes one element of the first `length` bytes of the file, to be written from this address on.
  whole(address, length) {
    return [{ address, bytes: this.file, length }]
  }

  putMap(text) {
    const bytes = new TextEncoder().encode(text)
    return [BigInt(this.put(bytes)), BigInt(bytes.length)]
  }

  // Returns the title and the ranges of a setting's memory map, or { refusal }.
  readMap(text) {
    const words = this.putMap(text)
    const [map, range] = [this.record('dfuse_map'), this.record('dfuse_range')]
    const refusal = this.calls.dfuse_read_map(...words, BigInt(map))
    if (refusal !== 0) return { refusal }
    const { name, ranges } = this.read('dfuse_map', map)
    const read = number => {
      this.calls.dfuse_read_range(...words, number, BigInt(range))
      return this.read('dfuse_range', range)
    }
    const title = new TextDecoder().decode(this.copy(Number(words[0]) + 1, name)).trim()
    return { title, ranges: Array.from({ length: ranges }, (_, number) => read(number)) }
  }

  // map: the setting's string. plan: the fields of struct dfuse_plan. Returns 0 or a refusal.
  begin(map, elements, plan) {
    this.words = [...this.putMap(map), BigInt(this.putElements(elements)), BigInt(elements.length)]
    return this.calls.dfuse_begin(BigInt(this.session), ...this.words, BigInt(this.record('dfuse_plan', plan)))
  }

  // Returns the next action with its setup packet and body, or null if the library refuses the record.
  next() {
    const words = [BigInt(this.session), ...this.words, BigInt(this.body), BigInt(MAX_BODY), BigInt(this.action)]
    if (this.calls.dfuse_next(...words) !== 0) return null
    const action = this.read('dfuse_action', this.action)
    action.setup = this.copy(this.action + LAYOUT.dfuse_action.fields.setup.at, 8)
    action.body = this.copy(this.body, action.length)
    return action
  }

  // Reports the result of the action to the library; `bytes` is the answer of BYTES. Returns true if the library accepts it.
  take(seen, bytes = new Uint8Array(0)) {
    this.bytes(this.answer, bytes.length).set(bytes)
    return this.calls.dfuse_take(BigInt(this.session), ...this.words, seen, BigInt(this.answer), BigInt(bytes.length)) === 0
  }

  // Returns the session's record, with its work and its address.
  state() {
    return this.read('dfuse_session', this.session)
  }
}

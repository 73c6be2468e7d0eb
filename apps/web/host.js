// SPDX-License-Identifier: MIT OR Apache-2.0
// The proved host: a file, and one session per instance.
import { Library } from './library.js'
import { LAYOUT } from './records.js'

// Numbers of dfu_host.h.
export const WHAT = { SEND: 0, WAIT: 1, RESET: 2, DONE: 3 }
export const SEEN = { ACK: 0, BYTES: 1, STALL: 2, NOTHING: 3, WAIT: 4, RESET: 5, RESTART: 6, LEFT: 7 }
export const REPORT = { INSTALLED: 1, UNCONFIRMED: 2, ABORTED: 3, REFUSED: 5, UPLOADED: 7, VERIFIED: 10, DIFFERENT: 11 }
export const REFUSAL = { FILE_TOO_SHORT: -1, FILE_NO_SIGNATURE: -2, FILE_DFUSE: -4, WRONG_TARGET: -22, CANNOT_DOWNLOAD: -23,
  CANNOT_UPLOAD: -24, BAD_DESCRIPTOR: -25, SHORT: -31, LONG: -32, WRONG_LENGTH: -33, WRONG_TYPE: -34 }

// Numbers of dfu_image.h.
export const LOOKS = { RAW: 0, IHEX: 1, SREC: 2, UF2: 3, ELF: 4, DFUSE: 5, ZIP: 6, GZIP: 7, TEXT: 8, NAMED: 9 }
export const NAMED = { NONE: 0, IHEX: 1, SREC: 2, UF2: 3, ELF: 4, DFU: 5 }

const MAX_ANSWER = 65536
const NAME_ROOM = 16

export class Host extends Library {
  constructor(module, file = new Uint8Array(0)) {
    super(module)
    this.file = this.put(file)
    this.fileLength = file.length
    this.session = this.record('dfu_session')
    this.action = this.record('dfu_action')
    this.answer = this.reserve(MAX_ANSWER)
    this.payload = 0
    this.kept = this.reserve(0)
    this.room = 0
    this.isUpload = false
  }

  // Returns the fields of the file, or { refusal }, a negative number.
  readFile() {
    const at = this.record('dfu_file')
    const refusal = this.calls.dfu_host_file(BigInt(this.file), BigInt(this.fileLength), BigInt(at))
    if (refusal < 0) return { refusal }
    const said = this.read('dfu_file', at)
    this.payload = said.payload
    return said
  }

  // Returns the file's apparent format under a name: one of LOOKS, the format of its name, and the position of the first invalid byte.
  look(name) {
    const bytes = new TextEncoder().encode(name)
    const at = this.record('dfu_look')
    const words = [this.file, this.fileLength, this.put(bytes), bytes.length, at]
    this.calls.dfu_image_look(...words.map(BigInt))
    return this.read('dfu_look', at)
  }

  // goal: 'download', 'verified' or 'upload'. Returns 0 or a refusal. The library reads the file again.
  begin(goal, descriptor, ids, actions, restarts) {
    const words = [BigInt(this.put(descriptor)), BigInt(descriptor.length)]
    this.isUpload = goal === 'upload'
    if (goal === 'upload') return this.calls.dfu_host_upload(BigInt(this.session), ...words, actions, restarts)
    const call = goal === 'verified' ? this.calls.dfu_host_verified : this.calls.dfu_host_download
    const file = [BigInt(this.file), BigInt(this.fileLength)]
    return call(BigInt(this.session), ...file, ...words, BigInt(this.record('dfu_ids', ids)), actions, restarts)
  }

  // Returns the next action with its setup packet and body, or null if the library refuses the record.
  next() {
    const words = [this.session, this.file, this.payload, this.action].map(BigInt)
    if (this.calls.dfu_host_next(...words) !== 0) return null
    const action = this.read('dfu_action', this.action)
    action.setup = this.copy(this.action + LAYOUT.dfu_action.fields.setup.at, 8)
    action.body = this.copy(this.file + action.from, action.length)
    return action
  }

  // Reports the result of the action to the library; `bytes` is the answer of BYTES. Returns true if the library accepts it.
  take(seen, bytes = new Uint8Array(0)) {
    this.growKept()
    this.bytes(this.answer, bytes.length).set(bytes)
    return this.calls.dfu_host_take(BigInt(this.session), BigInt(this.file), BigInt(this.payload), BigInt(this.kept),
      BigInt(this.room), seen, BigInt(this.answer), BigInt(bytes.length)) === 0
  }

  // Aborts the session, so that its next request is ABORT. Returns true if the library accepts that.
  abort() {
    return this.calls.dfu_host_abort(BigInt(this.session), BigInt(this.file), BigInt(this.payload)) === 0
  }

  // Returns the name of a report, such as gave-up.
  name(report) {
    const at = this.reserve(NAME_ROOM)
    const length = this.calls.dfu_host_name(report, BigInt(at), BigInt(NAME_ROOM))
    return new TextDecoder().decode(this.copy(at, length))
  }

  // Returns the session's record, with the remaining limits and the block size.
  state() {
    return this.read('dfu_session', this.session)
  }

  // Returns the bytes of an upload.
  uploaded() {
    return this.copy(this.kept, this.state().kept)
  }

  // Keeps room for one more answer of an upload. The buffer is the last in the memory, so it can grow.
  growKept() {
    if (!this.isUpload) return
    const wanted = this.state().kept + MAX_ANSWER
    if (this.room === 0) this.kept = this.reserve(0)
    if (wanted <= this.room) return
    this.reserve(2 * wanted - this.room)
    this.room = 2 * wanted
  }
}

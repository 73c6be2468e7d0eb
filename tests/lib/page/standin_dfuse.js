// A device of DfuSe, by the rules of tests/lib/usb (device_dfuse.c and dfuse_pages.c): it follows the known behaviour of ST's bootloaders,
// without any of their code.
//
// DNLOAD of block 0 sends a command: 21h and an address set the pointer, 41h and an address erase the page at that address. DNLOAD of block
// 2 or more sends bytes for the pointer's address. GETSTATUS starts the command or write and answers dfuDNBUSY; after its time the next
// GETSTATUS returns its result. ABORT drops a command that was not started. UPLOAD from dfuIDLE or dfuUPLOAD-IDLE returns the memory at the
// pointer plus the block's offset. DNLOAD of no bytes makes the device leave for its application, at the next GETSTATUS. A loss of power
// during a write or an erase leaves every other byte changed.
import { partsOf } from '/names.js'

const [APP_IDLE, , IDLE, DOWNLOAD_SYNC, BUSY, DOWNLOAD_IDLE, MANIFEST_SYNC, MANIFEST, , UPLOAD_IDLE, ERROR] = Array(11).keys()
const [, DNLOAD, UPLOAD, GETSTATUS, CLRSTATUS, GETSTATE, ABORT] = Array(7).keys()
const [OK, TARGET, WRITE, VENDOR, STALLED_PKT] = [0, 1, 3, 11, 15]
const [SET_ADDRESS, ERASE_PAGE] = [0x21, 0x41]
const [READABLE, ERASABLE, WRITABLE] = [1, 2, 4]
const START = 0x08000000 // initial address of the pointer
const WORDS = 99         // index of the string that explains a refusal
const NONE = new Uint8Array(0)

export const DFUSE_USUAL = {
  version: 0x011a,
  config: { transfer: 2048, attributes: 0x0b, detach_ms: 0, busy_ms: 0 },
  pages: null,        // map of the actual memory; null for the first of `maps`, the names of the settings
  erase_ms: 0,        // time of an erase; a write takes busy_ms
  tellsTimes: true,   // true: GETSTATUS returns these times
  stallsEarly: false, // true: the device stalls GETSTATUS while it is busy
  cells: 'and',       // effect of a write on a cell that isn't erased: and, fail, or any, which replaces it
  fails: -1,          // number of the command that fails, and its status code
  failCode: WRITE,
  erasesPointer: false, // true: an erase sets the pointer too
  isProtected: false,
  pending: 0,         // page whose erase an earlier run sent, but did not start; 0 for none
  lies: 0,            // address of a byte that is never written; 0 for none
  refusalText: '',    // string that explains a refusal
  tellsNames: false,  // true: WebUSB returns the names of the alternate settings
}

// Initial bytes of the memory.
export const oldByte = at => (at * 31 + (at >> 8)) & 255

// Returns the ranges of a map, by simple rules and without code of the page.
function rangesOf(map) {
  const found = []
  let size = 0
  for (const [, address, groups] of map.matchAll(/\/0x([0-9a-f]+)\/([^/]+)/gi)) {
    let start = parseInt(address, 16)
    for (const [, count, bytes, unit, letter] of groups.matchAll(/(\d+)\*(\d+)([KM B]?)([a-g])/g)) {
      const page = Number(bytes) * ({ K: 1024, M: 1048576 }[unit] ?? 1)
      found.push({ start, end: start + page * count, page, at: size, may: letter.charCodeAt(0) & 7 })
      start += page * count
      size += page * count
    }
  }
  return [found, size]
}

class Pages {
  constructor(settings) {
    const [ranges, size] = rangesOf(settings.pages ?? settings.maps[0])
    Object.assign(this, { settings, ranges, memory: Uint8Array.from({ length: size }, (_, at) => oldByte(at)), kept: null })
  }

  rangeOf(address) {
    return this.ranges.find(one => address >= one.start && address < one.end)
  }

  // Returns the offset of an address on a page that allows this operation, or undefined.
  place(address, may) {
    const range = this.rangeOf(address)
    return range === undefined || (range.may & may) !== may ? undefined : range.at + address - range.start
  }

  erase(address) {
    const at = this.place(address, ERASABLE)
    if (at === undefined) return false
    const { start, page } = this.rangeOf(address)
    const first = at - (address - start) % page
    this.memory.fill(0xff, first, first + page)
    return true
  }

  write(address, bytes) {
    const { cells, lies } = this.settings
    for (const [number, byte] of bytes.entries()) {
      const at = this.place(address + number, WRITABLE)
      if (at === undefined || (cells === 'fail' && this.memory[at] !== 0xff)) return false
      if (address + number !== lies) this.memory[at] = cells === 'and' ? this.memory[at] & byte : byte
    }
    return true
  }

  // Reads up to the first byte that can't be read.
  read(address, length) {
    const found = []
    while (found.length < length) {
      const at = this.place(address + found.length, READABLE)
      if (at === undefined) break
      found.push(this.memory[at])
    }
    return Uint8Array.from(found)
  }

  keep() {
    this.kept = this.memory.slice()
  }

  tear() {
    let isKept = false
    for (const [at, byte] of this.kept.entries()) {
      if (this.memory[at] === byte) continue
      if (isKept) this.memory[at] = byte
      isKept = !isKept
    }
  }
}

export class DfuseDevice {
  constructor(settings) {
    Object.assign(this, { settings, pages: new Pages(settings), commands: 0, started: [] })
    this.start()
    if (settings.startsInApp) this.at = APP_IDLE
    if (settings.pending === 0) return
    const address = new DataView(new ArrayBuffer(4))
    address.setUint32(0, settings.pending, true)
    Object.assign(this, { at: DOWNLOAD_SYNC, block: 0, brought: new Uint8Array([ERASE_PAGE, ...new Uint8Array(address.buffer)]) })
  }

  start() {
    Object.assign(this, { at: IDLE, said: OK, pointer: START, left: 0, isBusy: false, block: 0, brought: NONE, next: OK })
  }

  state() { return this.at }
  code() { return this.said }
  image() { return this.pages.memory }
  reset() {}

  power() {
    if (this.isBusy && this.left > 0) this.pages.tear()
    this.start()
  }

  elapse(ms) {
    this.left = Math.max(0, this.left - ms)
    if (this.at === MANIFEST) this.settle()
  }

  // Ends a command, or the manifestation, once its time has passed.
  settle() {
    if (this.left > 0) return
    if (this.at === BUSY) {
      this.said = this.next
      const fails = this.isBusy && this.settings.fails === this.commands - 1
      this.at = !fails && this.said === OK ? DOWNLOAD_IDLE : ERROR
      this.isBusy = false
    } else if (this.at === MANIFEST) {
      this.started.push(this.pointer)
      this.at = APP_IDLE
    }
  }

  refuse() {
    Object.assign(this, { at: ERROR, said: STALLED_PKT })
    return null
  }

  runCommand() {
    const [command, ...four] = this.brought
    if (four.length !== 4 || (command !== SET_ADDRESS && command !== ERASE_PAGE)) return STALLED_PKT
    const address = new DataView(Uint8Array.from(four).buffer).getUint32(0, true)
    if (command === SET_ADDRESS || this.settings.erasesPointer) this.pointer = address
    if (command === SET_ADDRESS) return this.pages.rangeOf(address) === undefined ? TARGET : OK
    this.left = this.settings.erase_ms
    return this.settings.isProtected ? VENDOR : this.pages.erase(address) ? OK : TARGET
  }

  placeOf(block) {
    return this.pointer + (block - 2) * this.settings.config.transfer
  }

  runWrite() {
    this.left = this.settings.config.busy_ms
    return this.settings.isProtected ? VENDOR : this.pages.write(this.placeOf(this.block), this.brought) ? OK : WRITE
  }

  // Starts the command or write at the GETSTATUS after a DNLOAD. A command that must fail does nothing.
  run() {
    const fails = this.settings.fails === this.commands++
    this.pages.keep()
    Object.assign(this, { left: 0, isBusy: true, at: BUSY })
    this.next = fails ? this.settings.failCode : this.block === 0 ? this.runCommand() : this.block === 1 ? STALLED_PKT : this.runWrite()
  }

  tellStatus() {
    if (this.at === DOWNLOAD_SYNC) this.run()
    else if (this.at === BUSY && this.left > 0 && this.settings.stallsEarly) return null
    else this.settle()
    if (this.at === MANIFEST_SYNC) Object.assign(this, { at: MANIFEST, left: 1 })
    const ms = this.settings.tellsTimes ? this.left : 0
    const string = this.at === ERROR && this.settings.refusalText !== '' ? WORDS : 0
    return new Uint8Array([this.said, ms & 255, ms >> 8 & 255, ms >> 16, this.at, string])
  }

  download(block, body) {
    const isTooLong = body.length > this.settings.config.transfer && !(block === 0 && body.length <= 5)
    if ((this.at !== IDLE && this.at !== DOWNLOAD_IDLE) || isTooLong) return this.refuse()
    Object.assign(this, { at: body.length === 0 ? MANIFEST_SYNC : DOWNLOAD_SYNC, block, brought: body })
    return NONE
  }

  upload(block, length) {
    if ((this.at !== IDLE && this.at !== UPLOAD_IDLE) || block === 1) return this.refuse()
    if (this.settings.isProtected) {
      Object.assign(this, { at: ERROR, said: VENDOR })
      return null
    }
    const bytes = block === 0 ? new Uint8Array([0, SET_ADDRESS, ERASE_PAGE]).slice(0, length) : this.pages.read(this.placeOf(block), length)
    this.at = bytes.length < length ? IDLE : UPLOAD_IDLE
    return bytes
  }

  simple(request) {
    const isEnding = [MANIFEST, MANIFEST_SYNC, ERROR].includes(this.at)
    if (request === GETSTATE) {
      this.settle()
      return new Uint8Array([this.at])
    }
    if ((request !== CLRSTATUS || this.at !== ERROR) && (request !== ABORT || isEnding)) return this.refuse()
    Object.assign(this, { at: IDLE, said: OK })
    return NONE
  }

  // Handles a request. Returns the bytes of the answer, none for an acknowledgement; null for a stall.
  handle(setup, body = NONE) {
    const { request, value, length } = partsOf(setup)
    if (this.at <= 1) return null
    if (request === GETSTATUS) return this.tellStatus()
    if (this.at === BUSY && this.left > 0 && request !== GETSTATE) return null
    if (this.at === BUSY) this.settle()
    if (request === DNLOAD) return this.download(value, body)
    return request === UPLOAD ? this.upload(value, length) : this.simple(request)
  }
}

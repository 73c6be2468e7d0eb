// SPDX-License-Identifier: MIT OR Apache-2.0
// A proved library in WebAssembly, with its memory. Pointers and sizes are BigInt (wasm64). The libraries allocate no memory: this file
// allocates the memory from __heap_base on, and never frees a part of it. records.js is for one version of include/, which apps/web/build
// writes to version.js. A library of another version is refused.
import { LAYOUT, readRecord, writeRecord } from './records.js'
import { VERSION } from './version.js'

const PAGE = 65536

export class Library {
  constructor(module) {
    this.calls = new WebAssembly.Instance(module).exports
    this.end = Number(this.calls.__heap_base.value)
    if (this.version() !== VERSION)
      throw new Error(`its library has version ${this.version()}, and the page version ${VERSION}: load the page anew, or build it anew`)
  }

  // Allocates zeroed bytes, and returns their address. No view is kept, because growing the memory invalidates views.
  reserve(size) {
    const at = Math.ceil(this.end / 16) * 16
    this.end = at + size
    const missing = this.end - this.calls.memory.buffer.byteLength
    if (missing > 0) this.calls.memory.grow(BigInt(Math.ceil(missing / PAGE)))
    return at
  }

  // Copies bytes into the library's memory, and returns their address.
  put(bytes) {
    const at = this.reserve(bytes.length)
    this.bytes(at, bytes.length).set(bytes)
    return at
  }

  bytes(at, length) {
    return new Uint8Array(this.calls.memory.buffer, at, length)
  }

  copy(at, length) {
    return this.bytes(at, length).slice()
  }

  view() {
    return new DataView(this.calls.memory.buffer)
  }

  // Allocates a record with these fields, and 0 in the others. A version field gets the page's version. Returns its address.
  record(name, values = {}) {
    const at = this.reserve(LAYOUT[name].size)
    writeRecord(this.view(), name, at, { version: VERSION, ...values })
    return at
  }

  read(name, at) {
    return readRecord(this.view(), name, at)
  }

  // Returns the library's version, or null.
  version() {
    const { dfu_core_version: ofDevice, dfu_host_version: ofHost, dfu_image_version: ofImage } = this.calls
    return (ofDevice ?? ofHost ?? ofImage ?? (() => null))()
  }
}

// Returns true if this browser supports wasm64: it must accept a module that has only a memory with 64-bit addresses.
export function runsWasm64() {
  return WebAssembly.validate(new Uint8Array([0, 0x61, 0x73, 0x6d, 1, 0, 0, 0, 5, 3, 1, 4, 0]))
}

// Loads a module of the page's version. It isn't compiled while streaming, because static hosts may send a wrong MIME type.
export async function load(name) {
  const answer = await fetch(new URL(`${name}.wasm`, import.meta.url))
  if (!answer.ok) throw new Error(`${name}.wasm can't be had: ${answer.status}; make page makes it`)
  const module = await WebAssembly.compile(await answer.arrayBuffer())
  new Library(module)
  return module
}

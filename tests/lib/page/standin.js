// A stand-in for navigator.usb, over the proved device, or with `maps` over a model of a DfuSe device. The settings choose fates of
// transfers by their number, as in tests/lib/usb:
//   lost-out     the device never gets the transfer
//   lost-back    the device handles the transfer, and the answer is lost
//   late         the device gets the transfer just before the next one, unless the device was closed in between
//   twice        the device handles the transfer twice
//   short        the answer has only `bytes` bytes
//   stall        the transfer stalls, and the device never gets it
//   fails        the transfer ends in an error of the system, and the device never gets it
//   part         the transfer sends fewer bytes than requested, and the device never gets it
//   leave        the device loses power before the transfer, and returns
//   leave-after  the device loses power after its answer, and returns
//   cut          the device handles the transfer, and loses power instead of answering
//   swap         another board replaces the device
//   deaf         the device gets neither this transfer nor any later one
//   mute         the device handles this transfer and all later ones, and all answers are lost
//   garble       this transfer and all later ones get random answers; the device gets none of them
import { Clock, LATE } from '/clock.js'
import { Device } from '/device.js'
import { REQUESTS, STATES, hexOf, partsOf } from '/names.js'
import { StandInDevice, failure, viewOf } from './standin_device.js'
import { DFUSE_USUAL, DfuseDevice } from './standin_dfuse.js'

const MOST_WAITS = 20000

export const USUAL = {
  config: { device: 0x0100, product: 1, vendor: 0x1209, detach_ms: 1000, transfer: 8, attributes: 7, busy_ms: 1, manifest_ms: 1,
    least: 1 },
  capacity: 100000,
  image: new TextEncoder().encode('the old image'),
  dfuIds: null,           // { product, device } in DFU mode, or null for the numbers of config
  serial: 'F1',
  dfuSerial: null,        // serial number in DFU mode, or null for `serial`
  interface: 0,
  alternates: 1,          // number of alternate settings in DFU mode; requests must use `setting`
  setting: 0,
  descriptor: 9,          // length of the functional descriptor; 0 for none
  version: 0x0110,        // bcdDFUVersion
  appDescriptor: null,    // length of the functional descriptor in run-time mode, or null for `descriptor`
  startsInApp: false,
  stallsSet: false,       // true: the device stalls SET_INTERFACE
  startsItself: false,    // true: after dfuMANIFEST the device starts its image by itself, as small bootloaders do
  stallsStatus: false,    // true: the application stalls GETSTATUS
  hasAppUsb: true,        // false: an application without USB
  away: 0,                // ms off the bus before the device returns as another one
  keepsPermission: true,  // false: like a device without a serial number in Chromium, which the user must choose again
  reset: 'rejects',       // result of reset() if the device returns as another one: rejects or resolves; or fails: it always rejects
  tells: 0,               // ms until the event that the device left; each transfer fails until then
  closing: 'unheard',     // effect of close and open: unheard for none; resets for a return to the first state
  seed: 1,                // seed of `garble`
  title: 'the proved device', // name of the device
  others: 0,              // number of other boards that the page may use, without a serial number
  fates: [],              // each is { kind, number, bytes }
  isReal: false,          // true: real time passes, instead of the time of `clock`
}

// The clock of the stand-in: time passes only when code waits.
class StandInClock extends Clock {
  constructor(usb) {
    super()
    Object.assign(this, { usb, waits: 0 })
  }

  now() {
    return this.usb.ms
  }

  async wait(ms) {
    if (++this.waits > MOST_WAITS) throw new Error('what is tried comes to no end')
    if (!this.isStopped) this.usb.pass(ms)
    return !this.isStopped
  }

  async limit(promise, ms) {
    promise.catch(() => {})
    if (!this.usb.isLost) return promise
    this.usb.isLost = false
    this.usb.pass(ms)
    return Promise.race([promise, Promise.resolve(LATE)])
  }
}

export class StandInUsb extends EventTarget {
  constructor(module, settings = {}) {
    super()
    const usual = settings.maps === undefined ? USUAL : { ...USUAL, ...DFUSE_USUAL, alternates: settings.maps.length }
    this.settings = { ...usual, ...settings, config: { ...USUAL.config, ...usual.config, ...settings.config } }
    Object.assign(this, { count: 0, log: [], faults: [], ms: 0, backAt: 0, isLost: false, lastTick: performance.now() })
    const { config, interface: number, capacity, image } = this.settings
    const isDfuse = this.settings.maps !== undefined
    this.device = isDfuse ? new DfuseDevice(this.settings) : new Device(module, { ...config, interface_number: number }, capacity, image)
    if (!isDfuse && !this.settings.startsInApp) this.enterDfuMode()
    this.current = new StandInDevice(this)
    this.others = Array.from({ length: this.settings.others }, () => new StandInDevice(this, { isOther: true }))
    this.permitted = new Set(this.others)
    this.clock = new StandInClock(this)
  }

  enterDfuMode() {
    this.device.handle([0x21, 0, 0xe8, 3, this.settings.interface, 0, 0, 0])
    if (this.settings.config.attributes & 8) this.device.elapse(1)
    else this.device.reset()
  }

  isApp() { return this.device.state() <= 1 }
  isHere() { return !this.untold && this.ms >= this.backAt && (this.settings.hasAppUsb || !this.isApp()) }

  pass(ms) {
    const wasHere = this.isHere()
    this.ms += ms
    if (this.untold && this.ms >= this.untold.at) {
      const { device } = this.untold
      this.untold = null
      this.tellLeft(device)
    }
    const wasAtEnd = this.device.state() === 7
    this.device.elapse(ms)
    if (wasAtEnd && this.device.state() !== 7 && this.settings.startsItself) this.leaves('starts its image')
    this.look()
    if (!wasHere && this.isHere()) this.tell('connect', this.current)
  }

  // With `isReal`, lets as much time pass as has passed in reality since the last call.
  catchUp() {
    if (!this.settings.isReal) return
    const ms = Math.floor(performance.now() - this.lastTick)
    this.lastTick += ms
    if (ms > 0) this.pass(ms)
  }

  tell(what, device) {
    this.dispatchEvent(Object.assign(new Event(what), { device }))
  }

  // If the mode has changed, the device is enumerated as another one, unless another board has replaced it.
  look() {
    if (this.current.isApp !== this.isApp() && !this.current.isSwapped) this.enumerate()
  }

  enumerate(isSwapped = false) {
    const before = this.current
    this.current = new StandInDevice(this, { isSwapped })
    this.backAt = this.ms + this.settings.away
    if (this.settings.keepsPermission && this.permitted.has(before)) this.permitted.add(this.current)
    this.permitted.delete(before)
    if (this.settings.tells > 0) {
      before.cancel('NetworkError', 'A transfer error has occurred.')
      this.untold = { device: before, at: this.ms + this.settings.tells }
      return
    }
    this.tellLeft(before)
  }

  tellLeft(device) {
    device.opened = false
    device.cancel('NotFoundError', 'The device was disconnected.')
    this.tell('disconnect', device)
    if (this.isHere()) this.tell('connect', this.current)
  }

  // The device loses power, and returns.
  leaves(what, isSwapped = false) {
    this.device.power()
    this.note({ what })
    this.enumerate(isSwapped)
  }

  // A device in DFU mode returns to its first state, without an event.
  loseState() {
    if (this.isApp()) return
    this.device.power()
    if (this.settings.maps === undefined) this.enterDfuMode()
  }

  async getDevices() {
    this.catchUp()
    return [...(this.isHere() && this.permitted.has(this.current) ? [this.current] : []), ...this.others]
  }

  async requestDevice() {
    this.catchUp()
    if (!this.isHere()) throw failure('NotFoundError', 'No device selected.')
    this.permitted.add(this.current)
    return this.current
  }

  fate() {
    const number = this.count
    const lasts = ({ kind }) => ['deaf', 'mute', 'garble'].includes(kind)
    return this.settings.fates.find(one => one.number === number || (one.number < number && lasts(one))) ?? { kind: 'pass' }
  }

  resetBus() {
    if (this.settings.reset === 'fails' || this.fate().kind === 'deaf') throw failure('NetworkError', 'Unable to reset the device.')
    const before = this.current
    this.device.reset()
    before.setting = 0
    this.note({ what: 'reset' })
    this.look()
    if (this.current !== before && this.settings.reset === 'rejects') throw failure('NetworkError', 'Unable to reset the device.')
  }

  // A user unplugs the device and plugs it in again.
  replug() {
    this.leaves('replug')
  }

  note(entry) {
    this.log.push({ ...entry, state: STATES[this.device.state()], code: this.device.code() })
  }

  transfer(from, setup, body) {
    const fate = this.fate()
    const { request, value, length } = partsOf(setup)
    for (const one of from.pending.splice(0)) if (one.late) this.handle(one.late.setup, one.late.body)
    const entry = { what: 'transfer', number: this.count++, request: REQUESTS[request], value, length, fate: fate.kind }
    return this.meet(fate, from, setup, body, entry)
  }

  handle(setup, body) {
    if (this.isApp() && this.settings.stallsStatus && setup[1] === 3) return null
    return this.device.handle(setup, body)
  }

  meet(fate, from, setup, body, entry) {
    if (fate.kind === 'leave' || fate.kind === 'swap') {
      this.leaves(fate.kind, fate.kind === 'swap')
      throw failure('NotFoundError', 'The device was disconnected.')
    }
    if (fate.kind === 'cut') {
      this.handle(setup, body)
      this.leaves(fate.kind)
      throw failure('NotFoundError', 'The device was disconnected.')
    }
    if (['lost-out', 'late', 'deaf'].includes(fate.kind)) return this.lose(from, entry, fate.kind === 'late' ? { setup, body } : null)
    if (fate.kind === 'garble') return this.madeUp(setup, body)
    if (fate.kind === 'part') return { status: 'ok', bytesWritten: Math.max(0, body.length - 1), data: viewOf(new Uint8Array(0)) }
    if (fate.kind === 'fails') throw failure('NetworkError', 'A transfer error has occurred.')
    if (fate.kind === 'stall') {
      this.note({ ...entry, answer: 'stall' })
      return { status: 'stall', bytesWritten: 0 }
    }
    let bytes = this.handle(setup, body)
    if (fate.kind === 'twice') bytes = this.handle(setup, body)
    if (fate.kind === 'lost-back' || fate.kind === 'mute') return this.lose(from, entry, null)
    if (fate.kind === 'short' && bytes !== null) bytes = bytes.slice(0, fate.bytes)
    const answer = this.answer(setup, body, bytes, entry)
    if (fate.kind === 'leave-after') this.leaves('leaves behind its answer')
    return answer
  }

  // Makes up an answer: any that WebUSB allows, and some that it doesn't.
  madeUp(setup, body) {
    this.chance = (Math.imul(this.chance ?? this.settings.seed, 1664525) + 1013904223) >>> 0
    const below = count => Math.floor(this.chance / 4294967296 * count)
    if (below(10) === 0) return { status: ['stall', 'babble', 'what'][below(300) % 3], bytesWritten: 0 }
    if (setup[0] === 0x21) return { status: 'ok', bytesWritten: below(8) === 1 ? below(9000) : body.length }
    const length = below(5) === 1 ? below(20) : partsOf(setup).length
    const bytes = Uint8Array.from({ length }, (_, at) => (this.chance >>> at % 24) % (at === 0 ? 3 : at === 4 ? 12 : 2))
    return { status: 'ok', data: viewOf(bytes) }
  }

  answer(setup, body, bytes, entry) {
    const isIn = setup[0] === 0xa1
    this.note({ ...entry, answer: bytes === null ? 'stall' : isIn ? hexOf(bytes) : 'ack' })
    this.look()
    if (bytes === null) return { status: 'stall', bytesWritten: 0 }
    return isIn ? { status: 'ok', data: viewOf(bytes) } : { status: 'ok', bytesWritten: body.length }
  }

  lose(from, entry, late) {
    this.note({ ...entry, answer: 'nothing' })
    this.isLost = true
    this.look()
    return new Promise((_, reject) => from.pending.push({ reject, late }))
  }
}

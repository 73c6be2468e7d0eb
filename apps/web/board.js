// SPDX-License-Identifier: MIT OR Apache-2.0
// Opens and closes the device of a session, and finds it again after it left. WebUSB doesn't report ports, so the returned device is the
// only new one, with the same serial number if both have one. A person must choose a device that the page may not see. session.js detects
// another board by comparing it with the previous device in the same mode.
import { LATE } from './clock.js'
import { releaseOf, saidOf, settingsOf } from './descriptors.js'
import { INTERFACE } from './names.js'
import { closesUnheard } from './system.js'

export const FILTERS = [{ classCode: INTERFACE.CLASS, subclassCode: INTERFACE.SUBCLASS }]
const OPEN_MS = 5000
const LOOK_MS = 50
const ASK_MS = 3000 // time until a person is asked; a visible device returns sooner

export const NOT_DFU = 'NotDfuError'
export const SEVERAL = 'SeveralSettingsError'

// Returns the matching setting. In run-time mode each one matches (there is only one, USB DFU 1.1, section 4.1.2).
export function settingOf(device, place) {
  const fits = settingsOf(device).filter(one => !one.isUpgrade
    || ((place.interface ?? one.interface) === one.interface && (place.alternate ?? one.alternate) === one.alternate))
  if (fits.length === 0) throw new DOMException('The device has no such DFU interface.', NOT_DFU)
  if (fits.length > 1) throw new DOMException('The device has several alternate settings.', SEVERAL)
  return fits[0]
}

async function within(clock, promise) {
  const result = await clock.limit(promise, OPEN_MS)
  if (result === LATE) throw new DOMException('The device does not answer.', 'TimeoutError')
  return result
}

// Opens the device, reads the descriptors of these settings, and closes it.
export async function peek(device, clock, settings) {
  await within(clock, device.open())
  try {
    if (device.configuration === null) await within(clock, device.selectConfiguration(device.configurations[0].configurationValue))
    const found = []
    for (const one of settings) found.push({ ...one, ...await saidOf(device, clock, one) })
    return found
  } finally {
    await clock.limit(device.close(), OPEN_MS).catch(() => {})
  }
}

export class Board {
  // place: the chosen { interface, alternate } for DFU mode. ask: an Asking.
  constructor(usb, clock, ask, place = {}) {
    Object.assign(this, { usb, clock, ask, place, handle: null, hasLeft: false, isMany: false, returns: 0, bystanders: new Set() })
    this.onDisconnect = event => {
      if (event.device !== this.handle) return
      this.handle = null
      this.hasLeft = true
    }
    usb.addEventListener('disconnect', this.onDisconnect)
  }

  isOpen() {
    return this.handle !== null
  }

  // Opens the device. All other connected devices become bystanders, which are never taken for this one later.
  async choose(device) {
    for (const one of await this.usb.getDevices()) if (one !== device) this.bystanders.add(one)
    await this.open(device)
    this.serial = this.info.serial
  }

  // Opens the device, claims its interface, and reads its descriptors.
  async open(device, isSet = true) {
    await this.within(device.open())
    try {
      if (device.configuration === null) await this.within(device.selectConfiguration(device.configurations[0].configurationValue))
      const setting = settingOf(device, this.place)
      await this.within(device.claimInterface(setting.interface))
      if (isSet || setting.alternate !== 0 || !closesUnheard()) await this.set(device, setting)
      const said = await saidOf(device, this.clock, setting)
      const ids = { vendor: device.vendorId, product: device.productId, release: releaseOf(device) }
      this.info = { ...setting, ...ids, serial: device.serialNumber ?? '', title: device.productName ?? '', ...said }
    } catch (error) {
      await this.clock.limit(device.close(), OPEN_MS).catch(() => {})
      throw error
    }
    Object.assign(this, { handle: device, hasLeft: false, isMany: false })
  }

  within(promise) {
    return within(this.clock, promise)
  }

  // A device with only one setting may stall the request, but is in that setting. If it has several, blocks to the wrong one overwrite
  // other memory.
  async set(device, setting) {
    try {
      await this.within(device.selectAlternateInterface(setting.interface, setting.alternate))
    } catch (error) {
      const isAlone = settingsOf(device).filter(one => one.interface === setting.interface).length === 1
      if (!isAlone || error.name === 'NotFoundError') throw error
    }
  }

  // Returns false if closing times out, because the device may still be in a transfer then.
  async close() {
    const device = this.handle
    Object.assign(this, { handle: null, hasLeft: false })
    return device === null || await this.clock.limit(device.close(), OPEN_MS).catch(() => {}) !== LATE
  }

  // Forgets a device that has left, after the session has noticed that.
  letGo() {
    Object.assign(this, { handle: null, hasLeft: false })
  }

  done() {
    this.usb.removeEventListener('disconnect', this.onDisconnect)
    return this.close()
  }

  // Closes and reopens the device to end a pending transfer. Returns 'same' if the device doesn't notice that, 'anew' if it may, 'left' if
  // it is gone, and 'stuck' if it can't be closed or reopened.
  async renew() {
    const device = this.handle
    if (!await this.close()) return 'stuck'
    try {
      await this.open(device, false)
    } catch (error) {
      const isThere = error.name !== 'NotFoundError' && (await this.usb.getDevices()).includes(device)
      return isThere ? 'stuck' : 'left'
    }
    return this.info.alternate === 0 && closesUnheard() ? 'same' : 'anew'
  }

  // Returns the devices that may be this one: no bystander, and none with another serial number.
  async again() {
    const all = await this.usb.getDevices()
    return all.filter(one => !this.bystanders.has(one) && settingsOf(one).length > 0
      && (this.serial === '' || !one.serialNumber || one.serialNumber === this.serial))
  }

  // Tries to open the device. A device that has left may still be listed for a moment, and can't be opened.
  async isOpened(device) {
    try {
      await this.open(device)
      return true
    } catch (error) {
      this.isMany = error.name === SEVERAL
      return false
    }
  }

  // Waits for the device, and returns true after it is open again. When it is overdue a person is asked to choose it, and may say that it
  // doesn't return.
  async reopen() {
    await this.close()
    this.isMany = false
    const end = this.clock.now() + ASK_MS
    let asked
    let chosen
    try {
      while (!this.clock.isStopped) {
        const picked = chosen
        const found = picked ? [picked] : await this.again()
        this.isMany = found.length > 1
        if (found.length === 1 && await this.isOpened(found[0])) return ++this.returns > 0
        if (this.isMany || picked === null) return false
        if (picked !== undefined) asked = chosen = undefined
        if (asked === undefined && this.clock.now() >= end)
          asked = this.ask.choose(this.bystanders).then(device => { chosen = device })
        await this.clock.wait(LOOK_MS)
      }
      return false
    } finally {
      this.ask.end()
    }
  }
}

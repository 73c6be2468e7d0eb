// SPDX-License-Identifier: MIT OR Apache-2.0
// A proved device, a proved host, and the link between them: plays each line of a script, and prints what `dfu run` prints
// (docs/SCRIPT.md).
import { Device, Refused } from './device.js'
import { Host, REPORT, SEEN, WHAT } from './host.js'
import { harm } from './harm.js'
import { CODES, KIND, STATES, hexOf } from './names.js'
import { refusalOf } from './refusals.js'
import { lineOf } from './script.js'

const NONE = new Uint8Array(0)
const SETTINGS = ['ids', 'device', 'unit', 'erase', 'pace', 'capacity', 'image', 'check']
const textOf = bytes => (bytes.length === 0 ? '-' : hexOf(bytes))

// Ends a script; its message is printed last.
export class ScriptEnd extends Error {}

export class World {
  // onAction gets each action of the host, with its fate and its answer.
  constructor(modules, onAction = () => {}) {
    Object.assign(this, { modules, onAction, device: null, host: null, number: 0, actions: 0, printed: [] })
    const functional = { attributes: 7, detach_ms: 255, transfer: 8 }
    this.config = { device: 0x0100, product: 1, vendor: 0x1209, ...functional, least: 1, busy_ms: 5, manifest_ms: 10 }
    Object.assign(this, { capacity: 64, image: new Uint8Array(1), check: NONE, unit: 1, sector: 0 })
    this.limits = { actions: 1000000, restarts: 0 }
  }

  print(line) {
    this.printed.push(line)
  }

  // The first line that isn't a setting creates the device.
  start() {
    if (this.device !== null) return
    try {
      const { unit, sector, capacity, image } = this
      this.device = new Device(this.modules.device, { ...this.config, unit, sector }, capacity, image)
    } catch (error) {
      throw error instanceof Refused ? new ScriptEnd('refused BadConfig') : error
    }
  }

  // Plays a line. A refused line throws a ScriptEnd with the text to print.
  play(text) {
    this.number++
    const line = lineOf(text)
    if (line === null) throw new ScriptEnd(`refused BadLine ${this.number}`)
    if (line.what === 'blank') return
    if (SETTINGS.includes(line.what)) this.set(line)
    else if (line.what === 'limits') this.limits = { actions: line.actions, restarts: line.restarts }
    else {
      this.start()
      this.happen(line)
    }
  }

  set({ what, ...values }) {
    if (this.device !== null) throw new ScriptEnd(`refused LateConfig ${this.number}`)
    if (['ids', 'device', 'pace'].includes(what)) Object.assign(this.config, values)
    else Object.assign(this, values)
  }

  happen(line) {
    const { device } = this
    if (line.what === 'show') this.print(`state ${STATES[device.state()]} status ${CODES[device.code()]} image ${textOf(device.image())}`)
    else if (line.what === 'offer') this.offer(line.goal, line.file)
    else if (line.what === 'upload') this.offer('upload', NONE)
    else if (line.what === 'abort') this.giveUp()
    else if (line.what === 'go') for (let turn = 0; turn < line.times; turn++) this.go(line)
    else if (line.what === 'until') this.passOn()
    else if (line.what === 'time') device.elapse(line.ms)
    else if (line.what === 'refuse') device.refuse(line.objection)
    else if (line.what === 'reset') this.outside(() => device.reset())
    else this.outside(() => device.power())
  }

  offer(goal, file) {
    if (this.host !== null) return this.print('refused HostBusy')
    const host = new Host(this.modules.host, file)
    const said = goal === 'upload' ? {} : host.readFile()
    const refusal = said.refusal ?? host.begin(goal, this.device.functional(), this.config, this.limits.actions, this.limits.restarts)
    if (refusal === 0) this.host = host
    else this.print(`refused BadOffer ${refusalOf(refusal).name}`)
    return undefined
  }

  giveUp() {
    if (this.host === null) this.print('refused NoHost')
    else this.host.abort()
  }

  // Reports an external event, a bus reset or a power cut, to the host.
  outside(call) {
    call()
    this.host?.take(SEEN.RESTART)
    this.end()
  }

  // Prints the host's report if the session is done.
  end() {
    const action = this.host?.next() ?? null
    if (action === null || action.what !== WHAT.DONE) return
    const name = this.host.name(action.value)
    if (action.value === REPORT.REFUSED) this.print(`report ${name} ${CODES[action.code]}`)
    else this.print(`report ${name}${action.value === REPORT.UPLOADED ? ` ${textOf(this.host.uploaded())}` : ''}`)
    this.host = null
  }

  // Carries out one action of the host, with its fate.
  go(line) {
    if (this.host === null) return this.print('refused NoHost')
    const action = this.host.next()
    const { seen, bytes = NONE } = action.what === WHAT.SEND ? this.send(action, line) : this.local(action, line)
    this.host.take(seen, bytes)
    this.actions++
    this.onAction({ number: this.actions, action, line, seen, bytes, state: STATES[this.device.state()] })
    return this.end()
  }

  // Carries out actions without faults until one prints a report or a refusal.
  passOn() {
    const count = this.printed.length
    while (this.printed.length === count) this.go({ what: 'go', fate: 'pass', times: 1 })
  }

  // Makes calls to the device, in which a write may be harmed or the power cut.
  call(line, calls) {
    const { device } = this
    if (line.writes === undefined) calls()
    else harm(device, line.fate, line.writes, line.tear, calls)
    if (line.fate === 'cut') device.power()
  }

  // Carries out a wait or a bus reset.
  local(action, line) {
    const { device } = this
    const isWait = action.what === WHAT.WAIT
    const slip = line.fate === 'slip' ? line.ms : null
    this.call(line, () => (isWait ? device.elapse(slip ?? action.value) : device.reset()))
    if (!isWait && slip !== null) device.elapse(slip)
    return { seen: line.fate === 'cut' ? SEEN.RESTART : isWait ? SEEN.WAIT : SEEN.RESET }
  }

  send({ setup, body }, line) {
    const { device } = this
    if (line.fate === 'lostout') return { seen: SEEN.NOTHING }
    let bytes = null
    this.call(line, () => { bytes = device.refuses(setup, this.check) ? null : device.handle(setup, body) })
    if (line.fate === 'cut') return { seen: SEEN.RESTART }
    if (line.fate === 'twice' || line.fate === 'twicelostback') bytes = device.handle(setup, body)
    if (line.fate === 'slip') device.elapse(line.ms)
    if (line.fate === 'lostback' || line.fate === 'twicelostback') return { seen: SEEN.NOTHING }
    if (bytes === null) return { seen: SEEN.STALL }
    return setup[0] === KIND.OUT ? { seen: SEEN.ACK } : { seen: SEEN.BYTES, bytes }
  }

  // Returns the host's next action, or null.
  wanted() {
    const action = this.host?.next() ?? null
    return action === null || action.what === WHAT.DONE ? null : action
  }
}

// Plays a whole script. Returns the lines that `dfu run` prints.
export function runScript(modules, lines) {
  const world = new World(modules)
  try {
    for (const line of lines) world.play(line)
    world.start()
    world.print(`image ${textOf(world.device.image())}`)
  } catch (error) {
    if (!(error instanceof ScriptEnd)) throw error
    world.print(error.message)
  }
  return world.printed
}

// Functions that tests/lib/page/run.py calls: sessions of the page's modules over the stand-in, in simulated time, and scripts. Arguments
// and results are JSON: files and images are Latin-1 text, one character for each byte.
import { Board } from '/board.js'
import { functionalIn } from '/descriptors.js'
import { DfuseHost } from '/dfuse_host.js'
import { rangeText } from '/dfuse_map.js'
import { dfuseVerdictOf } from '/dfuse_reports.js'
import { mayBeRaw, readFile } from '/files.js'
import { Host } from '/host.js'
import { load, runsWasm64 } from '/library.js'
import { WORDS } from '/looks.js'
import { prepare } from '/prepared.js'
import { RECORDS } from '/records.js'
import { refusalOf } from '/refusals.js'
import { lineOf, verdictOf } from '/reports.js'
import { linesOf } from '/script.js'
import { Session } from '/session.js'
import { Trace } from '/trace.js'
import { Wire } from '/wire.js'
import { runScript } from '/world.js'
import { StandInUsb } from './standin.js'

const modules = { host: await load('dfu_host_c'), device: await load('dfu_device_c') }
const bytesOf = text => Uint8Array.from(text, one => one.charCodeAt(0))
const textOf = bytes => Array.from(bytes, byte => String.fromCharCode(byte)).join('')

export { RECORDS, refusalOf, runsWasm64, WORDS }
export const wordsOf = name => {
  const ended = { end: 'report', name, code: 0 }
  const { status, words } = verdictOf(ended, { hasSent: true, isWhole: false, goal: 'download' })
  return [status, words]
}
export const dfuseWordsOf = (report, leaving) => {
  const ended = { end: 'report', report, more: report === 1 ? leaving : 0, deviceText: '' }
  const { name, status, words } = dfuseVerdictOf(ended, { hasSent: true })
  return [name, status, words]
}
export const scripts = texts => texts.map(text => runScript(modules, linesOf(text)).join('\n'))
export const functional = (bytes, number, alternate) => Array.from(functionalIn(Uint8Array.from(bytes), number, alternate))

// A user who answers the page's questions. `chooses` is the device in the browser's dialog: 'it', 'none', or 'bystander' once and then
// none. `replugs` is true if the user unplugs and replugs the device.
class Person {
  constructor(usb, { chooses = 'none', replugs = false }) {
    Object.assign(this, { usb, chooses, replugs, asked: 0 })
  }

  async choose(bystanders) {
    this.asked++
    if (this.chooses === 'it') return this.usb.requestDevice()
    if (this.chooses === 'bystander') return bystanders.has(this.usb.others[0]) ? null : this.usb.others[0]
    return null
  }

  async replug(isGone) {
    this.asked++
    if (this.replugs) this.usb.replug()
    return isGone()
  }

  end() {}
}

// Sets the name of the operating system, as system.js reads it.
function beOn(platform) {
  Object.defineProperty(navigator, 'userAgentData', { value: { platform }, configurable: true })
}

function answerOf(usb, { verdict, session, wire, trace, person }) {
  usb.clock.isStopped = false
  usb.pass(10000)
  return { line: lineOf(verdict), status: verdict.status, name: verdict.name, image: textOf(usb.device.image()), asked: person?.asked,
    actions: session?.taken, restarts: session?.restarted, transfers: wire?.transfers, goal: session?.goal, trace: trace?.lines,
    faults: usb.faults, state: usb.device.state(), started: usb.device.started, deviceText: verdict.deviceText }
}

// Runs a session. stopAt: number of the action before which the user cancels.
async function run({ file, settings = {}, wantsVerified = true, limits = null, place = {}, platform = 'Linux', stopAt = -1, ...rest }) {
  beOn(platform)
  const image = settings.image === undefined ? {} : { image: bytesOf(settings.image) }
  const usb = new StandInUsb(modules.device, { ...settings, ...image })
  const host = new Host(modules.host, bytesOf(file))
  const said = host.readFile()
  if (said.refusal) return answerOf(usb, { verdict: refusalOf(said.refusal) })
  const person = new Person(usb, rest)
  const board = new Board(usb, usb.clock, person, place)
  await board.choose(await usb.requestDevice())
  const trace = new Trace()
  const wire = new Wire(board, usb.clock, person, trace)
  const ids = { device: board.info.release, product: board.info.product, vendor: board.info.vendor }
  const onStep = (_, answer) => { if (answer === null && session.taken === stopAt) usb.clock.stop() }
  const session = new Session(host, wire, { wantsVerified, ids, limits, onStep })
  const refusal = session.begin()
  const ended = refusal === 0 ? await session.run() : { end: 'refusal', refusal }
  const verdict = ended.end === 'refusal' ? refusalOf(ended.refusal) : verdictOf(ended, session)
  await board.done()
  return answerOf(usb, { verdict, session, wire, trace, person })
}

// Runs a session with any file, as the page does, also with a device of DfuSe: `maps` in settings. words: options of DfuseSession.
async function runAny({ file, settings = {}, place = {}, platform = 'Linux', stopAt = -1, chooses, replugs, ...words }) {
  beOn(platform)
  const usb = new StandInUsb(modules.device, settings)
  const bytes = bytesOf(file)
  const read = readFile(modules.host, bytes)
  const isRaw = mayBeRaw(read, bytes)
  if (read.said.refusal && !isRaw) return answerOf(usb, { verdict: refusalOf(read.said.refusal) })
  const person = new Person(usb, { chooses, replugs })
  const board = new Board(usb, usb.clock, person, place)
  await board.choose(await usb.requestDevice())
  const [trace, ids] = [new Trace(), { device: board.info.release, product: board.info.product, vendor: board.info.vendor }]
  const wire = new Wire(board, usb.clock, person, trace)
  const onStep = (_, answer) => { if (answer === null && session.taken === stopAt) usb.clock.stop() }
  const { session, refusal, verdictOf: verdictFor } = prepare(modules.host, wire, { bytes, ...read, isRaw }, { ids, ...words, onStep })
  const ended = refusal === 0 ? await session.run() : { end: 'refusal', refusal }
  const verdict = ended.end === 'refusal' ? refusalOf(ended.refusal) : verdictFor(ended, session)
  await board.done()
  return answerOf(usb, { verdict, session, wire, trace, person })
}

async function each(list, call) {
  const found = []
  for (const words of list) found.push(await call(words).catch(error => ({ error: `${error}\n${error.stack}` })))
  return found
}

export const sessions = list => each(list, run)
export const anySessions = list => each(list, runAny)
export const mapLines = text => {
  const { ranges, refusal } = new DfuseHost(modules.host).readMap(text)
  return refusal === undefined ? ranges.map(rangeText).join(',') : refusalOf(refusal).name
}

// SPDX-License-Identifier: MIT OR Apache-2.0
// The view that flashes a board: the file, the device, the session, and its report.
import { Asking } from './asking.js'
import { cannotDetach, isDfuse } from './begin.js'
import { Board, FILTERS, peek } from './board.js'
import { ChosenFile } from './chosen.js'
import { Clock } from './clock.js'
import { describe } from './described.js'
import { settingsOf } from './descriptors.js'
import { DfuseWords } from './dfuse_words.js'
import { by, plain, say } from './elements.js'
import { REFUSAL } from './host.js'
import { Memories } from './memories.js'
import { Outcome } from './outcome.js'
import { prepare } from './prepared.js'
import { refusalOf } from './refusals.js'
import { SimulatedUsb, exampleFile } from './simulated.js'
import { Trace } from './trace.js'
import { noAccess } from './access.js'
import { Wire } from './wire.js'

const NOBODY = 'No device is connected.'
const NONE_CHOSEN = 'None was chosen. A board that was not in the list may have to be brought to DFU mode, as by its button.'
const ANY = 0xffff
const CANCELLING = 'Cancelling, which may take some seconds.'

export class FlashView {
  // own: navigator.usb, or undefined if the browser lacks it. usb: own, or a simulated board's.
  constructor(modules, own) {
    Object.assign(this, { modules, own, usb: own, board: null, clock: null, isGoing: false, simulated: 0, opening: Promise.resolve() })
    Object.assign(this, { refused: false, outcome: new Outcome() })
    this.file = new ChosenFile(modules, () => this.lookAnew(), () => (this.board?.isOpen() ? this.board.info : null))
    this.memories = new Memories(modules.host, place => this.open(this.memories.device, place).catch(error => this.sayNoAccess(error)))
    this.words = new DfuseWords(() => this.look())
    this.listen()
    this.refresh()
  }

  listen() {
    by('connect').onclick = () => this.connect(this.own)
    for (const id of ['simulate', 'simulate-here']) by(id).onclick = () => this.simulate()
    by('next').onclick = () => this.next()
    by('sure').onchange = () => this.look()
    by('begin').onclick = () => this.flash()
    by('stop').onclick = () => this.cancel()
    window.addEventListener('beforeunload', event => { if (this.isGoing) event.preventDefault() })
    this.hear(this.own)
  }

  hear(usb) {
    usb?.addEventListener('disconnect', ({ device }) => {
      if (!this.isGoing && this.board !== null && (this.board.hasLeft || this.board.handle === device)) this.forget(`It left. ${NOBODY}`)
    })
  }

  refresh() {
    const isReady = this.file.isGood() && this.board?.isOpen() && !this.refused
    by('begin').disabled = this.isGoing || !isReady
    by('stop').disabled = !this.isGoing || this.clock.isStopped
    by('connect').disabled = this.isGoing || this.own === undefined
    by('simulate').disabled = by('next').disabled = this.isGoing
    by('hint').textContent = this.hint(isReady)
    for (const id of ['verify', 'sure', 'settings']) by(id).disabled = this.isGoing
    for (const view of [this.file, this.words]) view.lock(this.isGoing)
    this.words.show(this.file.isForDfuse, this.file.isForDfuse && this.file.isGood() && !this.file.isDfuse)
  }

  // Returns the line below the buttons, about the running session or a missing input.
  hint(isReady) {
    if (this.isGoing) return this.clock.isStopped ? CANCELLING : 'Leave the device plugged in, and this page open.'
    if (isReady || this.outcome.isShown()) return ''
    if (this.file.bytes === null || this.board === null) return this.file.bytes === null ? 'A file is missing.' : 'A device is missing.'
    return this.file.isGood() ? '' : 'The file is refused.'
  }

  // Closes the connected device. A person must confirm the next one as the right board again.
  forget(text = NOBODY) {
    this.board?.done()
    Object.assign(this, { board: null, refused: false })
    by('device').textContent = text
    this.memories.hide()
    by('sure-row').hidden = true
    by('sure').checked = false
    this.refresh()
  }

  // Connects a simulated board, even in a browser without WebUSB. Reads an example file if none is chosen.
  async simulate() {
    by('flash').classList.remove('no-usb')
    by('no-usb').hidden = true
    if (this.file.bytes === null) await this.file.read(new File([exampleFile()], 'example.dfu'))
    await this.connect(this.newSimulated())
    by('begin').focus()
  }

  newSimulated() {
    const usb = new SimulatedUsb(this.modules.device, ++this.simulated)
    this.hear(usb)
    return usb
  }

  // Flashes the same file onto another board, at once if nothing has to be confirmed.
  async next() {
    await this.connect(this.usb === this.own ? this.own : this.newSimulated())
    if (!by('begin').disabled) await this.flash()
  }

  async connect(usb) {
    this.usb = usb
    this.outcome.clear()
    this.forget()
    say('device-refused', '')
    const device = await this.usb.requestDevice({ filters: FILTERS }).catch(error => {
      if (error.name === 'NotFoundError') by('device').textContent = NONE_CHOSEN
      else this.sayNoAccess(error)
    })
    if (device === undefined) return
    try {
      await this.chooseSetting(device, settingsOf(device).filter(one => one.isUpgrade))
    } catch (error) {
      this.sayNoAccess(error)
    }
  }

  // A device may have several alternate settings for parts of its memory. Blocks go only to the chosen one.
  async chooseSetting(device, settings) {
    if (settings.length > 1) {
      this.memories.show(device, await peek(device, new Clock(), settings))
      by('device').textContent = plain(device.productName ?? '')
    } else {
      await this.open(device, {})
      const info = this.board?.info
      if (info?.isUpgrade && isDfuse(info)) this.memories.show(device, [info])
    }
    await this.settle()
  }

  // With DfuSe opens the file's setting, unless a person chose one. A file for other settings is refused later.
  async settle() {
    const { memories } = this
    if (!memories.isDfuse || memories.isChosen) return
    const meant = memories.meant(this.file)
    memories.mark(meant)
    const place = meant ?? (this.board === null ? memories.settings[0] : this.board.info)
    if (!this.board?.isOpen() || place.interface !== this.board.info.interface || place.alternate !== this.board.info.alternate)
      await this.open(memories.device, place)
  }

  sayNoAccess(error) {
    say('device-refused', noAccess(error))
    by('device').textContent = NOBODY
  }

  // Opens devices one after the other, because two at once could leave the device in the first one's setting.
  open(device, place) {
    const closed = this.board?.done()
    this.refresh()
    const opened = this.opening.then(() => closed).then(() => this.openNext(device, place))
    this.opening = opened.catch(() => {})
    return opened
  }

  async openNext(device, place) {
    await this.board?.done()
    const clock = this.clock = new Clock()
    const asking = this.asking = new Asking(this.usb, clock)
    const board = new Board(this.usb, clock, asking, { interface: place.interface, alternate: place.alternate })
    await board.choose(device).catch(error => { board.done(); throw error })
    this.board = board
    describe(board.info)
    this.look()
  }

  // Begins a session for this file and device, or refuses it. Sends nothing.
  prepare() {
    const { board, clock, file, words } = this
    const isSure = by('sure').checked && board.info.isUpgrade
    const named = (ofFile = ANY, ofDevice) => (isSure && ofFile !== ANY ? ofFile : ofDevice)
    const ids = { device: board.info.release, product: named(file.said.product, board.info.product),
      vendor: named(file.said.vendor, board.info.vendor) }
    const trace = new Trace()
    const wire = new Wire(board, clock, this.asking, trace)
    const made = prepare(this.modules.host, wire, file.forSession(),
      { ids, wantsVerified: by('verify').checked, address: words.address(), leaves: words.leaves(), isChosen: this.memories.isChosen })
    if (made.refusal === 0) {
      const progress = made.progressOf(() => clock.now(), how => this.outcome.going(how))
      made.session.onStep = (...step) => progress.step(...step)
    }
    return { ...made, trace }
  }

  // Handles a new file, which may be for another setting.
  lookAnew() {
    this.settle().catch(error => this.sayNoAccess(error))
    this.look(true)
  }

  // Checks that file and device fit, before anything is sent. A confirmation of the right board isn't valid for another file.
  look(isOther = false) {
    this.refused = false
    if (isOther) {
      by('sure').checked = false
      this.outcome.clear()
    }
    say('device-refused', '')
    by('sure-row').hidden = !by('sure').checked
    if (this.board?.isOpen()) this.file.fit(isDfuse(this.board.info), this.memories.isChosen ? this.board.info.alternate : null)
    if (this.file.isGood() && this.board?.isOpen()) {
      const { refusal } = this.prepare()
      if (refusal !== 0) this.refuse(refusal)
      else if (cannotDetach(this.board.info)) this.refuseHere()
    }
    this.refresh()
  }

  refuse(number) {
    const { name, shown, advice } = refusalOf(number)
    this.refused = true
    say('device-refused', `${name}: ${shown}. ${advice}`)
    by('sure-row').hidden = number !== REFUSAL.WRONG_TARGET || !this.board.info.isUpgrade
  }

  refuseHere() {
    this.refused = true
    say('device-refused', 'This system does not let a page reset the bus, and this device waits for that to come to DFU mode. ' +
      'Bring it to DFU mode by hand, as by its button, and connect it again.')
  }

  cancel() {
    this.clock.stop()
    this.refresh()
  }

  async flash() {
    const { session, trace, refusal, verdictOf } = this.prepare()
    if (refusal !== 0) return this.refuse(refusal)
    this.isGoing = true
    this.outcome.clear()
    by('going').hidden = false
    this.refresh()
    const ended = await session.run().catch(error => ({ end: 'broken', error }))
    if (ended.error !== undefined) console.error(ended.error)
    this.isGoing = false
    by('going').hidden = true
    this.asking.end()
    this.forget('Connect it again for another session.')
    this.outcome.show(ended.end === 'refusal' ? refusalOf(ended.refusal) : verdictOf(ended, session), trace, this.usb === this.own)
    return this.refresh()
  }
}

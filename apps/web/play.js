// SPDX-License-Identifier: MIT OR Apache-2.0
// The view without a board: a proved device and host, and a wire on which a person decides the fate of each action. Each click adds a line
// to a script that `dfu run` plays too.
import { actionOf, fateOf, hearsOf } from './actions.js'
import { Diagram } from './diagram.js'
import { by, make, say } from './elements.js'
import { showMedium } from './medium.js'
import { CODES, STATES, hexOf } from './names.js'
import { bytesOf, lineOf, linesOf } from './script.js'
import { fileOf } from './suffix.js'
import { ScriptEnd, World } from './world.js'

const OPENS_ON = 'clean-run'
const OPENS_AFTER = 6 // number of actions at the start
const MAX_ROWS = 500
const MAX_AT_ONCE = 10000
const MAX_PASSES = 1000000 // largest count in a line of passes
const SETUP = ['blank', 'ids', 'device', 'unit', 'erase', 'pace', 'capacity', 'image', 'check', 'limits']
export class PlayView {
  constructor(modules, examples) {
    Object.assign(this, { modules, examples, diagram: new Diagram(by('diagram')) })
    by('example').replaceChildren(make('option', { value: '' }, 'nothing: the device alone'),
      ...examples.map(({ name }) => make('option', { value: name }, name.replaceAll('-', ' '))))
    this.listen()
    this.open()
  }

  // Opens the view in the middle of a session without faults.
  open() {
    if (this.examples.some(({ name }) => name === OPENS_ON)) by('example').value = OPENS_ON
    this.restart()
    while (this.lines.length > 0 && this.world.host === null) this.next()
    for (let turn = 0; turn < OPENS_AFTER && this.lines.length > 0; turn++) this.one()
    this.refresh()
  }

  // Plays one action of a `go pass N` line and decrements N. Any other line is played whole.
  one() {
    while (this.lines[0]?.startsWith('#')) this.next()
    const passes = Number(/^go pass ([0-9]+)$/.exec(this.lines[0] ?? '')?.[1] ?? 0)
    if (passes < 2) return this.next()
    this.lines[0] = `go pass ${passes - 1}`
    return this.play('go pass 1')
  }

  listen() {
    by('example').onchange = () => this.restart()
    by('restart').onclick = () => this.restart()
    by('line').onclick = () => { this.next(); this.refresh() }
    by('rest').onclick = () => { while (this.next()); this.refresh() }
    by('to-end').onclick = () => this.toEnd()
    by('offer').onclick = () => this.offer('offer')
    by('offer-verified').onclick = () => this.offer('verify')
    by('copy').onclick = () => this.copy()
    for (const button of document.querySelectorAll('#play [data-line]')) button.onclick = () => this.click(button.dataset)
  }

  // Makes a new world, and plays the settings of the example.
  restart() {
    const example = this.examples.find(({ name }) => name === by('example').value)
    this.world = new World(this.modules, entry => this.addRow(entry))
    Object.assign(this, { lines: example === undefined ? [] : linesOf(example.text), script: [], isOver: false, before: null, offers: 0 })
    by('transfers').tBodies[0].replaceChildren()
    by('copied').textContent = ''
    say('play-refused', '')
    by('comment').textContent = this.lines.filter(line => line.startsWith('#')).map(line => line.slice(1).trim()).join(' ')
    while (this.lines.length > 0 && SETUP.includes(lineOf(this.lines[0])?.what)) this.next()
    this.play(null, () => this.world.start())
    this.refresh()
  }

  // Plays the next line of the example. Returns true if there is one more.
  next() {
    if (this.lines.length === 0 || this.isOver) return false
    this.play(this.lines.shift())
    return this.lines.length > 0 && !this.isOver
  }

  play(line, call = () => this.world.play(line)) {
    if (this.isOver) return
    if (line !== null) this.note(line)
    try {
      call()
    } catch (error) {
      this.isOver = true
      say('play-refused', error instanceof ScriptEnd ? error.message : 'A library ended in a trap, which is a mistake of this page.')
      if (!(error instanceof ScriptEnd)) throw error
    }
  }

  // Joins consecutive passes into one line.
  note(line) {
    const [last, now] = [this.script.at(-1), line].map(text => /^go pass ([0-9]+)$/.exec(text ?? ''))
    const passes = last && now ? Number(last[1]) + Number(now[1]) : Infinity
    if (passes <= MAX_PASSES) this.script[this.script.length - 1] = `go pass ${passes}`
    else this.script.push(line)
  }

  click({ line, with: fields }) {
    const write = `${by('write').value || 0} ${bytesOf(by('tear').value) === undefined ? '-' : by('tear').value}`
    this.play(fields === undefined ? line : `${line} ${fields === 'ms' ? by('ms').value || 0 : write}`)
    this.refresh()
  }

  toEnd() {
    for (let turn = 0; turn < MAX_AT_ONCE && this.world.host !== null && !this.isOver; turn++) this.play('go pass 1')
    this.refresh()
  }

  // Offers an image that differs from all earlier ones.
  offer(word) {
    const payload = new TextEncoder().encode(`image ${++this.offers} of this page`).slice(0, this.world.capacity)
    this.play(`${word} ${hexOf(fileOf(payload, this.world.config))}`)
    this.refresh()
  }

  addRow(entry) {
    const body = by('transfers').tBodies[0]
    const [words, bytes] = hearsOf(entry)
    const hears = bytes === '' ? [words] : [words, ' ', make('span', { className: 'hex' }, bytes)]
    const cells = [[String(entry.number)], [actionOf(entry.action)], [fateOf(entry.line)], hears, [entry.state]]
    const isHarmed = entry.line.fate !== 'pass'
    body.append(make('tr', { className: isHarmed ? 'fault' : '' }, ...cells.map(parts => make('td', {}, ...parts))))
    if (body.rows.length > MAX_ROWS) body.rows[0].remove()
  }

  copy() {
    navigator.clipboard.writeText(this.text()).then(
      () => { by('copied').textContent = 'Copied.' }, () => { by('copied').textContent = 'It could not be copied: select it.' })
  }

  text() {
    return `${this.script.join('\n')}\n`
  }

  refresh() {
    const { world } = this
    const wanted = world.wanted()
    by('wanted').textContent = wanted === null ? 'No session goes on: begin one.'
      : `The host wants: ${actionOf(wanted)}. What becomes of it?`
    for (const button of document.querySelectorAll('#play .buttons button'))
      button.disabled = this.isOver || ('host' in button.dataset && wanted === null) || ('idle' in button.dataset && wanted !== null)
    by('line').disabled = by('rest').disabled = this.isOver || this.lines.length === 0
    by('line').textContent = this.lines.length > 0 ? `Next line: ${this.lines[0].slice(0, 40) || '(none)'}` : 'Next line'
    by('script').textContent = this.text()
    if (world.device !== null) this.showDevice(wanted)
    const last = by('transfers').tBodies[0].lastElementChild
    if (last !== null) by('transfers').parentElement.scrollTo(0, last.offsetTop)
  }

  showDevice(wanted) {
    const { device, printed } = this.world
    this.diagram.show(device.state())
    by('now').textContent = `The device: ${STATES[device.state()]}, ${CODES[device.code()]}\n` +
      (wanted === null ? 'No session goes on.' : `The host wants: ${actionOf(wanted)}`)
    by('state').textContent = `It is in ${STATES[device.state()]}, with the status ${CODES[device.code()]}.`
    this.before = showMedium(by('medium'), device, this.before)
    const image = device.image()
    const last = this.isOver ? by('play-refused').textContent : `image ${image.length === 0 ? '-' : hexOf(image)}`
    by('printed').textContent = `${[...printed, last].join('\n')}\n`
  }
}

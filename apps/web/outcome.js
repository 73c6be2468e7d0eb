// SPDX-License-Identifier: MIT OR Apache-2.0
// Shows the outcome of a session: a large report, the title and the icon of the tab, and the number of boards flashed since the page was
// opened.
import { by, download, make, plain } from './elements.js'
import { lineOf } from './reports.js'

const ICONS = { good: 'icon-good.svg', bad: 'icon-bad.svg', unsure: 'icon-bad.svg', none: 'icon.svg' }
const SIGNS = { good: '✓', bad: '✗', unsure: '?' }

const count = (number, one, more) => `${number} ${number === 1 ? one : more}`

export class Outcome {
  constructor() {
    Object.assign(this, { title: document.title, log: '', counts: { board: [0, 0], 'simulated board': [0, 0] } })
    by('log').onclick = () => download('dfu-session.log', this.log, 'text/plain')
  }

  isShown() {
    return by('report').firstChild !== null
  }

  mark(text, icon = 'none') {
    document.title = text === '' ? this.title : `${text} · Fustrelan`
    by('icon').href = ICONS[icon]
  }

  clear() {
    by('report').replaceChildren()
    this.mark('')
  }

  // Shows the progress of a session; part is from 0 to 1, or null.
  going({ phase, part, left }) {
    by('phase').textContent = phase
    by('left').textContent = left
    if (part === null) by('progress').removeAttribute('value')
    else by('progress').value = part
    this.mark(part === null ? '…' : `${Math.floor(100 * part)} %`)
  }

  // Shows the report. isReal: the board isn't simulated.
  show(verdict, trace, isReal) {
    const { title = 'Refused', means = '', not = '', words, shown, advice = '', status, code, name, deviceText = '' } = verdict
    const kind = status === 0 ? 'good' : name === 'unconfirmed' ? 'unsure' : 'bad'
    const parts = [means === '' ? `${shown}. ${advice}` : means, code === '' ? '' : `It says ${code}.`,
      deviceText === '' ? '' : `In its own words: ${plain(deviceText)}`, not,
      isReal ? '' : 'This was a simulated board: no hardware was touched.']
    const rows = parts.filter(text => text !== '').map(text => make('p', {}, text))
    by('report').className = kind
    by('report').replaceChildren(make('h3', { className: kind }, title), ...rows,
      make('p', { className: 'small' }, make('code', {}, lineOf({ name, code, words }))))
    by('report').focus()
    this.mark(`${SIGNS[kind]} ${title}`, kind)
    this.log = `${[...trace.lines, `# ${lineOf({ name, code, words })}`].join('\n')}\n`
    by('log-row').hidden = false
    this.tally(status === 0, isReal ? 'board' : 'simulated board')
  }

  // Counts real and simulated boards separately.
  tally(isGood, what) {
    const counts = this.counts[what]
    counts[isGood ? 0 : 1]++
    const [good, other] = counts
    const others = other === 0 ? '' : `, ${other} not`
    by('tally').textContent = `${count(good, `${what} is`, `${what}s are`)} flashed${others}.`
    by('next-row').hidden = false
  }
}

// SPDX-License-Identifier: MIT OR Apache-2.0
// The alternate settings of a device in DFU mode, for a person to choose from. With DfuSe each is a memory, and its name is the map, shown
// as in dfu-flash --list.
import { isDfuse } from './begin.js'
import { DfuseHost } from './dfuse_host.js'
import { rangeText } from './dfuse_map.js'
import { by, make, plain } from './elements.js'
import { refusalOf } from './refusals.js'

const LETTERS = 'Its pages can be read (r), erased (e) and written (w).'

export class Memories {
  // onChoice gets the chosen setting.
  constructor(module, onChoice) {
    Object.assign(this, { module, onChoice })
    this.hide()
  }

  hide() {
    Object.assign(this, { device: null, settings: [], inputs: [], isDfuse: false, isChosen: false })
    by('settings').hidden = true
  }

  // settings: from peek or Board.info.
  show(device, settings) {
    Object.assign(this, { device, settings, isDfuse: settings.some(isDfuse), isChosen: false })
    this.inputs = settings.map(one => make('input', { type: 'radio', name: 'setting', onchange: () => this.choose(one) }))
    const rows = settings.map((one, at) => this.row(one, this.inputs[at]))
    const legend = by('settings').firstElementChild
    legend.textContent = settings.length > 1 ? 'It has several memories. Which one?' : 'Its memory'
    const notes = this.isDfuse ? [make('p', { className: 'small' }, LETTERS)] : []
    by('settings').replaceChildren(legend, ...rows, ...notes)
    by('settings').hidden = false
  }

  row(one, input) {
    const { title = '', lines } = this.isDfuse ? this.mapOf(one) : { lines: [] }
    const name = plain(title) || plain(one.name) || `setting ${one.alternate}`
    const place = ` ${name} (interface ${one.interface}, setting ${one.alternate})`
    return make('label', {}, input, place, ...lines.map(line => make('small', {}, line)))
  }

  mapOf({ name }) {
    const { title, ranges, refusal } = new DfuseHost(this.module).readMap(name)
    if (refusal === undefined) return { title, lines: ranges.map(rangeText) }
    const said = refusalOf(refusal)
    return { lines: [`no memory map: ${said.name}: ${said.shown}`] }
  }

  choose(one) {
    this.isChosen = true
    this.onChoice(one)
  }

  // Returns the setting that a DfuSe file names, or for other files setting 0, the program memory; null if it is missing.
  meant(file) {
    const wanted = file.isDfuse && file.isGood() ? file.said.setting : 0
    return this.settings.find(one => one.alternate === wanted) ?? null
  }

  mark(setting) {
    for (const [at, input] of this.inputs.entries()) input.checked = this.settings[at] === setting
  }
}

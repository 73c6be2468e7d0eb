// SPDX-License-Identifier: MIT OR Apache-2.0
// Draws the states of a device (USB DFU 1.1, appendix A), and highlights the current one.
// docs/pictures/states.svg has the rules of each arrow.
import { STATES } from './names.js'

const SVG = 'http://www.w3.org/2000/svg'
const WIDTH = 440
const HEIGHT = 426
const BOX = 26

// By state number: the center and the width of its box.
const PLACES = [[115, 24, 84], [340, 24, 110], [340, 102, 84], [340, 180, 144], [115, 180, 104], [340, 258, 136], [340, 332, 154],
  [115, 332, 112], [125, 406, 190], [115, 102, 142], [115, 258, 88]]

// Path of each arrow, its label, the label's position and its text anchor.
const ARROWS = [
  ['M157 18H283', 'DETACH', 221, 12, 'middle'],
  ['M285 30H159', 'time', 221, 44, 'middle'],
  ['M340 37V87', 'bus reset', 346, 66, 'start'],
  ['M298 96H188', 'UPLOAD', 242, 90, 'middle'],
  ['M186 108H296', 'the last, ABORT', 242, 122, 'middle'],
  ['M340 115V165', 'DNLOAD', 346, 144, 'start'],
  ['M268 174H169', 'GETSTATUS', 218, 168, 'middle'],
  ['M167 186H266', 'time', 218, 200, 'middle'],
  ['M322 193V243', 'GETSTATUS', 316, 222, 'end'],
  ['M358 245V195', 'DNLOAD', 364, 222, 'start'],
  ['M340 271V317', 'last DNLOAD', 334, 298, 'end'],
  ['M263 326H173', 'GETSTATUS', 218, 320, 'middle'],
  ['M171 338H261', 'time', 218, 352, 'middle'],
  ['M115 345V391', 'time, if not tolerant', 121, 372, 'start'],
  ['M380 345V358H434V108H384', 'GETSTATUS', 374, 362, 'end'],
  ['M408 264H434', 'ABORT', 428, 286, 'end', 'join'],
  ['M30 406H14V24H71', 'bus reset, from each dfu state', 20, 66, 'start'],
  ['M200 258H161', 'each error', 206, 262, 'start'],
  ['M71 258H34V136H316V117', 'CLRSTATUS', 115, 150, 'middle'],
]

function shape(tag, attributes, text) {
  const element = document.createElementNS(SVG, tag)
  for (const [name, value] of Object.entries(attributes)) element.setAttribute(name, value)
  if (text !== undefined) element.textContent = text
  return element
}

// A path that joins another one has no arrowhead.
function arrow([d, label, x, y, anchor, join]) {
  const way = shape('path', join ? { d, class: 'way' } : { d, class: 'way', 'marker-end': 'url(#head)' })
  return [way, shape('text', { x, y, 'text-anchor': anchor, class: 'label' }, label)]
}

function box(state) {
  const [x, y, width] = PLACES[state]
  const group = shape('g', { 'data-state': STATES[state] })
  group.append(shape('rect', { x: x - width / 2, y: y - BOX / 2, width, height: BOX, rx: 6 }),
    shape('text', { x, y: y + 4.5, 'text-anchor': 'middle' }, STATES[state]))
  return group
}

export class Diagram {
  constructor(place) {
    this.svg = shape('svg', { viewBox: `0 0 ${WIDTH} ${HEIGHT}`, role: 'img' })
    const head = shape('marker', { id: 'head', viewBox: '0 0 8 8', refX: 7, refY: 4, markerWidth: 7, markerHeight: 7, orient: 'auto' })
    head.append(shape('path', { d: 'M0 0 L8 4 L0 8 z' }))
    const definitions = shape('defs', {})
    definitions.append(head)
    this.svg.append(definitions, ...ARROWS.flatMap(arrow), ...STATES.map((_, state) => box(state)))
    place.replaceChildren(this.svg)
  }

  show(state) {
    this.svg.setAttribute('aria-label', `The states of a device. It is in ${STATES[state]}.`)
    for (const group of this.svg.querySelectorAll('[data-state]'))
      group.setAttribute('class', group.dataset.state === STATES[state] ? 'now' : '')
  }
}

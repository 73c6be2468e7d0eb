"""What can be measured of how a view looks: nothing is cut off, no label lies on an arrow, and Tab leads from the top to the bottom."""
from counting import check, check_that
from views import TAB, shot

# Elements that reach over the screen, or whose content reaches over themselves to the right. What a field holds scrolls in it.
CUT_OFF = """
const found = []
for (const it of document.querySelectorAll('header, header *, main:not([hidden]), main:not([hidden]) *, footer, footer *')) {
  if (it.closest('defs') || it.tagName === 'OPTION') continue
  const at = it.getBoundingClientRect()
  if (at.width === 0) continue
  const name = `${it.tagName} ${it.id} ${it.getAttribute('class') ?? ''} ${it.textContent.slice(0, 30)}`
  if (at.left < -0.5 || at.right > innerWidth + 0.5) found.push(`${name}: from ${at.left} to ${at.right}`)
  const isFull = !it.closest('svg, input, select') && it.clientWidth > 0 && it.scrollWidth > it.clientWidth + 1
  if (isFull) found.push(`${name}: ${it.scrollWidth} in ${it.clientWidth}`)
}
return found
"""

# The diagram in its own units: what lies on what, what is outside, and states that no arrow leads to or from.
DIAGRAM = """
const svg = document.querySelector('#diagram svg')
const box = it => { const { x, y, width, height } = it.getBBox(); return { x, y, right: x + width, bottom: y + height } }
const holds = (one, { x, y }, by = 0) => x > one.x - by && x < one.right + by && y > one.y - by && y < one.bottom + by
const meet = (one, other) => one.x < other.right && other.x < one.right && one.y < other.bottom && other.y < one.bottom
const isIn = (one, other, by) => one.x >= other.x + by && one.right <= other.right - by && one.y >= other.y && one.bottom <= other.bottom
const pointsOf = way => Array.from({ length: Math.ceil(way.getTotalLength()) + 1 }, (_, at) => way.getPointAtLength(at))
const groups = Array.from(svg.querySelectorAll('[data-state]'))
const labels = Array.from(svg.querySelectorAll('.label'), it => [it.textContent, box(it)])
const ways = Array.from(svg.querySelectorAll('.way'), (it, at) => [labels[at][0], pointsOf(it)])
const boxes = groups.map(it => [it.dataset.state, box(it.querySelector('rect'))])
const view = svg.viewBox.baseVal
const found = []
for (const [name, label] of labels) {
  if (!isIn(label, { x: 0, y: 0, right: view.width, bottom: view.height }, 0)) found.push(`${name} is outside`)
  for (const [way, points] of ways) if (points.some(one => holds(label, one, 0.6))) found.push(`${name} lies on the arrow of ${way}`)
  for (const [state, one] of boxes) if (meet(label, one)) found.push(`${name} lies on ${state}`)
  for (const [other, one] of labels) if (one !== label && meet(label, one)) found.push(`${name} lies on the label ${other}`)
}
for (const [way, points] of ways)
  for (const [state, one] of boxes)
    if (points.slice(3, -3).some(at => holds(one, at, -1))) found.push(`the arrow of ${way} crosses ${state}`)
for (const [state, one] of boxes) {
  if (!ways.some(([, points]) => holds(one, points.at(-1), 4))) found.push(`nothing leads to ${state}`)
  if (!ways.some(([, points]) => holds(one, points[0], 4))) found.push(`nothing leads from ${state}`)
}
for (const it of groups) {
  const before = it.getAttribute('class')
  it.setAttribute('class', 'now')
  if (!isIn(box(it.querySelector('text')), box(it.querySelector('rect')), 2)) found.push(`${it.dataset.state} is wider than its box`)
  it.setAttribute('class', before)
}
return found
"""
LABEL_PX = """const it = document.querySelector('#diagram .label')
return parseFloat(getComputedStyle(it).fontSize) * it.getScreenCTM().a"""

# What Tab should lead to, in the order of the document.
STOPS = """return Array.from(document.querySelectorAll('a, button, input, select, [tabindex="0"]')).filter(
  it => it.offsetParent !== null && !it.disabled).map((it, at) => { it.dataset.stop = at; return at })"""
FOCUS = """const it = document.activeElement
const rows = Array.from(it.getClientRects()), style = getComputedStyle(it)
const [first, last] = [rows[0], rows.at(-1)]
return { stop: Number(it.dataset.stop ?? -1), left: first.left, top: first.top + scrollY, right: last.right, bottom: last.bottom + scrollY,
  isSeen: style.outlineStyle !== 'none' && parseFloat(style.outlineWidth) >= 2 }"""


# What a finger aims at and is under 24 pixels high or wide (WCAG 2.5.8); a link within a sentence may be.
SMALL = """
return Array.from(document.querySelectorAll('button, .button, select, input, nav a')).filter(it => it.offsetParent !== null)
  .map(it => [it.id || it.textContent, it.getBoundingClientRect()]).filter(([, at]) => at.width < 24 || at.height < 24)
  .map(([name, at]) => `${name}: ${at.width} by ${at.height}`)"""


# How many pixels the page scrolls sideways, with text of twice the size that the browser has by itself (WCAG 1.4.4 and 1.4.10).
SIDEWAYS = """
const root = document.documentElement
root.style.fontSize = '200%'
const text = parseFloat(getComputedStyle(document.body).fontSize), wide = root.scrollWidth - innerWidth
root.style.fontSize = ''
return [text, wide]"""


def fits(browser, view):
    """From a phone to a desk nothing is cut off, nothing is too small for a finger, and text may be twice as large."""
    for width in (320, 400, 768, 961, 1280):
        browser.size(width, 760)
        check(f'{view}, {width} pixels wide: what is too small', browser.run(SMALL), [])
        check(f'{view}, {width} pixels wide: what is cut off', browser.run(CUT_OFF), [])
        if width >= 400:
            check(f'{view}, {width} pixels wide: text of 200 %', browser.run(SIDEWAYS), [32, 0])
        if width == 400:
            shot(browser, f'{view}-narrow')
    browser.size(1100, 1400)


def diagram(browser):
    check('the diagram: what lies on what', browser.run(DIAGRAM), [])
    browser.size(400, 760)
    size = browser.run(LABEL_PX)
    check_that('the diagram: its labels have 10 pixels on a phone', size >= 10, size)
    browser.size(1100, 1400)


def tab_order(browser, view):
    """Tab leads to each thing that a person uses once, to what stands below or to the right, and the focus can be seen."""
    for width in (400, 1280):
        browser.size(width, 760)
        stops, seen = browser.run(STOPS), []
        for _ in range(2 * len(stops) + 2):
            browser.key(TAB)
            seen.append(browser.run(FOCUS))
            if seen[-1]['stop'] == 0:
                seen = seen[-1:]
            if seen[-1]['stop'] == len(stops) - 1 and seen[0]['stop'] == 0:
                break
        what = f'{view}, {width} pixels wide: '
        check(what + 'the order of Tab', [one['stop'] for one in seen], stops)
        back = [one for last, one in zip(seen, seen[1:]) if one['top'] < last['bottom'] - 1 and one['left'] < last['right'] - 1]
        check(what + 'Tab leads back', back, [])
        check(what + 'the focus is not seen', [one for one in seen if not one['isSeen']], [])
    browser.size(1100, 1400)

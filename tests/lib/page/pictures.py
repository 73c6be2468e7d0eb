"""The pictures of docs/: each word stands within its box and its lane, and none lies on a line, an arrow or another word."""
from counting import check, check_that
from scripts import TOP

MEASURE = """
const svg = document.documentElement
const box = it => { const { x, y, width, height } = it.getBBox(); return { x, y, right: x + width, bottom: y + height } }
const holds = (one, { x, y }, by = 0) => x > one.x - by && x < one.right + by && y > one.y - by && y < one.bottom + by
const isIn = (one, other) => one.x >= other.x && one.right <= other.right && one.y >= other.y && one.bottom <= other.bottom
const meet = (one, other) => one.x < other.right && other.x < one.right && one.y < other.bottom && other.y < one.bottom
const middle = one => ({ x: (one.x + one.right) / 2, y: (one.y + one.bottom) / 2 })
const named = (it, at) => it.textContent || `${it.tagName} ${it.getAttribute('class')} ${at}`
const all = selector => Array.from(svg.querySelectorAll(selector), (it, at) => [named(it, at), box(it), it])
const texts = all('text'), boxes = all('rect:not(.back)')
// A rule between two rows keeps two pixels from what is in them.
const lines = Array.from(svg.querySelectorAll('line, path:not(defs path)'), (it, at) => [named(it, at),
  Array.from({ length: Math.ceil(it.getTotalLength()) + 1 }, (_, along) => it.getPointAtLength(along)), it.matches('.rule') ? 2 : 0])
const view = svg.viewBox.baseVal
const found = []
for (const [name, text] of texts) {
  if (!isIn(text, { x: 0, y: 0, right: view.width, bottom: view.height })) found.push(`${name} is outside`)
  for (const [line, points, by] of lines) if (points.some(at => holds(text, at, by))) found.push(`${name} lies on ${line}`)
  for (const [what, one] of boxes) {
    if (holds(one, middle(text)) ? !isIn(text, one) : meet(text, one)) found.push(`${name} reaches over the edge of ${what}`)
  }
  for (const [other, one] of texts) if (one !== text && meet(text, one)) found.push(`${name} lies on ${other}`)
}
for (const [what, one] of boxes)
  for (const [line, points, by] of lines)
    if (points.slice(3, -3).some(at => holds(one, at, by))) found.push(`${line} crosses ${what}`)
return [texts.length, found]
"""


def run(browser):
    pictures = sorted(TOP.glob('docs/pictures/*.svg'))
    check('the pictures', len(pictures), 4)
    for picture in pictures:
        browser.open(picture.as_uri())
        count, found = browser.run(MEASURE)
        check_that(f'{picture.name}: it has words', count > 20, count)
        check(f'{picture.name}: what lies on what', found, [])

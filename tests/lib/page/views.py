"""A view of the page as a person has it, over the stand-in in real time."""
import json
import os
import pathlib

from counting import check, check_that

TAB, ENTER, SPACE = '\ue004', '\ue007', ' '
# The stand-in takes the place of navigator.usb before the page looks.
STAND_IN = """
if (location.protocol === 'http:') window.standIn = (async () => {
  const { StandInUsb } = await import('/tests/standin.js')
  const { load } = await import('/library.js')
  return new StandInUsb(await load('dfu_device_c'), SETTINGS)
})()
if (location.protocol === 'http:') Object.defineProperty(navigator, 'usb', { value: {
  addEventListener: async (...words) => (await standIn).addEventListener(...words),
  removeEventListener: async (...words) => (await standIn).removeEventListener(...words),
  getDevices: async () => (await standIn).getDevices(),
  requestDevice: async words => (await standIn).requestDevice(words),
} })
Object.defineProperty(navigator, 'userAgentData', { value: { platform: 'PLATFORM' } })
"""


def open_page(browser, address, settings=None, view='flash', platform='Linux'):
    added = None
    if settings is not None:
        source = STAND_IN.replace('SETTINGS', json.dumps({'isReal': True, **settings})).replace('PLATFORM', platform)
        added = browser.cdp('Page.addScriptToEvaluateOnNewDocument', source=source)['identifier']
    browser.open('about:blank')
    browser.open(f'{address}/index.html#{view}')
    browser.wait('document.body.dataset.ready')
    if added is not None:
        browser.cdp('Page.removeScriptToEvaluateOnNewDocument', identifier=added)


def shot(browser, name):
    if 'SHOTS' in os.environ:
        browser.shot(pathlib.Path(os.environ['SHOTS']) / f'page-{name}.png')


def shown(browser, selector):
    """The text of an element, empty where it is hidden."""
    return browser.run('const it = document.querySelector(arguments[0]); return it.offsetParent === null ? "" : it.innerText', selector)


def tab_to(browser, name):
    """Presses Tab until the element has the focus; where it is then."""
    for _ in range(40):
        if browser.run('return document.activeElement.id') == name:
            break
        browser.key(TAB)
    return browser.run('return document.activeElement.id')


def is_quiet(browser, what):
    check(f'{what}: no error on the console', browser.console(), [])
    elsewhere = 'performance.getEntriesByType("resource").map(it => it.name).filter(it => !it.startsWith(location.origin))'
    check(f'{what}: nothing is asked of anyone else', browser.run(f'return {elsewhere}'), [])


CONTRAST = """
const part = value => { const one = value / 255; return one <= 0.03928 ? one / 12.92 : ((one + 0.055) / 1.055) ** 2.4 }
const light = text => {
  const [r, g, b] = text.match(/[0-9.]+/g).map(Number)
  return 0.2126 * part(r) + 0.7152 * part(g) + 0.0722 * part(b)
}
const ground = at => {
  for (; at; at = at.parentElement) {
    const it = getComputedStyle(at).backgroundColor
    if (!/, 0\\)|transparent/.test(it)) return it
  }
  return 'rgb(255, 255, 255)'
}
const found = []
for (const it of document.querySelectorAll('main:not([hidden]) *, header *, footer *')) {
  const text = Array.from(it.childNodes).some(node => node.nodeType === 3 && node.data.trim() !== '')
  if (!text || it.offsetParent === null || it.closest('svg') || it.closest(':disabled') || it.tagName === 'OPTION') continue
  const [one, other] = [light(getComputedStyle(it).color), light(ground(it))]
  const ratio = (Math.max(one, other) + 0.05) / (Math.min(one, other) + 0.05)
  if (ratio < 4.5) found.push(`${it.tagName} ${it.id} ${it.className} ${ratio.toFixed(1)}`)
}
return found
"""


def is_readable(browser, view):
    """Light and dark, text stands out from its ground by 4.5 to 1 at least."""
    for is_dark in (False, True):
        browser.dark(is_dark)
        check(f'{view}, {"dark" if is_dark else "light"}: contrast', browser.run(CONTRAST), [])
        ground = browser.run('return getComputedStyle(document.body).backgroundColor')
        check(f'{view}: the ground', ground, 'rgb(20, 24, 31)' if is_dark else 'rgb(255, 255, 255)')
        if is_dark:
            shot(browser, f'{view}-dark')
    browser.dark(False)


ROLES = {'button': 'button', 'select': 'combobox', 'a': 'link', 'progress': 'progressbar', 'section': 'region'}


def is_labelled(browser, view):
    """Each thing that a person uses has a role and a name."""
    script = """
      const wanted = 'main:not([hidden]) :is(button, input, select, section, fieldset, progress, [role]), header a'
      return Array.from(document.querySelectorAll(wanted)).filter(it => it.offsetParent !== null).map((it, at) => {
        it.dataset.at = at
        return [it.tagName, it.id, it.type ?? '']
      })"""
    for at, (tag, name, kind) in enumerate(browser.run(script)):
        role, label = browser.role(f'[data-at="{at}"]')
        wanted = ROLES.get(tag.lower(), role)
        check(f'{view}: the role of {tag} {name} {kind}', role, wanted)
        needs = role not in ('status', 'generic', 'alert')
        check_that(f'{view}: the name of {tag} {name} {kind}', not needs or label != '', role)

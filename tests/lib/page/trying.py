"""What a person meets first and last: a simulated board, the next board, the tab's title and icon, a browser without WebUSB, and the page
without a server."""
import functools
import http.server
import pathlib
import threading

from browser import Handler
from counting import check, check_that
from files import NEW, suffixed
from flashing import CHOSEN, give_file, image, is_ready, prepare, report
from layout import fits
from views import ENTER, is_labelled, is_quiet, is_readable, open_page, shown

MARKS = 'return [document.title, document.getElementById("icon").getAttribute("href")]'
NO_USB = "if (location.protocol === 'http:') Object.defineProperty(navigator, 'usb', { value: undefined })"
KEPT = """async () => {
  await navigator.serviceWorker.ready
  const names = await caches.keys()
  return [names.length, (await (await caches.open(names[0])).keys()).map(it => new URL(it.url).pathname.slice(1))]
}"""


def simulated(browser, address, work):
    """Two clicks flash a simulated board with a file that it takes; one more the next. It may be another file."""
    open_page(browser, address)
    check('nothing is flashed', browser.run(MARKS), ['Fustrelan: flash a board over USB', 'icon.svg'])
    browser.click('#simulate')
    is_ready(browser)
    check_that('an example', 'example.dfu' in shown(browser, '#fields'), shown(browser, '#fields'))
    check('the chooser shows it', browser.run(CHOSEN), ['example.dfu'])
    browser.run('const it = document.getElementById("file"); it.onclick({ target: it }); it.dispatchEvent(new Event("cancel"))')
    check('and where no other file was chosen', browser.run(CHOSEN), ['example.dfu'])
    check_that('the board says what it is', shown(browser, '#device').startswith('a simulated board, 1209:0001'), shown(browser, '#device'))
    check('the focus is at Flash', browser.run('return document.activeElement.id'), 'begin')
    browser.key(ENTER)
    browser.wait('document.title.endsWith(" % · Fustrelan")')
    check('a simulated board', report(browser), 'Verified')
    check_that('it says that it is none', 'no hardware was touched' in shown(browser, '#report'))
    check('the tab', browser.run(MARKS), ['✓ Verified · Fustrelan', 'icon-good.svg'])
    check('one board', shown(browser, '#tally'), '1 simulated board is flashed.')
    fits(browser, 'flash, a simulated board')
    is_labelled(browser, 'flash, a simulated board')
    give_file(browser, work, suffixed(NEW))
    browser.wait('document.getElementById("report").firstChild === null')
    check('another file: the tab', browser.run(MARKS), ['Fustrelan: flash a board over USB', 'icon.svg'])
    for number in (2, 3):
        browser.click('#next')
        check(f'board {number}', report(browser), 'Verified')
        browser.wait(f'document.getElementById("tally").textContent === "{number} simulated boards are flashed."')
    give_file(browser, work, suffixed(NEW, product=2), 'other.dfu')
    browser.wait('document.getElementById("fields").textContent.includes("0002")')
    browser.click('#next')
    browser.wait('document.getElementById("device-refused").textContent.startsWith("WrongTarget")')
    check('a file for another board', (shown(browser, '#tally'), shown(browser, '#report')), ('3 simulated boards are flashed.', ''))
    check('its words name no option of a program', '--' in shown(browser, '#device-refused'), False)
    is_quiet(browser, 'flash, a simulated board')


def next_board(browser, address, work):
    """The same over WebUSB, and one that fails."""
    prepare(browser, address, work, {})
    is_ready(browser)
    browser.click('#begin')
    check('the first board', (report(browser), image(browser)), ('Verified', NEW))
    browser.wait_run('async () => { (await standIn).settings.fates = [{ kind: "deaf", number: (await standIn).count + 3 }] }')
    browser.click('#next')
    browser.wait('document.getElementById("report").firstChild === null')
    browser.click('#stop')
    check('the next one', report(browser), 'Given up')
    check('the tab', browser.run(MARKS), ['✗ Given up · Fustrelan', 'icon-bad.svg'])
    check('of two', shown(browser, '#tally'), '1 board is flashed, 1 not.')
    browser.click('#simulate')
    is_ready(browser)
    browser.click('#begin')
    check('a simulated one then', (report(browser), shown(browser, '#tally')), ('Verified', '1 simulated board is flashed.'))


def without_usb(browser, address):
    """The steps go, and what can be done is offered."""
    added = browser.cdp('Page.addScriptToEvaluateOnNewDocument', source=NO_USB)['identifier']
    open_page(browser, address)
    check_that('it says why', shown(browser, '#no-usb').startswith('This browser has no WebUSB'), shown(browser, '#no-usb'))
    check('the steps', [shown(browser, f'#{name}-title') for name in ('file', 'device', 'begin')], ['', '', ''])
    fits(browser, 'no WebUSB')
    is_readable(browser, 'flash')
    browser.click('#no-usb a')
    browser.wait('!document.getElementById("play").hidden')
    check('play is offered', (browser.run('return location.hash'), shown(browser, '#no-usb')), ('#play', ''))
    browser.run('location.hash = "#flash"')
    browser.wait('!document.getElementById("no-usb").hidden')
    browser.click('#simulate-here')
    is_ready(browser)
    check('a simulated board brings the steps', (shown(browser, '#begin-title'), shown(browser, '#no-usb')), ('3. Flash it', ''))
    check('no board can be connected', browser.run('return document.getElementById("connect").disabled'), True)
    browser.click('#begin')
    check('no WebUSB: a simulated board', report(browser), 'Verified')
    browser.cdp('Page.removeScriptToEvaluateOnNewDocument', identifier=added)


def offline(browser, page):
    """A browser may install the page, keeps all its files, and opens it once the server is gone."""
    server = http.server.ThreadingHTTPServer(('127.0.0.1', 0), functools.partial(Handler, directory=page))
    threading.Thread(target=server.serve_forever, daemon=True).start()
    address = f'http://localhost:{server.server_port}'
    open_page(browser, address)
    check('it may be installed', browser.cdp('Page.getInstallabilityErrors')['installabilityErrors'], [])
    check('the manifest', browser.cdp('Page.getAppManifest')['errors'], [])
    count, kept = browser.wait_run(KEPT)
    there = [it for it in pathlib.Path(page).rglob('*') if it.is_file() and it.name not in ('sw.js', 'kept.js')]
    files = sorted(str(it.relative_to(page)) for it in there)
    check('the files that are kept', (count, sorted(kept)), (1, files))
    server.shutdown()
    server.server_close()
    open_page(browser, address)
    browser.console()
    browser.click('#simulate')
    is_ready(browser)
    browser.click('#begin')
    check('without a server', report(browser, 120), 'Verified')
    open_page(browser, address, view='play')
    check('play without a server', browser.run('return document.querySelectorAll("#transfers tbody tr").length'), 6)
    browser.console()


def run(browser, address, work, page):
    simulated(browser, address, work)
    next_board(browser, address, work)
    without_usb(browser, address)
    offline(browser, page)

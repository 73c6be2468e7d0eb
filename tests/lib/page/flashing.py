"""The view that flashes: by mouse, by keyboard, with good files and bad ones, and where a person is asked for something."""
import pathlib
import time

from counting import check, check_that
from files import NEW, suffixed
from layout import fits, tab_order
from views import ENTER, SPACE, TAB, is_labelled, is_quiet, is_readable, open_page, shot, shown, tab_to

CHOSEN = 'return Array.from(document.getElementById("file").files, it => it.name)'
UNNAMED = {'keepsPermission': False, 'serial': ''}


def give_file(browser, work, payload, name='new.dfu'):
    file = pathlib.Path(work) / name
    file.write_bytes(payload)
    browser.type('#file', str(file))


def is_ready(browser):
    browser.wait('!document.getElementById("begin").disabled')


def report(browser, seconds=40):
    browser.wait('document.querySelector("#report h3")', seconds)
    return shown(browser, '#report h3')


def image(browser):
    return browser.wait_run('async () => String.fromCharCode(...(await standIn).device.image())').encode('latin1')


def prepare(browser, address, work, settings, payload=suffixed(NEW), **words):
    open_page(browser, address, settings, **words)
    give_file(browser, work, payload)
    browser.wait('!document.getElementById("fields").hidden')
    browser.click('#connect')


def by_mouse(browser, address, work):
    prepare(browser, address, work, {})
    is_ready(browser)
    fields, device = shown(browser, '#fields'), shown(browser, '#device')
    check_that('the fields of the file', '26 bytes' in fields and '1209:0001' in fields, fields)
    check_that('the device', '1209:0001' in device and 'DFU mode' in device, device)
    is_labelled(browser, 'flash, ready')
    fits(browser, 'flash, ready')
    tab_order(browser, 'flash, ready')
    browser.click('#begin')
    check('by mouse', (report(browser), image(browser)), ('Verified', NEW))
    shot(browser, 'flash')
    is_labelled(browser, 'flash, done')
    is_readable(browser, 'flash')
    fits(browser, 'flash')
    check('the focus is at the report', browser.run('return document.activeElement.id'), 'report')
    check('no second session without a device', browser.run('return document.getElementById("begin").disabled'), True)
    log_file(browser, work)
    is_quiet(browser, 'flash')


def log_file(browser, work):
    browser.click('#log')
    file = pathlib.Path(work) / 'dfu-session.log'
    for _ in range(100):
        if file.exists():
            break
        time.sleep(0.05)
    lines = file.read_text().splitlines() if file.exists() else ['']
    check_that('the log begins', lines[0].startswith('# begin verified 1209:0001:0100 0 0 0 DFU 0921'), lines)
    check_that('the log ends', lines[-1].startswith('# verified: after a reset'), lines)


def by_keyboard(browser, address, work):
    """Nothing but Tab, Enter and Space, once the file is given."""
    open_page(browser, address, {})
    give_file(browser, work, suffixed(NEW))
    for name, key in (('connect', ENTER), ('verify', SPACE), ('verify', SPACE), ('begin', ENTER)):
        check('Tab leads there', tab_to(browser, name), name)
        browser.key(key)
        if name == 'connect':
            is_ready(browser)
    check('by keyboard', (report(browser), image(browser)), ('Verified', NEW))


def bad_names(browser, address, work):
    """A device may call itself what it likes: it is shown as text, and turns no line round."""
    prepare(browser, address, work, {'title': '<img src=x onerror=alert(1)>\u202etxet', 'serial': '<b>\n</b>'})
    is_ready(browser)
    check_that('its name', shown(browser, '#device').startswith('<img src=x onerror=alert(1)>·txet, '), shown(browser, '#device'))
    check('it makes no element', browser.run('return document.querySelectorAll("#device *").length'), 0)


def by_drop(browser, address):
    open_page(browser, address, {})
    browser.run("""
      const data = new DataTransfer()
      data.items.add(new File([Uint8Array.from(arguments[0])], 'dropped.dfu'))
      document.getElementById('drop').dispatchEvent(new DragEvent('drop', { dataTransfer: data, bubbles: true, cancelable: true }))
    """, list(suffixed(NEW)))
    browser.wait('!document.getElementById("fields").hidden')
    check_that('a file that is dropped', 'dropped.dfu' in shown(browser, '#fields'))
    check('the chooser shows it', browser.run(CHOSEN), ['dropped.dfu'])


def bad_files(browser, address, work):
    good = suffixed(NEW)
    open_page(browser, address, {})
    for name, payload, wanted in (('short', b'short\1', 'NoSignature'), ('raw', NEW, 'NoSignature'), ('cut', good[1:], 'BadCrc'),
                                  ('long', bytes(16777217), 'TooLarge'), ('none', b'', 'TooShort')):
        give_file(browser, work, payload, f'{name}.dfu')
        browser.wait(f'document.getElementById("file-refused").textContent.startsWith("{wanted}")')
        check(f'{name}: its fields are not shown', shown(browser, '#fields'), '')
    give_file(browser, work, suffixed(b''), 'empty.dfu')
    browser.click('#connect')
    browser.wait('document.getElementById("device-refused").textContent.startsWith("EmptyPayload")')
    give_file(browser, work, good, 'good.dfu')
    is_ready(browser)
    check('a good file behind bad ones', shown(browser, '#file-refused'), '')


def asks(browser, address, work):
    prepare(browser, address, work, UNNAMED)
    is_ready(browser)
    browser.click('#begin')
    for _ in range(2):
        browser.wait('!document.getElementById("ask").hidden')
        check_that('it is asked for the device', 'Choose it once more' in shown(browser, '#ask-text'))
        browser.click('#ask-yes')
        browser.wait('document.getElementById("ask").hidden')
    check('chosen again', (report(browser), image(browser)), ('Verified', NEW))
    prepare(browser, address, work, UNNAMED)
    is_ready(browser)
    browser.click('#begin')
    browser.wait('!document.getElementById("ask").hidden')
    browser.click('#ask-no')
    check('not chosen', report(browser), 'Sent, not compared')
    prepare(browser, address, work, UNNAMED)
    is_ready(browser)
    browser.click('#begin')
    browser.wait('!document.getElementById("ask").hidden')
    browser.click('#stop')
    check('cancelled, where it is asked for the device', report(browser), 'Given up')
    check('it is asked no more', shown(browser, '#ask-text'), '')
    prepare(browser, address, work, {'reset': 'fails'}, platform='Windows')
    is_ready(browser)
    check_that('on Windows it is not compared', 'reset of the bus' in shown(browser, '#no-verify'))
    browser.click('#begin')
    browser.wait('!document.getElementById("ask").hidden')
    check_that('it is asked to pull the plug', 'Pull its plug' in shown(browser, '#ask-text'))
    fits(browser, 'asked to pull the plug')
    browser.wait_run('async () => (await standIn).replug()')
    check('the plug was pulled', (report(browser), image(browser)), ('Installed', NEW))
    prepare(browser, address, work, {'reset': 'fails'}, platform='Windows')
    is_ready(browser)
    browser.click('#begin')
    browser.wait('!document.getElementById("ask").hidden')
    browser.click('#stop')
    check('cancelled, where it is asked to pull the plug', report(browser), 'Given up')
    prepare(browser, address, work, {'reset': 'fails', 'startsInApp': True}, platform='Windows')
    browser.wait('!document.getElementById("device-refused").hidden')
    check_that('on Windows it is to be brought to DFU mode by hand', 'by hand' in shown(browser, '#device-refused'))


def chooses_none(browser, address):
    """No device is there, and one that is gone when it is to be opened."""
    open_page(browser, address, {'startsInApp': True, 'hasAppUsb': False})
    browser.click('#connect')
    browser.wait('document.getElementById("device").textContent.startsWith("None was chosen")')
    open_page(browser, address, {})
    browser.run('navigator.usb.requestDevice = async words => { const it = await (await standIn).requestDevice(words);'
                ' (await standIn).leaves("unplugged"); return it }')
    browser.click('#connect')
    browser.wait('document.getElementById("device-refused").textContent.startsWith("The device left")')
    check('no device is connected then', shown(browser, '#device'), 'No device is connected.')


def chooses(browser, address, work):
    """Another target, which may be the right board, and several settings."""
    prepare(browser, address, work, {'dfuIds': {'product': 0xff, 'device': 0x0100}})
    browser.wait('document.getElementById("device-refused").textContent.startsWith("WrongTarget")')
    fits(browser, 'another target')
    check('another target: it can not begin', browser.run('return document.getElementById("begin").disabled'), True)
    browser.click('#sure')
    is_ready(browser)
    browser.click('#begin')
    check('another target, and the right board', (report(browser), image(browser)), ('Verified', NEW))
    browser.wait_run('async () => { (await standIn).enterDfuMode(); (await standIn).look() }')
    browser.click('#connect')
    browser.wait('document.getElementById("device-refused").textContent.startsWith("WrongTarget")')
    check('that it is the right board was said of the one before', browser.run('return document.getElementById("sure").checked'), False)
    prepare(browser, address, work, {'alternates': 3, 'setting': 1})
    browser.wait('!document.getElementById("settings").hidden')
    fits(browser, 'several settings')
    check_that('the settings have names', 'EEPROM' in shown(browser, '#settings'))
    browser.click('#settings label:nth-of-type(2) input')
    is_ready(browser)
    browser.click('#begin')
    check('the second setting', (report(browser), image(browser)), ('Verified', NEW))


def goes_on(browser, address, work):
    """Cancel in the midst of a long session, a transfer that is never answered, and a device that leaves before it begins."""
    large = suffixed(bytes(4000))
    prepare(browser, address, work, {'config': {'busy_ms': 20}}, large)
    is_ready(browser)
    browser.click('#begin')
    browser.wait('document.getElementById("left").textContent !== ""')
    shot(browser, 'going')
    check_that('the phase', shown(browser, '#phase').startswith('Sending the image'), shown(browser, '#phase'))
    check('no other file meanwhile', browser.run('return document.getElementById("file").disabled'), True)
    browser.click('#stop')
    check_that('it says that it is cancelled', 'Cancelling' in shown(browser, '#hint') or shown(browser, '#report h3') != '')
    check('cancelled', report(browser), 'Given up')
    prepare(browser, address, work, {'fates': [{'kind': 'late', 'number': 4}]})
    is_ready(browser)
    began = time.time()
    browser.click('#begin')
    check('a transfer that gets no answer', report(browser), 'Verified')
    check_that('it is waited for 5 seconds', 5 < time.time() - began < 12)
    prepare(browser, address, work, {'fates': [{'kind': 'deaf', 'number': 4}]})
    is_ready(browser)
    browser.click('#begin')
    time.sleep(0.5)
    browser.key(TAB)
    check('Tab leads from Flash to Cancel', browser.run('return document.activeElement.id'), 'stop')
    browser.key(ENTER)
    check('it can not be cancelled twice', browser.run('return document.getElementById("stop").disabled'), True)
    check('cancelled, while a transfer gets no answer', report(browser), 'Given up')
    prepare(browser, address, work, {})
    is_ready(browser)
    browser.wait_run('async () => (await standIn).leaves("unplugged")')
    browser.wait('document.getElementById("begin").disabled')
    check_that('it left before', shown(browser, '#device').startswith('It left'), shown(browser, '#device'))


def run(browser, address, work):
    open_page(browser, address)
    check('a Chromium lacks nothing', shown(browser, '#lacks'), '')
    check('it says what is missing', shown(browser, '#hint'), 'A file is missing.')
    by_mouse(browser, address, work)
    by_keyboard(browser, address, work)
    bad_names(browser, address, work)
    by_drop(browser, address)
    bad_files(browser, address, work)
    chooses_none(browser, address)
    chooses(browser, address, work)
    asks(browser, address, work)
    goes_on(browser, address, work)
    is_quiet(browser, 'flash, all')

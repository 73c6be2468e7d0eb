"""The view that flashes, with a device of DfuSe: its memory maps, DfuSe files, raw images with an address, and what a person is told."""
from counting import check, check_that
from dfuse import ELEMENTS, FEW, LONG, MAP, NEW_RAW, NEW_SOME, SOME, START, device, old
from dfuse_refused import OPTION
from files import NEW, dfuse, suffixed
from flashing import give_file, image, is_ready, report
from layout import fits, tab_order
from views import ENTER, SPACE, is_labelled, is_quiet, is_readable, open_page, shot, shown, tab_to

LINE = '08000000..08003fff 16 pages of 1024 bytes rew'
STARTED = 'async () => { const usb = await standIn; usb.pass(10); return usb.device.started }'


def is_refused(browser, name):
    browser.wait(f'document.getElementById("device-refused").textContent.startsWith("{name}: ")')
    check(f'DfuSe, {name}: it can not begin', browser.run('return document.getElementById("begin").disabled'), True)


def connect(browser, address, work, settings, payload=SOME, name='some.dfu'):
    open_page(browser, address, settings)
    give_file(browser, work, payload, name)
    browser.wait('!document.getElementById("fields").hidden || !document.getElementById("file-refused").hidden')
    browser.click('#connect')
    browser.wait('!document.getElementById("settings").hidden')


def say_address(browser, text):
    browser.run('document.getElementById("address").value = ""')
    browser.type('#address', text)


def by_mouse(browser, address, work):
    connect(browser, address, work, device())
    is_ready(browser)
    fields, settings, told = (shown(browser, selector) for selector in ('#fields', '#settings', '#device'))
    check_that('DfuSe: the fields of the file', '08000400 40 bytes\n080007e0 700 bytes' in fields and '1209:0001' in fields, fields)
    check_that('DfuSe: the map', LINE in settings and 'Internal Flash (interface 0, setting 0)' in settings, settings)
    check_that('DfuSe: the device', 'in DFU mode, DfuSe' in told, told)
    check('DfuSe: what is written is always compared', (shown(browser, '#verify-row'), shown(browser, '#no-verify')), ('', ''))
    for call in (is_labelled, fits, tab_order, is_readable):
        call(browser, 'dfuse')
    shot(browser, 'dfuse')
    browser.click('#begin')
    check('DfuSe, by mouse', (report(browser), image(browser)), ('Verified', NEW_SOME))
    check_that('DfuSe: it starts', 'The device starts its application.' in shown(browser, '#report'), shown(browser, '#report'))
    check('DfuSe: where it is started', browser.wait_run(STARTED), [START + 0x400])
    fits(browser, 'dfuse, done')
    shot(browser, 'dfuse-done')
    is_quiet(browser, 'DfuSe')


def raw(browser, address, work):
    """A raw image needs an address, and no suffix; and the device may be told to stay, by keyboard."""
    connect(browser, address, work, device(), LONG, 'firmware.bin')
    is_refused(browser, 'NoAddress')
    check('DfuSe: it is asked for no suffix', (shown(browser, '#raw'), shown(browser, '#file-refused')), ('', ''))
    check_that('DfuSe: all of a raw image', '700 bytes, all of them' in shown(browser, '#fields'), shown(browser, '#fields'))
    for text in ('08000400', '0x', '0x0800g000', '-1'):
        say_address(browser, text)
        check_that(f'DfuSe, the address {text}', '0x08000000' in shown(browser, '#address-wrong'), shown(browser, '#address-wrong'))
        check(f'DfuSe, the address {text}: it can not begin', browser.run('return document.getElementById("begin").disabled'), True)
    say_address(browser, '0x08003fff')
    is_refused(browser, 'OutsideTheMap')
    fits(browser, 'dfuse, raw')
    is_readable(browser, 'dfuse-raw')
    is_labelled(browser, 'dfuse, raw')
    say_address(browser, '0x08000400')
    is_ready(browser)
    check('Tab leads there', tab_to(browser, 'leave'), 'leave')
    browser.key(SPACE)
    check('Tab leads there', tab_to(browser, 'begin'), 'begin')
    browser.key(ENTER)
    check('DfuSe, a raw image', (report(browser), image(browser), browser.wait_run(STARTED)), ('Verified', NEW_RAW, []))
    check_that('DfuSe: it stays', 'The device stays in DFU mode.' in shown(browser, '#report'), shown(browser, '#report'))
    # The same board again, and then a file with a suffix.
    browser.click('#connect')
    is_ready(browser)
    give_file(browser, work, suffixed(LONG), 'payload.dfu')
    is_ready(browser)
    browser.click('#begin')
    check('DfuSe, the payload of a file', (report(browser), image(browser)), ('Verified', NEW_RAW))


def memories(browser, address, work):
    """A setting is chosen by the file, or by a person; option bytes and a file without the setting are refused by their names."""
    maps = [MAP, OPTION, '@Bank 2 /0x08000000/16*001Kg']
    connect(browser, address, work, device(maps), dfuse((2, *ELEMENTS)))
    browser.wait('document.querySelector("#settings label:nth-of-type(3) input").checked')
    settings = shown(browser, '#settings')
    check_that('DfuSe: each map is shown', '1fffc000..1fffc00f 1 page of 16 bytes r-w' in settings and 'Bank 2' in settings, settings)
    is_ready(browser)
    # While one is opened none can be written to; and of several that are clicked the last one counts.
    pick = 'for (const at of arguments[0]) document.querySelectorAll("#settings input")[at].click();'
    check('DfuSe: not while it is opened', browser.run(pick + 'return document.getElementById("begin").disabled', [1, 0, 2]), True)
    is_ready(browser)
    check('DfuSe: the last one counts', browser.wait_run('async () => (await standIn).current.setting'), 2)
    open_page(browser, address, device(maps))
    give_file(browser, work, dfuse((2, *ELEMENTS)), 'third.dfu')
    browser.click('#connect')
    is_ready(browser)
    fits(browser, 'dfuse, memories')
    shot(browser, 'dfuse-memories')
    give_file(browser, work, SOME, 'first.dfu')
    browser.wait('document.querySelector("#settings label:nth-of-type(1) input").checked')
    is_ready(browser)
    browser.click('#settings label:nth-of-type(2) input')
    is_refused(browser, 'NoSuchSetting')
    give_file(browser, work, FEW[:8], 'option.bin')
    is_refused(browser, 'NoAddress')
    say_address(browser, '0x1fffc000')
    is_refused(browser, 'NotErasable')
    # A file for several settings is asked for one, and its elements for that are shown.
    connect(browser, address, work, device(maps), dfuse((0, *ELEMENTS), (2, (START, b'\1'))))
    is_refused(browser, 'Mixed')
    check('DfuSe: none is chosen', browser.run('return document.querySelectorAll("#settings input:checked").length'), 0)
    browser.click('#settings label:nth-of-type(1) input')
    is_ready(browser)
    check_that('DfuSe: the elements for it', '080007e0 700 bytes' in shown(browser, '#fields'), shown(browser, '#fields'))
    browser.click('#begin')
    check('DfuSe: the one that was chosen', (report(browser), image(browser)), ('Verified', NEW_SOME))


def names(browser, address, work):
    """What doesn't fit together is refused by its name, and nothing is sent."""
    open_page(browser, address, {})
    give_file(browser, work, SOME, 'some.dfu')
    browser.wait('!document.getElementById("fields").hidden')
    browser.click('#connect')
    is_refused(browser, 'NotDfuSe')
    give_file(browser, work, suffixed(NEW), 'new.dfu')
    is_ready(browser)
    check_that('no address is asked for', shown(browser, '#address-row') + shown(browser, '#leave-row') == '')
    for name, payload, wanted in (('cut', SOME[:300], 'NoSignature'), ('changed', SOME[:400] + b'!' + SOME[401:], 'BadCrc')):
        give_file(browser, work, payload, f'{name}.dfu')
        browser.wait(f'document.getElementById("file-refused").textContent.startsWith("{wanted}: ")')
        check(f'DfuSe, {name}: it is no raw image', shown(browser, '#raw') + shown(browser, '#fields'), '')
    connect(browser, address, work, device(), suffixed(NEW, product=2))
    is_refused(browser, 'NoAddress')
    say_address(browser, '0x08000000')
    is_refused(browser, 'WrongTarget')
    browser.click('#sure')
    is_ready(browser)
    connect(browser, address, work, device(['Flash'], pages=MAP))
    is_refused(browser, 'NoMap')
    check_that('DfuSe: why there is no map', 'no memory map: NoMap: ' in shown(browser, '#settings'), shown(browser, '#settings'))
    connect(browser, address, work, device(['@<img src=x>\u202e /0x08000000/16*001Kg']))
    is_ready(browser)
    check_that('DfuSe: the name of a map is text', '<img src=x>·' in shown(browser, '#settings'), shown(browser, '#settings'))
    check('DfuSe: it makes no element', browser.run('return document.querySelectorAll("#settings img").length'), 0)


def ends(browser, address, work):
    """A map that lies, a protected device, one that refuses in its own words, one that leaves, and a person who cancels."""
    for settings, wanted in ((device(lies=START + 0x440), 'Not the same bytes'), (device(isProtected=True), 'Protected'),
                             (device(fails=4, failCode=0, refusalText="Can't overwrite mboot"), 'Refused by the device'),
                             (device(fates=[{'kind': 'leave', 'number': 20}]), 'Verified')):
        connect(browser, address, work, settings)
        is_ready(browser)
        browser.click('#begin')
        check('DfuSe, its end', report(browser), wanted)
        words = shown(browser, '#report')
        check_that('DfuSe, its own words', 'refusalText' not in settings or "In its own words: Can't overwrite mboot" in words, words)
    connect(browser, address, work, device(config={'busy_ms': 300, 'transfer': 16}))
    is_ready(browser)
    browser.click('#begin')
    browser.wait('document.getElementById("left").textContent !== ""')
    check_that('DfuSe, the phase', shown(browser, '#phase').startswith('Sending the image: '), shown(browser, '#phase'))
    check('DfuSe: no other memory meanwhile', browser.run('return document.getElementById("settings").disabled'), True)
    browser.click('#stop')
    check('DfuSe, cancelled', report(browser), 'Given up')
    check_that('DfuSe, cancelled: other pages', image(browser)[3072:] == old()[3072:])


def run(browser, address, work):
    by_mouse(browser, address, work)
    raw(browser, address, work)
    memories(browser, address, work)
    names(browser, address, work)
    ends(browser, address, work)

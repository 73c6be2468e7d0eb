"""The file that is chosen. Of a raw image the page asks which device it is for, and adds the suffix; files of other formats are none,
unless a person says that their bytes are to be sent as they are. (taking.py has those that builds produce.)"""
import json
import os
import pathlib
import subprocess
import time

from counting import check, check_that
from files import NEW, suffixed
from flashing import give_file, image, is_ready, report
from layout import fits, tab_order
from scripts import TOP
from views import ENTER, SPACE, is_labelled, is_readable, open_page, shown, tab_to

PROGRAM = pathlib.Path(os.environ.get('BUILD') or TOP / 'build').absolute() / 'dfu'
HEX = b':100000000C9434000C943E000C943E000C943E0082\n:00000001FF\n'
OTHERS = {'a zip archive': b'PK\x03\x04' + bytes(26), 'a gzip archive': b'\x1f\x8b\x08' + bytes(20), 'text': b'Sensible text\n'}
# By their names: the bytes, how the refusal begins, and what it ends in.
OF_NAME = "the file isn't of the format that its name says"
ODD = {'page.dfu': (b'<!DOCTYPE html>\n<title>404</title>\n', 'the file is text and no image', 'in place of the file.'),
       'it.s19': (NEW, OF_NAME, 'one of HEX, S-records, UF2 and ELF.'), 'it.UF2': (NEW, OF_NAME, 'one of HEX, S-records, UF2 and ELF.')}
CUT = "NoSignature: the file's name ends in .dfu, and it has no DFU suffix: it was cut short or changed; get it anew. "


def is_asked(browser):
    browser.wait('!document.getElementById("raw").hidden')


def say_ids(browser, **ids):
    for field, text in ids.items():
        browser.run(f'document.getElementById("raw-{field}").value = ""')
        browser.type(f'#raw-{field}', text)


def saved(browser, work, name):
    """The file that the page saves."""
    file = pathlib.Path(work) / name
    browser.click('#save')
    for _ in range(100):
        if file.exists():
            break
        time.sleep(0.05)
    return file.read_bytes() if file.exists() else b''


def by_words(browser, address, work):
    """Without a device: the words of a person, wrong ones first."""
    open_page(browser, address, {})
    give_file(browser, work, NEW, 'firmware.bin')
    is_asked(browser)
    check_that('why it is asked', shown(browser, '#file-refused').startswith('NoSignature: '), shown(browser, '#file-refused'))
    is_labelled(browser, 'a raw image')
    is_readable(browser, 'a raw image')
    fits(browser, 'a raw image')
    tab_order(browser, 'a raw image')
    for field, text in (('vendor', ''), ('vendor', '120'), ('vendor', '120g'), ('product', ''), ('device', '1')):
        say_ids(browser, **{'vendor': '1209', 'product': '0001', 'device': 'ffff', field: text})
        browser.click('#raw-add')
        check_that(f'{field} {text!r}', 'four hexadecimal digits' in shown(browser, '#raw-wrong'), shown(browser, '#raw-wrong'))
        check(f'{field} {text!r}: the focus is there', browser.run('return document.activeElement.id'), f'raw-{field}')
        check(f'{field} {text!r}: no file', shown(browser, '#fields'), '')
    say_ids(browser, vendor='1209', product='00Ab', device='0200')
    browser.key(ENTER)
    fields = shown(browser, '#fields')
    check_that('what it says then', '26 bytes' in fields and '1209:00ab, version 0200' in fields, fields)
    check('it is asked no more', shown(browser, '#raw') + shown(browser, '#file-refused'), '')
    found = saved(browser, work, 'firmware.dfu')
    check('the file that is saved', found, suffixed(NEW, product=0xab, device=0x0200))
    if PROGRAM.exists():
        run = subprocess.run([PROGRAM, 'check', pathlib.Path(work) / 'firmware.dfu'], capture_output=True, text=True, check=False)
        check_that('dfu check of it', run.stdout.startswith('ok payload 26 suffix 16 device 0200 product 00ab vendor 1209 dfu 0100'), run)
    browser.click('#connect')
    browser.wait('document.getElementById("device-refused").textContent.startsWith("WrongTarget")')
    check('for another device', browser.run('return document.getElementById("begin").disabled'), True)


def by_device(browser, address, work):
    """With a device: its identifiers, by keyboard."""
    open_page(browser, address, {})
    browser.click('#connect')
    browser.wait('document.getElementById("device").textContent.includes("1209")')
    give_file(browser, work, NEW, 'raw')
    is_asked(browser)
    for name in ('raw-same', 'raw-add'):
        check('Tab leads there', tab_to(browser, name), name)
        browser.key(ENTER)
    check('the focus goes on', browser.run('return document.activeElement.id'), 'save')
    check_that('for that device', '1209:0001, version any' in shown(browser, '#fields'), shown(browser, '#fields'))
    is_ready(browser)
    browser.click('#begin')
    check('a raw image', (report(browser), image(browser)), ('Verified', NEW))


def is_shut(browser, name):
    """The form waits for its box, which nobody has ticked and no advice names."""
    box = browser.run('const it = document.getElementById("raw-anyway"); return [it.checked, it.disabled]')
    check(f'{name}: its box', box, [False, False])
    shut = browser.run('return Array.from(document.querySelectorAll("#raw input, #raw button"), it => it.disabled || it.id)')
    check(f'{name}: the form is shut', [it for it in shut if it is not True], ['raw-anyway'])
    check_that(f'{name}: no advice leads there', 'as they are' not in shown(browser, '#file-refused'), shown(browser, '#file-refused'))
    check(f'{name}: no file', shown(browser, '#fields'), '')


def anyway(browser, address, work):
    """What looks like something else is sent as it is by a person who ticks the box, and only then; of the next file it is off again."""
    open_page(browser, address, {})
    browser.click('#connect')
    browser.wait('document.getElementById("device").textContent.includes("1209")')
    give_file(browser, work, OTHERS['text'], 'text')
    is_asked(browser)
    is_labelled(browser, 'text as it is')
    fits(browser, 'text as it is')
    tab_order(browser, 'text as it is')
    browser.click('#raw-anyway')
    give_file(browser, work, HEX[:-3], 'it.hex')
    browser.wait('document.getElementById("file-refused").textContent.includes("Intel HEX")')
    is_shut(browser, 'the next file')
    give_file(browser, work, OTHERS['text'], 'text')
    browser.wait('document.getElementById("file-refused").textContent.includes("text. ")')
    for name in ('raw-anyway', 'raw-same', 'raw-add'):
        check('Tab leads there', tab_to(browser, name), name)
        browser.key(SPACE)
    is_ready(browser)
    browser.click('#begin')
    check('text as it is', (report(browser), image(browser)), ('Verified', OTHERS['text']))


def others(browser, address, work):
    open_page(browser, address, {})
    for name, payload in OTHERS.items():
        give_file(browser, work, payload, name)
        browser.wait(f'document.getElementById("file-refused").textContent.includes("It looks like {name}. ")')
        is_shut(browser, name)
    for name, (payload, words, end) in ODD.items():
        give_file(browser, work, payload, name)
        # (the words of the file before may begin so too)
        browser.wait(f'document.getElementById("file-refused").textContent.startsWith("NoSignature: {words}")'
                     f' && document.getElementById("file-refused").textContent.endsWith({json.dumps(end)})')
        check_that(f'{name}: what to do', shown(browser, '#file-refused').endswith(end), shown(browser, '#file-refused'))
        is_shut(browser, name)
    for name, payload in (('one byte', b'\1'), ('what only begins so', b':1\1'), ('the text of a suffix', b'UFD' + bytes(30)),
                          ('cut', suffixed(NEW)[:-5])):
        give_file(browser, work, payload, name)
        is_asked(browser)
        # (the page reads the file before it takes the box of the one before away)
        browser.wait('document.getElementById("raw-anyway-row").offsetParent === null')
        check(f'{name}: there is no box', shown(browser, '#raw-anyway-row'), '')
        say_ids(browser, vendor='ffff', product='ffff')
        browser.click('#raw-add')
        check_that(f'{name}, for any device', f'{len(payload)} bytes' in shown(browser, '#fields'), shown(browser, '#fields'))
    for name in ('cut.dfu', 'cut.DFU'):
        give_file(browser, work, suffixed(NEW)[:-5], name)
        browser.wait(f'document.getElementById("file-refused").textContent.startsWith("{CUT}")')
        check(f'{name} is no raw image', shown(browser, '#raw') + shown(browser, '#fields'), '')
    give_file(browser, work, b'', 'empty.bin')
    browser.wait('document.getElementById("file-refused").textContent.startsWith("TooShort")')
    check('of no bytes', shown(browser, '#raw'), '')
    give_file(browser, work, bytes(16777216 - 15), 'large.bin')
    is_asked(browser)
    browser.click('#raw-add')
    browser.wait('document.getElementById("file-refused").textContent.startsWith("TooLarge")')
    check('too large with its suffix', shown(browser, '#raw') + shown(browser, '#save-row'), '')
    give_file(browser, work, suffixed(NEW)[1:], 'cut.dfu')
    browser.wait('document.getElementById("file-refused").textContent.startsWith("BadCrc")')
    check('a file that was cut is no raw image', shown(browser, '#raw'), '')


def late(browser, address, work):
    """A file that is read late doesn't come in the place of one that was chosen after it."""
    open_page(browser, address, {})
    browser.run("""const slice = File.prototype.slice
      File.prototype.slice = function (...words) {
        const part = slice.apply(this, words)
        if (this.name === 'late.dfu') part.arrayBuffer = () => new Promise(done => { window.finish = () => done(new ArrayBuffer(3)) })
        return part
      }""")
    give_file(browser, work, suffixed(NEW), 'late.dfu')
    browser.wait('window.finish !== undefined')
    give_file(browser, work, suffixed(NEW), 'last.dfu')
    browser.wait('!document.getElementById("fields").hidden')
    browser.wait_run('async () => { finish(); await new Promise(done => setTimeout(done, 100)) }')
    check('the file that was chosen last', ('last.dfu' in shown(browser, '#fields'), shown(browser, '#file-refused')), (True, ''))


def run(browser, address, work):
    late(browser, address, work)
    by_words(browser, address, work)
    by_device(browser, address, work)
    others(browser, address, work)
    anyway(browser, address, work)

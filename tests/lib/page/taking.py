"""Files that builds produce: the page takes the image out of them, as `dfu add --format` does, and says the same where it can't."""
import json
import pathlib
import subprocess
import tempfile

from counting import check, check_that
from dfuse import LONG, NEW_RAW, START, device
from files import NEW, suffixed
from flashing import give_file, image, is_ready, report
from layout import fits, tab_order
from raw import PROGRAM, is_asked, is_shut, say_ids, saved
from views import is_labelled, is_readable, open_page, shown

END = b':00000001FF\n'
GAP = b':0100000041BE\n:0100030042BA\n' + END


def uf2(data, address=0x08000000, flags=0, number=0, total=1):
    head = (0x0a324655, 0x9e5d5157, flags, address, len(data), number, total, 0)
    return b''.join(it.to_bytes(4, 'little') for it in head) + data.ljust(476, b'\0') + (0x0ab16f30).to_bytes(4, 'little')


def elf(data, address=0x08000000):
    head = b'\x7fELF\1\1\1' + bytes(9) + b'\2\0\x28\0\1\0\0\0' + bytes(4) + (52).to_bytes(4, 'little') + bytes(8)
    head += b'\x34\0\x20\0\1\0' + bytes(6)
    parts = (1, 84, 0x20000000, address, len(data), len(data), 5, 4)
    return head + b''.join(it.to_bytes(4, 'little') for it in parts) + data


# By the name of a format: a file, its bytes, and their addresses. The bytes were worked out by hand.
GOOD = {
    'Intel HEX': ('it.hex', b':020000040800F2\n:100000000C9434000C943E000C943E000C943E0082\n' + END,
                  bytes.fromhex('0C9434000C943E000C943E000C943E00'), '08000000 to 0800000f'),
    'Motorola S-records': ('it.s19', b'S00600004844521B\nS1050010414267\nS9030000FC\n', b'AB', '00000010 to 00000011'),
    'UF2': ('it.uf2', uf2(b'hello'), b'hello', '08000000 to 08000004'),
    'ELF': ('it.elf', elf(b'abc'), b'abc', '08000000 to 08000002'),
}
# By a file's name: its format as a word, its bytes, and how `dfu add` names the refusal.
BAD = {
    'letter.hex': ('ihex', b':0100000041BE\n:1O0000000C9434000C943E000C943E000C943E0082\n' + END, 'BadDigit 2'),
    'sum.hex': ('ihex', b':0100000041BF\n' + END, 'BadChecksum 1'),
    'cut.hex': ('ihex', b':0100000041BE\n', 'NoEnd'),
    'behind.hex': ('ihex', END + b':0100000041BE\n', 'Trailing 2'),
    'twice.hex': ('ihex', b':0200000041427B\n:0100010043BB\n' + END, 'Overlaps 00000001'),
    'none.hex': ('ihex', END, 'NoData'),
    'gap.hex': ('ihex', GAP, 'Gap 00000001 00000003'),
    'count.s19': ('srec', b'S1050000414277\nS5030002FA\nS9030000FC\n', 'BadCount 2'),
    'byte.mot': ('srec', b'S1050000414277\r\nS9\x01\n', 'BadDigit 2'),
    'block.uf2': ('uf2', uf2(b'x') + uf2(b'y', number=2, total=2), 'BadNumber 0'),
    'short.uf2': ('uf2', uf2(b'x')[:-1], 'BadSize'),
    'cut.elf': ('elf', elf(b'abc')[:-1], 'CutSegment 0'),
    'wide.elf': ('elf', b'\x7fELF\2\1\1' + bytes(57), 'NotElf'),
    'many.hex': ('ihex', b''.join(b':01%04X0041%02X\n' % (at, -(1 + (at >> 8) + at + 65) & 255) for at in range(0, 2050, 2)) + END,
                 'TooManyElements 1025'),
}


def of_the_program(name, word, payload):
    """The line and the reason of `dfu add` for a file; None without the program."""
    if not PROGRAM.exists():
        return None
    with tempfile.TemporaryDirectory() as folder:
        (pathlib.Path(folder) / name).write_bytes(payload)
        words = [PROGRAM, 'add', '--format', word, name, 'out.dfu', '--explain']
        run = subprocess.run(words, capture_output=True, text=True, check=False, cwd=folder)
        return run.stdout, run.stderr


def good(browser, address, work):
    for name, (file, payload, wanted, places) in GOOD.items():
        open_page(browser, address, {})
        give_file(browser, work, payload, file)
        is_asked(browser)
        fields = shown(browser, '#fields')
        check_that(f'{name}: what was read', name in fields and places in fields and f'{len(wanted)} bytes' in fields, fields)
        for other in ('#file-refused', '#raw-anyway-row', '#fill-row'):
            check(f'{name}: no {other}', shown(browser, other), '')
        is_labelled(browser, name)
        is_readable(browser, name)
        fits(browser, name)
        tab_order(browser, name)
        say_ids(browser, vendor='1209', product='0001')
        browser.click('#raw-add')
        found = saved(browser, work, file.rsplit('.', 1)[0] + '.dfu')
        check(f'{name}: the file that is saved', found, suffixed(wanted, version=0x0100))
        fields = shown(browser, '#fields')
        check_that(f'{name}: what it says then', name in fields and '1209:0001' in fields, fields)
        (pathlib.Path(work) / (file.rsplit('.', 1)[0] + '.dfu')).unlink()
        if PROGRAM.exists():
            (pathlib.Path(work) / file).write_bytes(payload)
            words = [PROGRAM, 'add', '--format', 'auto', '--vid', '1209', '--pid', '0001', file, 'ours.dfu']
            run = subprocess.run(words, capture_output=True, check=False, cwd=work)
            check(f'{name}: dfu add', (run.returncode, (pathlib.Path(work) / 'ours.dfu').read_bytes()), (0, found))
    browser.click('#connect')
    is_ready(browser)
    browser.click('#begin')
    check('it is flashed', (report(browser), image(browser)), ('Verified', b'abc'))


def bad(browser, address, work):
    open_page(browser, address, {})
    for name, (word, payload, refusal) in BAD.items():
        give_file(browser, work, payload, name)
        browser.wait(f'document.getElementById("file-refused").textContent.startsWith({json.dumps(refusal + ": ")})')
        said = shown(browser, '#file-refused')
        theirs = of_the_program(name, word, payload)
        if theirs is not None:
            check(f'{name}: dfu add', theirs[0], f'refused {refusal}\n')
            reason = said[len(refusal) + 2:].split('. ')[0].rstrip('.')
            check_that(f'{name}: the reason of dfu add', f': {reason}' in theirs[1], (reason, theirs[1]))
        is_shut(browser, name)
    give_file(browser, work, BAD['letter.hex'][1], 'letter.hex')
    browser.wait('document.getElementById("file-refused").textContent.includes("line 2, column 3: \'O\'")')


def gaps(browser, address, work):
    """Gaps are filled only if a person says so, and of the next file the box is off again."""
    open_page(browser, address, {})
    give_file(browser, work, GAP, 'gap.hex')
    browser.wait('document.getElementById("file-refused").textContent.startsWith("Gap ")')
    is_labelled(browser, 'a gap')
    fits(browser, 'a gap')
    tab_order(browser, 'a gap')
    browser.click('#fill')
    is_asked(browser)
    fields = shown(browser, '#fields')
    check_that('a gap that is filled', 'filled with the byte ff' in fields and '4 bytes' in fields, fields)
    say_ids(browser, vendor='1209', product='0001')
    browser.click('#raw-add')
    check('its bytes', saved(browser, work, 'gap.dfu'), suffixed(b'A\xff\xffB'))
    give_file(browser, work, GAP, 'other.hex')
    browser.wait('document.getElementById("file-refused").textContent.startsWith("Gap ")')
    check('the box of the next file', browser.run('return document.getElementById("fill").checked'), False)
    large = b':0100000041BE\n:020000040800F2\n:0100000042BD\n' + END
    give_file(browser, work, large, 'large.hex')
    browser.wait('document.getElementById("file-refused").textContent.startsWith("Gap 00000001 08000000")')
    browser.click('#fill')
    browser.wait('document.getElementById("file-refused").textContent.startsWith("TooLarge: from the lowest")')
    check('too large with its filling', shown(browser, '#fields'), '')


def ihex(data, address):
    """Records of 16 bytes, for addresses of one upper half."""
    rows = [(4, 0, (address >> 16).to_bytes(2, 'big'))]
    rows += [(0, (address + at) & 0xffff, data[at:at + 16]) for at in range(0, len(data), 16)]
    records = [bytes([len(part)]) + at.to_bytes(2, 'big') + bytes([kind]) + part for kind, at, part in rows]
    return b''.join(b':' + (it + bytes([-sum(it) & 255])).hex().upper().encode() + b'\n' for it in records) + END


def with_dfuse(browser, address, work):
    """A device of DfuSe gets the image at the file's own address; the next raw image has none."""
    open_page(browser, address, device())
    give_file(browser, work, ihex(LONG, START + 0x400), 'firmware.hex')
    is_asked(browser)
    browser.click('#connect')
    is_ready(browser)
    check('DfuSe: the address', browser.run('return document.getElementById("address").value'), '0x08000400')
    fields = shown(browser, '#fields')
    check_that('DfuSe: what was read', '08000400 to 080006bb' in fields and '700 bytes' in fields and 'suffix' not in fields, fields)
    check('DfuSe: no suffix is asked for', shown(browser, '#raw') + shown(browser, '#file-refused'), '')
    browser.click('#begin')
    check('DfuSe: it is flashed', (report(browser), image(browser)), ('Verified', NEW_RAW))
    give_file(browser, work, NEW, 'raw.bin')
    browser.wait('document.getElementById("fields").textContent.includes("26 bytes")')
    check('DfuSe: the address of the next one', browser.run('return document.getElementById("address").value'), '')


def run(browser, address, work):
    with_dfuse(browser, address, work)
    good(browser, address, work)
    bad(browser, address, work)
    gaps(browser, address, work)

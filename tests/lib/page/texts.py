"""What the page has from elsewhere in the repository: records and numbers of the headers, and numbers and words of dfu-flash. And how
large it is."""
import pathlib
import re

from counting import check, check_that
from scripts import TOP

TYPES = {'uint8_t': 'u8', 'uint16_t': 'u16', 'uint32_t': 'u32', 'uint64_t': 'u64'}
MOST_BYTES = 275000


def records():
    """The fields of each struct, as records.js writes them."""
    found = {}
    for header in ('dfu_host.h', 'dfu_watch.h', 'dfuse_host.h', 'dfuse_watch.h', 'dfuse_file.h', 'dfu_device.h', 'dfu_image.h',
                   'dfu_image_take.h'):
        text = re.sub(r'/\*.*?\*/', '', (TOP / 'include' / header).read_text(), flags=re.S)
        # (what stands there for processors of 32 bits alone; a pointer and a size have 64)
        text = re.sub(r'^#if UINTPTR_MAX <= .*?^#endif', '', text, flags=re.S | re.M)
        text = re.sub(r'const uint8_t \*(?=\w+;)|size_t (?=\w+;)', 'uint64_t ', text).replace('DFU_ALIGNED_8 ', '')
        for name, body in re.findall(r'struct (\w+) \{(.*?)\};', text, re.S):
            fields = []
            for kind, names in re.findall(r'(uint\d+_t) ([^;]+);', body):
                for field in names.split(','):
                    array = re.fullmatch(r'(\w+)\[(\w+)\]', field.strip())
                    fields.append(f'{TYPES[kind]}[{array[2]}] {array[1]}' if array else f'{TYPES[kind]} {field.strip()}')
            # (the inline calls alone know the other two)
            if name not in ('dfu_device', 'dfu_driver'):
                found[name] = ', '.join(fields)
    return found


TEXT = r'"((?:[^"\\]|\\.)*)"'
# A row of `struct meaning`: the status, the words, and the device that may have either image, if there is one.
MEANING = r'\{(STATUS_\w+),\s*' + TEXT + r', (?:NULL|"([\w ]+)")\}'


def said(words_of, device):
    """The words of a report as dfu-flash says them once a block was sent."""
    return words_of + (f'; {device} may have the old image, the new one or neither' if device else '')


def words():
    """Each report and refusal of apps/flash: its name, status and words."""
    status = {name: int(number) for name, number in re.findall(r'(STATUS_\w+) = (\d+)', (TOP / 'apps/flash/status.h').read_text())}
    verdict = (TOP / 'apps/flash/verdict.c').read_text()
    reports = {name.lower().replace('_', '-'): (status[number], said(*rest))
               for name, number, *rest in re.findall(r'\[DFU_(\w+)\] = ' + MEANING, verdict)}
    ends = {name: (status[number], said(*rest)) for name, number, *rest in re.findall(r'\{"([\w-]+)",\s*' + MEANING, verdict)}
    refusals = dict(re.findall(r'\{DFU_\w+, "(\w+)", ' + TEXT, (TOP / 'apps/flash/refusals.c').read_text()))
    return reports, ends, refusals


def numbers():
    """Each number and name that host.js and names.js write again, as they have it, and as the header or apps/flash/standard.h has it."""
    headers = ''.join((TOP / it).read_text() for it in ('include/dfu_host.h', 'include/dfu_watch.h', 'include/dfuse_host.h',
                                                         'include/dfuse_watch.h', 'include/dfuse_file.h', 'include/dfu_image.h',
                                                         'include/dfu_image_take.h',
                                                         'apps/flash/standard.h'))
    theirs = {name: int(number, 0) for name, number in re.findall(r'(?:^   |^enum \{|,) (\w+) = (-?(?:0x[0-9a-f]+|\d+))\b', headers, re.M)}
    tables = (TOP / 'apps/flash/standard.c').read_text() + (TOP / 'apps/common/names.c').read_text()
    lists = re.findall(r'const char \*const (\w+)\[\] = \{(.*?)\};', tables, re.S)
    ours = ('host.js', 'watch.js', 'dfuse_host.js', 'dfuse_watch.js', 'names.js', 'taking.js')
    pages = ''.join((TOP / 'apps/web' / it).read_text() for it in ours)
    fronts = {name: 'DFU_' for name in ('WHAT', 'REPORT', 'REFUSAL', 'COURSE', 'COURSES')}
    fronts.update({'TAKE': 'DFU_TAKE_', 'SEEN': 'DFU_SEEN_', 'LOOKS': 'DFU_LOOKS_', 'NAMED': 'DFU_NAMED_', 'ATTRIBUTE': ''})
    fronts.update({name: 'DFUSE_' for name in ('WORK', 'OUTCOME', 'LEAVING', 'ACCESS', 'FILE')})
    fronts.update({name: name + '_' for name in ('KIND', 'REQUEST', 'STATE', 'FUNCTIONAL', 'INTERFACE')})
    others = {'FUNCTIONAL_VERSION_1_1': 'VERSION_1_1', 'FUNCTIONAL_VERSION_DFUSE': 'VERSION_DFUSE', 'INTERFACE_RUNTIME': 'PROTOCOL_RUNTIME',
              'INTERFACE_DFU_MODE': 'PROTOCOL_DFU_MODE'}
    for table, body in re.findall(r'^export const ([A-Z]+) = \{(.*?)\}', pages, re.M | re.S):
        for name, number in re.findall(r'(\w+): (-?\w+)', body):
            name = fronts[table] + name
            yield name, int(number, 0), theirs.get(others.get(name, name))
    for name, body in lists:
        ours = re.search(rf'^export const {name.upper()} = \[(.*?)\]', pages, re.M | re.S)
        yield name, re.findall(r"'([\w-]+)'", ours[1]), re.findall(r'"([\w-]+)"', body)


def of_dfuse(browser):
    """Each report and refusal of dfu-flash that is of DfuSe, by its number, or by its name where that is its own."""
    status = {name: int(number) for name, number in re.findall(r'(STATUS_\w+) = (\d+)', (TOP / 'apps/flash/status.h').read_text())}
    headers = (TOP / 'include/dfuse_host.h').read_text() + (TOP / 'include/dfuse_file.h').read_text()
    number_of = {name: int(number) for name, number in re.findall(r'^    (DFUSE_\w+) = (-?\d+)', headers, re.M)}
    verdict = (TOP / 'apps/flash/dfuse_verdict.c').read_text()
    leavings = dict(re.findall(r'\[(DFUSE_\w+)\] = ' + TEXT, verdict))
    reports = re.findall(r'\{(DFUSE_\w+), "([\w-]+)",\s*' + MEANING, verdict)
    check_that('the reports of DfuSe are found', len(reports) == 9 and len(leavings) == 3, (reports, leavings))
    for number, name, status_of, *rest in reports:
        for leaving, behind in (leavings.items() if name == 'verified' else [('DFUSE_STAYED', '')]):
            if name not in ('uploaded', 'no-memory'):
                shown = browser.run('return runs.dfuseWordsOf(...arguments)', number_of[number], number_of[leaving])
                check(f'the words of {name}, {leaving}', shown, [name, status[status_of], said(*rest) + behind])
    refusals = re.findall(r'\{(DFUSE|REFUSED)(_\w+), "(\w+)", ' + TEXT, (TOP / 'apps/flash/refusals.c').read_text())
    check_that('the refusals of DfuSe are found', len(refusals) == 46, refusals)
    for kind, number, name, words_of in refusals:
        # (the page has no --all and no --stamp, and says in a text of its own where a system makes no reset)
        if name not in ('ForAny', 'NoEntry', 'OutsideTheImage', 'NoRoom', 'CannotReset'):
            shown = browser.run('const it = runs.refusalOf(arguments[0]); return [it.name, it.words]',
                               number_of[kind + number] if kind == 'DFUSE' else name)
            check(f'the words of {name}', shown, [name, words_of])


def run(browser, page):
    of_dfuse(browser)
    again = list(numbers())
    check_that('the numbers that the page writes again are found', len(again) >= 65, again)
    for name, ours, wanted in again:
        check(f'the number {name}', ours, wanted)
    check('records.js has the records of the headers', browser.run('return runs.RECORDS'), records())
    reports, ends, refusals = words()
    check_that('the words of dfu-flash are found', len(reports) == 11 and len(ends) == 9 and len(refusals) == 14, (reports, ends, refusals))
    for name, wanted in {**reports, **ends}.items():
        # (the page has no time limit, and says in a text of its own where a system makes no reset)
        if name not in ('uploaded', 'timed-out', 'not-reset'):
            check(f'the words of {name}', tuple(browser.run('return runs.wordsOf(arguments[0])', name)), wanted)
    others = dict(re.findall(r'\{IMAGE_(\w+), "NoSignature", ' + TEXT, (TOP / 'apps/flash/refusals.c').read_text()))
    # (the page takes the image out of the files of a format)
    wanted = {name: words for name, words in others.items() if name not in ('FORMAT', 'DAMAGED', 'ELF')}
    check('the words for files that are no image', browser.run('return runs.WORDS'), wanted)
    # (dfu-flash reads DfuSe files, and so has no words for a refusal of them)
    refusals['DfuSe'] = 'the file is a DfuSe file, which is another format'
    for number in range(-50, 0):
        name, said = browser.run('const it = runs.refusalOf(arguments[0]); return [it.name, it.words]', number)
        check(f'the words of {number}', said, refusals.get(name, 'the host refuses it'))
    size = sum(file.stat().st_size for file in pathlib.Path(page).iterdir() if file.is_file())
    check_that(f'the page has under {MOST_BYTES} bytes, its documents left out', size < MOST_BYTES, size)
    print(f'the page has {size} bytes')

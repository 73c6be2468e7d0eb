"""Sessions with a device of DfuSe: rows worked out by hand, what is refused before anything is sent, each fault at each transfer, and the
same with dfu-flash. None may be verified if other bytes stand, and no page but the image's may change."""
import functools

from counting import check, check_that
from files import dfuse, suffixed, text
from sessions import Flash, compare, short

F4 = '@Internal Flash  /0x08000000/04*016Kg,01*064Kg,07*128Kg'
MAP = '@Internal Flash  /0x08000000/16*001Kg'
START, SIZE, PAGE = 0x08000000, 16384, 1024
D = dfuse((0, (START, b'\1\2\3\4'), (0x08004000, b'\5\6')), vendor=0x0483, product=0xdf11)
D_IDS = {'vendor': 0x0483, 'product': 0xdf11, 'device': 0x0200}
# Three elements, of which two share a page, and one reaches over a page's edge.
FEW, LONG = bytes(range(1, 41)), bytes(at * 7 & 255 for at in range(700))
ELEMENTS = ((START + 0x400, FEW), (START + 0x7e0, LONG), (START + 0x440, b'\x42'))
SOME = dfuse((0, *ELEMENTS))
FEWER = ((START, FEW), (START + 0x1000, b'\5\6'))
SHORT = dfuse((0, *FEWER))
RAW = {'file': text(LONG), 'address': START + 0x400}


@functools.cache
def old(size=SIZE):
    """What stands at first, as standin_dfuse.js has it."""
    return bytes((at * 31 + (at >> 8)) & 255 for at in range(size))


def with_elements(*elements):
    """The memory with these, where each of their pages is erased."""
    memory = bytearray(old())
    for address, part in elements:
        first, past = (address - START) // PAGE, -(-(address - START + len(part)) // PAGE)
        memory[first * PAGE:past * PAGE] = b'\xff' * ((past - first) * PAGE)
    for address, part in elements:
        memory[address - START:address - START + len(part)] = part
    return bytes(memory)


NEW_SOME, NEW_RAW = with_elements(*ELEMENTS), with_elements((START + 0x400, LONG))
NEW_SHORT = with_elements(*FEWER)


def device(maps=(MAP,), **settings):
    return {'maps': list(maps), **settings}


def in_page(browser, *words):
    found = browser.wait_run('words => runs.anySessions(words)', [{'file': text(SOME), **one} for one in words])
    if isinstance(found, str):
        raise RuntimeError(found)
    for one, words_of in zip(found, words):
        check(f'DfuSe, {words_of}: it runs, and each request is made where it is to be', one.get('error', one.get('faults')), [])
    return found


def by_hand(browser):
    """The file D on the map of an STM32F405: 34 requests and 8 waits."""
    found = in_page(browser, {'file': text(D), 'settings': device([F4], config=D_IDS)})[0]
    check('D', (found['name'], found['transfers'], found['actions'], found['started']), ('verified', 34, 42, [START]))
    command, wrote = 'DNLOAD 0 5,GETSTATUS 0 6,GETSTATUS 0 6', 'GETSTATUS 0 6,GETSTATUS 0 6'
    wanted = (f'ABORT 0 0,GETSTATE 0 1,{command},{command},{command},DNLOAD 2 2,{wrote},{command},ABORT 0 0,UPLOAD 2 2,ABORT 0 0,{command},'
              f'DNLOAD 2 4,{wrote},{command},ABORT 0 0,UPLOAD 2 4,ABORT 0 0,DNLOAD 2 0,GETSTATUS 0 6')
    lines = [line.split(' ')[2:5] for line in found['trace'] if line.startswith('# ') and line.split(' ')[2] not in ('verified', 'WAIT')]
    check('the requests of D', ','.join(' '.join(line) for line in lines), wanted)
    memory = found['image'].encode('latin1')
    erased = b'\xff' * 16384
    wanted = b'\1\2\3\4' + erased[4:] + b'\5\6' + erased[2:] + old(1 << 20)[32768:]
    check_that('what D left', memory == wanted, memory[:8].hex())


UNNAMED = {'keepsPermission': False, 'serial': '', 'fates': [{'kind': 'leave', 'number': 9}]}
# What, words, the report, the memory then, and where the application was started.
ROWS = [
    ('a DfuSe file', {}, 'verified', NEW_SOME, START + 0x400),
    ('the size counts the suffix', {'file': text(dfuse((0, *ELEMENTS), counts_suffix=True))}, 'verified', NEW_SOME, START + 0x400),
    ('for any device', {'file': text(dfuse((0, *ELEMENTS), vendor=0xffff, product=0xffff))}, 'verified', NEW_SOME, START + 0x400),
    ('elements in another order, of two targets', {'file': text(dfuse((0, ELEMENTS[1]), (0, ELEMENTS[2], ELEMENTS[0])))}, 'verified',
     NEW_SOME, START + 0x400),
    ('it is to stay', {'leaves': False}, 'verified', NEW_SOME, None),
    ('a raw image', RAW, 'verified', NEW_RAW, START + 0x400),
    ('the payload of a file of DFU 1.1', {**RAW, 'file': text(suffixed(LONG))}, 'verified', NEW_RAW, START + 0x400),
    ('blocks of 100 bytes', {'settings': device(config={'transfer': 100})}, 'verified', NEW_SOME, START + 0x400),
    ('cells that are written once', {'settings': device(cells='fail')}, 'verified', NEW_SOME, START + 0x400),
    ('it stalls early, and tells no times', {'settings': device(stallsEarly=True, tellsTimes=False, erase_ms=3)}, 'verified', NEW_SOME,
     START + 0x400),
    ('an erase sets the pointer', {'settings': device(erasesPointer=True, config={'busy_ms': 2})}, 'verified', NEW_SOME, START + 0x400),
    ("an earlier run's command is dropped", {'settings': device(pending=START + 0x3000)}, 'verified', NEW_SOME, START + 0x400),
    ('the browser tells the names', {'settings': device(tellsNames=True)}, 'verified', NEW_SOME, START + 0x400),
    ('the second setting', {'file': text(dfuse((1, *ELEMENTS))), 'settings': device([MAP, MAP], setting=1), 'place': {'alternate': 1}},
     'verified', NEW_SOME, START + 0x400),
    ('one of two settings that a file has', {'file': text(dfuse((0, (START, b'no')), (1, *ELEMENTS))), 'isChosen': True,
     'settings': device([MAP, MAP], setting=1), 'place': {'alternate': 1}}, 'verified', NEW_SOME, START + 0x400),
    ('a byte that is never written', {'settings': device(lies=START + 0x440)}, 'different', None, None),
    ('a map of larger pages than there are', {'settings': device(['@F/0x08000000/8*002Kg'], pages=MAP)}, 'different', None, None),
    ('it is protected', {'settings': device(isProtected=True)}, 'read-protected', old(), None),
    ('limits', {'limits': {'actions': 9, 'restarts': 0}}, 'gave-up', None, None),
    ('restarts', {'limits': {'actions': 999, 'restarts': 0}, 'settings': device(fates=[{'kind': 'leave', 'number': 9}])}, 'restarts-spent',
     None, None),
    ('another board comes in its place', {'settings': device(fates=[{'kind': 'swap', 'number': 9}])}, 'other', None, None),
    ('it answers no more', {'settings': device(fates=[{'kind': 'deaf', 'number': 9}])}, 'silent', None, None),
    ('nobody chooses it again', {'settings': device(**UNNAMED)}, 'gone', None, None),
    ('it is chosen again', {'settings': device(**UNNAMED), 'chooses': 'it'}, 'verified', NEW_SOME, START + 0x400),
]


def rows(browser):
    for (what, words, report, memory, start), found in zip(ROWS, in_page(browser, *({'settings': device(), **row[1]} for row in ROWS))):
        image = found['image'].encode('latin1')
        wanted = (report, None if memory is None else True, [] if start is None else [start])
        check(f'DfuSe, {what}', (found['name'], None if memory is None else image == memory, found['started']), wanted)
        check_that(f'DfuSe, {what}: other pages are as they were', 'map' in what or others_stay(image), found['line'])
    found = in_page(browser, {'settings': device(fails=4, failCode=0, refusalText='Can\'t overwrite mboot')})[0]
    check('its own words', (found['name'], found['deviceText'], found['line'].split(':')[0]),
          ('refused', "Can't overwrite mboot", 'refused'))
    check('no block was sent', in_page(browser, {'settings': device(isProtected=True, fates=[{'kind': 'deaf', 'number': 0}])})[0]['line'],
          'silent: the device answers no more; no block was sent')


def others_stay(image, elements=ELEMENTS):
    """Whether each page without a byte of the image is as it was."""
    pages = {at // PAGE for address, part in elements for at in range(address - START, address - START + len(part))}
    before = old()
    places = [(number * PAGE, (number + 1) * PAGE) for number in range(SIZE // PAGE) if number not in pages]
    return all(image[first:past] == before[first:past] for first, past in places)


KINDS = ['lost-out', 'lost-back', 'late', 'twice', 'short', 'stall', 'fails', 'part', 'leave', 'leave-after', 'cut']
SOME_KINDS = ['lost-out', 'lost-back', 'late', 'cut']
# What, the device, the page, and the faults.
DEVICES = [
    ('times', {'erase_ms': 7, 'config': {'busy_ms': 2}}, {}, KINDS),
    ('no times', {'tellsTimes': False, 'erase_ms': 3}, {}, SOME_KINDS),
    ('it stalls early', {'stallsEarly': True, 'erase_ms': 7, 'config': {'busy_ms': 2}}, {}, SOME_KINDS),
    ('cells that are written once', {'cells': 'fail', 'erase_ms': 1, 'config': {'busy_ms': 1}}, {}, SOME_KINDS),
    ('the second setting', {'maps': [MAP, MAP], 'setting': 1}, {'place': {'alternate': 1}, 'isChosen': True}, SOME_KINDS),
    ('closing resets it', {'closing': 'resets'}, {'platform': 'Windows'}, SOME_KINDS),
]


def fates(browser):
    """Each fault at each transfer: the session ends as verified, and the image stands."""
    for what, settings, more, kinds in DEVICES:
        file = dfuse((settings.get('setting', 0), *FEWER))
        words = {'file': text(file), **more}
        count = in_page(browser, {**words, 'settings': device(**{'maps': [MAP], **settings})})[0]['transfers']
        whole = [(kind, number) for number in range(count) for kind in kinds]
        runs = [{**words, 'settings': device(**{'maps': [MAP], **settings}, fates=[{'kind': kind, 'number': number, 'bytes': 3}])}
                for kind, number in whole]
        for (kind, number), found in zip(whole, in_page(browser, *runs)):
            right = (found['name'], found['image'].encode('latin1') == NEW_SHORT)
            check(f'DfuSe, {what}, {kind} {number}', right, ('verified', True))


def chance(browser):
    """Answers that are made up, and a person who cancels before each action."""
    found = in_page(browser, *({'file': text(SHORT), 'settings': device(seed=seed, fates=[{'kind': 'garble', 'number': seed % 36}])}
                               for seed in range(200)))
    check('DfuSe, made up: none is a mistake of the page', [one['line'] for one in found if one['name'] == 'broken'], [])
    for seed, one in enumerate(found):
        image = one['image'].encode('latin1')
        check_that(f'DfuSe, made up from {seed % 36} on, {seed}', one['name'] != 'verified' or image == NEW_SHORT, one)
        check_that(f'DfuSe, made up, {seed}: other pages', others_stay(image, FEWER), one)
    clean = in_page(browser, {'file': text(SHORT), 'settings': device()})[0]
    stopped = [{'file': text(SHORT), 'settings': device(), 'stopAt': at} for at in range(clean['actions'])]
    for at, one in enumerate(in_page(browser, *stopped)):
        is_read = one['image'].encode('latin1') == NEW_SHORT and one['name'] == 'verified'
        check_that(f'DfuSe, cancelled at {at}', one['name'] == 'aborted' or is_read, one)
    clean = in_page(browser, {'settings': device()})[0]
    commands = sum(line.split(' ')[2:3] == ['DNLOAD'] and line.split(' ')[4] != '0' for line in clean['trace'])
    failing = in_page(browser, *({'settings': device(fails=at, failCode=code)} for at in range(commands) for code in (0, 3)))
    for number, one in enumerate(failing):
        check(f'DfuSe, a command fails, {number}', one['name'], 'refused')
        check_that(f'DfuSe, a command fails, {number}: other pages', others_stay(one['image'].encode('latin1')), one)


# A set-up: its settings here, its variables there, words here and there.
SETUPS = [
    ('a file', {}, {}, {}, ['short.dfu']),
    ('a file, to stay', {}, {}, {'leaves': False}, ['--no-leave', 'short.dfu']),
    ('a raw image', {}, {}, {**RAW}, ['--address', '0x08000400', 'raw']),
    ('times', {'erase_ms': 3, 'config': {'busy_ms': 1}}, {'USB_ERASE': '3', 'USB_BUSY': '1'}, {}, ['short.dfu']),
    ('it lies', {'lies': START + 1}, {'USB_LIES': '08000001'}, {}, ['short.dfu']),
    ('it is protected', {'isProtected': True}, {'USB_PROTECTED': '1'}, {}, ['short.dfu']),
    ('a command fails with a code', {'fails': 3}, {'USB_FAILS': '3'}, {}, ['short.dfu']),
    ('a command fails with OK', {'fails': 3, 'failCode': 0}, {'USB_FAILS': '3', 'USB_CODE': '0'}, {}, ['short.dfu']),
]


def with_flash(browser, folder):
    """The same sessions by dfu-flash: reports, requests and memory are the same, whatever is lost."""
    flash = Flash(folder)
    for name, payload in (('old', old()), ('short.dfu', SHORT), ('raw', LONG)):
        (flash.at / name).write_bytes(payload)
    for what, settings, variables, words, line in SETUPS:
        env = {'USB_DEVICE': 'dfuse', 'USB_MAPS': MAP, **variables}
        line = [str(flash.at / word) if (flash.at / word).exists() else word for word in line]
        words = {'file': text(SHORT), **words}
        clean = in_page(browser, {**words, 'settings': device(**settings)})[0]
        compare(f'DfuSe, {what}', clean, lambda env=env, line=line: flash.play(line, env))
        kinds = ['lost-out', 'lost-back', 'twice', 'short', 'leave', 'cut', 'stall'] if what == 'a file' else []
        whole = [(kind, number) for number in range(clean['transfers']) for kind in kinds]
        runs = [{**words, 'settings': device(**settings, fates=[{'kind': kind, 'number': number, 'bytes': 3}])} for kind, number in whole]
        for (kind, number), found in zip(whole, in_page(browser, *runs)):
            # A device that starts its application, unheard, is missed at once here, and by one more transfer there.
            if (kind, number) == ('lost-back', clean['transfers'] - 1):
                check(f'DfuSe, {what}, {kind} {number}', short(found), short(flash.play(line, env, kind, number)))
            else:
                compare(f'DfuSe, {what}, {kind} {number}', found,
                        lambda env=env, line=line, kind=kind, number=number: flash.play(line, env, kind, number))


def run(browser, folder):
    by_hand(browser)
    rows(browser)
    fates(browser)
    chance(browser)
    if folder:
        with_flash(browser, folder)

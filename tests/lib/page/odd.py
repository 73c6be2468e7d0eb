"""What only WebUSB has, and devices that keep another table. No report may say more than was seen."""
from counting import check, check_that
from files import NEW, OLD, suffixed, text
from sessions import in_page, is_true, with_fate

APP = {'startsInApp': True}
WINDOWS = {'platform': 'Windows'}
NO_RESET = {'reset': 'fails'}
UNNAMED = {'keepsPermission': False, 'serial': ''}
ITSELF = {'config': {'attributes': 15, 'detach_ms': 5}}

# What, words, the report, and whether the image is the new one then.
ROWS = [
    ('it has to be chosen again', {'settings': UNNAMED, 'chooses': 'it'}, 'verified', True),
    ('nobody chooses it', {'settings': UNNAMED}, 'gone', True),
    ('a board that was there before is chosen', {'settings': {**UNNAMED, 'others': 1}, 'chooses': 'bystander'}, 'gone', True),
    ('a board that was there before', {'settings': {'others': 1, 'serial': ''}}, 'verified', True),
    ('another serial number in DFU mode', {'settings': {**APP, 'dfuSerial': 'F2'}, 'chooses': 'it'}, 'verified', True),
    ('a reset that resolves', {'settings': {'reset': 'resolves'}}, 'verified', True),
    ('no reset, and nobody at the plug', {'wantsVerified': False, 'settings': NO_RESET}, 'silent', True),
    ('no reset, and the plug', {'wantsVerified': False, 'settings': NO_RESET, 'replugs': True}, 'installed', True),
    ('Windows: no reset, so it is not compared', {**WINDOWS, 'settings': NO_RESET, 'replugs': True}, 'installed', True),
    ('Windows: one that is not tolerant', {**WINDOWS, 'settings': {**NO_RESET, 'config': {'attributes': 3}}, 'replugs': True},
     'unconfirmed', True),
    ('Windows: it detaches itself', {**WINDOWS, 'settings': {**NO_RESET, **ITSELF}, 'replugs': True}, 'verified', True),
    ('Windows: from run-time mode', {**WINDOWS, 'settings': {**NO_RESET, **APP, **ITSELF}, 'replugs': True}, 'verified', True),
    ('Windows: it falls back to run-time mode, where a plug is pulled in vain',
     {**WINDOWS, 'settings': {**NO_RESET, 'fates': [{'kind': 'leave', 'number': 5}]}, 'replugs': True}, 'restarts-spent', False),
    ('limits', {'limits': {'actions': 3, 'restarts': 0}}, 'gave-up', False),
    ('another board comes in its place', {'settings': {'fates': [{'kind': 'swap', 'number': 4}]}}, 'other', False),
    ('it answers no more', {'settings': {'fates': [{'kind': 'deaf', 'number': 4}]}}, 'silent', False),
    ('it is heard no more', {'settings': {'fates': [{'kind': 'mute', 'number': 4}]}}, 'silent', None),
    ('no functional descriptor', {'settings': {'descriptor': 0}}, 'Short', False),
    ('DfuSe', {'settings': {'version': 0x011a}}, 'DfuSeDevice', False),
    ('no download', {'settings': {'config': {'attributes': 6}}}, 'CannotDownload', False),
    ('no suffix', {'file': text(NEW)}, 'NoSignature', False),
    ('another target', {'file': text(suffixed(NEW, product=2))}, 'WrongTarget', False),
    ('any target', {'file': text(suffixed(NEW, 0xffff, 0xffff))}, 'verified', True),
    ('it starts its image by itself, and can not upload', {'settings': {'startsItself': True, 'config': {'attributes': 5}}},
     'unconfirmed', True),
    ('it starts its image by itself', {'settings': {'startsItself': True}}, 'verified', True),
    ('it starts its image by itself, not compared', {'wantsVerified': False, 'settings': {'startsItself': True}}, 'unconfirmed', True),
    ('it starts an application without USB', {'wantsVerified': False, 'settings': {'startsItself': True, 'hasAppUsb': False}},
     'unconfirmed', True),
    ('an application without USB', {'wantsVerified': False, 'settings': {'hasAppUsb': False}}, 'installed', True),
    ('an application without USB, to be compared', {'settings': {'hasAppUsb': False}}, 'gone', True),
    ('it is told late that it left', {'settings': {'tells': 400}}, 'verified', True),
    ('it detaches itself, which is told late', {'settings': {**APP, **ITSELF, 'tells': 700}}, 'verified', True),
    ('it stalls SET_INTERFACE', {'settings': {'stallsSet': True}}, 'verified', True),
    ('the second of three settings', {'settings': {'alternates': 3, 'setting': 1}, 'place': {'alternate': 1}}, 'verified', True),
]


def rows(browser):
    for what, words, report, is_new in ROWS:
        found = in_page(browser, words)[0]
        wanted = found['image'] if is_new is None else text(NEW if is_new else OLD)
        check(what, (found['name'], found['image']), (report, wanted))


def every(browser, what, words, kinds, may=None):
    """Each transfer of a session with each of these fates."""
    count = in_page(browser, words)[0]['transfers']
    list_of = [(kind, number) for number in range(count) for kind in kinds]
    found = in_page(browser, *(with_fate(words, *row) for row in list_of))
    for row, one in zip(list_of, found):
        check_that(f'{what}, {row}: what is reported holds', is_true(one), one)
        check_that(f'{what}, {row}: {may}', may is None or one['name'] in may, one)
    return dict(zip(list_of, found))


def told(found):
    """The lines of a log that are for readers."""
    return [line[2:] for line in found['trace'] if line.startswith('# ')]


def fates(browser):
    clean = told(in_page(browser, {})[0])
    sent = [line.split(' ')[1:4] for line in clean[1:] if line.split(' ')[1] not in ('WAIT', 'RESET')]
    found = every(browser, 'WebUSB', {}, ['late', 'stall', 'fails', 'leave-after'], {'verified', 'different'})
    for (kind, number), one in found.items():
        has_left = any(' left ' in line for line in told(one))
        # Where the power goes behind dfuMANIFEST the device may have started its image: it is compared, and the old one stands.
        check(f'{kind} {number}: its report', one['name'], 'different' if has_left and one['image'] == text(OLD) else 'verified')
        if kind == 'leave-after' and sent[number][0] != 'DETACH':
            check(f'leave-after {number}: that it left is told', one['restarts'] + has_left, 1)
    several = {'settings': {'alternates': 3, 'setting': 1}, 'place': {'alternate': 1}}
    every(browser, 'several settings', several, ['lost-out', 'lost-back', 'late'], {'verified'})
    blocks = [number for number, line in enumerate(sent) if line[0] == 'DNLOAD' and line[2] != '0']
    for number, one in zip(blocks, in_page(browser, *(with_fate({}, 'part', number) for number in blocks))):
        check(f'fewer bytes out {number}', (one['name'], one['image']), ('verified', text(NEW)))
    # A device that starts its image by itself is never Installed, whatever is lost. Where the answer to the close is lost it looks like
    # one that restarted.
    found = every(browser, 'starts itself', {'wantsVerified': False, 'settings': {'startsItself': True}},
                  ['lost-out', 'lost-back', 'twice', 'short', 'leave', 'stall'], {'unconfirmed', 'refused', 'gone'})
    check('starts itself, the answer to the close lost: a restart is told', found['lost-back', 13]['restarts'], 1)


def closing(browser):
    """A device that closing and opening it sets back. Where that may be, a restart is told."""
    for platform in ('Windows', 'macOS'):
        words = {'platform': platform, 'settings': {'closing': 'resets'}, 'wantsVerified': False, 'replugs': True}
        found = every(browser, f'closing resets, {platform}', words, ['lost-out', 'lost-back'], {'installed'})
        for row, one in found.items():
            check(f'closing resets, {platform}, {row}: one restart is told', one['restarts'], 1)
    for row, one in every(browser, 'closing is unheard', {'wantsVerified': False}, ['lost-out', 'lost-back']).items():
        check(f'closing is unheard, {row}: no restart is told', one['restarts'], 0)


def cancels(browser):
    """A person cancels before each action: the device has one image or the other then."""
    count = in_page(browser, {})[0]['actions']
    for at, one in enumerate(in_page(browser, *({'stopAt': at} for at in range(count)))):
        is_last = at == count - 1
        check(f'cancelled at {at}', (one['name'], 'abort' in told(one)), ('verified', True) if is_last else ('aborted', True))
        check_that(f'cancelled at {at}: one image or the other', one['image'] in (text(OLD), text(NEW)), one['image'])


def told_late(browser):
    """Where the event comes late, a device that leaves unasked is told once, and one that detaches itself never."""
    late = (with_fate({'settings': {'tells': 400}}, 'leave-after', number) for number in range(13))
    for number, one in enumerate(in_page(browser, *late)):
        check(f'told late, {number}', (one['name'], one['restarts'], one['image']), ('verified', 1, text(NEW)))
    for ms in (700, 2500):
        one = in_page(browser, {'settings': {**APP, **ITSELF, 'tells': ms}})[0]
        check(f'it detaches itself, which is told {ms} ms late: no restart is told', one['restarts'], 0)


def garbled(browser):
    """Answers that are made up end a session, in one of the ends that it has."""
    def of(seed):
        return {'seed': seed, 'startsInApp': seed % 3 == 0, 'fates': [{'kind': 'garble', 'number': seed % 25}]}
    found = in_page(browser, *({'settings': of(seed)} for seed in range(300)))
    ends = {one['name'] for one in found}
    check_that('they come to several ends', len(ends) > 3, ends)
    check('none is a mistake of the page', 'broken' in ends, False)
    for one in found:
        check_that('what was verified is there', one['name'] != 'verified' or is_true(one), one)


def descriptors(browser):
    """The functional descriptor: behind its setting, behind another one of the interface, before all, and nowhere."""
    def one(*parts):
        return browser.run('return runs.functional(arguments[0], 1, 1)', [byte for part in parts for byte in part])
    head, whole, old = [9, 2, 0, 0, 2, 1, 0, 128, 50], [9, 0x21, 7, 1, 0, 8, 0, 16, 1], [7, 0x21, 3, 1, 0, 8, 0]

    def at(number, alternate):
        return [9, 4, number, alternate, 0, 0xfe, 1, 2, 0]
    check('behind its setting', one(head, at(1, 0), old, at(1, 1), whole), whole)
    check('behind another one', one(head, at(1, 0), at(1, 1), at(1, 2), old), old)
    check('before all', one(head, old, at(0, 0), at(1, 1)), old)
    check('behind another interface', one(head, at(1, 1), at(0, 0), whole), [])
    check('cut off', one(head, at(1, 1), whole[:6]), [])
    check('of another length', one(head, at(1, 1), [8, *whole[1:8]]), [])
    check('a length of 0', one(head, [0, 4], at(1, 1), whole), [])


def run(browser):
    rows(browser)
    fates(browser)
    closing(browser)
    cancels(browser)
    told_late(browser)
    garbled(browser)
    descriptors(browser)

"""Sessions over the stand-in: in the page's modules, and the same with dfu-flash."""
import json
import os
import pathlib
import subprocess
import tempfile

from counting import check, check_that
from files import NEW, OLD, suffixed, text

# A set-up: its settings here, and its variables for the stand-in of tests/lib/usb.
SETUPS = [
    ('download and compare', {}, {}),
    ('download', {'wantsVerified': False}, {}),
    ('not tolerant, no upload', {'settings': {'config': {'attributes': 1}}}, {'USB_ATTRIBUTES': '01'}),
    ('no upload', {'settings': {'config': {'attributes': 5}}}, {'USB_ATTRIBUTES': '05'}),
    ('not tolerant', {'settings': {'config': {'attributes': 3}}}, {'USB_ATTRIBUTES': '03'}),
    ('run-time mode', {'settings': {'startsInApp': True}}, {'USB_START': 'app'}),
    ('other identifiers, away', {'settings': {'startsInApp': True, 'dfuIds': {'product': 0xff}, 'away': 200}},
     {'USB_START': 'app', 'USB_DFU_IDS': '1209:00ff:0100', 'USB_AWAY': '4'}),
    ('detaches itself', {'settings': {'startsInApp': True, 'config': {'attributes': 15, 'detach_ms': 5}}},
     {'USB_START': 'app', 'USB_ATTRIBUTES': '0f', 'USB_DETACH': '5'}),
    ('too small', {'settings': {'capacity': 13}}, {'USB_CAPACITY': '13'}),
    ('too short a file', {'settings': {'config': {'least': 100}}}, {'USB_LEAST': '100'}),
    ('interface 2', {'settings': {'interface': 2}}, {'USB_INTERFACE': '2'}),
    ('DFU 1.0', {'settings': {'descriptor': 7, 'startsInApp': True}}, {'USB_DESCRIPTOR': '7', 'USB_START': 'app'}),
    ('an application that stalls GETSTATUS', {'settings': {'startsInApp': True, 'stallsStatus': True}},
     {'USB_START': 'app', 'USB_APP_STALLS': 'status'}),
    ('one without a functional descriptor', {'settings': {'startsInApp': True, 'appDescriptor': 0}},
     {'USB_START': 'app', 'USB_APP_DESCRIPTOR': '0'}),
]
FATES = ['lost-out', 'lost-back', 'twice', 'short', 'leave']
MOST_RUNS = 6
FULL = ('download and compare', 'download', 'detaches itself')


def in_page(browser, *words):
    """Sessions, one after the other."""
    whole = []
    for one in words:
        settings = {'image': text(OLD), **one.get('settings', {})}
        whole.append({'file': text(suffixed(NEW)), **one, 'settings': settings})
    found = browser.wait_run('words => runs.sessions(words)', whole)
    if isinstance(found, str):
        raise RuntimeError(found)
    for one, words_of in zip(found, words):
        check(f'{words_of}: it runs, and each request is made where it is to be', one.get('error', one.get('faults')), [])
    return found


def with_fate(words, kind, number):
    return {**words, 'settings': {**words.get('settings', {}), 'fates': [{'kind': kind, 'number': number, 'bytes': 3}]}}


def is_true(found):
    """Installed and Verified are reported only where the image is in place."""
    return found['name'] not in ('installed', 'verified') or found['image'] == text(NEW)


class Flash:
    """dfu-flash over the stand-in of tests/lib/usb, which `folder` has."""
    def __init__(self, folder):
        self.folder = folder
        self.work = tempfile.TemporaryDirectory()
        self.at = pathlib.Path(self.work.name)
        (self.at / 'old').write_bytes(OLD)
        (self.at / 'new.dfu').write_bytes(suffixed(NEW))

    def run(self, words, variables, kind=None, number=0):
        options = [] if words.get('wantsVerified', True) else ['--no-verify']
        return self.play([*options, f'{self.at}/new.dfu'], variables, kind, number)

    def play(self, words, variables, kind=None, number=0):
        """With these words of the command line."""
        fate = f'{kind} {number}{" 3" if kind == "short" else ""}' if kind else ''
        env = {**os.environ, 'LD_LIBRARY_PATH': self.folder, 'USB_IMAGE': f'{self.at}/old', 'USB_SAVE': f'{self.at}/saved',
               'USB_FATE': fate, **variables}
        log = self.at / 'log'
        log.unlink(missing_ok=True)
        command = [f'{self.folder}/dfu-flash', '--json', '--quiet', f'--verbose={log}', '--path', '1-1', *words]
        done = subprocess.run(command, env=env, capture_output=True, text=True, check=False)
        record = json.loads(done.stdout.splitlines()[-1])
        code = f" {record['code']}" if 'code' in record else ''
        # (the last line says how and when the session ended, and lines before it name the board: the page shows both beside its log)
        trace = [line for line in log.read_text().splitlines() if not line.startswith(('# end ', '# serial ', '# port ', '# stamp '))]
        return {'line': f"{record['report']}{code}: {record['words']}", 'status': record['status'], 'goal': record.get('goal'),
                'image': text((self.at / 'saved').read_bytes()), 'trace': [strip(line) for line in trace],
                **{name: record.get(name) for name in ('actions', 'transfers', 'restarts')}}


def strip(line):
    """A line of the log without the path and the milliseconds that an action took."""
    words = line.split(' ')
    if words[:2] == ['#', 'begin']:
        words[4] = '-'
    return ' '.join(words[:-1] if words[0] == '#' and words[1] not in ('begin', 'abort') else words)


def compare(what, found, run):
    """The device of dfu-flash has real time, of which more has passed where this machine is at other work; so it may run again."""
    ours = {name: found[name] for name in ('line', 'status', 'goal', 'image', 'actions', 'transfers', 'restarts')}
    ours['trace'] = [strip(line) for line in found['trace']]
    for _ in range(MOST_RUNS):
        wanted = run()
        if wanted == ours:
            break
    check(what, ours, wanted)


def short(found):
    """Where what is missed is told one transfer earlier the report, the restarts and the image are compared."""
    return {name: found[name] for name in ('line', 'restarts', 'image')}


def run_one(browser, flash, name, words, variables, fates):
    clean = in_page(browser, words)[0]
    if flash:
        compare(name, clean, lambda: flash.run(words, variables))
    rows = [(kind, number) for number in range(clean['transfers']) for kind in fates]
    for (kind, number), found in zip(rows, in_page(browser, *(with_fate(words, *row) for row in rows))):
        what = f'{name}, {kind} {number}'
        check_that(f'{what}: what is reported holds', is_true(found), found)
        if not flash:
            continue
        # A device that left by itself, unheard, is missed at once here, and by one more transfer there.
        if kind == 'lost-back' and name == 'detaches itself':
            check(what, short(found), short(flash.run(words, variables, kind, number)))
        else:
            compare(what, found, lambda kind=kind, number=number: flash.run(words, variables, kind, number))


def run(browser, folder):
    flash = Flash(folder) if folder else None
    for name, words, variables in SETUPS:
        run_one(browser, flash, name, words, variables, FATES if name in FULL else FATES[1:2])

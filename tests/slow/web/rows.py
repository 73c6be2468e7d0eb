"""What runs in the machine: the page over the WebUSB of Chromium and the kernel's USB, against the device of `attached`."""
import json
import os
import pathlib
import re
import signal
import subprocess
import sys
import tempfile
import time
import urllib.request

sys.path.insert(0, str(pathlib.Path(__file__).resolve().parents[2] / 'lib/page'))
import dfuse_rows
from browser import ARGUMENTS, Browser, serve
from files import NEW, OLD, dfuse, suffixed

PORT = 8123 # as the policy has it
PATIENCE = 10 # the machine may be an emulated one
# A headless browser shows no chooser.
CHOOSE = """
if (navigator.usb !== undefined) USB.prototype.requestDevice = async function () {
  const [first] = await this.getDevices()
  if (first === undefined) throw new DOMException('No device selected.', 'NotFoundError')
  return first
}
"""
APP = 'USB_START=app'
# A device of DfuSe has 16 pages of 1,024 bytes, and the image goes to the second one.
DFUSE = 'USB_DEVICE=dfuse'
PAGES = b''.join(part.ljust(1024, b'\xff') for part in (OLD, NEW, *[b''] * 14))
# What, settings, whether it is to be compared, the title of the report or the name of the refusal, the image, the restarts. None: a
# restart is reported where the system says more than 3 seconds late that the device left, which an emulated one may. Behind these may
# be what more is said to the page, and is looked at, as dfuse_rows.py has it.
ROWS = [
    ('in DFU mode', '', True, 'Verified', NEW, 0),
    ('other identifiers in DFU mode', f'{APP} USB_DFU_IDS=1209:00ff:0100', True, 'Verified', NEW, 0),
    ('a block is lost', 'USB_FATE=lost-out 1', True, 'Verified', NEW, 0),
    ('the answer to a block is lost', 'USB_FATE=lost-back 1', True, 'Verified', NEW, 0),
    ('it leaves at a block', 'USB_FATE=leave 4', True, 'Verified', NEW, 1),
    ('in run-time mode', APP, True, 'Verified', NEW, 0),
    ('a block is lost, in the second setting', 'USB_ALTERNATES=3 USB_SETTING=1 USB_FATE=lost-out 1', True, 'Verified', NEW, 1),
    ('a small bootloader, not compared', 'USB_DEVICE=small USB_ATTRIBUTES=0b', False, 'Sent, not confirmed', NEW, 0),
    ('it detaches itself', f'{APP} USB_ATTRIBUTES=0f USB_DETACH=50', True, 'Verified', NEW, None),
    ('not compared', '', False, 'Installed', NEW, 0),
    ('not tolerant', 'USB_ATTRIBUTES=03', True, 'Verified', NEW, 0),
    ('interface 3', 'USB_INTERFACE=3', True, 'Verified', NEW, 0),
    ('the second of three settings', 'USB_ALTERNATES=3 USB_SETTING=1', True, 'Verified', NEW, 0),
    ('a status is lost', 'USB_FATE=lost-out 2', True, 'Verified', NEW, 0),
    ('it leaves at the comparison', 'USB_FATE=leave 19', True, 'Verified', NEW, 1),
    ('a block comes twice', 'USB_FATE=twice 4', True, 'Verified', NEW, 0),
    ('a small bootloader', 'USB_DEVICE=small USB_ATTRIBUTES=0b', True, 'Verified', NEW, 0),
    ('an application that stalls GETSTATUS', f'{APP} USB_APP_STALLS=status', True, 'Verified', NEW, 0),
    ('U-Boot', 'USB_DEVICE=uboot', True, 'Verified', NEW, 0),
    ('too small', 'USB_CAPACITY=13', True, 'Refused by the device', OLD, 0),
    ('DfuSe', DFUSE, True, 'Verified', PAGES, 0),
    ('DfuSe, a block is lost', f'{DFUSE} USB_FATE=lost-out 6', True, 'Verified', PAGES, 0),
    ('DfuSe, the answer to a status is lost', f'{DFUSE} USB_FATE=lost-back 7', True, 'Verified', PAGES, 0),
    ('DfuSe, it leaves while it is written', f'{DFUSE} USB_BUSY=50 USB_FATE=leave 10', True, 'Verified', PAGES, 1),
    ('DfuSe, it is protected', f'{DFUSE} USB_PROTECTED=1', True, 'Protected', PAGES[:1024].ljust(16384, b'\xff'), 0),
    *dfuse_rows.ROWS,
]
INTERFACE = pathlib.Path('/sys/bus/usb/devices/1-1:1.0/bInterfaceProtocol')


class Device:
    """The device that `attached` has on the bus, with these settings."""
    def __init__(self, program, settings, work):
        self.saved, self.log = work / 'saved', work / 'device.log'
        for file in (self.saved, self.log):
            file.unlink(missing_ok=True)
        words = re.findall('(USB_[A-Z_]+)=((?:(?! USB_).)+)', settings)
        env = {**os.environ, 'USB_IMAGE': 'old', 'USB_SAVE': str(self.saved), 'USB_LOG': str(self.log), 'USB_SERIAL': 'F1',
               **dict(words)}
        self.process = subprocess.Popen([program], cwd=work, env=env, stdout=subprocess.PIPE, stderr=subprocess.STDOUT, text=True)
        for _ in range(100):
            if pathlib.Path('/sys/bus/usb/devices/1-1').exists():
                break
            time.sleep(0.1)
        subprocess.run(['udevadm', 'settle'], check=False)

    def mode(self, wanted):
        """What Linux has on the bus: application or DFU mode. If it is the other one, it has ten seconds to change."""
        for _ in range(100):
            try:
                found = {'01': 'application', '02': 'DFU mode'}[INTERFACE.read_text().strip()]
            except OSError:
                found = 'nothing'
            if found == wanted:
                break
            time.sleep(0.1)
        return found

    def ending(self):
        """Of its log: where the application was started, the state and the code at the end, and whether no request came."""
        lines = self.log.read_text().splitlines()
        count, rest = lines[-1].removeprefix('end ').split(' ', 1)
        started = [line for line in lines if line.startswith('started ')]
        return ', '.join([*started, rest, *(['no request came'] if count == '0' else [])])

    def end(self):
        """The image that it has then, and what it said."""
        self.process.send_signal(signal.SIGTERM)
        said = self.process.communicate(timeout=20)[0]
        return self.saved.read_bytes() if self.saved.exists() else b'', said.strip()


# One session, in one call: of a machine that is emulated each call takes its time, and so does a device that comes back, for which the
# page asks then. The setting that is chosen is the second one. What doesn't come in ten minutes doesn't come. It gives the title of the
# report or the name of the refusal, the log, and what a person was shown.
SESSION = """async (isCompared, isChosen, address, isStaying) => {
  const by = id => document.getElementById(id)
  const shown = ids => ids.map(id => by(id).hidden ? '' : by(id).innerText).join('\\n')
  const end = Date.now() + 600000
  const until = async what => {
    while (!what()) {
      if (Date.now() > end) throw new Error(`waits in vain: ${document.querySelector('main').innerText}`)
      await new Promise(done => setTimeout(done, 50))
    }
  }
  let log
  URL.createObjectURL = blob => { log = blob; return 'blob:none' }
  by('address').value = '' // the page keeps that of the session before
  by('connect').click()
  if (isChosen) {
    await until(() => !by('settings').hidden || !by('device-refused').hidden)
    document.querySelector('#settings label:nth-of-type(2) input').click()
    await until(() => !by('begin').disabled)
  }
  await until(() => !by('begin').disabled || !by('device-refused').hidden)
  const before = shown(['device', 'settings', 'device-refused'])
  if (address !== null) {
    by('address').value = address
    by('address').dispatchEvent(new Event('input'))
  }
  by('verify').checked = isCompared
  by('leave').checked = !isStaying
  if (by('begin').disabled) return [by('device-refused').textContent.split(':')[0], '', before]
  by('begin').click()
  await until(() => document.querySelector('#report h3') !== null)
  by('log').click()
  return [document.querySelector('#report h3').textContent, await log.text(), `${before}\\n${shown(['report'])}`]
}"""


def row(browser, program, work, words):
    what, settings, is_compared, title, image, restarts, *rest = words
    more = rest[0] if rest else {}
    device = Device(program, settings, work)
    give(browser, work, more.get('file', 'some.dfu' if DFUSE in settings else 'new.dfu'))
    began = time.time()
    is_chosen = 'ALTERNATES' in settings or more.get('chooses', False)
    found = browser.wait_run(SESSION, is_compared, is_chosen, more.get('address'), more.get('stays', False))
    took = time.time() - began
    mode = device.mode(more['mode']) if more else None
    saved, said = device.end()
    if isinstance(found, str): # why it came to no end
        print(f'row WRONG: {what}: {found} {said}'.replace('\n', ' ')[:600], flush=True)
        open_page(browser, work)
        return False
    trace = found[1].splitlines()
    seen = (found[0], saved, sum(' restarted ' in line for line in trace))
    wrong = [] if seen == (title, image, seen[2] if restarts is None else restarts) else [repr(saved)[:2000]]
    if more:
        wrong += dfuse_rows.differences(more, mode, device.ending(), found[2])
    print(f'row {"WRONG: " if wrong else ""}{what}: {seen[0]}, restarts {seen[2]}, {took:.0f} s {said}'[:600], flush=True)
    if wrong or 'TRACE' in os.environ:
        print('\n'.join(f'row   {line}' for line in [*wrong, *trace]), flush=True)
    return not wrong


def open_page(browser, work):
    browser.open(f'http://localhost:{PORT}/index.html#flash')
    browser.wait('document.body.dataset.ready')


def give(browser, work, name):
    browser.type('#file', str(work / name))
    browser.wait(f'!document.getElementById("raw").hidden || document.getElementById("fields").innerText.includes("{name}")')


def start_browser(work):
    """A Chromium that takes its time: chromedriver waits for one that it starts by itself for a minute at most."""
    words = ['chromium', *ARGUMENTS, '--remote-debugging-port=9222', f'--user-data-dir={work}/profile', 'about:blank']
    with open(work / 'chromium.log', 'w', encoding='utf-8') as log:
        started = subprocess.Popen(words, stdout=log, stderr=log)
    for _ in range(600):
        try:
            with urllib.request.urlopen('http://127.0.0.1:9222/json/version', timeout=60) as answer:
                print(f'row {json.load(answer)["Browser"]}', flush=True)
                return Browser(str(work), PATIENCE, '127.0.0.1:9222')
        except OSError:
            if started.poll() is not None:
                break
            time.sleep(1)
    print('\n'.join(f'row {line}' for line in (work / 'chromium.log').read_text().splitlines()[-20:]), flush=True)
    raise SystemExit('Chromium does not start')


def main(page, program):
    work = pathlib.Path(tempfile.mkdtemp())
    (work / 'old').write_bytes(OLD)
    (work / 'new.dfu').write_bytes(suffixed(NEW))
    (work / 'some.dfu').write_bytes(dfuse((0, (0x08000400, NEW))))
    for name, payload in dfuse_rows.FILES.items():
        (work / name).write_bytes(payload)
    browser = start_browser(work)
    browser.cdp('Page.addScriptToEvaluateOnNewDocument', source=CHOOSE)
    serve(page, PORT)
    print('row it is driven', flush=True)
    open_page(browser, work)
    print('row the page is there', flush=True)
    right = [row(browser, program, work, words) for words in ROWS]
    browser.quit()
    print(f'{sum(right)} passed, {len(right) - sum(right)} failed', flush=True)


main(sys.argv[1], sys.argv[2])

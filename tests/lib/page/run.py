#!/usr/bin/env python3
"""The tests of the page: run.py PAGE [FLASH]. PAGE is the folder that `make page` made; FLASH is one with dfu-flash and the stand-in for
libusb of tests/lib/usb, where sessions are to be compared with it."""
import sys
import tempfile
import time

import counting
import dfuse
import dfuse_refused
import dfuse_view
import flashing
import odd
import pictures
import playing
import raw
import scripts
import sessions
import taking
import texts
import trying
import versions
from browser import Browser, Handler, serve
from counting import check


def timed(what, call, *words):
    began = time.time()
    call(*words)
    print(f'{what}: {time.time() - began:.0f} s')


def main(page, flash):
    address = serve(page)
    with tempfile.TemporaryDirectory() as work:
        browser = Browser(work)
        try:
            browser.open(address + '/tests/sessions.html')
            browser.wait('window.runs !== undefined')
            check('wasm64', browser.run('return runs.runsWasm64()'), True)
            timed('texts', texts.run, browser, page)
            timed('scripts', scripts.play, browser)
            timed('scripts at random', scripts.at_random, browser)
            timed('sessions', sessions.run, browser, flash)
            timed('what only WebUSB has', odd.run, browser)
            timed('DfuSe', dfuse.run, browser, flash)
            timed('what is refused of DfuSe', dfuse_refused.run, browser)
            check('the console', browser.console(), [])
            timed('the view that flashes', flashing.run, browser, address, work)
            timed('raw images', raw.run, browser, address, work)
            timed('files that builds produce', taking.run, browser, address, work)
            timed('the view with DfuSe', dfuse_view.run, browser, address, work)
            timed('the view to play with', playing.run, browser, address)
            timed('a simulated board, and no server', trying.run, browser, address, work, page)
            timed('the pictures of docs', pictures.run, browser)
            timed('another version', versions.run, browser, page)
            check('requests', [path for path in Handler.asked if not path.startswith('/')], [])
        finally:
            browser.quit()
    print(f'{counting.passed} passed, {counting.failed} failed')
    return counting.failed != 0


if __name__ == '__main__':
    sys.exit(main(sys.argv[1], sys.argv[2] if len(sys.argv) > 2 else ''))

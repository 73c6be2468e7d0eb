"""A module of another version than the headers that the page was built by is refused, since its records may lie elsewhere."""
import pathlib
import re
import shutil
import tempfile

from browser import serve
from counting import check, check_that
from scripts import TOP
from views import shown


def number(version):
    """An instruction of WebAssembly that has it, a number of two bytes: i32.const, seven bits a byte."""
    return bytes([0x41, version & 0x7f | 0x80, version >> 7])


def run(browser, page):
    version = int(re.search(r'^#define DFU_VERSION (\d+)$', (TOP / 'include/dfu_device.h').read_text(), re.M)[1])
    for name in ('dfu_host_c', 'dfu_device_c'):
        with tempfile.TemporaryDirectory() as folder:
            other = pathlib.Path(folder) / 'page'
            shutil.copytree(page, other)
            module = (other / f'{name}.wasm').read_bytes()
            check_that(f'{name}: its version is in it', number(version) in module)
            (other / f'{name}.wasm').write_bytes(module.replace(number(version), number(version + 1)))
            browser.open(serve(other) + '/')
            browser.wait('!document.getElementById("lacks").hidden || document.body.dataset.ready === "yes"')
            check(f'{name}, another version', shown(browser, '#lacks'), f"The page can't begin: its library has version {version + 1}, and "
                  f'the page version {version}: load the page anew, or build it anew')
            check(f'{name}, another version: there is no view', shown(browser, '#flash') + shown(browser, '#play'), '')
    browser.console()

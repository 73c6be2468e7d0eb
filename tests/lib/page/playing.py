"""The view to play with: the examples of its menu, and buttons clicked at random, whose script `dfu run` plays too."""
import random
import urllib.request

from counting import check, check_that
from layout import CUT_OFF, diagram, fits, tab_order
from scripts import PROGRAM, TOP, by_program, examples
from views import ENTER, SPACE, is_labelled, is_quiet, is_readable, open_page, shot, shown, tab_to

CHOOSE = 'const it = document.getElementById("example"); it.value = arguments[0]; it.dispatchEvent(new Event("change"))'
PRINTED = 'return document.getElementById("printed").textContent'
SCRIPT = 'return document.getElementById("script").textContent'
BUTTONS = """return Array.from(document.querySelectorAll('#play .buttons button')).filter(it => !it.disabled).map((it, at) => {
  it.dataset.button = at; return it.textContent })"""

BYTES_ACROSS = """const all = Array.from(document.querySelectorAll('.bytes')[0].querySelectorAll(':not(div, .at)'))
return all.filter(it => it.getBoundingClientRect().top === all[0].getBoundingClientRect().top).length"""


def menu(browser):
    """Each example prints what `dfu run` prints of it, and on a phone nothing of it is cut off, before it or behind it."""
    browser.size(400, 760)
    for name, script, wanted in examples():
        if '\nexpect ' in script:
            continue
        browser.run(CHOOSE, name.removesuffix('.script'))
        cut_off = browser.run(CUT_OFF)
        browser.run('if (!document.getElementById("rest").disabled) document.getElementById("rest").click()')
        check(f'{name}, from the menu', browser.run(PRINTED), wanted)
        check(f'{name}, from the menu: what is cut off', cut_off + browser.run(CUT_OFF), [])
    browser.size(1100, 1400)


def at_random(browser, seed):
    """Clicks, and what is printed by them and by their script."""
    choice = random.Random(seed)
    browser.run(CHOOSE, '')
    for _ in range(60):
        browser.run('document.getElementById("write").value = arguments[0]; document.getElementById("tear").value = arguments[1]',
                    choice.randrange(3), choice.choice(['-', 'a5', '00', 'a50102030405']))
        names = browser.run(BUTTONS)
        at = choice.choices(range(len(names)), [12 if name.startswith('It goes well') else 1 for name in names])[0]
        browser.run(f'document.querySelector("[data-button=\\"{at}\\"]").click()')
    script, printed = browser.run(SCRIPT), browser.run(PRINTED)
    browser.run(CHOOSE, '')
    if PROGRAM.exists():
        check(f'clicks at random, {seed}: as dfu run prints\n{script}', printed, by_program(script))
    return script, printed


def by_hand(browser):
    browser.run(CHOOSE, '')
    check_that('no session', 'No session' in shown(browser, '#wanted'))
    browser.click('#offer-verified')
    check_that('what the host wants', 'GETSTATUS' in shown(browser, '#wanted'), shown(browser, '#wanted'))
    for _ in range(4):
        browser.click('[data-line="go pass 1"]')
    browser.click('[data-line="go lostback"]')
    check('the state lights up', browser.run('return document.querySelector("#diagram .now").dataset.state'), 'dfuDNLOAD-SYNC')
    check_that('the fate is listed', 'the answer is lost' in shown(browser, '#transfers tbody tr:last-child'))
    check_that('what changed is marked', browser.run('return document.querySelectorAll("#medium mark").length') == 0)
    for _ in range(3):
        browser.click('[data-line="go pass 1"]')
    check_that('what was written is marked', browser.run('return document.querySelectorAll("#medium mark").length') > 0)
    shot(browser, 'play')
    browser.click('#to-end')
    check_that('the report', 'report verified' in browser.run(PRINTED), browser.run(PRINTED))
    check_that('the second slot is active', 'active' in shown(browser, '#medium figure:nth-child(2) figcaption'))
    check_that('the script', 'go lostback' in browser.run(SCRIPT))
    browser.cdp('Browser.grantPermissions', permissions=['clipboardReadWrite', 'clipboardSanitizedWrite'])
    browser.click('#copy')
    browser.wait('document.getElementById("copied").textContent !== ""')
    check('copied', shown(browser, '#copied'), 'Copied.')
    is_labelled(browser, 'play')
    is_readable(browser, 'play')
    fits(browser, 'play')
    diagram(browser)
    tab_order(browser, 'play')


def explained(browser):
    """Each control has words that say what it does, and what the host hears is told in words."""
    silent = browser.run("""return Array.from(document.querySelectorAll('#play :is(.buttons button, .numbers label)')).filter(
      it => !it.querySelector('small')?.textContent).map(it => it.textContent)""")
    check('controls without words', silent, [])
    for name, words in (('lost-answer', ['OK, dfuDNBUSY, wait 5 ms 000500000400', 'dfuDNLOAD-SYNC 03', 'OK, dfuIDLE 000000000200']),
                        ('failed-block', ['errWRITE, dfuERROR ']), ('upload', ['no bytes'])):
        browser.run(CHOOSE, name)
        browser.run('document.getElementById("rest").click()')
        heard = browser.run('return Array.from(document.querySelectorAll("#transfers td:nth-child(4)"), it => it.textContent)')
        for wanted in words:
            check_that(f'{name}: the host hears {wanted}', any(one.startswith(wanted) for one in heard), heard)
        fits(browser, f'the example {name}')


def folded(browser):
    """On a phone a row of the table is a block, and stays a row for a screen reader; a slot has 8 bytes in a row."""
    browser.size(400, 760)
    roles = [browser.role(selector)[0] for selector in ('#transfers', '#transfers tbody tr', '#transfers td', '#transfers th')]
    check('the roles of a folded table', roles, ['table', 'row', 'cell', 'columnheader'])
    lines = browser.run('return new Set(Array.from(document.querySelectorAll("#transfers tr:last-child td"), it => it.offsetTop)).size')
    check('the lines of a folded row', lines, 2)
    for width, wanted in ((400, 8), (1280, 16)):
        browser.size(width, 760)
        check(f'{width} pixels wide: bytes in a row', browser.run(BYTES_ACROSS), wanted)
    browser.size(1100, 1400)


PAGES = {'page': 'apps/web/README.md', 'project': 'README.md'}


def links(browser):
    """The documents that it links to are there."""
    paths = browser.run('return Array.from(new Set(Array.from(document.querySelectorAll("#what a, main a, footer a"), it => it.href)))')
    check_that('there are links', len(paths) == 5, paths)
    for path in paths:
        with urllib.request.urlopen(path) as answer:
            text, kind = answer.read().decode(), answer.headers['Content-Type']
        name = path.rsplit('/', 1)[1].removesuffix('.txt')
        check(f'{path}: what it has', text, (TOP / PAGES.get(name, f'docs/{name}.md')).read_text())
        check_that(f'{path}: a browser shows it', kind.startswith('text/plain'), kind)


def by_keyboard(browser):
    browser.run(CHOOSE, '')
    browser.run('document.activeElement.blur()')
    for name, key in (('offer-verified', ENTER), ('to-end', SPACE)):
        check('Tab leads there', tab_to(browser, name), name)
        browser.key(key)
    check_that('the report, by keyboard', 'report verified' in browser.run(PRINTED), browser.run(PRINTED))


def refusals(browser, address):
    """The page asks nobody else, whatever a script in it wants."""
    found = browser.wait_run("async () => fetch('http://127.0.0.1:9/').then(() => 'answered', error => error.name)")
    check('a request to elsewhere', found, 'TypeError')
    check_that('it is the policy that refuses it', any('Content Security Policy' in line for line in browser.console()))


def opens(browser):
    """The view opens in the midst of the clean run, and its next line ends that."""
    check('it opens on the clean run', browser.run('return document.getElementById("example").value'), 'clean-run')
    check('with so many actions', browser.run('return document.querySelectorAll("#transfers tbody tr").length'), 6)
    check_that('the host wants more', 'The host wants: wait' in shown(browser, '#wanted'), shown(browser, '#wanted'))
    check('the next line', shown(browser, '#line'), 'Next line: go pass 7')
    browser.click('#line')
    wanted = next(wanted for name, _, wanted in examples() if name == 'clean-run.script')
    check('and its end', browser.run(PRINTED), wanted)
    browser.size(400, 760)
    browser.run('document.querySelector("[data-line=time]").scrollIntoView({ block: "end" })')
    at = browser.run('return document.getElementById("now").getBoundingClientRect().top')
    check('on a phone the state stays in sight', (at, shown(browser, '#now')), (0, 'The device: appIDLE, OK\nNo session goes on.'))
    browser.size(1100, 1400)


def run(browser, address):
    open_page(browser, address, view='play')
    opens(browser)
    menu(browser)
    for seed in range(6):
        at_random(browser, seed)
    by_hand(browser)
    by_keyboard(browser)
    explained(browser)
    folded(browser)
    links(browser)
    is_quiet(browser, 'play')
    refusals(browser, address)

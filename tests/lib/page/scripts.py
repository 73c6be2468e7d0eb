"""The play view's scripts: examples/ against the texts beside them, tests/lib/rows against what was worked out by hand, and scripts made at
random against what `dfu run` prints."""
import os
import pathlib
import random
import re
import subprocess
import zlib

from counting import check, check_that

TOP = pathlib.Path(__file__).resolve().parents[3]
PROGRAM = pathlib.Path(os.environ.get('BUILD') or TOP / 'build').absolute() / 'dfu'
FILES = {'W': 'ffffffffffffffffffff00015546441071c8510c', 'Z': 'ffffffff00000000000000015546441037bd063c',
         'E': 'ffffffffffff000155464410e1f17b88', 'N': '313233343536373839000101000912000155464410621c70fe'}


def examples():
    return [(one.name, one.read_text(), one.with_suffix('.out').read_text()) for one in sorted(TOP.glob('examples/*.script'))]


def script_in(row):
    """The script of a row, and what is wanted of it."""
    script, wanted = re.sub(r'(offer|verify) ([WZEN])(?= )', lambda it: f'{it[1]} {FILES[it[2]]}', row).rsplit('=> ', 1)
    return re.sub(' */ *', '\n', script) + '\n', wanted.replace(' / ', '\n') + '\n'


def rows():
    found = []
    for file in sorted(TOP.glob('tests/lib/rows/*.rows')):
        for row in file.read_text().splitlines():
            if ' => ' not in row:
                continue
            found.append((row, *script_in(row)))
    for name, wanted in (('good.lines', 'image 00'), ('bad.lines', 'refused BadLine 1')):
        for line in (TOP / 'tests/lib/rows' / name).read_text().splitlines():
            found.append((line, line.replace('\\t', '\t').replace('\\r', '\r') + '\n', wanted + '\n'))
    for first in ' #':
        found.append(('a long line', first * 65536 + '\n' + first * 65537 + '\n', 'refused BadLine 2\n'))
    return found


def play(browser):
    """A script with `expect` isn't played."""
    played = 0
    for name, script, wanted in examples() + rows():
        if re.search('^ *expect', script, re.M):
            continue
        found = browser.run('return runs.scripts([arguments[0]])[0]', script) + '\n'
        check(name, found, wanted)
        played += name.endswith('.script')
    check_that('47 examples are played', played >= 47, played)


def by_program(script):
    """What `dfu run` prints, where the program is built."""
    return subprocess.run([PROGRAM, 'run', '-'], input=script, capture_output=True, text=True, check=False).stdout


def firmware(choice, least=1):
    whole = choice.randbytes(choice.randint(least, 1900)) + bytes.fromhex('ffffffffffff00015546' + '4410')
    return (whole + (zlib.crc32(whole) ^ 0xffffffff).to_bytes(4, 'little')).hex()


def tear(choice):
    some = choice.randbytes(choice.randint(1, 600)).hex()
    return choice.choice(['-', 'a5', 'a5' + 'ff' * 40, '00', 'ff' * choice.randint(1, 1100), some])


def refusing(choice, lines):
    """The same script on a device whose program refuses images: at their close, or between two actions."""
    offered = [line.split()[1] for line in lines if line.startswith(('offer ', 'verify '))]
    fronts = [file[:2 * choice.choice([1, 1, 2, 3])] for file in offered] or ['00']
    whole = choice.choice(offered or ['00'])[:-32] or '-'
    check = choice.choice([choice.choice(fronts), choice.choice(fronts), whole, '-', ''])
    longer = [line for line in lines if line.startswith('go pass ')]
    found = [f'check {check}'] if check else []
    for line in lines:
        found.append(line)
        if choice.random() < (0.5 if line in longer else 0.05):
            found.append(f'refuse {choice.choice(["errFILE", "errTARGET"])}')
    return found


def script_of(choice, refuses=False):
    """A device with blocks of up to 1,024 bytes, any unit and sectors, and sessions with losses and harmed writes. Where it `refuses`, its
    program refuses images."""
    unit, sector = choice.choice([1, 16, 64, 256, 256]), choice.choice([0, 0, 0, 256, 512])
    step = max(unit, sector)
    lines = [f'device {choice.choice(["07", "03", "0f"])} 255 {choice.choice([8, 64, 100, 700, 700, 1024])} 1 {choice.choice([0, 5])} '
             f'{choice.choice([0, 10])}', f'unit {unit}', f'erase {sector}', f'capacity {step * choice.randint(1, 2048 // step)}',
             'limits 300 3']
    for _ in range(25):
        lines += choice.choices([
            [f'{choice.choice(["offer", "verify"])} {firmware(choice)}'],
            [f'go {choice.choice(["cut", "fail", "lie"])} {choice.choice([0, 1, 1, 2, 4])} {tear(choice)}'],
            [choice.choice(['go lostout', 'go lostback', 'go twice', 'go slip 3', 'time 20', 'reset', 'cut', 'upload', 'abort'])],
            [f'go pass {choice.randint(1, 12)}'], ['show']], [3, 6, 2, 9, 1])[0]
    return '\n'.join(refusing(choice, lines) if refuses else lines) + '\n'


def held_back(passes):
    """Blocks of 700 bytes in units of 256: two writes right behind each other, of which the second one fails."""
    lines = ['device 07 255 700 1 5 10', 'unit 256', 'capacity 2048', f'offer {firmware(random.Random(1), 1900)}', f'go pass {passes}',
             'go fail 1 -', 'show']
    return '\n'.join(lines) + '\n'


def at_random(browser):
    if not PROGRAM.exists():
        return
    scripts = [script_of(random.Random(seed), refuses) for refuses in (False, True) for seed in range(300)]
    scripts += [held_back(passes) for passes in range(1, 20)]
    for script, found in zip(scripts, browser.run('return runs.scripts(arguments[0])', scripts)):
        check(f'a script at random\n{script}', found + '\n', by_program(script))

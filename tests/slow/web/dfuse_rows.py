"""Rows with a device of DfuSe whose memory is full of other bytes at first: what a person is shown, what is said at the end, and what the
device has then. Its whole memory is compared, so that a page that was erased or written in error is found."""
from dfuse import ELEMENTS, F4, LONG, MAP, NEW_RAW, NEW_SOME, PAGE, SIZE, SOME, START, old
from files import dfuse, suffixed

DFUSE = 'USB_DEVICE=dfuse USB_IMAGE=memory'
LINE = '08000000..08003fff 16 pages of 1024 bytes rew'
OPTION = '@Option Bytes  /0x1FFFC000/01*016 e'
TWO = f'{DFUSE} USB_MAPS={OPTION}|{MAP} USB_PAGES={MAP}'
# In two sectors of an STM32F405's flash, of 16 KiB and of 64 KiB.
WIDE, WIDE_AT = bytes(at * 13 + (at >> 8) & 255 for at in range(40000)), 0xc400
FILES = {
    'memory': old(),
    'large': old(1 << 20),
    'three.dfu': SOME,
    'second.dfu': dfuse((1, *ELEMENTS)),
    'both.dfu': dfuse((0, (0x1fffc000, b'\1\2')), (1, *ELEMENTS)),
    'outside.dfu': dfuse((0, (START + SIZE - 1, b'\1\2'))),
    'option.dfu': dfuse((0, (0x1fffc000, b'\1\2'))),
    'raw.bin': LONG,
    'wide.bin': WIDE,
    'payload.dfu': suffixed(LONG),
}


def with_bytes(memory, *parts):
    """The memory with these, each a place in it and bytes."""
    found = bytearray(memory)
    for at, part in parts:
        found[at:at + len(part)] = part
    return bytes(found)


# The pages of the image erased and nothing written; all but the front of the image, which is written last, and the byte that never is; and
# the wide image in its sectors.
ERASED = with_bytes(old(), (PAGE, b'\xff' * 2 * PAGE))
NO_FRONT = with_bytes(NEW_SOME, (0x400, b'\xff' * 32), (0x7ff, b'\xff'))
NEW_WIDE = with_bytes(old(1 << 20), (0xc000, b'\xff' * 0x14000), (WIDE_AT, WIDE))

STARTS, STAYS = 'The device starts its application.', 'The device stays in DFU mode.'
MAYBE = 'The device may have the old image, the new one or neither.'
THREE = {'file': 'three.dfu', 'mode': 'application', 'ending': 'started 08000400, appIDLE OK', 'shows': (STARTS,)}
STILL = {**THREE, 'mode': 'DFU mode'}
RAW = {**THREE, 'file': 'raw.bin', 'address': '0x08000400', 'shows': ('NoAddress: ', STARTS)}
UNSENT = {**STILL, 'ending': 'dfuIDLE OK, no request came'}
# As in rows.py, and behind that the file, the address that is said, whether the device is to stay and the second memory is chosen, what
# Linux has on the bus then, what the device's log says at the end, and what a person is shown.
ROWS = [
    ('DfuSe, three elements', DFUSE, True, 'Verified', NEW_SOME, 0,
     {**THREE, 'shows': (LINE, 'Internal Flash (interface 0, setting 0)', 'in DFU mode, DfuSe', STARTS)}),
    ('DfuSe, a raw image', DFUSE, True, 'Verified', NEW_RAW, 0, RAW),
    ('DfuSe, the payload of a file', DFUSE, True, 'Verified', NEW_RAW, 0, {**RAW, 'file': 'payload.dfu'}),
    ('DfuSe, it is to stay', DFUSE, True, 'Verified', NEW_SOME, 0, {**STILL, 'stays': True, 'ending': 'dfuIDLE OK', 'shows': (STAYS,)}),
    ('DfuSe, the second memory', f'{TWO} USB_SETTING=1', True, 'Verified', NEW_SOME, 0,
     {**THREE, 'file': 'second.dfu', 'shows': ('1fffc000..1fffc00f 1 page of 16 bytes r-w', 'Internal Flash (interface 0, setting 1)')}),
    ('DfuSe, a memory is chosen', f'{TWO} USB_SETTING=1', True, 'Verified', NEW_SOME, 0,
     {**THREE, 'file': 'both.dfu', 'chooses': True, 'shows': ('It has several memories. Which one?', STARTS)}),
    ('DfuSe, sectors of two sizes', f'{DFUSE} USB_IMAGE=large USB_MAPS={F4} USB_ERASE=300 USB_BUSY=5', True, 'Verified', NEW_WIDE, 0,
     {**RAW, 'file': 'wide.bin', 'address': '0x0800c400', 'ending': 'started 0800c400, appIDLE OK',
      'shows': ('08000000..0800ffff 4 pages of 16384 bytes rew', '08010000..0801ffff 1 page of 65536 bytes rew', STARTS)}),
    ('DfuSe, it stalls while it works', f'{DFUSE} USB_EARLY=stall USB_TOLD=nothing USB_ERASE=300 USB_BUSY=100', True, 'Verified', NEW_SOME,
     0, THREE),
    ('DfuSe, an erase fails', f'{DFUSE} USB_FAILS=0 USB_CODE=4', True, 'Refused by the device', old(), 0,
     {**STILL, 'ending': 'dfuERROR errERASE', 'shows': ('It says errERASE.', MAYBE)}),
    ('DfuSe, a write fails', f'{DFUSE} USB_FAILS=3', True, 'Refused by the device', ERASED, 0,
     {**STILL, 'ending': 'dfuERROR errWRITE', 'shows': ('It says errWRITE.', MAYBE)}),
    ('DfuSe, a byte is never written', f'{DFUSE} USB_LIES=080007ff', True, 'Not the same bytes', NO_FRONT, 0,
     {**STILL, 'ending': 'dfuUPLOAD-IDLE OK', 'shows': ('The device was not asked to start its application.',)}),
    ('DfuSe, it answers no more', f'{DFUSE} USB_FATE=deaf 12', True, 'No answer', ERASED, 0,
     {**STILL, 'ending': 'dfuDNLOAD-SYNC OK', 'shows': (MAYBE,)}),
    ('DfuSe, an element ends out of the map', DFUSE, True, 'OutsideTheMap', old(), 0,
     {**UNSENT, 'file': 'outside.dfu', 'shows': (LINE, 'Nothing was sent.')}),
    ('DfuSe, an address out of the map', DFUSE, True, 'OutsideTheMap', old(), 0,
     {**UNSENT, 'file': 'raw.bin', 'address': '0x08003fff', 'shows': ('NoAddress: ',)}),
    ('DfuSe, option bytes', TWO, True, 'NotErasable', old(), 0, {**UNSENT, 'file': 'option.dfu', 'shows': ('Nothing was sent.',)}),
    ('DfuSe, in run-time mode', f'{DFUSE} USB_START=app', True, 'RunTimeMode', old(), 0,
     {**UNSENT, 'mode': 'application', 'ending': 'appIDLE OK, no request came', 'shows': ('in run-time mode, DfuSe',)}),
]


def differences(wanted, mode, ending, shown):
    """What isn't as it is wanted to be, in words."""
    found = [f'{what}: {seen}, wanted {wanted[what]}' for what, seen in (('mode', mode), ('ending', ending)) if seen != wanted[what]]
    missing = [text for text in wanted['shows'] if text not in shown]
    return found + ([f'not shown: {missing}', *shown.splitlines()] if missing else [])

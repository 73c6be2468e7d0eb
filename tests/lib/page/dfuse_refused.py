"""What is refused before anything is sent to a device of DfuSe, by its name, and maps as the page shows them."""
from counting import check
from dfuse import ELEMENTS, F4, FEW, LONG, MAP, RAW, SOME, START, device, in_page, old
from files import dfuse, sealed, suffixed, text

OPTION, SECRET, FIXED = '@Option Bytes  /0x1FFFC000/01*016 e', '@Secret /0x08000000/16*001Kf', '@Fixed /0x08000000/16*001Kc'


def changed(at, *bytes_of, file=SOME):
    """The file with other bytes at a place, and with a right check sum."""
    body = bytearray(file[:-4])
    body[at:at + len(bytes_of)] = bytes(bytes_of)
    return {'file': text(sealed(bytes(body)))}


def of(*elements, setting=0, **words):
    return {'file': text(dfuse((setting, *elements), **words))}


# What, words, and the name. The places are those of files.dfuse: 11 bytes of prefix, 274 of target, and 8 before each element.
ROWS = [
    ('a raw image without an address', {'file': text(LONG)}, 'NoAddress'),
    ('a file of DFU 1.1 without one', {'file': text(suffixed(LONG))}, 'NoAddress'),
    ('in run-time mode', {'settings': device(startsInApp=True)}, 'RunTimeMode'),
    ('a DfuSe file, to a device of DFU 1.1', {'settings': {}}, 'NotDfuSe'),
    ('blocks of 4097 bytes', {'settings': device(config={'transfer': 4097})}, 'LargeBlocks'),
    ('blocks of 0 bytes', {'settings': device(config={'transfer': 0})}, 'NoTransferSize'),
    ('no download', {'settings': device(config={'attributes': 0x0a})}, 'CannotDownload'),
    ('no upload', {'settings': device(config={'attributes': 0x09})}, 'CannotUpload'),
    ('another product', of(*ELEMENTS, product=2), 'WrongTarget'),
    ('another vendor', of(*ELEMENTS, vendor=0x1208), 'WrongTarget'),
    ('a payload for another product', {**RAW, 'file': text(suffixed(LONG, product=2))}, 'WrongTarget'),
    ('a payload of no bytes', {**RAW, 'file': text(suffixed(b''))}, 'EmptyPayload'),
    ('a payload that begins as a DfuSe file', {**RAW, 'file': text(suffixed(b'DfuSe' + FEW))}, 'OwnAddress'),
    ('several settings', {'file': text(dfuse((0, *ELEMENTS), (1, *ELEMENTS)))}, 'Mixed'),
    ('another setting', of(*ELEMENTS, setting=1), 'NoSuchSetting'),
    ('an element over the edge of the map', of((START + 16381, b'\1\2\3\4')), 'OutsideTheMap'),
    ('one before it', of((START - 1, b'\1')), 'OutsideTheMap'),
    ('an address behind the map', {**RAW, 'address': 0xffffffff}, 'OutsideTheMap'),
    ('elements that overlap', of((START, FEW), (START + 39, b'\1')), 'Overlapping'),
    ('no element', of(), 'EmptyImage'),
    ('257 elements', of(*((START + 2 * at, b'\1') for at in range(257))), 'TooManyElements'),
    ('option bytes', {**of((0x1fffc000, b'\1\2'), setting=1), 'settings': device([MAP, OPTION], setting=1), 'place': {'alternate': 1}},
     'NotErasable'),
    ('option bytes, raw', {'file': text(FEW[:8]), 'address': 0x1fffc000, 'settings': device([MAP, OPTION], setting=1),
     'place': {'alternate': 1}}, 'NotErasable'),
    ('pages that can not be read', {'settings': device([SECRET])}, 'NotReadable'),
    ('pages that can not be written', {'settings': device([FIXED])}, 'NotWritable'),
    ('cut', {'file': text(SOME[:300])}, 'NoSignature'),
    ('cut in its first bytes', {'file': text(SOME[:9])}, 'TooShort'),
    ('a wrong check sum', {'file': text(SOME[:-1] + bytes([SOME[-1] ^ 1]))}, 'BadCrc'),
    ('a wrong check sum, for an address', {'file': text(SOME[:300] + SOME[301:]), 'address': START}, 'BadCrc'),
    ('the letters of another format', changed(0, 0x64), 'NoPrefix'),
    ('version 2', changed(5, 2), 'BadVersion'),
    ('another size', changed(6, 0x34), 'BadImageSize'),
    ('no targets', changed(10, 0), 'NoTargets'),
    ('a target too few', changed(10, 2), 'NoTarget'),
    ('the letters of no target', changed(11, 0x74), 'NoTarget'),
    ('another size of a target', changed(11 + 266, 0xfe), 'BadTargetSize'),
    ('an element too many', changed(11 + 270, 4), 'ElementPastTheTarget'),
    ('an element too few', changed(11 + 270, 2), 'BadTargetSize'),
    ('an element of no bytes', changed(285 + 4, 0, 0, 0, 0), 'EmptyElement'),
    ('an element past its target', changed(285 + 4, 0xff, 0xff, 0xff, 0xff), 'ElementPastTheTarget'),
    ('an element past the last address', changed(285, 0xfe, 0xff, 0xff, 0xff), 'AddressPastTheEnd'),
    ('more behind the last target', changed(10, 1, file=dfuse((0, *ELEMENTS), (0, (START, FEW)))), 'TrailingBytes'),
    ('the suffix of DFU 1.1', of(*ELEMENTS, version=0x0100), 'NoAddress'),
    ('the suffix of DFU 1.1, and a wrong check sum', {'file': text(dfuse((0, *ELEMENTS), version=0x0100)[:-1] + b'\0')}, 'NotDfuSeFile'),
    ('bLength 15', changed(len(SOME) - 5, 15), 'BadLength'),
]
# Of a map: what the page shows, or why it is none.
MAPS = [
    (F4, '08000000..0800ffff 4 pages of 16384 bytes rew,08010000..0801ffff 1 page of 65536 bytes rew,'
         '08020000..080fffff 7 pages of 131072 bytes rew'),
    ('@Option Bytes  /0x1FFFC000/01*016 e', '1fffc000..1fffc00f 1 page of 16 bytes r-w'),
    ('@Device Feature/0xFFFF0000/01*004 e', 'ffff0000..ffff0003 1 page of 4 bytes r-w'),
    ('@Option Bytes   /0x1FFF7800/01*040 e/0x1FFFF800/01*040 e', '1fff7800..1fff7827 1 page of 40 bytes r-w,'
     '1ffff800..1ffff827 1 page of 40 bytes r-w'),
    ('@B /0x08000000/8*001Ka,056*001Kg', '08000000..08001fff 8 pages of 1024 bytes r--,08002000..0800ffff 56 pages of 1024 bytes rew'),
    ('@X/0/2*3a', '00000000..00000005 2 pages of 3 bytes r--'),
    ('Flash', 'NoMap'), ('@F', 'NoMap'), ('@F/0x08000000', 'BadAddress'), ('@F/0x0/*1Kg', 'BadCount'), ('@F/0x0/1*Kg', 'BadSize'),
    ('@F/0x0/1*1Gg', 'BadType'), ('@F/0xFFFFFC00/2*1Kg', 'PastTheEnd'), ('@F/0x0/2*1Kg/0x400/1*1Kg', 'Overlaps'),
    ('@F/0x0/1*1Kg;', 'Trailing'), ('@F/0x0/' + ','.join(['1*1Kg'] * 33), 'TooManyRanges'), ('', 'NoMap'),
]


def run(browser):
    found = in_page(browser, *({'settings': device(), **words} for _, words, _ in ROWS))
    for (what, _, name), one in zip(ROWS, found):
        check(f'DfuSe, refused, {what}', (one['name'], one.get('transfers') or 0), (name, 0))
        is_old = one['image'].encode('latin1') == old() if name != 'NotDfuSe' else True
        check(f'DfuSe, refused, {what}: the memory is as it was', is_old, True)
    for text_of, wanted in MAPS:
        check(f'the map {text_of[:40]!r}', browser.run('return runs.mapLines(arguments[0])', text_of), wanted)
    # A string descriptor has 126 characters at most.
    maps = [(name, wanted) for name, wanted in MAPS if wanted.isalpha() and len(name) <= 126]
    found = in_page(browser, *({**RAW, 'settings': device([name], pages=MAP)} for name, _ in maps))
    for (name, wanted), one in zip(maps, found):
        check(f'DfuSe, the map {name[:40]!r} is refused', (one['name'], one['transfers']), (wanted, 0))

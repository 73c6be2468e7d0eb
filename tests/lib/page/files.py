"""DFU files, as text of Latin 1."""
import zlib

OLD, NEW = b'the old image', b'a new image of 26 bytes .\1'


def suffixed(payload, vendor=0x1209, product=1, version=0x0100, device=0xffff):
    numbers = (device, product, vendor, version)
    return sealed(payload + b''.join(number.to_bytes(2, 'little') for number in numbers) + b'UFD\x10')


def sealed(body):
    """With its check sum."""
    return body + ((zlib.crc32(body) ^ 0xffffffff) & 0xffffffff).to_bytes(4, 'little')


def dfuse(*targets, vendor=0x1209, product=1, version=0x011a, counts_suffix=False):
    """A DfuSe file. A target is a setting and its elements, each an address and bytes."""
    body = b''
    for setting, *elements in targets:
        parts = b''.join(address.to_bytes(4, 'little') + len(part).to_bytes(4, 'little') + part for address, part in elements)
        head = b'Target' + bytes([setting]) + (1).to_bytes(4, 'little') + b'ST...'.ljust(255, b'\0')
        body += head + len(parts).to_bytes(4, 'little') + len(elements).to_bytes(4, 'little') + parts
    size = 11 + len(body) + (16 if counts_suffix else 0)
    numbers = (0xffff, product, vendor, version)
    suffix = b''.join(number.to_bytes(2, 'little') for number in numbers) + b'UFD\x10'
    return sealed(b'DfuSe\1' + size.to_bytes(4, 'little') + bytes([len(targets)]) + body + suffix)


def text(payload):
    return payload.decode('latin1')

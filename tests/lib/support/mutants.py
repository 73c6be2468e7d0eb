"""Inputs of `dfu` as they should be, and what becomes of them: for tests/fuzz/dfu."""
import glob
import os
import re
import struct
import zlib

from usbpcap import windows

TOP = os.path.normpath(os.path.join(os.path.dirname(os.path.abspath(__file__)), "../../.."))
NUMBERS = (b"0", b"1", b"00", b"-1", b"255", b"256", b"65535", b"65536", b"4294967295", b"4294967296", b"99999999999999999999",
           b"ffff", b"")
ODD_BYTES = (0, 1, 9, 10, 13, 32, 35, 45, 48, 58, 0x53, 0x7F, 0x80, 0xFF)


def read(pattern):
    """What the files of a pattern have, in the order of their names."""
    found = []
    for path in sorted(glob.glob(os.path.join(TOP, pattern))):
        with open(path, "rb") as file:
            found.append(file.read())
    return found


def suffixed(payload, ids=(0xFFFF, 0xFFFF, 0xFFFF), version=0x0100, more=b""):
    """A DFU file: the payload and a suffix with these ids (device, product, vendor), with `more` behind the payload within it."""
    whole = payload + more + struct.pack("<4H", *ids, version) + b"UFD" + bytes((16 + len(more),))
    return whole + struct.pack("<I", zlib.crc32(whole) ^ 0xFFFFFFFF)


def fault_of(file):
    """The name of the fault that `dfu check` has to give, or nothing."""
    if len(file) > 16777216:
        return "TooLarge"
    if len(file) < 16:
        return "TooShort"
    if file[-8:-5] != b"UFD":
        return "NoSignature"
    if not 16 <= file[-5] <= len(file):
        return "BadLength"
    if file[-10:-8] == b"\x1a\x01":
        return "DfuSe"
    return "" if struct.unpack("<I", file[-4:])[0] == zlib.crc32(file[:-4]) ^ 0xFFFFFFFF else "BadCrc"


def ihex_line(kind, address, data):
    """A record of Intel HEX."""
    record = struct.pack(">BHB", len(data), address, kind) + data
    return b":" + (record + bytes((-sum(record) % 256,))).hex().upper().encode() + b"\n"


def srec_line(kind, width, address, data):
    """An S-record, whose address has so many bytes."""
    record = bytes((width + len(data) + 1,)) + address.to_bytes(width, "big") + data
    return b"S%d" % kind + (record + bytes((~sum(record) % 256,))).hex().upper().encode() + b"\n"


def ihex(parts):
    lines = [ihex_line(4, 0, struct.pack(">H", at >> 16)) + ihex_line(0, at & 0xFFFF, data) for at, data in parts]
    return b"".join(lines) + ihex_line(5, 0, b"\0\0\0\0") + ihex_line(1, 0, b"")


def srec(parts):
    lines = [srec_line(3, 4, at, data) for at, data in parts]
    return srec_line(0, 2, 0, b"name") + b"".join(lines) + srec_line(5, 2, len(lines), b"") + srec_line(7, 4, 0, b"")


def uf2(parts):
    out = b""
    for number, (at, data) in enumerate(parts):
        head = struct.pack("<8I", 0x0A324655, 0x9E5D5157, 0x2000, at, len(data), number, len(parts), 0xE48BFF56)
        out += head + data.ljust(476, b"\0") + struct.pack("<I", 0x0AB16F30)
    return out


def elf(parts):
    """A file of ELF for 32 bits, with a load segment each."""
    begins = 52 + 32 * len(parts)
    heads, body = b"", b""
    for at, data in parts:
        heads += struct.pack("<8I", 1, begins + len(body), at, at, len(data), len(data), 5, 1)
        body += data
    head = b"\x7fELF\1\1\1" + bytes(9) + struct.pack("<HHIIIIIHHHHHH", 2, 40, 1, 0, 52, 0, 0, 52, 32, len(parts), 0, 0, 0)
    return head + heads + body


def image_of(dice):
    """An image in a format that builds produce, and the name of the format."""
    at, parts = dice.choice((0, 0x100, 0x08000000, 0xFFFFFF00)), []
    for _ in range(dice.choice((1, 1, 2, 4))):
        data = dice.randbytes(dice.choice((1, 16, 32, 128)))
        parts.append((at, data))
        at = (at + len(data) + dice.choice((0, 0, 1, 300))) % 0xFFFFFFFF
    kind, make = dice.choice((("ihex", ihex), ("srec", srec), ("uf2", uf2), ("elf", elf)))
    return kind, make(parts)


def summed(text):
    """The text with the last two digits of each record as its checksum wants them."""
    lines = []
    for line in text.split(b"\n"):
        try:
            if line[:1] == b":":
                record = bytes.fromhex(line[1:-2].decode())
                line = line[:-2] + b"%02X" % (-sum(record) % 256)
            elif line[:1] == b"S":
                record = bytes.fromhex(line[2:-2].decode())
                line = line[:-2] + b"%02X" % (~sum(record) % 256)
        except ValueError:
            pass
        lines.append(line)
    return b"\n".join(lines)


def crc_mended(file):
    """The file with the dwCRC that its bytes want."""
    return file[:-4] + struct.pack("<I", zlib.crc32(file[:-4]) ^ 0xFFFFFFFF) if len(file) >= 16 else file


def captures():
    """Captures of usbmon and of USBPcap, pcap and pcapng."""
    found = read("examples/captures/*.pcap")
    found += [windows(pcap, staged) for pcap in found for staged in (False, True)]
    return [pcap for pcap in found if len(pcap) < 24000] + [blocks(pcap) for pcap in found[:6]]


def blocks(pcap):
    """A capture as pcapng."""
    out = struct.pack("<IIIHHqI", 0x0A0D0D0A, 28, 0x1A2B3C4D, 1, 0, -1, 28)
    out += struct.pack("<IIHHII", 1, 20, *struct.unpack("<I", pcap[20:24]), 0, 0, 20)
    at = 24
    while at < len(pcap):
        size, = struct.unpack("<I", pcap[at + 8:at + 12])
        data = pcap[at + 16:at + 16 + size] + bytes(-size % 4)
        out += struct.pack("<7I", 6, 32 + len(data), 0, 0, 0, size, size) + data + struct.pack("<I", 32 + len(data))
        at += 16 + size
    return out


def change_bytes(dice, data, other):
    """One change of bytes."""
    at = dice.randrange(len(data) + 1)
    end = min(len(data), at + dice.choice((1, 1, 2, 4, 16, 100)))
    kind = dice.randrange(8)
    if kind == 0 and at < len(data):
        return data[:at] + bytes((data[at] ^ 1 << dice.randrange(8),)) + data[at + 1:]
    if kind == 1:
        return data[:at] + bytes((dice.choice(ODD_BYTES),)) + data[at + 1:]
    if kind == 2:
        return data[:at] + data[end:]
    if kind == 3:
        return data[:end] + data[at:end] * dice.choice((1, 1, 2, 50)) + data[end:]
    if kind == 4:
        return data[:at] + dice.randbytes(end - at) + data[end:]
    if kind == 5:
        return data[:at] + dice.randbytes(dice.choice((1, 4, 16))) + data[at:]
    if kind == 6:
        return data[:at] + other[dice.randrange(len(other) + 1):]
    return data[:at] if dice.random() < 0.5 else data[at:]


def change_lines(dice, data, other):
    """One change of lines, of their words or of a number."""
    lines, others = data.split(b"\n"), other.split(b"\n")
    at = dice.randrange(len(lines))
    kind = dice.randrange(7)
    if kind == 0:
        lines[at] = dice.choice(others)
    elif kind == 1:
        lines.insert(at, dice.choice(others))
    elif kind == 2:
        del lines[at]
    elif kind == 3:
        lines[at] = re.sub(rb"\b[0-9a-f]+\b", lambda it: dice.choice(NUMBERS) if dice.random() < 0.4 else it[0], lines[at])
    elif kind == 4:
        words = lines[at].split(b" ")
        words[dice.randrange(len(words))] = dice.choice(dice.choice(others).split(b" "))
        lines[at] = b" ".join(words)
    elif kind == 5:
        return data.replace(b"\n", dice.choice((b"\r\n", b"\r", b"\n\n", b" \n")))
    else:
        end = dice.randrange(at, len(lines))
        lines[at:at] = lines[at:end + 1] * dice.choice((1, 1, 3))
    return b"\n".join(lines)


def mutant(dice, data, other, is_text):
    """The data after some changes, or as it is in one case of ten. No mutant is over 256 KiB."""
    for _ in range(dice.choice((0, 1, 1, 1, 1, 2, 2, 3, 5, 9))):
        change = change_lines if is_text and dice.random() < 0.6 else change_bytes
        data = change(dice, data, other)[:262144]
    return data

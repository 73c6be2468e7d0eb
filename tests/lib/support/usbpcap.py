"""A capture of usbmon as USBPcap would have it, so that one recorder's captures test the reader of the other's."""
import struct

SETUP, DATA, STATUS, COMPLETE = range(4)
CONTROL, BULK = 2, 3
STALL = 0xC0000004


def packet(urb, back, stage, data, status=0):
    """A packet of a control transfer, with the header of USBPcap."""
    ident, bus, device = urb
    head = struct.pack("<HQIHBHHBBIB", 28, ident, status, 8, int(back), bus, device, 0x80 if back else 0, CONTROL, len(data), stage)
    return head + data


def other(urb):
    """A packet of another transfer."""
    ident, bus, device = urb
    return struct.pack("<HQIHBHHBBI", 27, ident, 0, 9, 0, bus, device, 1, BULK, 0)


def submission(urb, setup, body, staged):
    if staged and body:
        return [packet(urb, False, SETUP, setup), packet(urb, False, DATA, body)]
    return [packet(urb, False, SETUP, setup + body)]


def completion(urb, setup, data, status, staged):
    if not staged:
        return [packet(urb, True, COMPLETE, data, status)]
    ended = packet(urb, True, STATUS, b"", status)
    return [packet(urb, True, DATA, data, status), ended] if setup[0] >= 128 and data else [ended]


def records(pcap):
    """The packets of a capture of pcap, in the order of bytes of this computer."""
    at = 24
    while at < len(pcap):
        size, = struct.unpack("<I", pcap[at + 8:at + 12])
        yield pcap[at + 16:at + 16 + size]
        at += 16 + size


def convert(event, pending, staged):
    """What an event of usbmon is as packets of USBPcap. SET_ADDRESS becomes SET_CONFIGURATION at the address, since that is what Windows
    shows of a reset, and SET_CONFIGURATION is left out."""
    ident, kind, transfer, endpoint, device, bus, no_setup = struct.unpack("<QcBBBHB", event[:15])
    status, _, captured = struct.unpack("<iII", event[28:40])
    urb, data = (ident, bus, device), event[64:64 + captured]
    if transfer != 2 or endpoint % 128:
        return [other(urb)]
    if kind == b"S" and no_setup == 0:
        setup = event[40:48]
        if setup[:2] == b"\0\x09":
            return [other(urb)]
        if setup[:2] == b"\0\x05":
            urb, setup = (ident, bus, setup[2]), b"\0\x09\1\0\0\0\0\0"
        pending[ident] = urb, setup
        return submission(urb, setup, data, staged)
    if ident not in pending:
        return [other(urb)]
    urb, setup = pending.pop(ident)
    return completion(urb, setup, data, {0: 0, -32: STALL}.get(status, 0xC0010000), staged)


def windows(pcap, staged):
    """The capture with packets of USBPcap. `staged`: each stage of a transfer has a packet, as before USBPcap 1.5; else two packets are a
    transfer, as since then."""
    pending, out = {}, pcap[:20] + struct.pack("<I", 249)
    for event in records(pcap):
        for made in convert(event, pending, staged):
            out += struct.pack("<IIII", 0, 0, len(made), len(made)) + made
    return out

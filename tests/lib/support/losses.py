"""Captures in which packets are missing or doubled, or other devices use the same ids, and the log that each has to give."""
import random
import struct
from typing import NamedTuple

import usbpcap

USBMON, WINDOWS, STAGED = range(3)
UPLOAD = b"\xa1\2"
GETSTATUS, GETSTATE, ABORT = (bytes.fromhex(text) for text in ("a103000000000600", "a105000000000100", "2106000000000000"))
# Requests of other devices, also of their classes: a descriptor, a report each way, a number of units, and how a line is set.
OTHERS = [bytes.fromhex(text) for text in
          ("8006000100001200", "2109000200000800", "a101000100000600", "a1fe000000000100", "2120000000000700")]


class Transfer(NamedTuple):
    """A control transfer as it truly was: its packets in any capture follow from it. `status` is 0, -32 of a stall, or another fault."""

    number: int
    ident: int
    bus: int
    device: int
    setup: bytes
    body: bytes
    status: int
    data: bytes

    def is_in(self):
        return self.setup[0] >= 128

    def wanted(self):
        return self.setup[6] + 256 * self.setup[7]


class Packet(NamedTuple):
    """A packet, the transfer that it is of (or none), and what it does: 'S' submits, 'D' has the bytes of the host, 'C' completes, with
    the bytes of the device, and 'E' ends it, without them."""

    transfer: Transfer
    does: str
    data: bytes


def usbmon(transfer, kind, setup=True, length=None):
    """A packet of usbmon, of link type 220. `kind` is b"S" or b"C"."""
    done = kind == b"C"
    data = transfer.data if done else transfer.body
    status = transfer.status if done else -115
    if length is None:
        length = (len(data) if transfer.is_in() or transfer.status else transfer.wanted()) if done else transfer.wanted()
    no_setup = 0 if setup and not done else 0x2D
    head = struct.pack("<QcBBBHBBqiiII", transfer.ident, kind, 2, 128 if transfer.is_in() and transfer.wanted() else 0, transfer.device,
                       transfer.bus, no_setup, 0 if data else 0x3C, 0, 0, status, length, len(data))
    return head + (bytes(8) if done else transfer.setup) + bytes(16) + data


def pcap(link, packets):
    """A capture with these packets."""
    out = struct.pack("<IHHiIII", 0xA1B2C3D4, 2, 4, 0, 0, 65535, link)
    return out + b"".join(struct.pack("<IIII", 0, 0, len(one), len(one)) + one for one in packets)


def request(ident, where, text, data=b"", status=0, number=0):
    """A transfer by the text of its setup and body; `where` is the bus and the device."""
    setup, _, body = text.partition(" ")
    return Transfer(number, ident, *where, bytes.fromhex(setup), bytes.fromhex(body), status, data)


def three():
    """Three captures in which an id is used again after a packet that is missing, each with its verdict."""
    idle = request(1, (1, 9), "a103000000000600", bytes.fromhex("000000000200"))
    lost, other = (request(2, where, "2101000000000800 0102030405060708") for where in ((1, 9), (1, 5)))
    both = [usbmon(idle, b"S"), usbmon(idle, b"C")]
    yield "another device's completion", both + [usbmon(lost, b"S"), usbmon(other, b"C")] + both, "kept events 2 single 2 states dfuIDLE\n"
    given, next_one = request(1, (1, 0), "0005090000000000"), request(1, (1, 9), "2106000000000000")
    yield "no reset", both + [usbmon(given, b"S"), usbmon(next_one, b"C")] + both, "kept events 2 single 2 states dfuIDLE\n"
    state = request(7, (1, 9), "a105000000000100", b"\5")
    end = request(8, (1, 9), "2101000000000000")
    packets = [usbmon(state, b"S"), usbmon(idle._replace(ident=8), b"S"), usbmon(state, b"C"), usbmon(end, b"S"), usbmon(end, b"C")]
    last = usbmon(end, b"C", length=8)
    yield "an id that is used again", packets + [last], "kept events 2 single 1 states dfuMANIFEST-SYNC dfuERROR\n"


def read(given):
    """The packets of a capture of usbmon that lacks none."""
    found, pending = [], {}
    for number, event in enumerate(usbpcap.records(given)):
        ident, kind, kind_of, endpoint, device, bus = struct.unpack("<QcBBBH", event[:14])
        status, _, captured = struct.unpack("<iII", event[28:40])
        data = event[64:64 + captured]
        if kind_of != 2 or endpoint % 128:
            found.append(Packet(None, "", event))
        elif kind == b"S":
            pending[ident] = len(found)
            found.append(Packet(Transfer(number, ident, bus, device, event[40:48], data, 0, b""), "S", event))
        elif ident in pending:
            began = pending.pop(ident)
            whole = found[began].transfer._replace(status=status, data=data)
            found[began] = found[began]._replace(transfer=whole)
            found.append(Packet(whole, "C", event))
    return found


def answered(dice, number, ident, device, setup):
    """A transfer of a device that waits in dfuIDLE, the one with the number 9, or of another one."""
    body = b"" if setup[0] >= 128 else bytes(dice.randrange(256) for _ in range(setup[6]))
    if device == 9:
        data = {GETSTATUS: bytes((0, 0, 0, 0, 2, 0)), GETSTATE: b"\2"}.get(setup, b"")
        return Transfer(number, ident, 1, device, setup, body, 0, data)
    status = dice.choice((0, 0, 0, -32, -2))
    data = b"" if status or setup[0] < 128 else bytes(dice.randrange(256) for _ in range(dice.randrange(setup[6] + 1)))
    return Transfer(number, ident, 1, device, setup, body, status, data)


def made(dice):
    """A session that may lack any request and stays right: the device waits in dfuIDLE, and others use the same ids."""
    found, pending = [], {}
    for number in range(dice.randrange(6, 30)):
        ident = dice.randrange(1, 4)
        if ident in pending:
            found.append(Packet(pending.pop(ident), "C", b""))
        device = dice.choice((9, 9, 5, 7, 0))
        if any(one.device == 9 for one in pending.values()):
            device = 5
        setup = dice.choice((GETSTATUS, GETSTATUS, GETSTATE, ABORT) if device == 9 else OTHERS)
        pending[ident] = answered(dice, number, ident, device, setup)
        found.append(Packet(pending[ident], "S", b""))
    return found + [Packet(one, "C", b"") for one in pending.values()]


def crowded(dice, packets):
    """The packets, with transfers of other devices between those of each id."""
    found, used = [], set()
    for packet in packets:
        found.append(packet)
        if packet.does == "S":
            used.add(packet.transfer.ident)
        if packet.does == "C" and dice.random() < 0.3:
            one = answered(dice, 1_000_000 + len(found), packet.transfer.ident, dice.choice((101, 102)), dice.choice(OTHERS))
            found += [Packet(one, "S", b""), Packet(one, "C", b"")]
    return found


def written(packets, form):
    """The packets as a recorder of this form writes them."""
    for packet in packets:
        one = packet.transfer
        if form == USBMON or one is None:
            data = packet.data or usbmon(one, packet.does.encode())
            yield packet._replace(data=data if form == USBMON else usbpcap.other((0, 0, 0)))
            continue
        if one.setup[:2] == b"\0\x05":
            one = one._replace(device=one.setup[2], setup=b"\0\x09\1\0\0\0\0\0")
        elif one.setup[:2] == b"\0\x09":
            continue
        urb = one.ident, one.bus, one.device
        if packet.does == "S":
            parts = zip("SD", usbpcap.submission(urb, one.setup, one.body, form == STAGED))
        else:
            status = {0: 0, -32: usbpcap.STALL}.get(one.status, 0xC0010000)
            ended = usbpcap.completion(urb, one.setup, one.data, status, form == STAGED)
            parts = zip("CE" if len(ended) == 2 or form != STAGED else "E", ended)
        for does, data in parts:
            yield Packet(one, does, data)


def misses(dice, packets, form, rate):
    """The packets without some of them, and with others twice. A completion is left out, too, if nothing tells it from that of an earlier
    request: the same device, id and direction, and no more bytes than that one asks for. What shows a reset is never left out."""
    last = {}
    for packet in packets:
        one = packet.transfer
        if one is None or not packet.does:
            yield packet
            continue
        if one.setup[0] != 0 and dice.random() < rate:
            continue
        key = one.bus, one.ident
        began = last.get(key)
        if packet.does == "S":
            last[key] = one
        elif began and began.number != one.number and began.device == one.device:
            size = len(one.data) if packet.does == "C" else 0
            if (form != USBMON or began.is_in() == one.is_in()) and size <= began.wanted():
                continue
        if packet.does in ("C", "E"):
            last.pop(key, None)
        yield packet
        if dice.random() < 0.1:
            yield packet


def line(one, body):
    """The line of a request and its answer."""
    if one.status == -32:
        answer = "stall"
    elif one.status:
        answer = "nothing"
    else:
        answer = one.data.hex() if one.is_in() and one.data else "ack"
    return f"{one.setup.hex()} {body.hex() or '-'} {answer}\n"


def log(packets, form):
    """The log of these packets: line N is the transfer that packet N completes, if its submission is there, too."""
    began, lines, known = {}, [], set()
    for packet in packets:
        one = packet.transfer
        lines.append((None, "\n"))
        if packet.does == "S":
            began[one.number] = b"" if form == STAGED or one.is_in() else one.body
        elif packet.does == "D" and one.number in began:
            began[one.number] = one.body
        elif packet.does in ("C", "E") and one.number in began:
            body = began.pop(one.number)
            if packet.does == "E" and one.is_in() and not one.status:
                if one.wanted() and one.setup[:2] != UPLOAD:
                    continue
                one = one._replace(data=b"")
            if one.setup[:2] in (b"\0\x05", b"\0\x09"):
                if one.setup[1] == 5 or form != USBMON:
                    lines[-1] = ((one.bus, one.setup[2] if one.setup[1] == 5 else one.device), "reset\n")
            elif one.setup[0] in (0x21, 0xA1):
                lines[-1] = ((one.bus, one.device), line(one, body))
                if one.setup in (GETSTATUS, GETSTATE) or one.setup[:2] == b"\x21\0" and one.wanted() == 0:
                    known.add((one.bus, one.device))
    return "".join(text if where in known else "\n" for where, text in lines).encode()


def cases(count, seed, sessions):
    """So many captures, each with its name, the log that it has to give, and whether any device of it stays right without a request.
    `sessions` are captures of usbmon that lack no packet."""
    dice = random.Random(seed)
    whole = [read(given) for given in sessions]
    for number in range(count):
        form = dice.choice((USBMON, USBMON, WINDOWS, STAGED))
        is_made = dice.random() < 0.6
        packets = made(dice) if is_made else crowded(dice, dice.choice(whole))
        rate = dice.choice((0.02, 0.1, 0.3))
        left = list(misses(dice, list(written(packets, form)), form, rate))
        wanted = log(left, form)
        if wanted.strip():
            link = 220 if form == USBMON else 249
            yield f"capture {number} of seed {seed}", pcap(link, [packet.data for packet in left]), wanted, is_made

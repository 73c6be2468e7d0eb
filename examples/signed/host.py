"""A host that makes each transfer by hand, over the serial line of ../microcontroller, and sees each status that comes."""
import os
import socket
import time

PATIENCE = 60  # seconds: nothing takes as long
SETUP, RESET, ABOUT, ANSWER, STALL, TEXT = 1, 2, 3, 4, 5, 6
DETACH, DNLOAD, UPLOAD, GETSTATUS, CLRSTATUS = 0, 1, 2, 3, 4
APP_IDLE, IDLE, DNLOAD_IDLE, ERROR = 0, 2, 5, 10
BLOCK = 256


class Wrong(Exception):
    """What was seen is not what has to be."""


def check_of(frame):
    """The CRC-16 of frames.c."""
    check = 0xffff
    for byte in frame:
        check ^= byte << 8
        for _ in range(8):
            check = (check << 1 ^ 0x1021 if check & 0x8000 else check << 1) & 0xffff
    return check


class Host:
    """The line, which QEMU connects to."""

    def __init__(self, folder):
        self.path = os.path.join(folder, "line")
        if os.path.exists(self.path):
            os.remove(self.path)
        self.listening = socket.socket(socket.AF_UNIX)
        self.listening.bind(self.path)
        self.listening.listen(1)
        self.line, self.rest, self.number, self.texts = None, b"", 0, []

    def connect(self):
        """The machine has begun."""
        self.line, _ = self.listening.accept()

    def close(self):
        """The line is not used any more."""
        for it in self.line, self.listening:
            if it:
                it.close()

    def _frame(self, until):
        """The next frame that is whole, or None."""
        while True:
            raw, found, rest = self.rest.partition(b"\xc0")
            if found:
                self.rest = rest
                frame = raw.replace(b"\xdb\xdc", b"\xc0").replace(b"\xdb\xdd", b"\xdb")
                if len(frame) >= 4 and check_of(frame) == 0:
                    return frame[:-2]
                continue
            self.line.settimeout(max(until - time.monotonic(), 0.001))
            try:
                self.rest += self.line.recv(4096)
            except TimeoutError:
                return None

    def ask(self, kind, data=b"", seconds=PATIENCE):
        """Sends a frame: the bytes of its answer, STALL, or None if none comes."""
        self.number = (self.number + 1) % 256
        frame = bytes((kind, self.number)) + data
        frame += check_of(frame).to_bytes(2, "big")
        self.line.sendall(b"\xc0" + frame.replace(b"\xdb", b"\xdb\xdd").replace(b"\xc0", b"\xdb\xdc") + b"\xc0")
        until = time.monotonic() + seconds
        while True:
            came = self._frame(until)
            if came is None:
                return None
            if came[0] == TEXT:
                self.texts.append(came[2:].decode())
            elif came[1] == self.number:
                return STALL if came[0] == STALL else came[2:]

    def says(self, *wanted):
        """Waits until these texts came, one after the other, and nothing between them."""
        until = time.monotonic() + PATIENCE
        while len(self.texts) < len(wanted):
            came = self._frame(until)
            if came is None:
                raise Wrong(f"wanted {wanted}, and it says {self.texts}")
            if came[0] == TEXT:
                self.texts.append(came[2:].decode())
        found, self.texts = tuple(self.texts[:len(wanted)]), self.texts[len(wanted):]
        if found != wanted:
            raise Wrong(f"wanted {wanted}, and it says {found}")

    def request(self, kind, what, value=0, length=0, data=b""):
        """A control transfer."""
        count = len(data) or length
        return self.ask(SETUP, bytes((kind, what)) + value.to_bytes(2, "little") + b"\0\0" + count.to_bytes(2, "little") + data)

    def status(self):
        """bStatus and bState."""
        answer = self.request(0xa1, GETSTATUS, length=6)
        return (answer[0], answer[4]) if isinstance(answer, bytes) else answer

    def detach(self):
        """From the image to the upgrade, which begins in dfuIDLE."""
        if self.request(0x21, DETACH, 1000) != b"" or self.ask(RESET) != b"":
            raise Wrong("it does not detach")
        self.expect_state(IDLE)

    def expect_state(self, state):
        """Asks until the device answers, which may begin anew, and has this state."""
        found, until = None, time.monotonic() + PATIENCE
        while found != (0, state):
            if time.monotonic() > until:
                raise Wrong(f"wanted state {state}, found {found}")
            if self.ask(ABOUT, seconds=0.3) is not None:
                found = self.status()

    def upload(self):
        """The active image."""
        image, number = b"", 0
        while True:
            some = self.request(0xa1, UPLOAD, number, BLOCK)
            if not isinstance(some, bytes):
                raise Wrong(f"an upload gives {some}")
            image, number = image + some, number + 1
            if len(some) < BLOCK:
                return image

    def download(self, image):
        """Sends an image and closes: the answer to the close."""
        for number, at in enumerate(range(0, len(image), BLOCK)):
            if self.request(0x21, DNLOAD, number, data=image[at:at + BLOCK]) != b"":
                raise Wrong("a block is not taken")
            found, until = None, time.monotonic() + PATIENCE
            while found != (0, DNLOAD_IDLE):
                found = self.status()
                if found[0] != 0 or time.monotonic() > until:
                    raise Wrong(f"a block leads to {found}")
        return self.request(0x21, DNLOAD, (len(image) + BLOCK - 1) // BLOCK)

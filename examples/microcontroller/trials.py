"""A board whose new images run on trial: what begins at each power-on, and the power that goes within each write."""
import os
import socket
import threading

from flasher import Flasher, Wrong
from machine import FLASH, Machine
from pulls import Built, Trial

END, ESCAPES = 0xc0, {b"\xdb\xdc": b"\xc0", b"\xdb\xdd": b"\xdb"}
TEXT = 6  # a frame that an image or the bootloader says
SLOTS, PAGE, UNIT, MARKS = (0x5400, 0x18c00), 1024, 16, 4  # where the slots begin; the marks of a confirmation and three starts


class Listener:
    """What is said over the serial line, where no host is at work; over once it said `until`."""

    def __init__(self, folder, until):
        self.line, self.until, self.said, self.is_over = os.path.join(folder, "line"), until, [], False
        if os.path.exists(self.line):
            os.remove(self.line)
        self.over = threading.Event()
        self.server = socket.socket(socket.AF_UNIX)
        self.server.bind(self.line)
        self.server.listen(1)
        threading.Thread(target=self._read, daemon=True).start()

    def _read(self):
        peer, _ = self.server.accept()
        rest = b""
        while True:
            try:
                got = peer.recv(4096)
            except OSError:
                return
            if not got:
                return
            *frames, rest = (rest + got).split(bytes((END,)))
            for frame in frames:
                for escape, byte in ESCAPES.items():
                    frame = frame.replace(escape, byte)
                if len(frame) > 4 and frame[0] == TEXT:
                    self._hear(frame[2:-2].decode("ascii", "replace"))

    def _hear(self, text):
        self.said.append(text)
        if text.startswith("image ") and self.until in text:
            self.is_over = True
            self.over.set()

    def wait(self, seconds):
        """Until that was said."""
        if not self.over.wait(seconds):
            raise Wrong(f"nothing said {self.until}, but {self.said}")

    def close(self):
        """Nothing more is heard."""
        self.server.close()


class AllBuilt(Built):
    """Images 1 and 2 confirm themselves, image 3 never does, and image 4 comes to a fault."""

    def __init__(self, room):
        super().__init__(room)
        self.images = {number: self.file(f"image{number}.bin") for number in "1234"}


class Board(Trial):
    """A board with images on trial."""
    starts = 0

    def boot(self, until=" at ", cut=None):
        """Power comes: which image begins, and how many starts it has left, None if it is not on trial. Or where the power went."""
        listener = Listener(self.folder, until)
        machine = Machine(self.flash, listener.line, self.folder)
        try:
            if cut is not None:
                what, self.flash = cut(machine, listener)
                return what
            machine.run()
            listener.wait(60)
            machine.stop()
            self.look_at_stack(machine)
            self.flash = machine.read(0, FLASH)
        finally:
            machine.kill()
            listener.close()
        begins = [text for text in listener.said if " at " in text]
        number = self.image_of("device: " + begins[-1], "1234")
        left = [text for text in listener.said if text.startswith("trial, ")]
        return number, int(left[-1].split()[1]) if left else None

    def writes(self, until=" at "):
        """Which writes this power-on makes, up to there; the flash stays as it was."""
        before, kinds = self.flash, []

        def count(machine, listener):
            kinds.extend(kind for kind, _, _ in self.stops(machine, listener))
            return "", machine.read(0, FLASH)
        self.boot(until, count)
        self.flash = before
        return kinds

    def starts_in(self, slot):
        """How many starts the flash has marked of the image in this slot; a mark that is broken off counts if any bit of it is written."""
        at = SLOTS[slot] + PAGE + 2 * UNIT
        return sum(self.flash[at + UNIT * i:at + UNIT * (i + 1)] != b"\xff" * UNIT for i in range(MARKS - 1))

    def unmarked(self, slot):
        """The flash, with no mark in this slot: its image is neither confirmed nor was it started."""
        at = SLOTS[slot] + PAGE + UNIT
        return self.flash[:at] + b"\xff" * (UNIT * MARKS) + self.flash[at + UNIT * MARKS:]

    def install(self, number, cut=None, goes_on=True):
        """A session that brings an image, with a loss of power by `cut`: how it ended, and what began after the loss. Or it ends with
        that loss. `starts` is then how many starts were marked in the first slot as the power went."""
        flasher = Flasher(self.built.path("flasher"), self.built.path(f"image{number}.dfu"), self.folder)
        machine = Machine(self.flash, flasher.line, self.folder)
        began = None
        try:
            if cut is None:
                machine.run()
            else:
                _, self.flash = cut(machine, flasher)
                self.starts = self.starts_in(0)
                machine.kill()
                line = flasher.expect("gone", "report")
                if line != "gone" or not goes_on:
                    return line, None
                machine = Machine(self.flash, flasher.line, self.folder)
                machine.run()
                said = flasher.expect("device: image ")
                machine.stop()
                self.flash = machine.read(0, FLASH)
                began = self.image_of(said, "1234")
                machine.run()
            line = flasher.expect("report")
            if line == "report verified":
                flasher.expect_ticks(number)
            machine.stop()
            self.look_at_stack(machine)
            self.flash = machine.read(0, FLASH)
        finally:
            machine.kill()
            flasher.kill()
        return line, began

    def marking(self, number):
        """Which writes of a session that brings an image to the first slot mark a start of it; the flash stays as it was."""
        before, at, found = self.flash, SLOTS[0] + PAGE + 2 * UNIT, []

        def look(machine, flasher):
            for turn, (_, place, _) in enumerate(self.stops(machine, flasher)):
                if place.start < at:
                    found.clear()  # (before the header of this image)
                elif place.start < at + UNIT * (MARKS - 1):
                    found.append(turn)
            return "", machine.read(0, FLASH)
        self.install(number, look)
        self.flash = before
        return found

    def gives_way(self, trial, base, most):
        """The image on trial begins at most so many times, and then the base, for good: how many times."""
        count = 0
        while True:
            number, _ = self.boot()
            if number == base:
                break
            count += 1
            if number != trial or count > most:
                raise Wrong(f"image {number} begins, {count} times, and {trial} may {most} times")
        again = self.boot()
        if again != (base, None):
            raise Wrong(f"{again} begins after image {base} came back")
        return count

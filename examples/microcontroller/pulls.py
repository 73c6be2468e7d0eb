"""Sessions that install two images in turn, and the power that goes within them."""
import os
import random
import subprocess
import time

from flasher import Flasher, Wrong
from machine import FLASH, Machine

STACK_PATTERN = b"\xa5\xa5\xa5\xa5"
# The two functions of device/flash.c that change the flash, and how many milliseconds the part takes for each.
WRITES = {"flash_erase_page": ("erase", 22.3), "flash_write_word": ("word", 0.0463)}
TIMES = dict(WRITES.values())


class Built:
    """What the build made, and where it put some names of the bootloader."""

    def __init__(self, room):
        self.room = room
        self.images = {number: self.file(f"image{number}.bin") for number in "12"}
        lines = subprocess.run(["arm-none-eabi-nm", self.path("bootloader")], check=True, capture_output=True, text=True).stdout
        self.names = {name: int(value, 16) for value, _, name in (line.split() for line in lines.splitlines() if len(line.split()) == 3)}

    def path(self, name):
        """Where a file of the build is."""
        return os.path.join(self.room, name)

    def file(self, name):
        """What it has."""
        with open(self.path(name), "rb") as file:
            return file.read()


class Trial:
    """A board between two sessions: its flash, the image that is active, and what was counted."""

    def __init__(self, built, folder, seed):
        self.built, self.folder, self.seed, self.dice = built, folder, seed, random.Random(seed)
        self.flash, self.active = built.file("flash.bin"), "1"
        self.plans, self.deepest, self.counts = {}, 0, {}

    def other(self):
        """The image that is to be installed."""
        return "2" if self.active == "1" else "1"

    def image_of(self, said, numbers):
        """Which of these images says this as it begins; it is whole, and the flash has it there."""
        words = said.split()
        if len(words) < 5 or words[2] not in numbers or not said.endswith(", whole"):
            raise Wrong(f"image {' or '.join(numbers)} is to begin, and this did: {said}")
        image, place = self.built.images[words[2]], int(words[4].rstrip("h,"), 16)
        if self.flash[place:place + len(image)] != image:
            raise Wrong(f"the flash at {place:x} is not image {words[2]}")
        return words[2]

    def look_at_stack(self, machine):
        """How deep the bootloader's stack went in a machine that is stopped."""
        begins, end = self.built.names["__stack_begins"], self.built.names["__stack"]
        stack = machine.read(begins, end - begins)
        unused = 0
        while stack[unused:unused + 4] == STACK_PATTERN:
            unused += 4
        if unused == 0:
            raise Wrong("the bootloader's stack is full")
        self.deepest = max(self.deepest, len(stack) - unused)

    def stops(self, machine, flasher):
        """Runs the machine until the session is over, and gives each write of flash before which it stops: its kind, its bytes and, of a
        word, what is written."""
        for name in WRITES:
            machine.break_at(self.built.names[name])
        machine.run()
        while not flasher.is_over:
            if not machine.wait(0.1):
                continue
            where, first, second = machine.register(15), machine.register(0), machine.register(1)
            if where == self.built.names["flash_erase_page"]:
                yield "erase", range(first, first + 1024), None
            else:
                yield "word", range(first, first + 4), second
            machine.step()
            machine.run()
        machine.stop()

    def torn(self, flash, place, word):
        """Flash in which this write was broken off: any bytes in the page, or some of the bits of the word, or all, or none."""
        if word is None:
            broken = self.dice.randbytes(len(place))
        else:
            there = int.from_bytes(flash[place.start:place.stop], "little")
            broken = (there & (word | self.dice.getrandbits(32))).to_bytes(4, "little")
        return flash[:place.start] + broken + flash[place.stop:]

    def at_write(self, turn, is_torn):
        """A cut before the write of that number, or within it."""
        def cut(machine, flasher):
            for made, (kind, place, word) in enumerate(self.stops(machine, flasher)):
                if made < turn:
                    continue
                flash = machine.read(0, FLASH)
                if is_torn:
                    return f"within {'an erase' if kind == 'erase' else 'the write of a word'}", self.torn(flash, place, word)
                return f"before {'an erase' if kind == 'erase' else 'the write of a word'}", flash
            return "", machine.read(0, FLASH)
        return cut

    def after(self, seconds):
        """A cut after so much time."""
        def cut(machine, _):
            machine.run()
            time.sleep(seconds)
            machine.stop()
            return "at any moment", machine.read(0, FLASH)
        return cut

    def moment(self, turn):
        """The next cut: of four, one is before a write, one within one, as likely as the part takes long for it, and two at any time."""
        kinds, seconds = self.plans[self.other()]
        if turn % 4 >= 2:
            return self.after(self.dice.random() * seconds)
        weights = [TIMES[kind] if turn % 4 == 1 else 1 for kind in kinds]
        return self.at_write(self.dice.choices(range(len(kinds)), weights)[0], turn % 4 == 1)

    def measure(self):
        """A session in which nothing happens: which writes it makes, and how long it takes."""
        kinds, stopped = [], [0.0]

        def cut(machine, flasher):
            began = time.monotonic()
            for kind, _, _ in self.stops(machine, flasher):
                kinds.append(kind)
            stopped[0] = time.monotonic() - began
            return "", machine.read(0, FLASH)

        new = self.other()
        if self.session(cut):
            raise Wrong("the session was not over")
        # (a stop at a write takes some 0.3 ms, and a session is cut in its time)
        self.plans[new] = kinds, stopped[0] * 0.8

    def session(self, cut):
        """Installs the other image, with a loss of power by `cut`: whether the power went before the session was over."""
        new = self.other()
        flasher = Flasher(self.built.path("flasher"), self.built.path(f"image{new}.dfu"), self.folder)
        machine = Machine(self.flash, flasher.line, self.folder)
        try:
            what, self.flash = cut(machine, flasher)
            self.look_at_stack(machine)
            machine.kill()
            line = flasher.expect("gone", "report")
            is_cut = line == "gone"
            if is_cut:
                machine = Machine(self.flash, flasher.line, self.folder)
                machine.run()
                said = flasher.expect("device: image ")
                # (the bootloader has brought the run area to it by now)
                machine.stop()
                self.flash = machine.read(0, FLASH)
                machine.run()
                first = self.image_of(said, (self.active, new))
                line = flasher.expect("report")
                if line == "report verified":
                    flasher.expect_ticks(new)
                machine.stop()
                self.look_at_stack(machine)
                self.flash = machine.read(0, FLASH)
                self.count(what, "the new image" if first == new else "the old image")
            if line != "report verified":
                raise Wrong(line)
            self.image_of(flasher.began, (new,))
        finally:
            machine.kill()
            flasher.kill()
        self.active = new
        return is_cut

    def count(self, what, began):
        """A loss of power, and which image began then."""
        self.counts[what, began] = self.counts.get((what, began), 0) + 1

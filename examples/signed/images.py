"""The images that are offered: signed by sign.py, and what is made of them."""
import os
import struct
import subprocess
import sys
import zlib

from flasher import Flasher

HERE = os.path.dirname(os.path.abspath(__file__))


class Images:
    """What the build made, and images of its programs."""

    def __init__(self, room, folder, dice):
        self.room, self.folder, self.dice = room, folder, dice
        self.first, self.key = self.file("first.img"), self.path("maker.pem")
        self.other = os.path.join(folder, "other.pem")
        subprocess.run(["openssl", "genpkey", "-algorithm", "ed25519", "-out", self.other], check=True)

    def path(self, name):
        """Where a file of the build is."""
        return os.path.join(self.room, name)

    def file(self, name):
        """What it has."""
        with open(self.path(name), "rb") as file:
            return file.read()

    def names(self):
        """Where the linker put the names of the bootloader."""
        lines = subprocess.run(["arm-none-eabi-nm", self.path("bootloader")], check=True, capture_output=True, text=True).stdout
        return {name: int(value, 16) for value, _, name in (line.split() for line in lines.splitlines() if len(line.split()) == 3)}

    def make(self, program, key=None, patches=(), **words):
        """An image of a program."""
        out = os.path.join(self.folder, "image")
        words = [f"--{name.replace('_', '-')}={value}" for name, value in words.items()] + [f"--patch={it}" for it in patches]
        subprocess.run([sys.executable, os.path.join(HERE, "sign.py"), key or self.key, self.path(program + ".program"), out] + words,
                       check=True)
        with open(out, "rb") as file:
            return file.read()

    @staticmethod
    def flip(image, at, bit=0):
        """With one bit another one."""
        return image[:at] + bytes((image[at] ^ 1 << bit,)) + image[at + 1:]

    def flipped(self, image):
        """A bit of each part: header, program, both kinds of TLVs, and the three values."""
        protected = len(image) - 0x90 - 18
        parts = {"header": range(0, 32), "program": range(32, protected), "protected TLVs": range(protected, protected + 18),
                 "digest": range(len(image) - 140, len(image) - 104), "key": range(len(image) - 104, len(image) - 68),
                 "signature": range(len(image) - 68, len(image)), "unprotected TLVs": range(len(image) - 144, len(image) - 140)}
        for name, places in parts.items():
            for at in {places[0], places[-1], *self.dice.sample(places, 2)}:
                bit = self.dice.randrange(8)
                yield f"bit {bit} of byte {at}, {name}", self.flip(image, at, bit)

    def wrong(self):
        """Images that the maker did not sign so, each with its name."""
        good, program = self.make("second", counter=3), self.file("second.program")
        yield "unsigned", program.ljust(300, b"\0")
        yield "without TLVs", good[:-0x90]
        yield "another key", self.make("second", key=self.other, counter=3)
        yield "another key, which says it is the maker's", self.make("second", key=self.other, counter=3, key_of=self.key)
        yield "one byte longer", good + b"\0"
        yield "one byte shorter", good[:-1]
        yield "twice", good + good
        yield from self.flipped(good)
        # Signed, and a length of it lies: bytes of the program, of the header, and of the protected TLVs, as a whole and of each of two.
        for patch in ("12=ffffffff", "12=00000000", f"12={len(program) + 1:02x}000000", "8=0000", "8=ffff", "10=0000", "10=ffff",
                      "-16=ffff", "-16=0400", "-12=0300", "-12=ffff", "-4=ffff", "-4=0000"):
            yield f"signed with {patch}", self.make("second", counter=3, patches=[patch])
        yield "signed and encrypted, as it says", self.make("second", counter=3, patches=["16=04"])
        yield "signed without a counter", self.make("second", counter=-1)
        for _ in range(6):
            yield "any bytes", self.dice.randbytes(self.dice.randrange(256, 2000))

    def of_another_board(self):
        """Images that the maker signed, and that this board must not take."""
        yield "another board", self.make("second", counter=3, hardware=8)
        yield "no board", self.make("second", counter=3, hardware=-1)
        yield "an older counter", self.make("second", counter=2, version="9.0.0")

    def flasher(self, name, image, folder):
        """The proved host with a file of this image."""
        path = os.path.join(folder, name + ".dfu")
        image += struct.pack("<HHHH3sB", 0x0100, 1, 0x1209, 0x0100, b"UFD", 16)
        with open(path, "wb") as file:
            file.write(image + struct.pack("<I", zlib.crc32(image) ^ 0xffffffff))
        return Flasher(self.path("flasher"), path, folder)

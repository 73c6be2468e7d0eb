"""complete.py PROGRAM LENGTH NAME: makes of a program the image NAME.bin of so many bytes and the file NAME.dfu for it.

Behind the program come bytes that stand for its data, and a word that makes the sum of all words 0. The file has the suffix of USB DFU
1.1, appendix B, as `dfu add` makes it.
"""
import random
import struct
import sys
import zlib

program, length, name = sys.argv[1:]
with open(program, "rb") as file:
    image = file.read()
assert len(image) % 4 == 0 and len(image) + 4 <= int(length) and int(length) % 4 == 0, "the program and the length do not fit"
image += random.Random(name[-1]).randbytes(int(length) - len(image) - 4)
image += struct.pack("<I", -sum(struct.unpack(f"<{len(image) // 4}I", image)) % (1 << 32))
with open(name + ".bin", "wb") as file:
    file.write(image)
suffix = struct.pack("<HHHH3sB", 0x0100, 1, 0x1209, 0x0100, b"UFD", 16)
with open(name + ".dfu", "wb") as file:
    file.write(image + suffix + struct.pack("<I", zlib.crc32(image + suffix) ^ 0xffffffff))

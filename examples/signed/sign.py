#!/usr/bin/env python3
"""sign.py KEY IN OUT [--version 1.2.3+4] [--counter N] [--hardware N] [--header N]: signs a program as imgtool does.

It is for the tests here, where imgtool may be missing: makers take imgtool. KEY is a private key of Ed25519 in PEM, as
`openssl genpkey -algorithm ed25519` writes one; openssl makes the signature. For images that are wrong: --key-of KEY says in the image
that another key signed it, and --patch AT=HEX puts other bytes there before it is signed; a negative AT counts from the end of what is
signed.
"""
import argparse
import hashlib
import struct
import subprocess
import tempfile


def openssl(*words):
    """What openssl prints."""
    return subprocess.run(("openssl",) + words, check=True, capture_output=True).stdout


def tlv(kind, value):
    """One TLV."""
    return struct.pack("<HH", kind, len(value)) + value


def area(kind, tlvs):
    """TLVs, with what stands before them."""
    return struct.pack("<HH", kind, 4 + len(tlvs)) + tlvs


def signature(key, digest):
    """The signature of a digest by Ed25519."""
    with tempfile.NamedTemporaryFile() as file:
        file.write(digest)
        file.flush()
        return openssl("pkeyutl", "-sign", "-inkey", key, "-rawin", "-in", file.name)


def signed(words, program):
    """The image."""
    version, build = words.version.split("+") if "+" in words.version else (words.version, "0")
    major, minor, revision = (int(it) for it in version.split("."))
    protected = b""
    if words.counter >= 0:
        protected += tlv(0x50, struct.pack("<I", words.counter))
    if words.hardware >= 0:
        protected += tlv(0xa0, struct.pack("<H", words.hardware))
    protected = area(0x6908, protected) if protected else b""
    header = struct.pack("<IIHHIIBBHII", 0x96f3b83d, 0, words.header, len(protected), len(program), 0, major, minor, revision,
                         int(build), 0)
    front = bytearray(header.ljust(words.header, b"\0") + program + protected)
    for patch in words.patch:
        at, _, other = patch.partition("=")
        at, other = int(at) % len(front), bytes.fromhex(other)
        front[at:at + len(other)] = other
    digest = hashlib.sha256(front).digest()
    public = openssl("pkey", "-in", words.key_of or words.key, "-pubout", "-outform", "DER")
    return front + area(0x6907, tlv(0x10, digest) + tlv(0x01, hashlib.sha256(public).digest()) + tlv(0x24, signature(words.key, digest)))


def main():
    words = argparse.ArgumentParser(description=__doc__)
    for name in "key", "file", "out":
        words.add_argument(name)
    words.add_argument("--version", default="1.0.0")
    words.add_argument("--counter", type=int, default=1, help="the security counter; -1: none")
    words.add_argument("--hardware", type=int, default=7, help="TLV 00a0h; -1: none")
    words.add_argument("--header", type=int, default=32)
    words.add_argument("--patch", action="append", default=[])
    words.add_argument("--key-of", help="the key whose hash the image has")
    words = words.parse_args()
    with open(words.file, "rb") as file:
        image = signed(words, file.read())
    with open(words.out, "wb") as file:
        file.write(image)


main()

"""QEMU's machine `microbit` with flash that lasts: the flash is written when the machine begins, and read when it is stopped.

QEMU keeps no flash of this machine. What its loader brings into flash comes back at each reset of the processor, so that it can't be
used here. This talks to QEMU as a debugger does (the remote protocol of gdb), which can write flash, stop the machine, and read it.
"""
import os
import signal
import socket
import subprocess
import time

FLASH = 1 << 18
CHUNK = 1900  # bytes: QEMU takes packets of 4,096 letters


class Machine:
    """A machine that is stopped at its start; the serial port is connected already."""

    def __init__(self, flash, line, folder):
        self.folder = folder
        place = os.path.join(folder, "debugger")
        if os.path.exists(place):
            os.remove(place)
        self.process = subprocess.Popen(
            ["qemu-system-arm", "-M", "microbit", "-display", "none", "-monitor", "none", "-S", "-gdb", f"unix:{place},server=on,wait=off",
             "-chardev", f"socket,id=line,path={line}", "-serial", "chardev:line"], stdin=subprocess.DEVNULL, stdout=subprocess.DEVNULL,
            stderr=subprocess.DEVNULL)
        self.socket = socket.socket(socket.AF_UNIX)
        self.socket.settimeout(30)
        self.rest = b""
        for turn in range(500):
            try:
                self.socket.connect(place)
                break
            except OSError:
                if turn == 499 or self.process.poll() is not None:
                    raise
                time.sleep(0.01)
        self._write(0, flash)
        self._ask(b"qXfer:features:read:target.xml:0,ffb")  # else it gives no single register
        self.monitor("system_reset")
        start = int.from_bytes(flash[4:8], "little") & ~1
        until = time.monotonic() + 10
        while self.register(15) != start:
            if time.monotonic() > until:
                raise RuntimeError("the processor does not begin where the flash says")
            time.sleep(0.002)

    # The remote protocol: packets $TEXT#SUM, each of which is acknowledged by a plus.
    def _send(self, text):
        self.socket.sendall(b"$" + text + b"#%02x" % (sum(text) % 256))

    def _receive(self, seconds=30):
        """The next packet, or None where none comes in time."""
        self.socket.settimeout(max(seconds, 0.0001))
        while True:
            self.rest = self.rest.lstrip(b"+")
            begin, end = self.rest.find(b"$"), self.rest.find(b"#")
            if begin == 0 and end > 0 and len(self.rest) >= end + 3:
                packet, self.rest = self.rest[1:end], self.rest[end + 3:]
                self.socket.sendall(b"+")
                return packet
            try:
                got = self.socket.recv(1 << 16)
            except TimeoutError:
                return None
            if not got:
                raise RuntimeError("QEMU is gone")
            self.rest += got

    def _ask(self, text):
        self._send(text)
        answer = self._receive()
        if answer is None or answer.startswith(b"E"):
            raise RuntimeError(f"QEMU answers {answer} to {text[:40]}")
        return answer

    def monitor(self, line):
        """A line of QEMU's monitor."""
        self._send(b"qRcmd," + line.encode().hex().encode())
        while self._receive() != b"OK":
            pass

    def _write(self, place, data):
        for at in range(0, len(data), CHUNK):
            some = data[at:at + CHUNK]
            self._ask(b"M%x,%x:" % (place + at, len(some)) + some.hex().encode())

    def read(self, place, count):
        """Memory or flash, of a machine that is stopped."""
        name = os.path.join(self.folder, "dump")
        self.monitor(f'memsave {place} {count} "{name}"')
        with open(name, "rb") as file:
            return file.read()

    def register(self, number):
        """A register of the processor; 15 is the program counter."""
        return int.from_bytes(bytes.fromhex(self._ask(b"p%x" % number).decode()), "little")

    def break_at(self, place):
        """It is to stop before each instruction there."""
        self._ask(b"Z0,%x,2" % place)

    def run(self):
        """It runs until it comes to such a place, or is stopped."""
        self._send(b"c")

    def step(self):
        """One instruction."""
        self._ask(b"s")

    def wait(self, seconds):
        """Whether it came to such a place in that time."""
        return self._receive(seconds) is not None

    def stop(self):
        """It is stopped where it is."""
        self.socket.sendall(b"\x03")
        if self._receive() is None:
            raise RuntimeError("the machine does not stop")

    def kill(self):
        """The power is gone."""
        self.process.send_signal(signal.SIGKILL)
        self.process.wait()
        self.socket.close()

"""The program of the host, and the lines that it prints."""
import os
import queue
import subprocess
import threading
import time

PATIENCE = 120  # seconds: nothing takes as long


class Wrong(Exception):
    """What was seen is not what has to be."""


class Flasher:
    """It installs a file on the machine that connects to `line`."""

    def __init__(self, program, file, folder):
        self.line = os.path.join(folder, "line")
        if os.path.exists(self.line):
            os.remove(self.line)
        self.lines = queue.Queue()
        self.is_over = False
        self.began, self.ticked = "", ""  # what the image said that began last, and later
        self.process = subprocess.Popen([program, self.line, file], stdin=subprocess.DEVNULL, stdout=subprocess.PIPE, text=True,
                                        env={**os.environ, "ASAN_OPTIONS": "detect_leaks=0"})
        threading.Thread(target=self._read, daemon=True).start()
        self.expect("listening")

    def _read(self):
        for line in self.process.stdout:
            line = line.rstrip("\n")
            if line.startswith("device: image ") and " at " in line:
                self.began, self.ticked = line, ""
            elif line.startswith("device: image "):
                self.ticked = line
            self.lines.put(line)
            self.is_over = self.is_over or line.startswith("report")
        self.lines.put(None)
        self.is_over = True

    def expect(self, *wanted):
        """Skips lines until one begins with one of these, and gives it."""
        until = time.monotonic() + PATIENCE
        while time.monotonic() < until:
            try:
                line = self.lines.get(timeout=1)
            except queue.Empty:
                continue
            if line is None:
                raise Wrong(f"the flasher ended before it said {wanted}")
            if line.startswith(wanted):
                return line
        raise Wrong(f"nothing said {wanted}")

    def expect_ticks(self, number):
        """Waits until this image says that its interrupts come."""
        until = time.monotonic() + PATIENCE
        while self.ticked != f"device: image {number} ticks":
            if time.monotonic() > until:
                raise Wrong(f"image {number} does not tick")
            time.sleep(0.01)

    def kill(self):
        """It is ended, where it still runs."""
        if self.process.poll() is None:
            self.process.kill()
        self.process.wait()
        self.process.stdout.close()

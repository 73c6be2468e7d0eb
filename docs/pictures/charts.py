"""Charts of runs: what the host does, what goes over the wire, where the device stands, what the medium gets.

All of it is what `dfu run --trace` prints; which image is active then is what `show` prints.
"""
import os
import subprocess

from drawing import PROGRAM, ROOT, Picture

HOST, WIRE_FROM, WIRE_TO, DEVICE, MEDIUM, WIDTH, ROW, TOP = 20, 146, 490, 590, 790, 900, 62, 67
ACROSS = 168  # of what the medium gets

# The title of each chart, and what stands below it.
CHARTS = {
    "clean-run": ("A clean run: a download in which nothing goes wrong", []),
    "lost-answer": (
        "The answer to block 0 is lost",
        ["In action 5 the answer is lost: the host can't know whether its block was taken.",
         "In action 6 it asks. dfuDNLOAD-SYNC says that the block was taken, so it is not sent again."],
    ),
    "cut-opens-the-gate": (
        "The power is cut in the write that opens the gate",
        ["The write of the gate was torn, and its first byte was written: the gate is open, and the new image is active, whole.",
         "Where that byte is anything but a5, the gate is closed, and the image before stays active. There is no third case."],
    ),
}


class Action:
    """An action: a line of the trace, and the image that is active after it."""

    def __init__(self, line, image):
        fields = line.removeprefix("# ").split("; ")
        self.number, self.phase = fields[0].split(" ", 1)
        self.request, self.fate, self.answer, self.before, self.state, self.writes, self.time = fields[1:]
        self.image = image

    def is_request(self):
        return self.request.split()[0].isupper()

    def asked(self):
        """What the host asks for, in words."""
        if self.fate.startswith("cut"):
            return "the power is cut"
        words = self.request.split()
        if words[0] == "wait":
            return f"{words[1]} ms pass"
        if words[0] == "reset":
            return "reset of the bus"
        if words[0] == "DNLOAD":
            return f"DNLOAD {words[1]}, " + (f"{words[2]} bytes" if words[2] != "0" else "no bytes")
        return words[0] + (f" {words[1]}" if words[0] == "DETACH" else "")

    def told(self):
        """What the device answers, in words."""
        words = self.answer.split()
        if len(words) == 3:
            code, poll, state = words
            return f"{code}, {state}" + (f", {poll} ms" if poll != "0" else "")
        return {"ack": "acknowledged", "stall": "stalled"}.get(self.answer, self.answer)

    def written(self):
        """What the medium gets, a write to a line."""
        if self.writes == "-":
            return ""
        return "\n".join(f"{len_} bytes at {rest}" for len_, rest in (write.split(" at ") for write in self.writes.split(", ")))


def seen(name):
    """What the program prints of an example's script, with `show` behind each action: the actions, and the reports."""
    lines = []
    with open(os.path.join(ROOT, "examples", name + ".script"), encoding="utf-8") as file:
        for line in file:
            words = line.split()
            if words[:2] == ["go", "pass"]:
                lines += ["go pass 1", "show"] * int(words[2])
            elif words[:1] == ["go"]:
                lines += [line.strip(), "show"]
            else:
                lines.append(line.strip())
    run = subprocess.run([PROGRAM, "run", "--trace", "-"], input="\n".join(lines), capture_output=True, text=True, check=True)
    printed = run.stdout.splitlines()
    images = [line.split()[5] for line in printed if line.startswith("state ")]
    traced = [line for line in printed if line.startswith("# ")]
    actions = [Action(line, image) for line, image in zip(traced, images, strict=True)]
    return actions, [line.removeprefix("report ") for line in printed if line.startswith("report ")]


def transfer(picture, y, request, answer, fate):
    picture.words(WIRE_FROM + 8, y - 12, request)
    picture.line(WIRE_FROM, y - 7, WIRE_TO, y - 7, "arrow")
    if fate == "lostback":
        picture.words(WIRE_TO - 8, y + 22, answer + " (lost)", "lost-word", "end")
        picture.line(WIRE_TO, y + 8, (WIRE_FROM + WIRE_TO) / 2, y + 8, "arrow lost")
        picture.cross((WIRE_FROM + WIRE_TO) / 2 - 8, y + 8)
    else:
        picture.words(WIRE_TO - 8, y + 22, answer, "", "end")
        picture.line(WIRE_TO, y + 8, WIRE_FROM, y + 8, "arrow")


def without_answer(picture, y, what, fate):
    picture.rect(WIRE_FROM + 1, y - 14, WIRE_TO - WIRE_FROM - 2, 28, "error" if fate == "cut" else "band", 4)
    picture.words((WIRE_FROM + WIRE_TO) / 2, y + 4.5, what, "bad" if fate == "cut" else "", "middle")


def heads(picture, title, bottom):
    """The title, a word above each lane, and the lines between the lanes."""
    picture.words(20, 26, title, "head")
    middle = (WIRE_FROM + WIRE_TO) / 2
    picture.words(HOST, 56, "host", "head")
    for x, word in ((middle, "wire"), (DEVICE, "device is then in"), (MEDIUM, "medium")):
        picture.words(x, 56, word, "head", "middle")
    for x in (WIRE_FROM, WIRE_TO, MEDIUM - 96):
        picture.line(x, TOP, x, bottom, "lane")


def draw(picture, number, action, is_new):
    """One action; the image is given where it is another one than before."""
    fate = action.fate.split()[0]
    y = TOP + ROW * number + ROW // 2
    picture.line(20, y - ROW // 2, WIDTH - 20, y - ROW // 2, "rule")
    picture.words(HOST, y + 4.5, action.number, "small")
    picture.words(HOST + 26, y + 4.5, action.phase)
    if action.is_request() and fate != "cut":
        transfer(picture, y, action.asked(), action.told(), fate)
    else:
        without_answer(picture, y, action.asked(), fate)
    picture.box(DEVICE, y, 150, action.state, "idle" if action.state.startswith("app") else "box")
    medium = action.written()
    height = 20 + 16 * medium.count("\n")
    if medium:
        picture.box(MEDIUM, y - (9 if is_new else 0), ACROSS, medium, "error" if fate == "cut" else "write", height)
    if is_new:
        picture.words(MEDIUM, y + (height / 2 + 5 if medium else 4.5), f"image {action.image} is active", "small", "middle")


def chart(name):
    title, notes = CHARTS[name]
    actions, reports = seen(name)
    bottom = TOP + ROW * len(actions)
    picture = Picture(WIDTH, bottom + 47 + 22 * len(notes), f"{title}: {len(actions)} actions of the host")
    heads(picture, title, bottom)
    image = None
    for number, action in enumerate(actions):
        draw(picture, number, action, action.image != image)
        image = action.image
    picture.line(20, bottom, WIDTH - 20, bottom, "rule")
    picture.words(HOST, bottom + 28, f"The host reports: {reports[-1]}", "head")
    for number, note in enumerate(notes):
        picture.words(HOST, bottom + 52 + 22 * number, note)
    return picture.text()

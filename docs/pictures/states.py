"""The diagram of the device's states, for docs/PROFILE.md.

The program says what each state is called.
"""
import subprocess

from drawing import PROGRAM, Picture

WIDTH, HEIGHT = 1100, 850

# Where the states stand: number, middle, width, what stands below the name.
PLACES = [
    (0, 130, 110, 130, ""), (1, 420, 110, 130, ""), (2, 730, 110, 130, ""), (3, 730, 270, 160, ""), (4, 480, 390, 130, ""),
    (5, 730, 470, 160, ""), (6, 730, 590, 180, "not complete"), (6, 730, 780, 180, "complete"), (7, 480, 680, 130, ""),
    (8, 230, 780, 240, ""), (9, 420, 270, 160, ""), (10, 1020, 270, 120, ""),
]

# The arrows: the way, and the words beside it with their place and what of them stands there.
ARROWS = [
    ("M195 101 H353", [(274, 92, "DETACH", "middle")]),
    ("M355 121 H197", [(276, 139, "timer, or any", "middle"), (276, 155, "other request", "middle")]),
    ("M485 110 H663", [(575, 84, "reset of the bus, or", "middle"), (575, 101, "1 ms with bitWillDetach", "middle")]),
    ("M680 122 V190 H400 V256", [(540, 183, "UPLOAD, answered in full", "middle")]),
    ("M470 258 V225 H705 V124", [(588, 243, "ABORT, or UPLOAD, answered short", "middle")]),
    ("M340 262 H312 V280 H338", [(304, 268, "UPLOAD,", "end"), (304, 284, "answered in full", "end")]),
    ("M755 122 V256", [(763, 190, "DNLOAD, block 0", "start")]),
    ("M1020 258 V101 H797", [(905, 93, "CLRSTATUS", "middle")]),
    ("M680 282 V320 H480 V376", [(580, 313, "GETSTATUS (busy time over 0)", "middle")]),
    ("M545 390 H705 V284", [(622, 383, "the busy time passes", "middle")]),
    ("M725 282 V456", [(716, 425, "GETSTATUS: block written,", "end"), (716, 441, "or busy time 0", "end")]),
    ("M785 458 V284", [(793, 372, "DNLOAD, next block", "start")]),
    ("M730 482 V568", [(738, 530, "DNLOAD of no bytes", "start")]),
    ("M640 590 H480 V666", [(560, 582, "GETSTATUS (time over 0)", "middle")]),
    ("M545 680 H730 V758", [(640, 672, "time (tolerant)", "middle")]),
    ("M415 680 H230 V766", [(322, 672, "time (not tolerant)", "middle")]),
    ("M140 768 V124", [(150, 470, "reset of the bus, from here and", "start"), (150, 486, "all but appIDLE and appDETACH", "start")]),
    ("M1020 360 V284", [(1020, 380, "every error", "middle"), (1020, 396, "of 2 to 7 and 9", "middle")]),
    ("M820 780 H940 V119 H797", [(880, 772, "GETSTATUS", "middle")]),
]
# What comes in from the side to the last arrow.
JOINS = [
    ("M810 470 H940", [(876, 462, "ABORT", "middle")]),
    ("M820 590 H940", [(880, 582, "GETSTATUS", "middle"), (880, 607, "(time 0)", "middle")]),
]


def name_of(number):
    """What the program calls the state with this number."""
    words = [PROGRAM, "show", "status", f"00000000{number:02x}00"]
    run = subprocess.run(words, capture_output=True, text=True, check=True)
    return run.stdout.split("state ")[1].split()[0]


def diagram():
    picture = Picture(WIDTH, HEIGHT, "The states of the device and what leads from one to another")
    picture.words(20, 30, "The states of the device", "head")
    for way, words in JOINS + ARROWS:
        picture.path(way, "arrow" if (way, words) in ARROWS else "arrow join")
        for x, y, word, anchor in words:
            picture.words(x, y, word, "small", anchor)
    for number, x, y, width, below in PLACES:
        name = name_of(number)
        kind = "idle" if name.startswith("app") else "error" if name == "dfuERROR" else "box"
        picture.box(x, y, width, f"{number} {name}" + (f"\n{below}" if below else ""), kind, 40 if below else 24)
    note = "An UPLOAD in dfuIDLE that is answered short stays in dfuIDLE. What is stalled, and where, is in the table."
    picture.words(20, 830, note, "small")
    return picture.text()

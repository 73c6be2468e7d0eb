# Rows of tests/apps/flash: boards that --all leaves alone, and serial numbers that come twice. It has read all_boards.sh.
# shellcheck shell=sh disable=SC2034,SC2154

# left_alone PATH IDS: whether it is said of the board there, once.
left_alone() {
    test "$(grep -c "^$1: dfu-flash: $2, for which the file is not; it is left alone\$" err)" -eq 1
}
# Beside one that fits, others are named: in DFU mode, or at a port that has a name, since a computer has parts of its own with DFU.
no_boards
board 1-1 USB_SERIAL=F1
board 1-2 USB_SERIAL=F2 USB_IDS=1209:0002:0100
board 1-3 USB_SERIAL=F3 USB_IDS=1209:0003:0100 USB_START=app
board 1-4 USB_SERIAL=F4 USB_IDS=1209:0004:0100 USB_START=app
printf '1-4 = bay 4\n' > bay-ports
all --ports bay-ports new.dfu
expect "the one that fits is flashed: $code" test "$code-$(wc -l < out)" = 0-1
expect 'one in DFU mode' left_alone 1-2 'the board here is 1209:0002'
expect 'one at a port that has a name' left_alone 1-4 'bay 4: the board here is 1209:0004'
expect 'one that may be a part of the computer' test "$(grep -c '^1-3: ' err)" -eq 0
all --quiet --ports bay-ports new.dfu
expect 'quiet' test ! -s err
# If none fits they are listed, and not named once more.
no_boards
board 1-2 USB_SERIAL=F2 USB_IDS=1209:0002:0100
all new.dfu
expect "none fits: $code" test "$code-$(grep -c 'left alone' err)-$(grep -c '1209:0002 path 1-2' err)" = 4-0-1
# One that comes later is named whichever its mode is; one that was flashed, and restarts with others, is not.
no_boards
board 1-1 USB_SERIAL=F1
board 1-3 USB_SERIAL=F3 USB_IDS=1209:0003:0100 USB_START=app USB_ABSENT=12
all --wait=3 new.dfu
expect 'one that comes later' left_alone 1-3 'the board here is 1209:0003'
no_boards
board 1-1 USB_SERIAL=F1 USB_IDS=1209:0009:0100 USB_DFU_IDS=1209:0001:0100
all --wait=3 new.dfu
expect "one that restarts with others: $(cat err)" test "$(grep -c 'left alone' err)" -eq 0

# Two boards with one number are both flashed, and named; boards without a number are not.
no_boards
board 1-1 USB_SERIAL=SAME
board 1-2 USB_SERIAL=SAME
board 1-3 USB_SERIAL=
board 1-4 USB_SERIAL=
printf '1-1 = bay 1\n1-2 = bay 2\n' > bay-ports
all --ports bay-ports new.dfu
expect 'each is flashed' test "$(grep -c ' verified: ' out)" -eq 4
shared='dfu-flash: the serial number SAME was flashed before in this run, at bay [12]: two boards share it, or one was flashed twice'
expect "it is said once: $(cat err)" test "$(grep -c "^1-[12]: $shared\$" err)-$(grep -c 'flashed before' err)" = 1-1

# Rows of tests/apps/flash: --all --wait: boards of which it isn't plain whether they are others than those that were flashed, or failed, in
# their places. It has read all_boards.sh.
# shellcheck shell=sh disable=SC2034,SC2154

# One with two settings, which is there before the first look and stays, is reported once.
no_boards
board 1-1 USB_ALTERNATES=2
all --wait=2 new.dfu
expect "several, once: $code" test "$code-$(grep -c '^1-1 [0-9.]* s several: ' out)-$(wc -l < out)" = 12-1-1

# One that can't be opened in the mode in which the one before was opened is another one: it is reported, once. In another mode it may be
# the application of that one. The same serial number once more is said, and no other image goes there.
no_boards
board 1-1 USB_SERIAL=F1 USB_PULLED=200
board 1-1 USB_SERIAL=F2 USB_DENIED=3 USB_PLUGGED=1 USB_PAUSE=500 "USB_SAVE=$work/saved-second"
board 1-2 USB_SERIAL=F3 USB_PULLED=900
board 1-2 USB_SERIAL=F4 USB_START=app USB_DENIED=3 USB_PLUGGED=3 USB_PAUSE=600 "USB_SAVE=$work/saved-application"
board 1-3 USB_SERIAL=F5 USB_PULLED=900
board 1-3 USB_SERIAL=F5 USB_PLUGGED=5 USB_PAUSE=600 "USB_SAVE=$work/saved-twin"
board 1-4 USB_SERIAL=F6
board 1-5 USB_SERIAL=F7 USB_DENIED=3
all --wait=5 new.dfu
expect "those that were flashed, and failed: $code" test "$code-$(wc -l < out)" = 5-6
expect 'no access: reported once' test "$(grep -c '^1-1 [0-9.]* s no-access: ' out)" -eq 1
expect 'no access: said once' test "$(grep -c '^1-1: dfu-flash: 1209:0001 at 1-1 may not be opened: LIBUSB_ERROR_ACCESS' err)" -eq 1
expect 'no access at the beginning: once' test "$(grep -c '^1-5 [0-9.]* s no-access: ' out)" -eq 1
says "1-2: a device that can't be opened, or has several settings, came soon after, and counts as the one of before; if it is another one"
says '1-3: a device came soon after the one that was flashed here, and counts as it; if it is another one, unplug it for three seconds'
expect 'each is said once, and of no other' test "$(grep -c 'if it is another one' err)" -eq 2
expect 'none of them was worked with' test ! -e saved-second -a ! -e saved-application -a ! -e saved-twin
says 'dfu-flash: 4 flashed, 2 not'

# A board that failed, and was pulled out at once, is tried again when it is back after two seconds: once, since a board may start slowly
# by itself. One that was seen in between was pulled out by hand.
no_boards
board 1-1 USB_SERIAL=F1 USB_CAPACITY=13 USB_PULLED=1
board 1-1 USB_SERIAL=F1 USB_PLUGGED=1 USB_PAUSE=3000 USB_CAPACITY=13 USB_PULLED=1 "USB_SAVE=$work/saved-again"
board 1-1 USB_SERIAL=F1 USB_PLUGGED=2 USB_PAUSE=3000 "USB_SAVE=$work/saved-third"
board 1-2 USB_SERIAL=F2 USB_CAPACITY=13 USB_PULLED=1
board 1-2 USB_SERIAL=F2 USB_PLUGGED=4 USB_PAUSE=3000 "USB_SAVE=$work/saved-mended"
board 1-3 USB_SERIAL= USB_CAPACITY=13 USB_PULLED=1
board 1-3 USB_SERIAL= USB_PLUGGED=6 USB_PAUSE=3000 "USB_SAVE=$work/saved-nameless"
board 1-4 USB_SERIAL=F4 USB_CAPACITY=13 USB_PULLED=900
board 1-4 USB_SERIAL=F4 USB_PLUGGED=8 USB_PAUSE=500 "USB_SAVE=$work/saved-soon"
all --wait=5 new.dfu
expect "those that failed: $code" test "$code-$(wc -l < out)" = 6-7
expect 'twice' test "$(grep -c '^1-1 .* refused errADDRESS: ' out)" -eq 2
expect 'no third time' test ! -e saved-third
says "1-1: the board here failed, and isn't tried again: to try it, unplug it for three seconds"
expect 'tried again' cmp saved-mended new
expect 'without a serial number too' cmp saved-nameless new
expect 'not if it was back and away for a moment' test ! -e saved-soon
says "1-4: the board here failed, and isn't tried again"

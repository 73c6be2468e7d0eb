# The machine was killed: the board starts again with its disk as it was left, serves the image that is there, and takes another one.
# shellcheck shell=sh disable=SC2034,SC2154
# shellcheck source=tests/slow/tinyusb/board.sh
. ./board.sh
medium=/dev/vda
./board $medium image > before
found=neither
for name in one two; do
    if cmp -s before $name; then found=$name; fi
done
start 'DFU_MODE=1 ATTRIBUTES=07'
./dfu-flash --upload up > out 2> errors
row 'started again: it serves the image' yes "$([ $found = neither ] || ! cmp -s up before || echo yes)"
is_back
./dfu-flash three.dfu > out 2> errors
code=$?
stop
row 'started again: a download' '0 three' "$code $image"
finish

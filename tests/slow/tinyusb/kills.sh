# The board is killed at twelve moments of a download, and started again: the old image or the new one stands, and a new session ends well.
# shellcheck shell=sh disable=SC2154
# shellcheck source=tests/slow/tinyusb/board.sh
. ./board.sh
for moment in 0.5 0.9 1.3 1.7 2.1 2.5 2.9 3.3 3.7 4.1 4.6 5.2; do
    format one
    start 'ATTRIBUTES=0f ERASE_MS=200 BUSY=250'
    ./dfu-flash --quiet two.dfu > out 2> errors &
    host=$!
    sleep $moment
    kill -9 "$device"
    wait "$device" 2> /dev/null
    wait "$host"
    first=$?
    stop
    left=$image
    blocks=$(told 'setup 21 01')
    start 'ATTRIBUTES=0f'
    ./dfu-flash --quiet two.dfu > out 2> errors
    code=$?
    is_back
    stop
    case $left in one | two) ;; *) code="$code torn" ;; esac
    row "killed after $moment s: dfu-flash $first, $blocks DNLOADs, image $left; again" '0 two' "$code $image"
done
finish

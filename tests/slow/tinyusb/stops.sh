# Two images are downloaded in turn for as long as the machine runs, with the flash on its disk. The computer outside stops it, and looks.
# shellcheck shell=sh disable=SC2034,SC2154
# shellcheck source=tests/slow/tinyusb/board.sh
. ./board.sh
medium=/dev/vda
start 'DFU_MODE=1 ATTRIBUTES=07 ERASE_MS=4 BUSY=1 TRANSFER=1024'
echo 'begins'
turn=0
while :; do
    for name in two one; do
        is_back
        ./dfu-flash --no-verify $name.dfu > out 2> errors || echo "    $turn $name: $(tail -n 1 out) $(tail -n 1 errors)"
        turn=$((turn + 1))
    done
    echo "downloads $turn"
done

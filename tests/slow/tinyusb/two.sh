# The application is another program than the bootloader: each takes the place of the other, as by a restart.
# shellcheck shell=sh disable=SC2154
# shellcheck source=tests/slow/tinyusb/board.sh
. ./board.sh
APPLICATION=1
export APPLICATION

# session STATUS SETTINGS COMMAND..: it is to end so, with the image `two`, and the application runs again.
session() {
    status=$1 settings=$2 code=0
    shift 2
    format one
    start "$settings"
    "$@" > out 2> errors || code=$?
    is_back
    [ "$1" != dfu-util ] || { # it leaves the device in DFU mode
        ./transfer 1-1 reset > said
        is_back
    }
    sleep 1
    stop
    row "$settings: $*" "$status two becomes ./application" "$code $image $(grep -o 'becomes .*' log | tail -n 1)"
    last=$(tail -n 1 out | tr '\r' '\n' | tail -n 1)
    echo "    ${last:-$(tail -n 1 errors)}; to the bootloader $(told 'becomes ./board'), $(told ' reset') resets, $(told TOLD) told"
}
for attributes in 0f 07 03 0b 05 01; do
    case $attributes in 01) flash=8 ;; *) flash=0 ;; esac
    case $attributes in 0f | 07 | 05) util=0 ;; *) util=74 ;; esac
    session $flash "ATTRIBUTES=$attributes" ./dfu-flash --quiet two.dfu
    session $util "ATTRIBUTES=$attributes" dfu-util -D two.dfu
done
# The loop that dfu_tinyusb.h shows.
program=./shown BOOTLOADER=./shown
export BOOTLOADER
session 0 ATTRIBUTES=07 ./dfu-flash --quiet two.dfu
session 0 ATTRIBUTES=0f ./dfu-flash --quiet two.dfu
session 0 ATTRIBUTES=07 dfu-util -D two.dfu
program=./board BOOTLOADER=./board
# Requests in run-time mode.
start ATTRIBUTES=07
asked 000000000000 a103000000000600
asked 00 a105000000000100
asked '' a103000000000000
asked stall 2101000000004000 x64
asked stall a107000000000400
asked 00 a105000000000100
asked ok 2100e80300000000
asked 01 a105000000000100
asked stall 2104000000000000
asked 00 a105000000000100
asked ok 2100640000000000
asked 000000000100 a103000000000600
sleep 0.3
asked 00 a105000000000100
end
finish

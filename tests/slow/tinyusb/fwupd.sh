# fwupd against the board: tolerant of manifestation or not, with an upload or without, and with a manifestation that takes its time. An
# image is never reported that is not there.
# shellcheck shell=sh disable=SC2154
# shellcheck source=tests/slow/tinyusb/board.sh
. ./board.sh
export HOME="$PWD"

# fwupd WORD..: its tool, which of all devices sees those of DFU.
fwupd() {
    LD_PRELOAD=$HOME/no_discovery.so timeout 300 fwupdtool --plugins dfu "$@" > out 2> errors < /dev/null
}
format one
start ATTRIBUTES=0f
fwupd get-devices --json
end
device_id=$(sed -n 's/.*"DeviceId" *: *"\(.*\)".*/\1/p' out | head -n 1)
row 'fwupd finds the device' yes "$([ -z "$device_id" ] || echo yes)"

# session STATUS SETTINGS: fwupd's status, and the new image is there.
session() {
    status=$1 code=0
    format one
    start "$2"
    fwupd install-blob two.dfu "$device_id" -y --no-reboot-check || code=$?
    sleep 1
    stop
    row "fwupd, $2" "$status two" "$code $image"
    echo "    $(grep -v '%' errors | tail -n 1 | cut -c1-120)"
}
session 0 ATTRIBUTES=0f
session 0 'ATTRIBUTES=07 DFU_MODE=1'
session 0 ATTRIBUTES=07
session 0 'ATTRIBUTES=05 MANIFEST=500'
session 0 'ATTRIBUTES=01'
session 0 'ATTRIBUTES=01 MANIFEST=500'
# Its UPLOAD comes right after the answer that says dfuMANIFEST, and is stalled.
session 1 'ATTRIBUTES=07 MANIFEST=20'
session 1 'ATTRIBUTES=07 MANIFEST=500'
session 1 'ATTRIBUTES=0f MANIFEST=20'
session 1 'ATTRIBUTES=03 MANIFEST=20'
finish

# What runs in the machine: fwupd against dfu-gadget, which is tolerant of manifestation or not, and can upload or not.
# shellcheck shell=sh disable=SC2154
# shellcheck source=tests/slow/functionfs/common.sh
. ./common.sh
medium=medium # a file in memory: while the machine waits for a disk its time runs on, and fwupd's time-outs come
export HOME="$PWD"
./set-up 0x1209 0x0001 0x0100 F1
suffixed one two
# fwupd WORD..: its tool, which of all devices sees those of DFU.
fwupd() {
    LD_PRELOAD=$HOME/no_discovery.so timeout 300 fwupdtool --plugins dfu "$@" > out 2> err < /dev/null
}
./dfu-gadget format --force $medium --most 64K one
start
fwupd get-devices --json
device_id=$(sed -n 's/.*"DeviceId" *: *"\(.*\)".*/\1/p' out | head -n 1)
expect "fwupd finds the device: $device_id" test -n "$device_id"
stop

# row STATUS SETTINGS: fwupd's status, and the new image is there.
row() {
    status=$1 settings=$2 code=0
    ./dfu-gadget format --force $medium --most 64K one
    start "$settings"
    fwupd install-blob two.dfu "$device_id" -y --no-reboot-check || code=$?
    sleep 1
    stop
    expect "fwupd, ${settings:-the defaults}: status $code, $(grep -v '%' err | tail -n 1)" test "$code" -eq "$status"
    expect "fwupd, ${settings:-the defaults}: the new image" cmp saved two
}
row 0 ''
row 0 --dfu-mode
row 0 '--attributes download,tolerant'
row 0 '--attributes download,tolerant --manifest 500'
row 0 '--attributes download'
row 0 '--attributes download --manifest 500'
row 0 '--attributes download,upload,tolerant,detach'
row 1 '--manifest 20' # its UPLOAD comes right after the answer that says dfuMANIFEST, and is stalled
row 1 '--attributes download,upload'
finish

# What the parts that run in the machine share: dfu-gadget is started and ended at dummy_hcd's controller, and rows are counted.
# shellcheck shell=sh disable=SC2034
passed=0
failed=0
medium=/dev/vda
udc=dummy_udc.0

# expect WHAT COMMAND..: the command is to succeed.
expect() {
    what=$1
    shift
    if "$@"; then passed=$((passed + 1)); echo "row $what"; else
        failed=$((failed + 1))
        echo "row WRONG: $what: $*"
        tail -n 20 log | sed 's/^/    /'
    fi
}
# suffixed NAME..: NAME.dfu of each.
suffixed() {
    for name in "$@"; do
        cp "$name" "$name.dfu"
        dfu-suffix -v 1209 -p 0001 -d 0100 -a "$name.dfu" > said
    done
}
# is_there: the device is on the bus, and udev is done with it.
is_there() {
    for _ in 1 2 3 4 5 6 7 8 9 10 11 12 13 14 15 16 17 18 19 20; do
        [ ! -e /sys/bus/usb/devices/1-1:1.0 ] || break
        sleep 0.3
    done
    udevadm settle
}
# is_back: the same behind a program that is done with it. It leaves the bus a little later, to come back in its other mode.
is_back() {
    sleep 0.5
    is_there
}
start() {
    # shellcheck disable=SC2086
    ./dfu-gadget run $medium --controller $udc --verbose $1 2> log &
    device=$!
    is_there
}
# stop: its status is `ended`, and the image that stands then is in `saved`.
stop() {
    kill "$device"
    wait "$device" 2> /dev/null
    ended=$?
    ./dfu-gadget image $medium > saved
}
finish() {
    echo "$passed passed, $failed failed"
}

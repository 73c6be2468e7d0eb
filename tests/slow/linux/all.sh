# What runs in the machine after rows.sh: dfu-flash --all over eight devices on the kernel's bus, each in a process of its own.
# shellcheck shell=sh disable=SC2154,SC2034
devices=

# board PORT SETTING..: a device at this port, whose path is 1-(PORT + 1); its image is in saved-PORT.
board() {
    port=$1
    shift
    env USB_IMAGE=old USB_SAVE="saved-$port" USB_SERIAL="F$port" "$@" ./attached "$port" > "said-$port" 2>&1 &
    devices="$devices $!"
}
# are_there COUNT: so many devices are on the bus, and udev is done with them.
are_there() {
    for _ in 1 2 3 4 5 6 7 8 9 10 11 12 13 14 15 16 17 18 19 20 21 22 23 24 25 26 27 28 29 30; do
        set -- "$1" /sys/bus/usb/devices/1-[1-8]
        [ $(($# - 1)) -lt "$1" ] || break
        sleep 0.5
    done
    udevadm settle
}
# unplug: all devices, which save their images then.
unplug() {
    for device in $devices; do
        kill "$device" 2> /dev/null
        wait "$device" 2> /dev/null
    done
    devices=
    sleep 1
}
# ended PORT REPORT IMAGE: the line of the device at this port, and the image that it has once it is unplugged.
ended() {
    line=$(grep "^1-$(($1 + 1)) " out)
    expect test "$(echo "$line" | sed -n 's/^[^:]* s \([^:]*\): .*/\1/p')" = "$2"
    expect cmp "saved-$1" "$3"
    echo "row --all: $line"
}
forget() {
    rm -f saved-* said-* out err
}

# Eight that do as they should: a line each, and status 0.
for port in 0 1 2 3 4 5 6 7; do board $port USB_ATTRIBUTES=07; done
are_there 8
code=0
./dfu-flash --all new.dfu > out 2> err || code=$?
expect test "$code" -eq 0
expect test "$(wc -l < out)" -eq 8
unplug
for port in 0 1 2 3 4 5 6 7; do ended $port verified new; done
forget

# Faults of their own: no device holds up another one, and the status is the highest.
board 0 USB_ATTRIBUTES=07
board 1 USB_START=app
board 2 'USB_FATE=lost-back 4'
board 3 'USB_FATE=leave 4'
board 4 USB_ATTRIBUTES=01
board 5 USB_CAPACITY=13
board 6 'USB_FATE=swap 4'
board 7 USB_BUSY=16777215
are_there 8
code=0
./dfu-flash --all --timeout 60 new.dfu > out 2> err || code=$?
expect test "$code" -eq 13
unplug
ended 0 verified new
ended 1 verified new
ended 2 verified new
ended 3 verified new
ended 4 unconfirmed new
ended 5 'refused errADDRESS' old
ended 6 other old
ended 7 timed-out old
expect test "$(sed -n '$s/ .*//p' out)" = 1-8
forget

# Boards that are plugged in while --wait runs are flashed too, with a record each.
board 0 USB_ATTRIBUTES=07
are_there 1
./dfu-flash --all --wait --json new.dfu > out 2> err &
flashing=$!
sleep 8
board 3 USB_ATTRIBUTES=07
board 5 USB_START=app
for _ in 1 2 3 4 5 6 7 8 9 10 11 12 13 14 15 16 17 18 19 20 21 22 23 24 25 26 27 28 29 30; do
    [ "$(wc -l < out)" -lt 3 ] || break
    sleep 1
done
kill -INT "$flashing"
wait "$flashing" || :
unplug
for port in 0 3 5; do
    expect grep -q "\"report\":\"verified\".*\"path\":\"1-$((port + 1))\"" out
    expect cmp "saved-$port" new
done
sed 's/^/row --all --wait --json: /' out

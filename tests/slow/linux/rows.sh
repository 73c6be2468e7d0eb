# What runs in the machine: dfu-flash and dfu-util over the kernel's USB and the real libusb, against the device of `attached`.
passed=0
failed=0
printf 'the old image' > old
printf 'a new image of 26 bytes ..' > new
# A byte stands in front that no prefix of dfu-prefix begins with: dfu-util's programs would take that for no part of the image.
{ printf D; head -c 50000 /dev/urandom; } > large
for name in new large; do
    cp $name $name.dfu
    dfu-suffix -v 1209 -p 0001 -d 0100 -a $name.dfu > said
done
cp new any.dfu
dfu-suffix -v ffff -p ffff -d ffff -a any.dfu > said
chmod 777 .

# is_there: the device is on the bus, and udev is done with it.
is_there() {
    for _ in 1 2 3 4 5 6 7 8 9 10 11 12 13 14 15 16 17 18 19 20; do
        [ ! -e /sys/bus/usb/devices/1-1 ] || break
        sleep 0.3
    done
    udevadm settle
}
# row STATUS IMAGE TEXT SETTINGS COMMAND..: the status, the image that stands then (old, new, large, or - for any), and how the
# last line begins.
row() {
    status=$1 image=$2 text=$3 settings=$4 code=0
    shift 4
    rm -f saved log
    # shellcheck disable=SC2086
    env USB_IMAGE=old USB_SAVE=saved USB_LOG=log $settings ./attached > said 2>&1 &
    device=$!
    is_there
    "$@" > out 2> err || code=$?
    kill "$device"
    wait "$device" 2> /dev/null
    found=$(tail -n 1 out)
    if [ "$code" -ne "$status" ]; then
        wrong=", status $code"
    elif [ "$image" != - ] && ! cmp -s saved "$image"; then
        wrong=', another image'
    elif [ "${found#"$text"}" = "$found" ] && [ -n "$text" ]; then
        wrong=', another line'
    else
        wrong=
    fi
    if [ -z "$wrong" ]; then passed=$((passed + 1)); else failed=$((failed + 1)); fi
    echo "row ${wrong:+WRONG$wrong: }$settings${USB_FATE:+, $USB_FATE}: $*: ${found:-$(tail -n 1 err)}$(cat said)"
}
expect() {
    if "$@"; then passed=$((passed + 1)); else
        failed=$((failed + 1))
        echo "row WRONG: $*"
    fi
}

row 0 old '1209:0001 path 1-1 serial F1 interface 0 alt 0 "stand-in" DFU mode, blocks of 8, ' USB_SERIAL=F1 ./dfu-flash --list
row 0 new 'verified: ' USB_ATTRIBUTES=07 ./dfu-flash new.dfu
row 0 new 'installed: ' USB_ATTRIBUTES=07 ./dfu-flash --no-verify new.dfu
row 0 new 'installed: ' USB_ATTRIBUTES=05 ./dfu-flash new.dfu
row 0 new 'verified: ' USB_ATTRIBUTES=03 ./dfu-flash new.dfu
row 8 new 'unconfirmed: ' USB_ATTRIBUTES=01 ./dfu-flash new.dfu
row 0 large 'verified: ' USB_TRANSFER=4096 ./dfu-flash large.dfu
row 0 new 'verified: ' 'USB_BUSY=300 USB_MANIFEST=300' ./dfu-flash new.dfu
row 0 new 'verified: ' USB_START=app ./dfu-flash new.dfu
row 0 new 'verified: ' 'USB_START=app USB_ATTRIBUTES=0f USB_DETACH=50' ./dfu-flash new.dfu
row 0 new 'verified: ' 'USB_START=app USB_DFU_IDS=1209:00ff:0100' ./dfu-flash new.dfu
row 0 new 'verified: ' 'USB_ALTERNATES=3 USB_SETTING=2' ./dfu-flash --alt data new.dfu
row 0 new 'verified: ' USB_INTERFACE=3 ./dfu-flash new.dfu
row 0 new 'verified: ' USB_DESCRIPTOR=7 ./dfu-flash new.dfu
row 0 new 'verified: ' 'USB_DEVICE=uboot USB_TRANSFER=8' ./dfu-flash new.dfu
row 0 old 'uploaded: ' USB_ATTRIBUTES=07 ./dfu-flash --upload up
expect cmp old up
for fate in 'lost-out 4' 'lost-back 4' 'lost-out 1' 'lost-back 13' 'leave 0' 'leave 4' 'leave 15' 'leave 22'; do
    export USB_FATE="$fate"
    row 0 new 'verified: ' USB_ATTRIBUTES=07 ./dfu-flash new.dfu
done
for fate in 'swap 4' 'swap 22'; do
    export USB_FATE="$fate"
    row 13 - 'other: ' USB_ATTRIBUTES=07 ./dfu-flash new.dfu
done
unset USB_FATE
row 11 old 'aborted: ' USB_BUSY=2000 timeout 3 ./dfu-flash new.dfu

# Bootloaders that start their image by themselves, and applications that leave something out.
row 8 new 'unconfirmed: ' USB_DEVICE=small ./dfu-flash new.dfu
row 0 new 'verified: ' 'USB_DEVICE=small USB_ATTRIBUTES=0b' ./dfu-flash new.dfu
row 0 new 'verified: ' 'USB_DEVICE=small USB_ATTRIBUTES=07' ./dfu-flash new.dfu
row 8 new 'unconfirmed: ' 'USB_DEVICE=small USB_ATTRIBUTES=07 USB_MANIFEST=200' ./dfu-flash --no-verify new.dfu
row 8 new 'unconfirmed: ' 'USB_DEVICE=small USB_APP=none' ./dfu-flash new.dfu
row 0 new 'verified: ' 'USB_START=app USB_APP_STALLS=status' ./dfu-flash new.dfu
row 0 new 'verified: ' 'USB_START=app USB_APP_STALLS=status USB_ATTRIBUTES=0f USB_DETACH=50' ./dfu-flash new.dfu
row 15 old 'stalled: ' 'USB_START=app USB_APP_STALLS=all' ./dfu-flash new.dfu
row 0 new 'verified: ' 'USB_DFU_IDS=1209:00ff:0100' ./dfu-flash --device 1209:0001,1209:00ff new.dfu
row 0 new 'verified: ' 'USB_START=app USB_APP_DESCRIPTOR=0' ./dfu-flash new.dfu
row 0 new 'installed: ' USB_APP=plain ./dfu-flash --no-verify new.dfu
row 0 new 'installed: ' USB_APP=none ./dfu-flash --no-verify new.dfu
row 10 new 'gone: the device took the whole image' USB_APP=none ./dfu-flash new.dfu

# Who may not open the device, and the rule of udev that is printed then, with the right that a machine without seats can give.
row 5 old '' USB_ATTRIBUTES=07 su -s /bin/sh nobody -c './dfu-flash new.dfu'
sed -n 's/^SUBSYSTEM/&/p' err | sed 's/0660/0666/' > /etc/udev/rules.d/60-dfu-1209.rules
udevadm control --reload
row 0 new 'verified: ' USB_ATTRIBUTES=07 su -s /bin/sh nobody -c './dfu-flash new.dfu'
row 0 new 'verified: ' USB_START=app su -s /bin/sh nobody -c './dfu-flash new.dfu'

# The rules for every device with DFU, by their line for a group, which here is that of all users; udev's own rules read the classes.
rm /etc/udev/rules.d/60-dfu-1209.rules
printf 'SUBSYSTEM=="usb", ENV{DEVTYPE}=="usb_device", IMPORT{builtin}="usb_id"\n' > /etc/udev/rules.d/50-usb.rules
udevadm control --reload
row 5 old '' USB_ATTRIBUTES=07 su -s /bin/sh nobody -c './dfu-flash new.dfu'
sed -n 's/^#\(ACTION.*\)MODE="0660", .*/\1MODE="0666"/p' 70-dfu.rules > /etc/udev/rules.d/70-dfu.rules
udevadm control --reload
row 0 new 'verified: ' 'USB_IDS=1234:4321:0100' su -s /bin/sh nobody -c './dfu-flash --device 1234:4321 any.dfu'
row 0 new 'verified: ' USB_START=app su -s /bin/sh nobody -c './dfu-flash --wait=20 new.dfu'

# A device that comes once it is waited for, with the rights that come behind it; and signals while it asks for a long wait.
late() {
    code=0
    "$@" > out 2> err &
    waiting=$!
    sleep 3
    env USB_IMAGE=old USB_SAVE=saved ./attached > said 2>&1 &
    device=$!
    wait "$waiting" || code=$?
    kill "$device"
    wait "$device" 2> /dev/null
    echo "row $*: $(tail -n 1 out) $(tail -n 1 err)"
    expect test "$code" -eq 0
    expect cmp saved new
}
late ./dfu-flash --wait new.dfu
late su -s /bin/sh nobody -c './dfu-flash --wait=60 new.dfu'
row 11 old 'aborted: ' USB_BUSY=16777215 timeout 3 ./dfu-flash new.dfu
row 7 old 'timed-out: ' USB_BUSY=16777215 ./dfu-flash --timeout 2 new.dfu
row 0 old 'detached: ' USB_START=app ./dfu-flash --detach

# dfu-util, by the same statuses as over the stand-in (docs/INTEROP.md).
row 0 new 'Done!' USB_ATTRIBUTES=07 dfu-util -D new.dfu
row 74 new '' USB_ATTRIBUTES=03 dfu-util -D new.dfu
row 0 new 'Done!' USB_START=app dfu-util -D new.dfu
row 0 old 'Received a total of 13 bytes' USB_ATTRIBUTES=07 dfu-util -U up-util
expect cmp old up-util
row 251 new '' USB_ATTRIBUTES=07 dfu-util -R -D new.dfu

# shellcheck source=tests/slow/linux/all.sh
. ./all.sh
echo "$passed passed, $failed failed"
